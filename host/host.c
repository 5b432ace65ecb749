/* A host of the library in C: reads a model table from a file, makes one of the calls, and prints the answer.
 *
 * It is an example to start from, so it does everything that a host has to do: it compares the library's version with its header's, lends
 * memory of the right lengths, makes the calls that test its pointers, looks at the refusal before anything else, and puts the listing
 * together from its parts. `build/host` without arguments prints how to call it.
 *
 * gcc -std=c11 -O2 -Wall -Wextra -Werror -o build/host host/host.c build/libterkwabu.a
 */
#include <errno.h>
#include <inttypes.h>
#include <stdarg.h>
#include <stdbool.h>
#include <stdio.h>
#include <stdlib.h>
#include <string.h>

#include "../include/terkwabu_checked.h"

/* The exit status. */
enum { DONE = 0, REFUSED = 1, FAILED = 2 };

/* More is read of no file. A table may have 16,384 bytes; a longer one is handed over all the same, and the library refuses it. */
#define MOST_FILE_BYTES ((size_t)1 << 20)

/* ---- Messages */

static void usage(FILE *out) {
    fputs("usage: host list TABLE                                   the listing of the reduced model\n"
          "       host reduce TABLE                                 counts, then the block of each region, a line each\n"
          "       host pair TABLE R S                               whether regions R and S share a block\n"
          "       host place TABLE LOCATION V0 V1 V2 V3 DENOMINATOR the region of a state; V0/DENOMINATOR is clock 0\n"
          "       host judge TABLE PARTITION                        whether a proposed partition is a bisimulation\n"
          "       host version                                      the version of the library\n"
          "\n"
          "TABLE is a file of bytes (docs/FORMAT.md), PARTITION a text of numbers parted by blanks or line ends, one for each\n"
          "region, equal numbers meaning related. One of them may be -, for standard input. Both may have 1,048,576 bytes.\n"
          "A number is decimal, 0 to 18446744073709551615, and clocks that the model does not have take 0.\n"
          "A refusal is a line on standard output, such as 'refused 5 place 0', with its meaning on standard error.\n"
          "Exit status: 0 done; 1 refused; 2 wrong use, a file that cannot be read or written, or a library of another version.\n",
          out);
}

/* Says what is wrong and ends the program. */
static _Noreturn void fail(const char *format, ...) {
    va_list rest;
    va_start(rest, format);
    fputs("host: ", stderr);
    vfprintf(stderr, format, rest);
    fputc('\n', stderr);
    va_end(rest);
    exit(FAILED);
}

/* What a refusal means, by its number. */
static const char *meaning(uint64_t refusal) {
    switch (refusal) {
    case TERKWABU_LONG_TABLE: return "the table exceeds 16,384 bytes";
    case TERKWABU_NO_RECORD: return "no byte stands where a record should begin";
    case TERKWABU_UNKNOWN_KIND: return "the kind of the record is none of 1 to 7";
    case TERKWABU_CUT_BODY: return "the body of the record runs past the table's end";
    case TERKWABU_ORDER: return "the record breaks the order";
    case TERKWABU_HEADER: return "a header number is outside its range, or the initial location is not below the count";
    case TERKWABU_NOT_THERE: return "the record names a location, clock or mask bit that does not exist";
    case TERKWABU_COMPARISON: return "the comparison is unknown; an invariant knows < and <= only";
    case TERKWABU_CONSTANT: return "the constant exceeds 15";
    case TERKWABU_WEIGHT: return "the denominator is 0 or above 60,000, or a weight is 0";
    case TERKWABU_MAXIMUM: return "the record is one more than its maximum";
    case TERKWABU_SUM: return "the weights of the edge do not sum to its denominator, or it has no branches";
    case TERKWABU_AFTER_END: return "bytes follow the end record";
    case TERKWABU_REGION_0: return "region 0 breaks its invariant";
    case TERKWABU_ENTRIES: return "the model has more than 4,096 regions, or more than entries were lent for";
    case TERKWABU_BLOCK_LIST: return "a lent block list is shorter than the count of regions";
    case TERKWABU_PROPOSAL_LENGTH: return "the proposed partition does not have one number for each region";
    case TERKWABU_NO_BISIMULATION: return "the proposed partition is no bisimulation";
    case TERKWABU_ASKED_REGION: return "an asked region number is not below the count of regions";
    case TERKWABU_STATE: return "the location is not below the count, the denominator is 0 or above 1,000,000, "
                                "or a clock that the model does not have is not 0";
    case TERKWABU_NOT_REACHED: return "the state's region was not reached";
    default: return "a number that this host does not know";
    }
}

/* Prints a refusal's line, as the library words it, and what it means. A refusal of terkwabu_checked.h ends the program: then not the table
 * is wrong, but what this program lent. */
static int refused(terkwabu_answer answer) {
    if (answer.refusal >= TERKWABU_NULL_POINTER)
        fail("a mistake in this program: the slice at parameter %" PRIu64 " breaks the library's rules, number %" PRIu64, answer.place,
             answer.refusal);
    uint8_t line[TERKWABU_LINE_BYTES];
    terkwabu_answer text = terkwabu_checked_refusal_line(answer.refusal, answer.place, line, sizeof line);
    fwrite(line, 1, (size_t)text.value, stdout);
    fprintf(stderr, "host: refused, number %" PRIu64 " at place %" PRIu64 ": %s\n", answer.refusal, answer.place,
            meaning(answer.refusal));
    return REFUSED;
}

/* ---- The version */

struct version {
    char text[64];
};

/* Writes out a version that is given as one number. */
static struct version worded(uint64_t version) {
    struct version words;
    snprintf(words.text, sizeof words.text, "%" PRIu64 ".%" PRIu64 ".%" PRIu64, version / 1000000, version / 1000 % 1000, version % 1000);
    return words;
}

/* Ends the program unless the library is of the header's version. A shared one may have been exchanged since this program was made; one of
 * another version may answer otherwise. */
static void compare_versions(void) {
    uint64_t linked = terkwabu_version();
    if (linked == TERKWABU_VERSION) return;
    fail("the library is terkwabu %s, and this program was made for terkwabu %s", worded(linked).text, worded(TERKWABU_VERSION).text);
}

static int print_version(void) {
    printf("terkwabu %s\n", worded(terkwabu_version()).text);
    return DONE;
}

/* ---- Memory */

/* Memory for so many elements, all bytes 0. It is exactly as long, so that a memory checker sees each step outside. The pointer is
 * never null, since the calls want a valid one also for no elements. */
static void *lend(size_t count, size_t size) {
    void *memory = calloc(count > 0 ? count : 1, size);
    if (memory == NULL) fail("there is no memory for %zu elements of %zu bytes", count, size);
    return memory;
}

/* What most calls are lent: as much as any model that is accepted needs. */
struct lent {
    uint8_t *entries;
    uint64_t *first, *second;
};

#define ENTRIES_LEN ((size_t)TERKWABU_MAX_REGIONS * TERKWABU_ENTRY_BYTES)
#define LIST_LEN ((size_t)TERKWABU_MAX_REGIONS)

static struct lent lend_all(void) {
    struct lent lent = {lend(ENTRIES_LEN, 1), lend(LIST_LEN, sizeof(uint64_t)), lend(LIST_LEN, sizeof(uint64_t))};
    return lent;
}

static void take_back(struct lent lent) {
    free(lent.entries);
    free(lent.first);
    free(lent.second);
}

/* ---- Files and numbers */

struct bytes {
    uint8_t *data;
    size_t length;
};

/* How messages call a file. */
static const char *shown(const char *path) { return strcmp(path, "-") == 0 ? "standard input" : path; }

/* All bytes of a file, or of standard input, in memory that is exactly as long. */
static struct bytes read_file(const char *path) {
    FILE *file = strcmp(path, "-") == 0 ? stdin : fopen(path, "rb");
    if (file == NULL) fail("%s: %s", path, strerror(errno));
    uint8_t *room = lend(MOST_FILE_BYTES + 1, 1);
    size_t length = fread(room, 1, MOST_FILE_BYTES + 1, file);
    if (ferror(file)) fail("%s: %s", shown(path), strerror(errno));
    if (length > MOST_FILE_BYTES) fail("%s: more than %zu bytes, which is the most that this program reads", shown(path), MOST_FILE_BYTES);
    if (file != stdin) fclose(file);
    struct bytes bytes = {lend(length, 1), length};
    memcpy(bytes.data, room, length);
    free(room);
    return bytes;
}

/* The number that so many characters write: decimal digits and nothing else, below 2^64. */
static bool to_number(const char *text, size_t length, uint64_t *number) {
    uint64_t so_far = 0;
    for (size_t i = 0; i < length; i++) {
        if (text[i] < '0' || text[i] > '9') return false;
        uint64_t digit = (uint64_t)(text[i] - '0');
        if (so_far > (UINT64_MAX - digit) / 10) return false;
        so_far = so_far * 10 + digit;
    }
    *number = so_far;
    return length > 0;
}

static uint64_t argument(const char *name, const char *text) {
    uint64_t number;
    if (!to_number(text, strlen(text), &number)) fail("%s is '%s', and not a number from 0 to %" PRIu64, name, text, UINT64_MAX);
    return number;
}

static bool is_blank(uint8_t byte) { return byte == ' ' || byte == '\t' || byte == '\r' || byte == '\n'; }

/* Finds the next word of a text from a place on: its beginning, and the place after it. */
static bool next_word(struct bytes text, size_t *begin, size_t *end) {
    *begin = *end;
    while (*begin < text.length && is_blank(text.data[*begin])) ++*begin;
    *end = *begin;
    while (*end < text.length && !is_blank(text.data[*end])) ++*end;
    return *begin < *end;
}

struct numbers {
    uint64_t *data;
    size_t length;
};

/* The numbers of a text, in memory that is exactly as long. */
static struct numbers read_numbers(const char *path) {
    struct bytes text = read_file(path);
    struct numbers numbers = {NULL, 0};
    size_t begin, end = 0;
    while (next_word(text, &begin, &end)) numbers.length++;
    numbers.data = lend(numbers.length, sizeof(uint64_t));
    end = 0;
    for (size_t i = 0; next_word(text, &begin, &end); i++)
        if (!to_number((const char *)text.data + begin, end - begin, &numbers.data[i]))
            fail("%s: word %zu is '%.*s', and not a number from 0 to %" PRIu64, shown(path), i + 1,
                 (int)(end - begin < 40 ? end - begin : 40), (const char *)text.data + begin, UINT64_MAX);
    free(text.data);
    return numbers;
}

/* ---- The commands. Each makes its call and prints what it answers. */

/* Prints the parts of the listing from what the partition call left: from part 0 on, until the library says that there is no such part. */
static void print_parts(struct bytes table, struct lent lent, terkwabu_answer reduced) {
    uint8_t *buffer = lend(TERKWABU_PART_BYTES, 1);
    for (uint64_t part = 0;; part++) {
        terkwabu_answer answer =
            terkwabu_checked_part(table.data, table.length, lent.entries, ENTRIES_LEN, lent.first, LIST_LEN, reduced.value, reduced.blocks,
                                  reduced.rounds, part, buffer, TERKWABU_PART_BYTES);
        if (answer.refusal == 0 && answer.value == 0 && answer.place == 0) break;
        if (answer.refusal != 0 || answer.value == 0)
            fail("part %" PRIu64 " of the listing does not come: refusal %" PRIu64 ", place %" PRIu64, part, answer.refusal, answer.place);
        fwrite(buffer, 1, (size_t)answer.value, stdout);
    }
    free(buffer);
}

static void print_blocks(struct lent lent, terkwabu_answer reduced) {
    printf("regions %" PRIu64 " blocks %" PRIu64 " rounds %" PRIu64 "\n", reduced.value, reduced.blocks, reduced.rounds);
    for (uint64_t r = 0; r < reduced.value; r++) printf("%" PRIu64 "\n", lent.first[r]);
}

static int run_reduce(struct bytes table, bool listing) {
    struct lent lent = lend_all();
    terkwabu_answer answer =
        terkwabu_checked_reduce(table.data, table.length, lent.entries, ENTRIES_LEN, lent.first, LIST_LEN, lent.second, LIST_LEN);
    int status = answer.refusal != 0 ? refused(answer) : DONE;
    if (status == DONE && listing) print_parts(table, lent, answer);
    if (status == DONE && !listing) print_blocks(lent, answer);
    take_back(lent);
    return status;
}

static int run_pair(struct bytes table, char **rest) {
    uint64_t r = argument("R", rest[0]), s = argument("S", rest[1]);
    struct lent lent = lend_all();
    terkwabu_answer answer =
        terkwabu_checked_pair(table.data, table.length, lent.entries, ENTRIES_LEN, lent.first, LIST_LEN, lent.second, LIST_LEN, r, s);
    int status = answer.refusal != 0 ? refused(answer) : DONE;
    if (status == DONE) puts(answer.value == 1 ? "shared" : "not shared");
    take_back(lent);
    return status;
}

static int run_place(struct bytes table, char **rest) {
    static const char *const names[6] = {"LOCATION", "V0", "V1", "V2", "V3", "DENOMINATOR"};
    uint64_t state[6];
    for (int i = 0; i < 6; i++) state[i] = argument(names[i], rest[i]);
    uint8_t *entries = lend(ENTRIES_LEN, 1);
    terkwabu_answer answer =
        terkwabu_checked_place(table.data, table.length, entries, ENTRIES_LEN, state[0], state[1], state[2], state[3], state[4], state[5]);
    int status = answer.refusal != 0 ? refused(answer) : DONE;
    if (status == DONE) printf("region %" PRIu64 "\n", answer.value);
    free(entries);
    return status;
}

static int run_judge(struct bytes table, const char *path) {
    struct numbers proposal = read_numbers(path);
    uint8_t *entries = lend(ENTRIES_LEN, 1);
    terkwabu_answer answer = terkwabu_checked_judge(table.data, table.length, entries, ENTRIES_LEN, proposal.data, proposal.length);
    int status = answer.refusal != 0 ? refused(answer) : DONE;
    if (status == DONE) puts("accepted");
    free(entries);
    free(proposal.data);
    return status;
}

/* ---- The program */

/* The commands, and how many arguments each has after TABLE. */
enum command { LIST, REDUCE, PAIR, PLACE, JUDGE, COMMANDS };

static const struct {
    const char *name;
    int rest;
} commands[COMMANDS] = {
    [LIST] = {"list", 0}, [REDUCE] = {"reduce", 0}, [PAIR] = {"pair", 2}, [PLACE] = {"place", 6}, [JUDGE] = {"judge", 1},
};

static enum command command_of(int count, char **arguments) {
    for (int c = LIST; count >= 3 && c < COMMANDS; c++)
        if (strcmp(arguments[1], commands[c].name) == 0 && count == 3 + commands[c].rest) return (enum command)c;
    usage(stderr);
    exit(FAILED);
}

static int run(int count, char **arguments) {
    enum command command = command_of(count, arguments);
    const char *path = arguments[2];
    char **rest = arguments + 3;
    if (command == JUDGE && strcmp(path, "-") == 0 && strcmp(rest[0], "-") == 0) fail("only one of TABLE and PARTITION may be -");
    struct bytes table = read_file(path);
    int status = command == PAIR    ? run_pair(table, rest)
                 : command == PLACE ? run_place(table, rest)
                 : command == JUDGE ? run_judge(table, rest[0])
                                    : run_reduce(table, command == LIST);
    free(table.data);
    return status;
}

static bool is_alone(int count, char **arguments, const char *word) { return count == 2 && strcmp(arguments[1], word) == 0; }

int main(int count, char **arguments) {
    if (is_alone(count, arguments, "-h") || is_alone(count, arguments, "--help")) {
        usage(stdout);
        return DONE;
    }
    compare_versions();
    int status = is_alone(count, arguments, "version") ? print_version() : run(count, arguments);
    if (ferror(stdout) || fclose(stdout) != 0) fail("standard output: %s", strerror(errno));
    return status;
}
