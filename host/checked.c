/* Tries the calls of include/terkwabu_checked.h.
 *
 * First each test of each call, on small slices in one piece of memory: null pointers, lists that are not aligned, lengths that no object
 * has, two mistakes at once, and every two slices at each distance at which they overlap or nearly do. A refusal must be the right one,
 * and all memory as it was before. If nothing is wrong, the answer and all memory must be as the plain call gives and leaves them. Then,
 * on each table that is named, every call with the most lent, and for each part of the listing: it must do as the plain call does.
 *
 * It prints a line a call and a line a table, and stops with a message at the first difference.
 *
 * usage: checked TABLE ...
 *
 * It is C99 and C++11 at once, so that both compile the header's functions.
 *
 * gcc -std=c99 -O2 -Wall -Wextra -Werror -o build/checked host/checked.c build/libterkwabu.a
 */
#include <inttypes.h>
#include <stdio.h>
#include <stdlib.h>
#include <string.h>

#include "../include/terkwabu_checked.h"

/* Does not compile unless the refusals have the numbers that the header's text gives them. */
typedef char numbers_are_right[TERKWABU_NULL_POINTER == 1001 && TERKWABU_NOT_ALIGNED == 1002 && TERKWABU_TOO_LONG == 1003 &&
                                       TERKWABU_OVERLAP == 1004
                                   ? 1
                                   : -1];

/* ---- The calls, plain and checked */

/* Has all calls of a header; that both fit says that they take the same parameters. */
struct calls {
    terkwabu_answer (*graph)(const uint8_t *, size_t, uint8_t *, size_t);
    terkwabu_answer (*place)(const uint8_t *, size_t, uint8_t *, size_t, uint64_t, uint64_t, uint64_t, uint64_t, uint64_t, uint64_t);
    terkwabu_answer (*reduce)(const uint8_t *, size_t, uint8_t *, size_t, uint64_t *, size_t, uint64_t *, size_t);
    terkwabu_answer (*pair)(const uint8_t *, size_t, uint8_t *, size_t, uint64_t *, size_t, uint64_t *, size_t, uint64_t, uint64_t);
    terkwabu_answer (*judge)(const uint8_t *, size_t, uint8_t *, size_t, const uint64_t *, size_t);
    terkwabu_answer (*part)(const uint8_t *, size_t, const uint8_t *, size_t, const uint64_t *, size_t, uint64_t, uint64_t, uint64_t,
                            uint64_t, uint8_t *, size_t);
    terkwabu_answer (*refusal_line)(uint64_t, uint64_t, uint8_t *, size_t);
};

static const struct calls plain = {terkwabu_graph, terkwabu_place, terkwabu_reduce,      terkwabu_pair,
                                   terkwabu_judge, terkwabu_part,  terkwabu_refusal_line};
static const struct calls checked = {terkwabu_checked_graph, terkwabu_checked_place, terkwabu_checked_reduce,      terkwabu_checked_pair,
                                     terkwabu_checked_judge, terkwabu_checked_part,  terkwabu_checked_refusal_line};

/* Holds a slice as it is handed over. The length is in elements. */
struct slice {
    uint8_t *pointer;
    size_t length;
};

/* Holds document 01's example, and what the partition call answers and leaves for it. */
static const uint8_t example[] = {1, 1, 2, 0, 2, 5, 2, 9, 3, 0, 0, 1, 1, 4, 0, 3, 3, 0, 5, 0, 3, 1, 6, 1, 0, 1, 0, 6, 2, 0, 0, 1, 7};
enum { REGIONS = 5, BLOCKS = 3, ROUNDS = 1 };
static uint8_t example_entries[REGIONS * TERKWABU_ENTRY_BYTES];
static uint64_t example_blocks[REGIONS];

/* Holds the numbers that calls take beside slices: a state, two regions, the counts, a part; and a refusal. */
struct asked {
    uint64_t state[6], r, s, regions, blocks, rounds, part, number, place;
};
static struct asked asked = {{0, 1, 0, 0, 0, 2}, 0, 1, REGIONS, BLOCKS, ROUNDS, 0, 5, 7};

static uint64_t *numbers(const struct slice *slice) { return (uint64_t *)(void *)slice->pointer; }

#define BYTES(i) s[i].pointer, s[i].length
#define NUMBERS(i) numbers(&s[i]), s[i].length

static terkwabu_answer make_graph(const struct calls *of, const struct slice *s) { return of->graph(BYTES(0), BYTES(1)); }

static terkwabu_answer make_place(const struct calls *of, const struct slice *s) {
    const uint64_t *v = asked.state;
    return of->place(BYTES(0), BYTES(1), v[0], v[1], v[2], v[3], v[4], v[5]);
}

static terkwabu_answer make_reduce(const struct calls *of, const struct slice *s) {
    return of->reduce(BYTES(0), BYTES(1), NUMBERS(2), NUMBERS(3));
}

static terkwabu_answer make_pair(const struct calls *of, const struct slice *s) {
    return of->pair(BYTES(0), BYTES(1), NUMBERS(2), NUMBERS(3), asked.r, asked.s);
}

static terkwabu_answer make_judge(const struct calls *of, const struct slice *s) { return of->judge(BYTES(0), BYTES(1), NUMBERS(2)); }

static terkwabu_answer make_part(const struct calls *of, const struct slice *s) {
    return of->part(BYTES(0), BYTES(1), NUMBERS(2), asked.regions, asked.blocks, asked.rounds, asked.part, BYTES(3));
}

static terkwabu_answer make_refusal_line(const struct calls *of, const struct slice *s) {
    return of->refusal_line(asked.number, asked.place, BYTES(0));
}

enum { MOST_SLICES = 4, BYTE = 1, NUMBER = 8, BUFFER = 40 };

/* Describes the slices of a call: the bytes of their elements, the positions of their pointers among the parameters, and for the example
 * their lengths and contents; NULL is for memory that the call does not read. */
struct call {
    const char *name;
    terkwabu_answer (*make)(const struct calls *, const struct slice *);
    size_t slices;
    size_t element[MOST_SLICES];
    uint64_t position[MOST_SLICES];
    size_t length[MOST_SLICES];
    const void *contents[MOST_SLICES];
};

#define TABLE_LEN (sizeof example)
#define ENTRIES_LEN (sizeof example_entries)

static const struct call calls[] = {
    {"graph", make_graph, 2, {BYTE, BYTE}, {1, 3}, {TABLE_LEN, ENTRIES_LEN}, {example, NULL}},
    {"place", make_place, 2, {BYTE, BYTE}, {1, 3}, {TABLE_LEN, ENTRIES_LEN}, {example, NULL}},
    {"reduce", make_reduce, 4, {BYTE, BYTE, NUMBER, NUMBER}, {1, 3, 5, 7}, {TABLE_LEN, ENTRIES_LEN, REGIONS, REGIONS + 1},
     {example, NULL, NULL, NULL}},
    {"pair", make_pair, 4, {BYTE, BYTE, NUMBER, NUMBER}, {1, 3, 5, 7}, {TABLE_LEN, ENTRIES_LEN, REGIONS + 1, REGIONS},
     {example, NULL, NULL, NULL}},
    {"judge", make_judge, 3, {BYTE, BYTE, NUMBER}, {1, 3, 5}, {TABLE_LEN, ENTRIES_LEN, REGIONS}, {example, NULL, example_blocks}},
    {"part", make_part, 4, {BYTE, BYTE, NUMBER, BYTE}, {1, 3, 5, 11}, {TABLE_LEN, ENTRIES_LEN, REGIONS, BUFFER},
     {example, example_entries, example_blocks, NULL}},
    {"refusal_line", make_refusal_line, 1, {BYTE}, {3}, {BUFFER}, {NULL}},
};
enum { CALLS = sizeof calls / sizeof calls[0] };

/* ---- Memory, and what a call must do with it */

/* Each slice has a home of its own in one piece of memory, far from the others. */
enum { HOME = 256, MEMORY = HOME * (MOST_SLICES + 1) };
static uint64_t memory[MEMORY / 8], kept[MEMORY / 8];

static uint8_t *address(size_t offset) { return (uint8_t *)memory + offset; }

static size_t home(size_t i) { return HOME * (i + 1) - HOME / 2; }

static void put_home(const struct call *call, struct slice *slices) {
    for (size_t i = 0; i < call->slices; i++) {
        slices[i].pointer = address(home(i));
        slices[i].length = call->length[i];
    }
}

static void fill(void *to, size_t bytes) {
    for (size_t i = 0; i < bytes; i++) ((uint8_t *)to)[i] = (uint8_t)(i * 151 + i / 256 + 89);
}

/* Fills the memory, and the slices with what the call reads there. */
static void set_up(const struct call *call, const struct slice *slices) {
    fill(memory, sizeof memory);
    for (size_t i = 0; i < call->slices; i++)
        if (call->contents[i] != NULL) memcpy(slices[i].pointer, call->contents[i], slices[i].length * call->element[i]);
}

/* Names what the calls are tried on. */
static const char *subject = "small slices";

static void stop(const struct call *call, const char *what) {
    printf("%s: terkwabu_checked_%s: %s\n", subject, call->name, what);
    exit(1);
}

static void show(const char *what, terkwabu_answer a) {
    printf("%s: refusal %" PRIu64 " place %" PRIu64 " value %" PRIu64 " blocks %" PRIu64 " rounds %" PRIu64 "\n", what, a.refusal, a.place,
           a.value, a.blocks, a.rounds);
}

static void want_answer(const struct call *call, terkwabu_answer is, terkwabu_answer wanted) {
    if (memcmp(&is, &wanted, sizeof is) == 0) return;
    show("answered", is);
    show("expected", wanted);
    stop(call, "the answer is not the one expected");
}

/* Makes a checked call that must be refused, and must leave all memory as it was. */
static void must_refuse(const struct call *call, const struct slice *slices, uint64_t refusal, size_t slice) {
    const terkwabu_answer wanted = {refusal, call->position[slice], 0, 0, 0};
    fill(memory, sizeof memory);
    memcpy(kept, memory, sizeof memory);
    want_answer(call, call->make(&checked, slices), wanted);
    if (memcmp(kept, memory, sizeof memory) != 0) stop(call, "refused, but memory was touched");
}

/* Makes a call plain and checked, on the same memory. Returns its answer. */
static terkwabu_answer must_agree(const struct call *call, const struct slice *slices) {
    set_up(call, slices);
    const terkwabu_answer wanted = call->make(&plain, slices);
    memcpy(kept, memory, sizeof memory);
    set_up(call, slices);
    want_answer(call, call->make(&checked, slices), wanted);
    if (memcmp(kept, memory, sizeof memory) != 0) stop(call, "memory is not as the plain call leaves it");
    return wanted;
}

/* ---- Mistakes with pointers and lengths */

static int can_be_wrong(const struct call *call, size_t i, uint64_t mistake) {
    return mistake != TERKWABU_NOT_ALIGNED || call->element[i] == NUMBER;
}

static void spoil(struct slice *slice, uint64_t mistake) {
    if (mistake == TERKWABU_NULL_POINTER) slice->pointer = NULL;
    if (mistake == TERKWABU_NOT_ALIGNED && slice->pointer != NULL) slice->pointer++;
    if (mistake == TERKWABU_TOO_LONG) slice->length = SIZE_MAX;
}

/* Makes two mistakes, perhaps the same one: of slice i, and of slice j. The lower number decides, and of equal ones the first slice. */
static void try_mistakes(const struct call *call, size_t i, uint64_t one, size_t j, uint64_t other) {
    if (!can_be_wrong(call, i, one) || !can_be_wrong(call, j, other)) return;
    size_t slice = one < other || (one == other && i < j) ? i : j;
    for (int empty = 0; empty < 2; empty++) {
        struct slice slices[MOST_SLICES];
        put_home(call, slices);
        if (empty) slices[i].length = slices[j].length = 0;
        spoil(&slices[i], one);
        spoil(&slices[j], other);
        must_refuse(call, slices, one < other ? one : other, slice);
    }
}

static void try_all_mistakes(const struct call *call) {
    for (size_t i = 0; i < call->slices; i++)
        for (size_t j = 0; j < call->slices; j++)
            for (uint64_t one = TERKWABU_NULL_POINTER; one <= TERKWABU_TOO_LONG; one++)
                for (uint64_t other = TERKWABU_NULL_POINTER; other <= TERKWABU_TOO_LONG; other++) try_mistakes(call, i, one, j, other);
}

/* Moves a slice byte by byte: bytes may begin anywhere, numbers may not. */
static void try_alignment(const struct call *call, size_t i) {
    for (size_t by = 0; by < 2 * NUMBER; by++) {
        struct slice slices[MOST_SLICES];
        put_home(call, slices);
        slices[i].pointer += by;
        for (int empty = 0; empty < 2; empty++) {
            if (empty) slices[i].length = 0;
            if (by % call->element[i] == 0) must_agree(call, slices);
            else must_refuse(call, slices, TERKWABU_NOT_ALIGNED, i);
        }
    }
}

/* Lends a slice that is as long as an object may be, and longer ones. As long as may be it reaches over all others, which lie above. */
static void try_lengths(const struct call *call, size_t i) {
    const size_t most = PTRDIFF_MAX / call->element[i], too_long[] = {most + 1, SIZE_MAX / 2 + 1, SIZE_MAX / call->element[i], SIZE_MAX};
    struct slice slices[MOST_SLICES];
    put_home(call, slices);
    slices[i].pointer = address(0);
    slices[i].length = most;
    if (call->slices > 1) must_refuse(call, slices, TERKWABU_OVERLAP, 0);
    else must_agree(call, slices);
    for (size_t t = 0; t < sizeof too_long / sizeof too_long[0]; t++) {
        slices[i].length = too_long[t];
        must_refuse(call, slices, TERKWABU_TOO_LONG, i);
    }
    slices[i].length = SIZE_MAX / call->element[i] + 1; /* in bytes that is 0 again, or the slice is empty */
    if (slices[i].length > 0) must_refuse(call, slices, TERKWABU_TOO_LONG, i);
}

/* Lends a slice that ends just before the last address, and one that is an element longer. Another slice overlaps the first, so that the
 * call is not made. */
static void try_last_addresses(const struct call *call, size_t i) {
    uint8_t *const last_16 = (uint8_t *)(UINTPTR_MAX - 15);
    struct slice slices[MOST_SLICES];
    put_home(call, slices);
    slices[i].pointer = last_16;
    slices[i].length = 16 / call->element[i];
    must_refuse(call, slices, TERKWABU_TOO_LONG, i);
    slices[i].length = 15 / call->element[i];
    for (size_t j = 0; j < call->slices; j++) {
        if (j == i) continue;
        const struct slice at_home = slices[j];
        slices[j].pointer = last_16;
        slices[j].length = 1;
        must_refuse(call, slices, TERKWABU_OVERLAP, i < j ? i : j);
        slices[j] = at_home;
    }
}

/* ---- Slices that overlap */

/* Tells whether two slices share a byte, byte by byte. */
static int share_a_byte(size_t one, size_t one_bytes, size_t other, size_t other_bytes) {
    for (size_t i = one; i < one + one_bytes; i++)
        for (size_t j = other; j < other + other_bytes; j++)
            if (i == j) return 1;
    return 0;
}

/* Lends slices i and j of so many elements, j at each distance from i at which the two overlap or nearly do. */
static void try_distances(const struct call *call, size_t i, size_t i_offset, size_t i_length, size_t j, size_t j_length) {
    size_t i_bytes = i_length * call->element[i], j_bytes = j_length * call->element[j];
    for (size_t j_offset = i_offset - j_bytes - NUMBER; j_offset <= i_offset + i_bytes + NUMBER; j_offset++) {
        if (j_offset % call->element[j] != 0) continue;
        struct slice slices[MOST_SLICES];
        put_home(call, slices);
        slices[i].pointer = address(i_offset);
        slices[i].length = i_length;
        slices[j].pointer = address(j_offset);
        slices[j].length = j_length;
        if (share_a_byte(i_offset, i_bytes, j_offset, j_bytes)) must_refuse(call, slices, TERKWABU_OVERLAP, i < j ? i : j);
        else must_agree(call, slices);
    }
}

/* Tries two slices in full length, with one element, and empty. One of bytes begins at any place beside one of numbers. */
static void try_pair(const struct call *call, size_t i, size_t j) {
    const size_t i_lengths[] = {call->length[i], 1, 0}, j_lengths[] = {call->length[j], 1, 0};
    for (size_t shift = 0; shift < NUMBER; shift += call->element[i])
        for (int a = 0; a < 3; a++)
            for (int b = 0; b < 3; b++) try_distances(call, i, home(i) + shift, i_lengths[a], j, j_lengths[b]);
}

/* Lends all slices from one on at the same address: the first of them decides. If one of the slices has another mistake, that decides. */
static void try_one_address(const struct call *call, size_t from) {
    struct slice slices[MOST_SLICES];
    for (size_t wrong = 0; wrong < call->slices; wrong++)
        for (uint64_t mistake = TERKWABU_NULL_POINTER; mistake <= TERKWABU_TOO_LONG; mistake++) {
            put_home(call, slices);
            for (size_t i = from; i < call->slices; i++) slices[i].pointer = address(home(from));
            must_refuse(call, slices, TERKWABU_OVERLAP, from);
            if (!can_be_wrong(call, wrong, mistake)) continue;
            spoil(&slices[wrong], mistake);
            must_refuse(call, slices, mistake, wrong);
        }
}

/* ---- What is tried of each call */

static void try_call(const struct call *call) {
    struct slice slices[MOST_SLICES];
    put_home(call, slices);
    if (must_agree(call, slices).refusal != 0) stop(call, "the example is refused");
    try_all_mistakes(call);
    for (size_t i = 0; i < call->slices; i++) {
        try_alignment(call, i);
        try_lengths(call, i);
        try_last_addresses(call, i);
        for (size_t j = 0; j < call->slices; j++)
            if (i != j) try_pair(call, i, j);
    }
    for (size_t from = 0; from + 1 < call->slices; from++) try_one_address(call, from);
    printf("terkwabu_checked_%s refuses what it must, and else does as the plain call\n", call->name);
}

/* ---- Tables */

/* Holds a table and the most that may be lent. */
struct lent {
    uint8_t table[20000], entries[TERKWABU_MAX_REGIONS * TERKWABU_ENTRY_BYTES], buffer[TERKWABU_PART_BYTES];
    uint64_t first[TERKWABU_MAX_REGIONS], second[TERKWABU_MAX_REGIONS];
    size_t table_len;
};
static struct lent lent_plain, lent_checked;

/* Gives the slices of a call: after the table and the entries come the lists, or a list and the buffer, or the buffer is alone. */
static void slices_of(struct lent *lent, const struct call *call, struct slice *slices) {
    const struct slice table = {lent->table, lent->table_len}, entries = {lent->entries, sizeof lent->entries};
    const struct slice first = {(uint8_t *)lent->first, TERKWABU_MAX_REGIONS}, second = {(uint8_t *)lent->second, TERKWABU_MAX_REGIONS};
    const struct slice buffer = {lent->buffer, sizeof lent->buffer};
    slices[0] = call->slices == 1 ? buffer : table;
    slices[1] = entries;
    slices[2] = first;
    slices[3] = call->element[3] == NUMBER ? second : buffer;
    if (call->make == make_judge) slices[2].length = (size_t)asked.regions;
}

/* Makes a call plain and checked, on two memories that hold the same. Returns its answer. */
static terkwabu_answer make_both(const struct call *call) {
    struct slice slices[MOST_SLICES];
    slices_of(&lent_plain, call, slices);
    const terkwabu_answer wanted = call->make(&plain, slices);
    slices_of(&lent_checked, call, slices);
    want_answer(call, call->make(&checked, slices), wanted);
    if (memcmp(&lent_plain, &lent_checked, sizeof lent_plain) != 0) stop(call, "memory is not as the plain call leaves it");
    return wanted;
}

/* Numbers the calls in the order of `calls`. */
enum { GRAPH, PLACE, REDUCE, PAIR, JUDGE, PART, REFUSAL_LINE };

/* Asks for a state of a region, by its entry. Fifths are enough for its fractions, since no rank is above 4. */
static void try_state(size_t region) {
    const uint8_t *entry = lent_plain.entries + region * TERKWABU_ENTRY_BYTES;
    const terkwabu_answer wanted = {0, 0, region, 0, 0};
    asked.state[0] = entry[0];
    for (int c = 0; c < 4; c++) asked.state[1 + c] = entry[1 + c] * UINT64_C(5) + entry[5 + c];
    asked.state[5] = 5;
    want_answer(&calls[PLACE], make_both(&calls[PLACE]), wanted);
}

/* Goes from part 0 on until there is none. */
static void try_parts(void) {
    const terkwabu_answer end = {0, 0, 0, 0, 0};
    terkwabu_answer answer;
    for (asked.part = 0; answer = make_both(&calls[PART]), answer.value > 0; asked.part++) continue;
    want_answer(&calls[PART], answer, end);
}

/* Makes the calls that need what the partition call answered and left. */
static void try_reduced(terkwabu_answer reduced) {
    asked.regions = reduced.value;
    asked.blocks = reduced.blocks;
    asked.rounds = reduced.rounds;
    make_both(&calls[JUDGE]);
    try_parts();
    for (size_t region = 0; region < reduced.value; region += 1 + region / 8) try_state(region);
    asked.r = reduced.value / 2;
    asked.s = reduced.value - 1;
    make_both(&calls[PAIR]);
}

static void read_table(const char *path) {
    FILE *file = fopen(path, "rb");
    fill(&lent_plain, sizeof lent_plain);
    lent_plain.table_len = file == NULL ? 0 : fread(lent_plain.table, 1, sizeof lent_plain.table, file);
    if (file == NULL || ferror(file) || !feof(file)) {
        fprintf(stderr, "checked: %s: cannot be read, or is too long\n", path);
        exit(2);
    }
    fclose(file);
    memcpy(&lent_checked, &lent_plain, sizeof lent_plain);
}

static void try_table(const char *path) {
    subject = path;
    read_table(path);
    make_both(&calls[GRAPH]);
    const terkwabu_answer reduced = make_both(&calls[REDUCE]);
    asked.number = reduced.refusal;
    asked.place = reduced.place;
    make_both(&calls[REFUSAL_LINE]);
    if (reduced.refusal == 0) try_reduced(reduced);
    printf("%s: refusal %" PRIu64 " regions %" PRIu64 " blocks %" PRIu64 ": the checked calls do as the plain ones\n", path,
           reduced.refusal, reduced.value, reduced.blocks);
}

int main(int count, char **arguments) {
    uint64_t second[REGIONS];
    terkwabu_reduce(example, sizeof example, example_entries, sizeof example_entries, example_blocks, REGIONS, second, REGIONS);
    for (int c = 0; c < CALLS; c++) try_call(&calls[c]);
    for (int i = 1; i < count; i++) try_table(arguments[i]);
    return 0;
}
