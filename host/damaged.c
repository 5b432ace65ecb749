/* Makes every call on each table that is named, damaged ones above all, with lent memory of odd lengths, and looks at all of that memory
 * afterwards. It prints one line a table, and stops with a message at the first answer or byte that is not as include/terkwabu.h says.
 *
 * usage: damaged [-e] TABLE ...
 *        damaged -l TABLE         prints the table's listing, or its refusal's line, each part put into a buffer of just its length
 *
 * Each call is made twice: with memory that is exactly as long as lent, so that a memory checker sees every step outside, and with guard
 * bytes before and behind, so that a write there shows without one. With -e the second is left out, for a run under such a checker. A
 * line ends in a digest of all answers and all lent memory: runs that print the same lines did the same.
 *
 * gcc -std=c11 -O2 -Wall -Wextra -Werror -o build/damaged host/damaged.c build/libterkwabu.a
 */
#include <inttypes.h>
#include <stdbool.h>
#include <stdio.h>
#include <stdlib.h>
#include <string.h>

#include "../include/terkwabu.h"

/* What lent memory holds before a call, what its guards hold, and how long these are: around bytes they are odd, so that the bytes
 * begin anywhere; numbers stay aligned. */
enum { FILL = 0xa5, GUARD = 0x5c, GUARD_BYTES = 17, GUARD_NUMBERS = 24 };

#define MOST_ENTRIES ((size_t)TERKWABU_MAX_REGIONS * TERKWABU_ENTRY_BYTES)
#define MOST_TABLE ((size_t)1 << 20)

/* A table, and what the first calls on it, with the most lent, have answered. All others are held against these. */
struct subject {
    const char *path;
    uint8_t *table;
    size_t table_len;
    terkwabu_answer graph, reduced;
    uint8_t *entries;
    uint64_t *blocks;
    uint8_t *text; /* the part at hand, as it comes in a buffer that no part is too long for */
    bool guarded;
    uint64_t digest;
};

/* ---- Messages and the digest */

static _Noreturn void stop(const struct subject *s, const char *call, const char *what, uint64_t is, uint64_t wanted) {
    printf("%s: %s: %s is %" PRIu64 ", and should be %" PRIu64 "\n", s->path, call, what, is, wanted);
    exit(1);
}

static void want(const struct subject *s, const char *call, const char *what, uint64_t is, uint64_t wanted) {
    if (is != wanted) stop(s, call, what, is, wanted);
}

static void mix(struct subject *s, const void *data, size_t bytes) {
    const uint8_t *from = data;
    for (size_t i = 0; i < bytes; i++) s->digest = (s->digest ^ from[i]) * UINT64_C(1099511628211);
}

/* ---- Lent memory */

struct slice {
    uint8_t *block, *data;
    size_t bytes, guard;
};

static void *memory(size_t bytes) {
    void *block = malloc(bytes > 0 ? bytes : 1);
    if (block == NULL) {
        fprintf(stderr, "damaged: no memory for %zu bytes\n", bytes);
        exit(2);
    }
    return block;
}

static struct slice lend(size_t bytes, size_t guard) {
    uint8_t *block = memory(bytes + 2 * guard);
    memset(block, GUARD, bytes + 2 * guard);
    memset(block + guard, FILL, bytes);
    return (struct slice){block, block + guard, bytes, guard};
}

static struct slice lend_bytes(const struct subject *s, size_t count) { return lend(count, s->guarded ? GUARD_BYTES : 0); }

static struct slice lend_numbers(const struct subject *s, size_t count) { return lend(count * 8, s->guarded ? GUARD_NUMBERS : 0); }

/* A slice with these contents. */
static struct slice filled(struct slice slice, const void *from) {
    memcpy(slice.data, from, slice.bytes);
    return slice;
}

static uint64_t *numbers(struct slice slice) { return (uint64_t *)(void *)slice.data; }

/* Looks at a slice after a call: so many bytes like those wanted, the rest as they were, the guards untouched. Then frees it. */
static void take_back(struct subject *s, const char *call, const char *what, struct slice slice, const void *wanted, size_t changed) {
    if (memcmp(slice.data, wanted, changed) != 0) {
        printf("%s: %s: the first %zu bytes of the %s are not as they should be\n", s->path, call, changed, what);
        exit(1);
    }
    for (size_t i = changed; i < slice.bytes; i++) {
        if (slice.data[i] == FILL) continue;
        printf("%s: %s: byte %zu of the %s was changed, and only the first %zu may be\n", s->path, call, i, what, changed);
        exit(1);
    }
    for (size_t i = 0; i < slice.guard; i++) {
        want(s, call, "a guard byte before", slice.block[i], GUARD);
        want(s, call, "a guard byte behind", slice.data[slice.bytes + i], GUARD);
    }
    mix(s, slice.data, slice.bytes);
    free(slice.block);
}

/* What the calls that explore are lent. */
struct lent {
    struct slice table, entries, first, second;
};

static struct lent lend_all(const struct subject *s, size_t entries, size_t first, size_t second) {
    struct lent lent = {filled(lend_bytes(s, s->table_len), s->table), lend_bytes(s, entries), lend_numbers(s, first),
                        lend_numbers(s, second)};
    return lent;
}

/* The refusal of exploring with so many bytes of entries; 0 for none. */
static uint64_t exploring(const struct subject *s, size_t entries_len) {
    if (s->graph.refusal != 0) return s->graph.refusal;
    return entries_len / TERKWABU_ENTRY_BYTES < s->graph.value ? TERKWABU_ENTRIES : TERKWABU_NO_REFUSAL;
}

/* How many bytes of the entries hold regions after a call. */
static size_t entries_held(const struct subject *s, uint64_t refusal, size_t entries_len) {
    if (refusal >= TERKWABU_LONG_TABLE && refusal <= TERKWABU_REGION_0) return 0;
    if (refusal != TERKWABU_ENTRIES) return (size_t)s->graph.value * TERKWABU_ENTRY_BYTES;
    size_t room = entries_len / TERKWABU_ENTRY_BYTES * TERKWABU_ENTRY_BYTES;
    return room < MOST_ENTRIES ? room : MOST_ENTRIES;
}

/* Looks at the answer and at everything lent after a call that explores. */
static void finish(struct subject *s, const char *call, struct lent lent, terkwabu_answer answer, uint64_t refusal, bool fills_lists) {
    want(s, call, "refusal", answer.refusal, refusal);
    want(s, call, "place", answer.place, refusal <= TERKWABU_AFTER_END ? s->graph.place : 0);
    if (refusal != 0) want(s, call, "value, blocks or rounds", answer.value | answer.blocks | answer.rounds, 0);
    size_t list_bytes = fills_lists && refusal == 0 ? (size_t)s->graph.value * 8 : 0;
    take_back(s, call, "entries", lent.entries, s->entries, entries_held(s, refusal, lent.entries.bytes));
    take_back(s, call, "first list", lent.first, s->blocks, list_bytes);
    take_back(s, call, "second list", lent.second, s->blocks, list_bytes);
    take_back(s, call, "table", lent.table, s->table, s->table_len);
    mix(s, &answer, sizeof answer);
}

/* ---- The calls, each with lent lengths, and with what it should answer */

static void try_graph(struct subject *s, size_t entries_len) {
    struct lent lent = lend_all(s, entries_len, 0, 0);
    terkwabu_answer answer = terkwabu_graph(lent.table.data, s->table_len, lent.entries.data, entries_len);
    finish(s, "graph", lent, answer, exploring(s, entries_len), false);
}

/* The refusal of the partition call. */
static uint64_t reducing(const struct subject *s, size_t entries_len, size_t first_len, size_t second_len) {
    uint64_t refusal = exploring(s, entries_len);
    if (refusal != 0) return refusal;
    return first_len < s->graph.value || second_len < s->graph.value ? TERKWABU_BLOCK_LIST : TERKWABU_NO_REFUSAL;
}

static void try_reduce(struct subject *s, size_t entries_len, size_t first_len, size_t second_len) {
    struct lent lent = lend_all(s, entries_len, first_len, second_len);
    terkwabu_answer answer = terkwabu_reduce(lent.table.data, s->table_len, lent.entries.data, entries_len, numbers(lent.first),
                                             first_len, numbers(lent.second), second_len);
    uint64_t refusal = reducing(s, entries_len, first_len, second_len);
    if (refusal == 0) {
        want(s, "reduce", "value", answer.value, s->graph.value);
        want(s, "reduce", "blocks", answer.blocks, s->reduced.blocks);
        want(s, "reduce", "rounds", answer.rounds, s->reduced.rounds);
    }
    finish(s, "reduce", lent, answer, refusal, true);
}

static void try_pair(struct subject *s, size_t entries_len, size_t first_len, size_t second_len, uint64_t r, uint64_t t) {
    struct lent lent = lend_all(s, entries_len, first_len, second_len);
    terkwabu_answer answer = terkwabu_pair(lent.table.data, s->table_len, lent.entries.data, entries_len, numbers(lent.first), first_len,
                                           numbers(lent.second), second_len, r, t);
    uint64_t refusal = reducing(s, entries_len, first_len, second_len);
    if (refusal == 0 && (r >= s->graph.value || t >= s->graph.value)) refusal = TERKWABU_ASKED_REGION;
    if (refusal == 0) want(s, "pair", "value", answer.value, s->blocks[r] == s->blocks[t]);
    finish(s, "pair", lent, answer, refusal, true);
}

/* The judging call on a proposal that is a bisimulation, or is none. */
static void try_judge(struct subject *s, size_t entries_len, const uint64_t *proposal, size_t length, bool holds) {
    struct lent lent = lend_all(s, entries_len, 0, 0);
    struct slice lent_proposal = filled(lend_numbers(s, length), proposal);
    terkwabu_answer answer =
        terkwabu_judge(lent.table.data, s->table_len, lent.entries.data, entries_len, numbers(lent_proposal), length);
    uint64_t refusal = exploring(s, entries_len);
    if (refusal == 0 && length != s->graph.value) refusal = TERKWABU_PROPOSAL_LENGTH;
    if (refusal == 0 && !holds) refusal = TERKWABU_NO_BISIMULATION;
    if (refusal == 0) want(s, "judge", "value", answer.value, 1);
    take_back(s, "judge", "proposal", lent_proposal, proposal, length * 8);
    finish(s, "judge", lent, answer, refusal, false);
}

/* The state call; `refusal` is what it should say of this state where exploring refuses nothing, and else `region` its number. */
static void try_place(struct subject *s, size_t entries_len, const uint64_t *state, uint64_t refusal, uint64_t region) {
    struct lent lent = lend_all(s, entries_len, 0, 0);
    terkwabu_answer answer = terkwabu_place(lent.table.data, s->table_len, lent.entries.data, entries_len, state[0], state[1], state[2],
                                            state[3], state[4], state[5]);
    if (exploring(s, entries_len) != 0) refusal = exploring(s, entries_len);
    if (refusal == 0) want(s, "place", "value", answer.value, region);
    finish(s, "place", lent, answer, refusal, false);
}

/* The part call with a buffer of some length, which is filled where the text fits; gives how many bytes the part takes. What is written
 * must be the part at hand; that this is the right one is for `damaged -l` to show. Odd parts are asked with more entries and a longer
 * list than there are regions. */
static uint64_t try_part(struct subject *s, uint64_t regions, uint64_t blocks, uint64_t part, size_t room) {
    size_t n = part % 2 == 0 ? (size_t)s->graph.value : TERKWABU_MAX_REGIONS;
    struct slice table = filled(lend_bytes(s, s->table_len), s->table), buffer = lend_bytes(s, room);
    struct slice entries = filled(lend_bytes(s, n * TERKWABU_ENTRY_BYTES), s->entries), list = filled(lend_numbers(s, n), s->blocks);
    terkwabu_answer answer = terkwabu_part(table.data, s->table_len, entries.data, entries.bytes, numbers(list), n, regions, blocks,
                                           s->reduced.rounds, part, buffer.data, room);
    bool read = s->graph.refusal == 0 || s->graph.refusal >= TERKWABU_REGION_0;
    want(s, "part", "refusal", answer.refusal, read ? 0 : s->graph.refusal);
    if (!read) want(s, "part", "place", answer.place, s->graph.place);
    if (answer.value > room) stop(s, "part", "value", answer.value, room);
    take_back(s, "part", "buffer", buffer, s->text, (size_t)answer.value);
    take_back(s, "part", "entries", entries, s->entries, entries.bytes);
    take_back(s, "part", "list", list, s->blocks, list.bytes);
    take_back(s, "part", "table", table, s->table, s->table_len);
    mix(s, &answer, sizeof answer);
    return answer.value > 0 ? answer.value : read ? answer.place : 0;
}

/* The part call with what the first calls left. */
static terkwabu_answer plain_part(const struct subject *s, uint64_t part, uint8_t *buffer, size_t room) {
    return terkwabu_part(s->table, s->table_len, s->entries, MOST_ENTRIES, s->blocks, TERKWABU_MAX_REGIONS, s->graph.value,
                         s->reduced.blocks, s->reduced.rounds, part, buffer, room);
}

/* A part that is there, with buffers of no, too short, the right and a greater length. */
static void try_some_part(struct subject *s, uint64_t part) {
    uint64_t length = plain_part(s, part, s->text, TERKWABU_PART_BYTES).value;
    if (length == 0) stop(s, "part", "the length of a part that is there", 0, 1);
    want(s, "part", "length", try_part(s, s->graph.value, s->reduced.blocks, part, 0), length);
    for (uint64_t room = length - 1; room <= length + 1; room++)
        want(s, "part", "length", try_part(s, s->graph.value, s->reduced.blocks, part, (size_t)room), length);
}

/* The line of a refusal, with buffers of lengths around its own. */
static void try_line(struct subject *s, uint64_t number, uint64_t place) {
    char wanted[TERKWABU_LINE_BYTES];
    size_t length = (size_t)snprintf(wanted, sizeof wanted, "refused %" PRIu64 " place %" PRIu64 "\n", number, place);
    for (size_t room = length - 1; room <= length + 1; room++) {
        struct slice buffer = lend_bytes(s, room);
        terkwabu_answer answer = terkwabu_refusal_line(number, place, buffer.data, room);
        want(s, "refusal_line", "refusal", answer.refusal, 0);
        want(s, "refusal_line", "value", answer.value, room < length ? 0 : length);
        want(s, "refusal_line", "place", answer.place, room < length ? length : 0);
        take_back(s, "refusal_line", "buffer", buffer, wanted, (size_t)answer.value);
        mix(s, &answer, sizeof answer);
    }
}

/* ---- What is tried on each table */

static void try_exploring(struct subject *s) {
    size_t all = (size_t)s->graph.value * TERKWABU_ENTRY_BYTES;
    const size_t lengths[] = {0, 8, 41, all > 0 ? all - 1 : 9, all + 7, MOST_ENTRIES + 11};
    for (size_t i = 0; i < sizeof lengths / sizeof lengths[0]; i++) try_graph(s, lengths[i]);
}

static void try_lists(struct subject *s) {
    size_t n = (size_t)s->graph.value, all = n * TERKWABU_ENTRY_BYTES, fewer = n > 0 ? n - 1 : 0;
    try_reduce(s, all, n, n + 1);
    try_reduce(s, all + 1, n, fewer);
    try_reduce(s, 17, n, n);
    try_pair(s, all + 8, n + 2, n, 0, n / 2);
    try_pair(s, all, fewer, n, 0, n);
    try_pair(s, all, n, n, n, 0);
    try_pair(s, 0, 0, 0, 0, UINT64_MAX);
    try_reduce(s, MOST_ENTRIES + 11, TERKWABU_MAX_REGIONS + 7, TERKWABU_MAX_REGIONS);
    try_pair(s, all, n, 2 * TERKWABU_MAX_REGIONS, fewer, n / 2);
}

/* Proposals: the blocks, all equal, all different; and lengths that are wrong. */
static void try_proposals(struct subject *s) {
    size_t n = (size_t)s->graph.value, all = n * TERKWABU_ENTRY_BYTES;
    uint64_t *equal = memory((n + 1) * 8), *different = memory((n + 1) * 8);
    for (size_t r = 0; r <= n; r++) {
        equal[r] = UINT64_MAX;
        different[r] = UINT64_MAX - r;
    }
    try_judge(s, all, s->blocks, n, true);
    try_judge(s, all + 3, equal, n, s->reduced.blocks == 1);
    try_judge(s, all + 10, different, n, true);
    try_judge(s, all, equal, n + 1, false);
    try_judge(s, 26, equal, 0, false);
    free(equal);
    free(different);
}

/* States: the initial one, and such as are not taken. */
static void try_states(struct subject *s) {
    size_t all = (size_t)s->graph.value * TERKWABU_ENTRY_BYTES;
    uint64_t initial = s->table_len > 3 ? s->table[3] : 0, clocks = s->table_len > 1 ? s->table[1] : 0;
    try_place(s, all, (uint64_t[6]){initial, 0, 0, 0, 0, 1000000}, TERKWABU_NO_REFUSAL, 0);
    try_place(s, all + 5, (uint64_t[6]){UINT64_MAX, 0, 0, 0, 0, 1}, TERKWABU_STATE, 0);
    try_place(s, all + 5, (uint64_t[6]){UINT64_C(1) << 32, 0, 0, 0, 0, 1}, TERKWABU_STATE, 0);
    try_place(s, all, (uint64_t[6]){initial, 0, 0, 0, 0, 0}, TERKWABU_STATE, 0);
    try_place(s, all + 9, (uint64_t[6]){initial, 0, 0, 0, 0, 1000001}, TERKWABU_STATE, 0);
    if (clocks < 4) try_place(s, all, (uint64_t[6]){initial, 0, 0, 0, UINT64_MAX, 1}, TERKWABU_STATE, 0);
    try_place(s, 8, (uint64_t[6]){0, UINT64_MAX, UINT64_MAX, UINT64_MAX, UINT64_MAX, 7}, TERKWABU_ENTRIES, 0);
}

/* Goes on from a part to the first that does not begin with a word, or is not there. */
static uint64_t part_after(struct subject *s, uint64_t part, const char *word) {
    while (plain_part(s, part, s->text, TERKWABU_PART_BYTES).value > 0 && memcmp(s->text, word, strlen(word)) == 0) part++;
    return part;
}

/* Tries the first and last parts of each sort, and the totals, if there is a listing; and such as are not there. */
static void try_parts(struct subject *s) {
    uint64_t n = s->graph.value, blocks = s->reduced.blocks, first_block = part_after(s, 0, "region");
    uint64_t totals = part_after(s, first_block, "block"), end = part_after(s, totals, "label");
    const uint64_t parts[] = {0, 1, first_block - 1, first_block, totals - 1, totals};
    for (size_t i = 0; n > 0 && i < sizeof parts / sizeof parts[0]; i++) try_some_part(s, parts[i]);
    want(s, "part", "the part after the totals", end, n > 0 ? totals + 1 : 0);
    want(s, "part", "the length past the end", try_part(s, n, blocks, end, 99), 0);
    want(s, "part", "the length past all", try_part(s, n, blocks, UINT64_MAX, 99), 0);
    want(s, "part", "the length with too many regions", try_part(s, n + 1, blocks, 0, 99), 0);
    want(s, "part", "the length with no block", try_part(s, n, 0, 0, 99), 0);
    want(s, "part", "the length with too many blocks", try_part(s, n, n + 1, 0, 99), 0);
}

/* Makes the first calls on the table, with the most lent. The block list holds nothing of use where they refuse. */
static void begin(struct subject *s) {
    s->entries = memory(MOST_ENTRIES);
    s->blocks = memory(TERKWABU_MAX_REGIONS * 8);
    s->text = memory(TERKWABU_PART_BYTES);
    uint64_t *second = memory(TERKWABU_MAX_REGIONS * 8);
    memset(s->entries, FILL, MOST_ENTRIES);
    memset(s->blocks, FILL, TERKWABU_MAX_REGIONS * 8);
    s->graph = terkwabu_graph(s->table, s->table_len, s->entries, MOST_ENTRIES);
    s->reduced = terkwabu_reduce(s->table, s->table_len, s->entries, MOST_ENTRIES, s->blocks, TERKWABU_MAX_REGIONS, second,
                                 TERKWABU_MAX_REGIONS);
    free(second);
}

/* All calls, with guards or without; gives the digest. */
static uint64_t try_all(struct subject *s, bool guarded) {
    s->guarded = guarded;
    s->digest = UINT64_C(14695981039346656037);
    try_exploring(s);
    try_lists(s);
    try_proposals(s);
    try_states(s);
    try_parts(s);
    try_line(s, s->graph.refusal, s->graph.place);
    return s->digest;
}

static void end(struct subject *s) {
    free(s->entries);
    free(s->blocks);
    free(s->text);
}

static void try_table(struct subject *s, bool exact_only) {
    begin(s);
    uint64_t digest = try_all(s, false);
    if (!exact_only) want(s, "all calls", "the digest with guards", try_all(s, true), digest);
    printf("%s refused %" PRIu64 " place %" PRIu64 " regions %" PRIu64 " blocks %" PRIu64 " rounds %" PRIu64 " digest %016" PRIx64 "\n",
           s->path, s->graph.refusal, s->graph.place, s->graph.value, s->reduced.blocks, s->reduced.rounds, digest);
    end(s);
}

/* Prints the parts of the listing, from part 0 on until there is none, each put into a buffer of just its length. A call with no room tells
 * how long it is. */
static void print_parts(const struct subject *s) {
    for (uint64_t part = 0;; part++) {
        terkwabu_answer told = plain_part(s, part, s->text, 0);
        want(s, "part", "refusal or value with no room", told.refusal | told.value, 0);
        if (told.place == 0) return;
        size_t length = (size_t)told.place;
        uint8_t *buffer = memory(length);
        want(s, "part", "value", plain_part(s, part, buffer, length).value, length);
        fwrite(buffer, 1, length, stdout);
        free(buffer);
    }
}

/* Prints the line of the table's refusal in the same way. */
static void print_refusal(const struct subject *s) {
    size_t length = (size_t)terkwabu_refusal_line(s->reduced.refusal, s->reduced.place, s->text, 0).place;
    uint8_t *buffer = memory(length);
    want(s, "refusal_line", "value", terkwabu_refusal_line(s->reduced.refusal, s->reduced.place, buffer, length).value, length);
    fwrite(buffer, 1, length, stdout);
    free(buffer);
}

static void print_listing(struct subject *s) {
    begin(s);
    if (s->reduced.refusal == 0) print_parts(s);
    else print_refusal(s);
    end(s);
}

/* ---- The program */

static void read_table(struct subject *s) {
    FILE *file = fopen(s->path, "rb");
    uint8_t *room = memory(MOST_TABLE);
    s->table_len = file == NULL ? MOST_TABLE : fread(room, 1, MOST_TABLE, file);
    if (file == NULL || ferror(file) || s->table_len == MOST_TABLE) {
        fprintf(stderr, "damaged: %s: cannot be read, or is too long\n", s->path);
        exit(2);
    }
    fclose(file);
    s->table = memory(s->table_len);
    memcpy(s->table, room, s->table_len);
    free(room);
}

int main(int count, char **arguments) {
    bool exact_only = count > 1 && strcmp(arguments[1], "-e") == 0, listing = count > 1 && strcmp(arguments[1], "-l") == 0;
    for (int i = exact_only || listing ? 2 : 1; i < count; i++) {
        struct subject subject = {.path = arguments[i]};
        read_table(&subject);
        if (listing) print_listing(&subject);
        else try_table(&subject, exact_only);
        free(subject.table);
    }
    return 0;
}
