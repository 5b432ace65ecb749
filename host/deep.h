/* Has the calls of include/terkwabu.h as functions that take nothing, the tables on which they go deepest into the stack, and a way to run
 * a function on a stack of its own. Two programs include it: bench/stack.c measures how deep the calls go, and host/stack.c makes them on
 * stacks of just the size that the header states.
 *
 * The program defines _DEFAULT_SOURCE before it includes anything, and lets `work` point to memory for the calls. For each table it makes
 * the calls in the order of `calls`: some take what those before them left.
 */
#ifndef DEEP_H
#define DEEP_H

#include <stdint.h>
#include <stdio.h>
#include <stdlib.h>
#include <string.h>
#include <ucontext.h>

#include "../include/terkwabu.h"

#define REGIONS TERKWABU_MAX_REGIONS
#define ENTRIES_LEN (REGIONS * TERKWABU_ENTRY_BYTES)

/* Tells the sorts of parts that a listing has apart by how they begin. */
enum sort { FIRST_LINE, REGION, BLOCK, TOTALS, SORTS };
static const char *const beginnings[SORTS] = {"regions ", "region ", "block ", "label "};

/* Names a part by its number; without bytes it is none. */
struct part {
    uint64_t number, bytes;
};

/* Holds what the calls work on. The table has room for one that is too long. `answer` is that of the last call, `reduced` that of the last
 * partition call, and `longest` has the longest part of each sort. */
struct work {
    uint8_t table[20000], entries[ENTRIES_LEN], buffer[TERKWABU_PART_BYTES];
    size_t table_len;
    uint64_t first[REGIONS], second[REGIONS];
    terkwabu_answer answer, reduced;
    struct part longest[SORTS];
};
static struct work *work;

/* ---- Stacks */

/* Runs a function on the stack of so many bytes that begins at `lowest`. makecontext puts a few words on it first; the function's frame and
 * the call that it makes come below them. */
static void run_on_stack(void *lowest, size_t bytes, void (*function)(void)) {
    static ucontext_t here, there;
    int trouble = getcontext(&there);
    there.uc_stack.ss_sp = lowest;
    there.uc_stack.ss_size = bytes;
    there.uc_link = &here;
    makecontext(&there, function, 0);
    if (trouble == 0 && swapcontext(&here, &there) == 0) return;
    perror("stack: a context");
    exit(2);
}

/* ---- The calls */

#define TABLE work->table, work->table_len
#define ENTRIES work->entries, ENTRIES_LEN
#define LISTS work->first, REGIONS, work->second, REGIONS

static void call_graph(void) { work->answer = terkwabu_graph(TABLE, ENTRIES); }

static void call_graph_one_entry(void) { work->answer = terkwabu_graph(TABLE, work->entries, TERKWABU_ENTRY_BYTES); }

static void call_place(void) { work->answer = terkwabu_place(TABLE, ENTRIES, 0, 0, 0, 0, 0, 1000000); }

static void call_place_no_state(void) { work->answer = terkwabu_place(TABLE, ENTRIES, 0, 0, 0, 0, 0, 0); }

/* Asks for clock 0 at 1/2 and clock 1 at 1 in the last location, where none of the tables comes to. */
static void call_place_not_reached(void) { work->answer = terkwabu_place(TABLE, ENTRIES, work->table[2] - UINT64_C(1), 1, 2, 0, 0, 2); }

static void call_reduce(void) { work->reduced = work->answer = terkwabu_reduce(TABLE, ENTRIES, LISTS); }

static void call_reduce_short_list(void) { work->answer = terkwabu_reduce(TABLE, ENTRIES, work->first, REGIONS, work->second, 1); }

static void call_pair(void) { work->answer = terkwabu_pair(TABLE, ENTRIES, LISTS, 0, 1); }

static void call_pair_short_list(void) { work->answer = terkwabu_pair(TABLE, ENTRIES, work->first, 1, work->second, REGIONS, 0, 1); }

static void call_pair_no_region(void) { work->answer = terkwabu_pair(TABLE, ENTRIES, LISTS, 0, REGIONS); }

/* Proposes the blocks that the partition call found. */
static void call_judge(void) { work->answer = terkwabu_judge(TABLE, ENTRIES, work->first, (size_t)work->reduced.value); }

static void call_judge_one_number(void) { work->answer = terkwabu_judge(TABLE, ENTRIES, work->first, 1); }

/* Proposes the same but for one region, which it relates with region 0, of another block: no bisimulation does that. */
static void call_judge_wrong(void) {
    uint64_t region = work->reduced.value;
    while (region > 0 && work->first[region - 1] == 0) region--;
    if (region > 0) work->first[region - 1] = 0;
    call_judge();
}

/* Puts a part into the buffer, from what the partition call left; the wrong proposal has spoilt the first list. */
static void call_one_part(uint64_t part, size_t buffer_len) {
    const terkwabu_answer *counts = &work->reduced;
    work->answer = terkwabu_part(TABLE, ENTRIES, work->second, REGIONS, counts->value, counts->blocks, counts->rounds, part, work->buffer,
                                 buffer_len);
}

/* Notes the part in the buffer if it is the longest of its sort so far. */
static void note_part(uint64_t number) {
    for (int sort = 0; sort < SORTS; sort++)
        if (memcmp(work->buffer, beginnings[sort], strlen(beginnings[sort])) == 0 && work->answer.value > work->longest[sort].bytes)
            work->longest[sort] = (struct part){number, work->answer.value};
}

/* Goes through the parts up to the first that is not there. If there is a listing, it must have parts of all sorts. */
static void call_part(void) {
    uint64_t part = 0;
    memset(work->longest, 0, sizeof work->longest);
    while (call_one_part(part, TERKWABU_PART_BYTES), work->answer.value > 0) note_part(part++);
    for (int sort = 0; sort < SORTS; sort++)
        if (work->reduced.refusal == 0 && work->longest[sort].bytes == 0) work->answer.refusal = UINT64_MAX;
}

/* Makes the longest part of a sort by itself, so that the loader may have to look for memcpy and memset there. */
static void call_longest_part(enum sort sort) {
    call_one_part(work->longest[sort].number, TERKWABU_PART_BYTES);
    if (work->answer.value != work->longest[sort].bytes) work->answer.refusal = UINT64_MAX;
}

static void call_part_region(void) { call_longest_part(REGION); }

static void call_part_block(void) { call_longest_part(BLOCK); }

static void call_part_totals(void) { call_longest_part(TOTALS); }

static void call_part_no_buffer(void) { call_one_part(0, 0); }

static void call_refusal_line(void) { work->answer = terkwabu_refusal_line(UINT64_MAX, UINT64_MAX, work->buffer, TERKWABU_LINE_BYTES); }

static void call_refusal_line_no_buffer(void) { work->answer = terkwabu_refusal_line(UINT64_MAX, UINT64_MAX, work->buffer, 0); }

/* Notes no answer, since there is none, but whether the version is the header's. */
static void call_version(void) { work->answer.refusal = terkwabu_version() == TERKWABU_VERSION ? TERKWABU_NO_REFUSAL : UINT64_MAX; }

/* Says of a call what stack the header states for it; up to which number it answers the refusal of a table; and what it answers else. */
struct call {
    const char *name;
    size_t stack;
    void (*make)(void);
    uint64_t of_table, refusal;
};

static const struct call calls[] = {
    {"terkwabu_graph", TERKWABU_STACK_GRAPH, call_graph, 15, TERKWABU_NO_REFUSAL},
    {"terkwabu_graph with one entry", TERKWABU_STACK_GRAPH, call_graph_one_entry, 15, TERKWABU_ENTRIES},
    {"terkwabu_place", TERKWABU_STACK_PLACE, call_place, 15, TERKWABU_NO_REFUSAL},
    {"terkwabu_place of no state", TERKWABU_STACK_PLACE, call_place_no_state, 15, TERKWABU_STATE},
    {"terkwabu_place of a state not reached", TERKWABU_STACK_PLACE, call_place_not_reached, 15, TERKWABU_NOT_REACHED},
    {"terkwabu_reduce", TERKWABU_STACK_REDUCE, call_reduce, 15, TERKWABU_NO_REFUSAL},
    {"terkwabu_reduce with a short list", TERKWABU_STACK_REDUCE, call_reduce_short_list, 15, TERKWABU_BLOCK_LIST},
    {"terkwabu_pair", TERKWABU_STACK_PAIR, call_pair, 15, TERKWABU_NO_REFUSAL},
    {"terkwabu_pair with a short list", TERKWABU_STACK_PAIR, call_pair_short_list, 15, TERKWABU_BLOCK_LIST},
    {"terkwabu_pair with no region", TERKWABU_STACK_PAIR, call_pair_no_region, 15, TERKWABU_ASKED_REGION},
    {"terkwabu_judge", TERKWABU_STACK_JUDGE, call_judge, 15, TERKWABU_NO_REFUSAL},
    {"terkwabu_judge of one number", TERKWABU_STACK_JUDGE, call_judge_one_number, 15, TERKWABU_PROPOSAL_LENGTH},
    {"terkwabu_judge of no bisimulation", TERKWABU_STACK_JUDGE, call_judge_wrong, 15, TERKWABU_NO_BISIMULATION},
    {"terkwabu_part", TERKWABU_STACK_PART, call_part, 13, TERKWABU_NO_REFUSAL},
    {"terkwabu_part of a region", TERKWABU_STACK_PART, call_part_region, 13, TERKWABU_NO_REFUSAL},
    {"terkwabu_part of a block", TERKWABU_STACK_PART, call_part_block, 13, TERKWABU_NO_REFUSAL},
    {"terkwabu_part of the totals", TERKWABU_STACK_PART, call_part_totals, 13, TERKWABU_NO_REFUSAL},
    {"terkwabu_part with no buffer", TERKWABU_STACK_PART, call_part_no_buffer, 13, TERKWABU_NO_REFUSAL},
    {"terkwabu_refusal_line", TERKWABU_STACK_REFUSAL_LINE, call_refusal_line, 0, TERKWABU_NO_REFUSAL},
    {"terkwabu_refusal_line with no buffer", TERKWABU_STACK_REFUSAL_LINE, call_refusal_line_no_buffer, 0, TERKWABU_NO_REFUSAL},
    {"terkwabu_version", TERKWABU_STACK_VERSION, call_version, 0, TERKWABU_NO_REFUSAL},
};
enum { CALLS = sizeof calls / sizeof calls[0] };

/* ---- The tables */

static void put(size_t count, const int *bytes) {
    for (size_t i = 0; i < count; i++) work->table[work->table_len++] = (uint8_t)bytes[i];
}

#define PUT(...) put(sizeof((int[]){__VA_ARGS__}) / sizeof(int), (int[]){__VA_ARGS__})

/* Puts an edge with eight guard atoms, both clocks at or above a bound, and eight branches: to its source with either clock reset, and on
 * to the next location with all clocks reset. */
static void put_edge(int source, int target, int action, int bound) {
    PUT(4, source, action, 8, 0);
    for (int g = 0; g < 8; g++) PUT(5, g % 2, 3, bound);
    for (int b = 0; b < 8; b++)
        if (b % 3 == 2) PUT(6, 1, 0, target, 3);
        else PUT(6, 1, 0, source, source < 49 ? 1 + b % 3 : 3);
}

/* Puts the longest table that is accepted, with exactly 4,096 regions: 128 edges of eight guard atoms and eight branches, 128 invariant
 * atoms, 64 locations. With the constant 3, locations 0 to 48 have 82 regions each; there the clocks are reset one by one. Where
 * both are reset together a location has 8 regions, and as many fewer as its invariant says. */
static void put_longest(int labels) {
    work->table_len = 0;
    PUT(1, 2, 64, 0);
    for (int l = 0; l < 64; l++) PUT(2, l % labels);
    for (int a = 0; a < 128; a++) PUT(3, 49 + a % 8, 0, 0, a % 8 == 0 ? 3 : a % 8 == 1 ? 2 : 1);
    for (int l = 0; l < 64; l++)
        for (int e = 0; e < 2; e++) put_edge(l, (l + 1) % 64, e, e * 2);
    PUT(7);
}

static void make_longest(void) { put_longest(64); }

static void make_one_label(void) { put_longest(1); }

static void make_unknown_kind(void) {
    put_longest(2);
    work->table[work->table_len - 1] = 0;
}

static void make_bytes_after_end(void) {
    put_longest(2);
    memset(work->table + work->table_len, 7, sizeof work->table - work->table_len);
    work->table_len = 16384;
}

static void make_too_long(void) {
    make_bytes_after_end();
    work->table_len = 16385;
}

/* Changes the last invariant atom, behind the header, 64 locations and 127 atoms: clock 0 is below 0 at location 0. */
static void make_no_region_0(void) {
    put_longest(2);
    uint8_t *atom = work->table + 4 + 64 * 2 + 127 * 5;
    atom[1] = 0;
    atom[4] = 0;
}

/* Makes one location with four clocks and 128 edges of eight branches: more than 4,096 regions. */
static void make_wide(void) {
    work->table_len = 0;
    PUT(1, 4, 1, 0);
    PUT(2, 0);
    for (int a = 0; a < 128; a++) PUT(3, 0, a % 4, 1, 15);
    for (int e = 0; e < 128; e++) {
        PUT(4, 0, e, 8, 0);
        for (int b = 0; b < 8; b++) PUT(6, 1, 0, 0, (e + b) % 16);
    }
    PUT(7);
}

/* Makes two locations with four clocks that are all compared with 1: 709 regions. */
static void make_four_clocks(void) {
    work->table_len = 0;
    PUT(1, 4, 2, 0);
    PUT(2, 0);
    PUT(2, 1);
    for (int e = 0; e < 16; e++) {
        PUT(4, e % 2, e, 4, 0);
        PUT(5, e % 4, 3, 1);
        PUT(6, 1, 0, 0, e);
        PUT(6, 1, 0, 1, e);
        PUT(6, 2, 0, 1 - e % 2, 15 - e);
    }
    PUT(7);
}

/* Makes 64 locations with labels from 255 down, all but the first with one region. The 128 edges of the first have eight branches to the
 * others, each of which is a block: its part and the totals have the most lines. */
static void make_many_steps(void) {
    work->table_len = 0;
    PUT(1, 2, 64, 0);
    for (int l = 0; l < 64; l++) PUT(2, 255 - l);
    for (int l = 1; l < 64; l++) PUT(3, l, 0, 1, 0);
    for (int e = 0; e < 128; e++) {
        PUT(4, 0, 255 - e, 8, 0);
        for (int b = 0; b < 8; b++) PUT(6, 1, 0, 1 + (8 * e + b) % 63, 3);
    }
    PUT(7);
}

static void make_empty(void) { work->table_len = 0; }

struct deep_table {
    const char *what;
    void (*make)(void);
    uint64_t refusal;
};

static const struct deep_table tables[] = {
    {"the longest table that is accepted, 64 labels", make_longest, TERKWABU_NO_REFUSAL},
    {"the same, one label", make_one_label, TERKWABU_NO_REFUSAL},
    {"the same, its last record of unknown kind", make_unknown_kind, TERKWABU_UNKNOWN_KIND},
    {"the same, with bytes after its end", make_bytes_after_end, TERKWABU_AFTER_END},
    {"one byte too long", make_too_long, TERKWABU_LONG_TABLE},
    {"the longest, region 0 breaks its invariant", make_no_region_0, TERKWABU_REGION_0},
    {"four clocks, 128 edges of eight branches", make_wide, TERKWABU_ENTRIES},
    {"four clocks compared with 1", make_four_clocks, TERKWABU_NO_REFUSAL},
    {"128 edges of eight branches at one location", make_many_steps, TERKWABU_NO_REFUSAL},
    {"the empty table", make_empty, TERKWABU_NO_RECORD},
};
enum { TABLES = sizeof tables / sizeof tables[0] };

#endif
