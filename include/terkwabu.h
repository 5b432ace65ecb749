/* Terkwabu for C hosts: reduction of probabilistic timed automata.
 *
 * A host hands over a model as a table of bytes (docs/FORMAT.md) and lends memory; it gets numbers back. The library explores the
 * model's regions, numbered from 0, finds the coarsest probabilistic time-abstracting bisimulation over them, whose classes are called
 * blocks, and prints the reduced model:
 *
 *   terkwabu_graph           explores the regions; N is their count
 *   terkwabu_reduce          finds the block of each region
 *   terkwabu_pair            says whether two regions share a block
 *   terkwabu_judge           judges a partition of the regions that the host proposes
 *   terkwabu_place           finds the region of a state: a location and the values of the clocks
 *   terkwabu_part            puts a part of the listing, the reduced model as text, into a buffer
 *   terkwabu_refusal_line    puts the line of a refusal into a buffer
 *   terkwabu_version         gives the version of the library
 *
 * terkwabu_checked.h, beside this file, has the same calls with a test of the host's pointers before each: see Slices.
 *
 * For every table, every number and every lent length it is proved which answer comes back, and what all lent memory holds after the
 * call. What follows says it in words; the definitions are in the specs/ folders under crates/. Stack and time are measured, not proved.
 * An example that compiles is at the end.
 *
 * Link with build/libterkwabu.a or build/libterkwabu.so; it needs nothing but the C library's memcpy and memset.
 *
 *
 * RULES FOR ALL CALLS
 *
 * Slices. Where a call takes a pointer and a length, the length counts elements: bytes for tables, entries and buffers, but numbers
 * of 64 bits, not bytes, for block lists and proposals. What the pointers must be is for the host to see to; the library cannot test it:
 *
 *   valid       the memory can be read, and written if the pointer is not const, for that many elements
 *   not null    also if the length is 0: hand over the address of any object of the element's type then
 *   aligned     for numbers of 64 bits as a uint64_t is; for bytes any address will do
 *   apart       no slice overlaps another slice of the same call; two block lists are two pieces of memory
 *
 * If a slice breaks one of these rules, the behaviour is undefined: nothing that is said here or proved of the call holds, and nothing need
 * show it. One list lent as both block lists of terkwabu_reduce, for instance, gave refusal 0 with wrong block numbers in the list.
 *
 * So use terkwabu_checked.h unless you are sure of your pointers: terkwabu_checked_reduce and so on take the same parameters, test every
 * rule but the first, and answer with a refusal above 1,000, before anything is touched, if one is broken. The prototypes below declare
 * restrict what must be apart, so that a compiler can find the plainest mistakes: gcc -Wall warns if one pointer is handed over twice.
 *
 * If the rules are kept, any input will do: bytes that are no table are refused, and memory that is too short is refused or partly filled,
 * as said below. Nothing outside a slice is read or written, nothing that is const is written, and each call comes back.
 *
 * Threads. A call keeps no pointer and no state, and shares nothing with other calls. Calls may run side by side; while one runs,
 * nobody else may write what it was given, or touch what it may write. Any number of calls may read one table.
 *
 * Memory. The library takes none but the stack. The constants TERKWABU_STACK_GRAPH and so on, one for each call, say how many bytes of it
 * are enough: for the call, and for a small function that makes it and has the stack to itself. That is measured (x86-64, Linux), not
 * proved. bench/stack.c runs each call on a painted stack, on tables up to the longest and with up to 4,096 regions, and prints how deep
 * it went:
 *
 *   terkwabu_graph, terkwabu_place                     28,512 bytes
 *   terkwabu_reduce, terkwabu_pair, terkwabu_judge     1,498,072 bytes
 *   terkwabu_part                                      101,520 bytes
 *   terkwabu_refusal_line, terkwabu_version            312 bytes
 *
 * Where a process uses memcpy, memset or a call of the shared library for the first time, the loader takes about 3 KB more. The constants
 * have room for it, and for the tests of terkwabu_checked.h: host/test makes each call, plain and checked, as the first of a process, on a
 * stack of just that size. They have none for what a thread takes of its stack for itself, and for signals. Give a thread that makes
 * these calls a stack of at least 2 MB; some systems' default is smaller. On another system, or with a library built otherwise, measure
 * anew.
 *
 * Time. It depends on the table. Most models are reduced in some ten milliseconds, tables made to be slow take up to a few
 * seconds (bench/run prints both), and a call cannot be broken off.
 *
 *
 * ANSWERS AND REFUSALS
 *
 * Each call but terkwabu_version answers with five numbers. refusal is 0 if nothing is refused, and otherwise says what is wrong; look at
 * it first. On a refusal place says where in the table, and value, blocks and rounds are 0. Without one value is the call's result, and
 * what a call does not use is 0; only the two calls that write text use place then, for a buffer that is too short.
 *
 * Refusals 1 to 13 are about the table. Its length, refusal 1, comes before any record. Then its records are read in order; the first that
 * meets a condition decides, and of its conditions the lowest number. place is a count of bytes from the table's beginning.
 *
 *   No.  What is wrong                                                              place
 *    1   the table exceeds 16,384 bytes                                             0
 *    2   no byte stands where a record should begin                                 the table's length
 *    3   the kind of the record is none of 1 to 7                                   where the record begins
 *    4   the record's body runs past the table's end                                where the record begins
 *    5   the record breaks the order; also a location too many, or another          where the record begins
 *        record while locations are missing
 *    6   a header number is outside its range, or the initial location is none      where the record begins: 0
 *    7   a location, clock or mask bit that does not exist is named                 where the record begins
 *    8   the comparison is unknown; an invariant knows < and <= only                where the record begins
 *    9   the constant exceeds 15                                                    where the record begins
 *   10   the denominator is 0 or above 60,000, or a weight is 0                     where the record begins
 *   11   the record is one more than its maximum                                    where the record begins
 *   12   an edge that the next edge or the end closes has weights that do not       where that edge begins
 *        sum to its denominator, or no branches
 *   13   bytes follow the end record                                                the first of them
 *
 * From 14 on place is 0, and the lowest number that fits the call decides.
 *
 *   No.  What is wrong                                                              calls
 *   14   region 0 breaks its invariant                                              graph, reduce, pair, judge, place
 *   15   N exceeds 4,096, or the whole entries lent                                 graph, reduce, pair, judge, place
 *   16   one of the two block lists is shorter than N                               reduce, pair
 *   17   the proposal's length is not N                                             judge
 *   18   the proposal is no bisimulation                                            judge
 *   19   an asked region is not below N                                             pair
 *   20   the location is not below the count, the denominator is 0 or above         place
 *        1,000,000, or a clock that the model does not have is not 0
 *   21   the state's region was not reached                                         place
 *
 *
 * WHAT LENT MEMORY HOLDS AFTER A CALL
 *
 *   Answer                    entries                                               both block lists (reduce, pair)
 *   refusal 1 to 14           as they were                                          as they were
 *   refusal 15                the first regions, as many as there is room for,      as they were
 *                             4,096 at most
 *   refusal 16 to 21          all N regions                                         as they were
 *   no refusal                all N regions                                         the blocks of the N regions
 *
 * This holds for the five calls that explore. What stands behind these regions, or behind these N numbers, is as it was; so are bytes at
 * the end of the entries that make no whole entry. terkwabu_part and terkwabu_refusal_line write to their buffer alone: as many bytes as
 * value says, at its front, and none where value is 0. Tables and proposals never change.
 */
#ifndef TERKWABU_H
#define TERKWABU_H

#include <stddef.h>
#include <stdint.h>

/* Marks the pointers of a call whose slices must not overlap. C has a word for it since C99; C++ has none, but its compilers do. */
#if !defined(__cplusplus) && defined(__STDC_VERSION__) && __STDC_VERSION__ >= 199901L
#define TERKWABU_RESTRICT restrict
#elif defined(__GNUC__) || defined(__clang__) || defined(_MSC_VER)
#define TERKWABU_RESTRICT __restrict
#else
#define TERKWABU_RESTRICT
#endif

#ifdef __cplusplus
extern "C" {
#endif

/* State the version of this header in three numbers, each below 1,000 but the first, and in one: 1002003 would be version 1.2.3.
 *
 *   MAJOR   rises if a form changes, of a prototype, a struct or an entry, or if a call is taken away
 *   MINOR   rises if, for any input, a call answers otherwise or leaves something else in lent memory, or if a call is added
 *   PATCH   rises if neither is so: a call takes less time, say
 *
 * If one of the three rises, those after it start again from 0. */
#define TERKWABU_VERSION_MAJOR 1
#define TERKWABU_VERSION_MINOR 2
#define TERKWABU_VERSION_PATCH 0
#define TERKWABU_VERSION (TERKWABU_VERSION_MAJOR * 1000000 + TERKWABU_VERSION_MINOR * 1000 + TERKWABU_VERSION_PATCH)

/* A region's entry has nine bytes; that of region r begins at byte 9 r:
 *
 *   0        its location
 *   1 to 4   the integer parts of clocks 0 to 3; 16 for a clock that is over, that is above the largest constant of the table
 *   5 to 8   their ranks: 0 where the fraction is zero or the clock is over, else the place of its fraction among the different non-zero
 *            fractions of clocks that are not over, from 1, smallest first
 *
 * Clocks that the model does not have hold 0. */
#define TERKWABU_ENTRY_BYTES 9

/* No model with more regions is accepted. Entries of TERKWABU_MAX_REGIONS * TERKWABU_ENTRY_BYTES bytes, and block lists of
 * TERKWABU_MAX_REGIONS numbers, are never too short for one that is. */
#define TERKWABU_MAX_REGIONS 4096

/* A buffer of so many bytes is never too short: for a part of a listing, and for a refusal's line. */
#define TERKWABU_PART_BYTES 65536
#define TERKWABU_LINE_BYTES 128

/* A stack of so many bytes is enough for the call of that name, as measured: see Memory, above. */
#define TERKWABU_STACK_GRAPH (32 * 1024)
#define TERKWABU_STACK_PLACE (32 * 1024)
#define TERKWABU_STACK_REDUCE (1464 * 1024)
#define TERKWABU_STACK_PAIR (1464 * 1024)
#define TERKWABU_STACK_JUDGE (1464 * 1024)
#define TERKWABU_STACK_PART (112 * 1024)
#define TERKWABU_STACK_REFUSAL_LINE (4 * 1024)
#define TERKWABU_STACK_VERSION (4 * 1024)

/* The refusals of the tables above by name. */
enum terkwabu_refusal {
    TERKWABU_NO_REFUSAL = 0,
    TERKWABU_LONG_TABLE = 1,
    TERKWABU_NO_RECORD = 2,
    TERKWABU_UNKNOWN_KIND = 3,
    TERKWABU_CUT_BODY = 4,
    TERKWABU_ORDER = 5,
    TERKWABU_HEADER = 6,
    TERKWABU_NOT_THERE = 7,
    TERKWABU_COMPARISON = 8,
    TERKWABU_CONSTANT = 9,
    TERKWABU_WEIGHT = 10,
    TERKWABU_MAXIMUM = 11,
    TERKWABU_SUM = 12,
    TERKWABU_AFTER_END = 13,
    TERKWABU_REGION_0 = 14,
    TERKWABU_ENTRIES = 15,
    TERKWABU_BLOCK_LIST = 16,
    TERKWABU_PROPOSAL_LENGTH = 17,
    TERKWABU_NO_BISIMULATION = 18,
    TERKWABU_ASKED_REGION = 19,
    TERKWABU_STATE = 20,
    TERKWABU_NOT_REACHED = 21
};

/* What each call answers. value is the call's result; blocks and rounds are used by terkwabu_reduce alone. */
typedef struct {
    uint64_t refusal, place, value, blocks, rounds;
} terkwabu_answer;

/* Explores the regions of a table into the entries. Region 0 is the initial location with all clocks 0; then come the regions in the
 * order in which they are met: of each region in turn its delay first, then its available edges in table order, branches in order.
 *
 * value: N. Refusals: 1 to 15. */
terkwabu_answer terkwabu_graph(const uint8_t *TERKWABU_RESTRICT table, size_t table_len, uint8_t *TERKWABU_RESTRICT entries,
                               size_t entries_len);

/* Explores as terkwabu_graph does, and finds the region of a state: at a location, with the value v0/denominator for clock 0,
 * v1/denominator for clock 1 and so on. Values may be any numbers of 64 bits and are compared exactly; clocks that the model does not
 * have take 0. A state that breaks its location's invariant lies in no region that is reached: 21.
 *
 * value: the region's number. Refusals: 1 to 15, 20, 21. */
terkwabu_answer terkwabu_place(const uint8_t *TERKWABU_RESTRICT table, size_t table_len, uint8_t *TERKWABU_RESTRICT entries,
                               size_t entries_len, uint64_t location, uint64_t v0, uint64_t v1, uint64_t v2, uint64_t v3,
                               uint64_t denominator);

/* Explores, and finds the blocks: number r of either list is then the block of region r. The two lists hold the same; the work is done
 * in both. Blocks are numbered from 0 by their lowest region, so region 0 is in block 0. Two states that lie in regions of the graph
 * are related by some bisimulation over all states exactly where their regions share a block.
 *
 * value: N. blocks: how many there are. rounds: after how many rounds of splitting, from the labels on, nothing changes any more.
 * Refusals: 1 to 16. */
terkwabu_answer terkwabu_reduce(const uint8_t *TERKWABU_RESTRICT table, size_t table_len, uint8_t *TERKWABU_RESTRICT entries,
                                size_t entries_len, uint64_t *TERKWABU_RESTRICT first, size_t first_len,
                                uint64_t *TERKWABU_RESTRICT second, size_t second_len);

/* Explores, finds the blocks as terkwabu_reduce does, and compares two regions r and s, which may be the same.
 *
 * value: 1 where they share a block, 0 where not; both are success, and fill both lists. Refusals: 1 to 16, 19. */
terkwabu_answer terkwabu_pair(const uint8_t *TERKWABU_RESTRICT table, size_t table_len, uint8_t *TERKWABU_RESTRICT entries,
                              size_t entries_len, uint64_t *TERKWABU_RESTRICT first, size_t first_len,
                              uint64_t *TERKWABU_RESTRICT second, size_t second_len, uint64_t r, uint64_t s);

/* Explores, and judges a proposed partition: number r is any number for region r, and regions with equal numbers are meant to be related.
 * It need not be the coarsest, nor numbered as blocks are.
 *
 * value: 1, where it is a bisimulation; where it is none, that is refusal 18. Refusals: 1 to 15, 17, 18. */
terkwabu_answer terkwabu_judge(const uint8_t *TERKWABU_RESTRICT table, size_t table_len, uint8_t *TERKWABU_RESTRICT entries,
                               size_t entries_len, const uint64_t *TERKWABU_RESTRICT proposal, size_t proposal_len);

/* Puts a part of the listing into the buffer. Go from part 0 on until there is no such part, as the example does: joined in the order of
 * their numbers, the parts are the listing. Part 0 is the first line, then comes a part for each region, its line, then one for each block,
 * its lines, and last one with the totals. Each part ends with a line feed, and no zero byte is put behind it.
 *
 * The totals count regions and blocks by label. Each label that a region bears has a line, labels rising, such as
 * "label 5 regions 3 blocks 2": three regions bear label 5, and two blocks are those whose regions bear it. No block has regions of two
 * labels, and a label that only locations without a region bear has no line. The last line, such as "all regions 5 blocks 3", sums those
 * above it: after terkwabu_reduce its numbers are N and the count of blocks.
 *
 * The shares in step lines are ten-thousandths, each rounded to the nearest by itself, an exact half to the even one: 1/20,000 is
 * printed as 0 and 3/20,000 as 2. A block that is landed in is named also where its share is printed as 0, and a line need not sum to
 * 10,000.
 *
 * Hand over what terkwabu_reduce left for the same table: the entries, either of the two lists, and its value, blocks and rounds for
 * regions, blocks and rounds. The table is read again, but nothing is explored or reduced.
 *
 *   refusal   value     place     What it means
 *   1 to 13   0         any       the table is refused, at place (not where terkwabu_reduce has just taken it)
 *   0         above 0   0         so many bytes, as value says, were written at the buffer's front
 *   0         0         above 0   the buffer is too short (not with TERKWABU_PART_BYTES): the part takes as many bytes as place says
 *   0         0         0         there is no such part: the listing has ended, or the counts cannot be those of what is lent
 *
 * Other entries, lists and counts than those that terkwabu_reduce left are taken as they are, and give some text or none. Where the
 * counts cannot be those of what is lent there is no part: regions above 4,096, entries or list too short for them, blocks 0 or
 * above regions. */
terkwabu_answer terkwabu_part(const uint8_t *TERKWABU_RESTRICT table, size_t table_len, const uint8_t *TERKWABU_RESTRICT entries,
                              size_t entries_len, const uint64_t *TERKWABU_RESTRICT list, size_t list_len, uint64_t regions,
                              uint64_t blocks, uint64_t rounds, uint64_t part, uint8_t *TERKWABU_RESTRICT buffer, size_t buffer_len);

/* Puts the line of a refusal, such as "refused 5 place 0" and a line feed, into the buffer. Where terkwabu_reduce refuses a table with 1 to
 * 15, this line is its whole listing: no totals follow. Any two numbers are taken.
 *
 * value: how many bytes were written at the buffer's front. Where it is 0 the buffer is too short (not with TERKWABU_LINE_BYTES), and
 * place is how many bytes the line takes. There are no refusals. */
terkwabu_answer terkwabu_refusal_line(uint64_t number, uint64_t place, uint8_t *buffer, size_t buffer_len);

/* Returns TERKWABU_VERSION of the library that is linked. A program with a shared library may find an older or a newer one when it runs:
 * compare the two numbers first, as host/host.c does. */
uint64_t terkwabu_version(void);

#ifdef __cplusplus
}
#endif

#undef TERKWABU_RESTRICT

/* EXAMPLE: prints the listing of a small model. host/host.c has more calls, checked ones, and a test of the version.
 *
 *   gcc -std=c11 -Iinclude -o example example.c build/libterkwabu.a
 *
 * ---- example.c
 *   #include <stdio.h>
 *   #include "terkwabu.h"
 *
 *   static const uint8_t table[] = {
 *       1, 1, 2, 0,      // header: one clock, two locations, of which 0 is the initial one
 *       2, 5,            // location 0 has label 5
 *       2, 9,            // location 1 has label 9
 *       3, 0, 0, 1, 1,   // at location 0, clock 0 is at most 1
 *       4, 0, 3, 3, 0,   // an edge from location 0, action 3, chances over 3
 *       5, 0, 3, 1,      // its guard: clock 0 is at least 1
 *       6, 1, 0, 1, 0,   // with a chance of 1/3 to location 1
 *       6, 2, 0, 0, 1,   // with a chance of 2/3 to location 0, where clock 0 starts again
 *       7};              // end
 *   static uint8_t entries[TERKWABU_MAX_REGIONS * TERKWABU_ENTRY_BYTES];
 *   static uint64_t first[TERKWABU_MAX_REGIONS], second[TERKWABU_MAX_REGIONS];
 *   static uint8_t buffer[TERKWABU_PART_BYTES];
 *
 *   int main(void) {
 *       terkwabu_answer r = terkwabu_reduce(table, sizeof table, entries, sizeof entries, first, TERKWABU_MAX_REGIONS,
 *                                           second, TERKWABU_MAX_REGIONS);
 *       if (r.refusal != TERKWABU_NO_REFUSAL) {
 *           terkwabu_answer line = terkwabu_refusal_line(r.refusal, r.place, buffer, sizeof buffer);
 *           fwrite(buffer, 1, (size_t)line.value, stdout);
 *           return 1;
 *       }
 *       for (uint64_t part = 0;; part++) {
 *           terkwabu_answer p = terkwabu_part(table, sizeof table, entries, sizeof entries, first, TERKWABU_MAX_REGIONS,
 *                                             r.value, r.blocks, r.rounds, part, buffer, sizeof buffer);
 *           if (p.refusal != 0 || (p.value == 0 && p.place != 0)) return 2;  // not with what terkwabu_reduce left, and such a buffer
 *           if (p.value == 0) return 0;                                      // there is no such part: the listing has ended
 *           fwrite(buffer, 1, (size_t)p.value, stdout);
 *       }
 *   }
 * ---- end of example.c
 */

#endif
