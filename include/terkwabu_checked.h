/* Terkwabu for C hosts: the calls of terkwabu.h, with a test of the host's pointers before each.
 *
 * terkwabu.h has rules for the slices that a host lends, which the library cannot test: a call that breaks them may answer with wrong
 * numbers and refusal 0. For each of its calls that takes a slice there is one here with the same parameters, named terkwabu_checked_graph
 * for terkwabu_graph and so on. It tests the slices. If they keep the rules, it makes the call and returns its answer. Otherwise it returns
 * a refusal above 1,000, and nothing has been read or written:
 *
 *   No.    What is wrong
 *   1001   a pointer is null (also if the length is 0)
 *   1002   a pointer to numbers of 64 bits is not aligned for a uint64_t (also if the length is 0)
 *   1003   a slice is longer than PTRDIFF_MAX bytes, which no object is, or runs past the last address
 *   1004   two slices overlap
 *
 * The lowest number that fits decides. place is then the position of the slice's pointer among the parameters, counted from 1: in
 * terkwabu_checked_reduce 1 for table, 3 for entries, 5 for first, 7 for second. If several slices are wrong in this way it is the first of
 * them, and of two slices that overlap the first. value, blocks and rounds are 0.
 *
 * Any two slices of a call are compared, also two that are only read: these could overlap without harm, but hardly on purpose. A slice of
 * length 0 overlaps nothing, and neither do slices of which one ends where the other begins.
 *
 * No test can see whether the memory is the host's for the whole length, and can be written if the pointer is not const.
 *
 * Such a refusal is a mistake of the program, and not of the table; host/host.c ends with a message then. What terkwabu.h says of threads
 * and of the stack holds for these calls too. The header needs C99 or C++11, and nothing is to be linked but the library.
 */
#ifndef TERKWABU_CHECKED_H
#define TERKWABU_CHECKED_H

#include <stddef.h>
#include <stdint.h>

#include "terkwabu.h"

/* The refusals of the table above by name. Those of terkwabu.h are below 1,000. */
enum terkwabu_checked_refusal {
    TERKWABU_NULL_POINTER = 1001,
    TERKWABU_NOT_ALIGNED = 1002,
    TERKWABU_TOO_LONG = 1003,
    TERKWABU_OVERLAP = 1004
};

/* ---- The tests, for the calls below alone */

/* Holds what the tests have to know of a slice; position counts the parameters up to its pointer. */
typedef struct {
    const void *pointer;
    size_t length, element_bytes, alignment;
    uint64_t position;
} terkwabu_slice;

/* Tells the alignment of a uint64_t: the offset of `number`. C99 has no other way. */
struct terkwabu_alignment {
    char before;
    uint64_t number;
};

static inline terkwabu_slice terkwabu_slice_of_bytes(const uint8_t *pointer, size_t length, uint64_t position) {
    terkwabu_slice slice = {pointer, length, 1, 1, position};
    return slice;
}

static inline terkwabu_slice terkwabu_slice_of_numbers(const uint64_t *pointer, size_t length, uint64_t position) {
    terkwabu_slice slice = {pointer, length, sizeof(uint64_t), offsetof(struct terkwabu_alignment, number), position};
    return slice;
}

/* Returns an address as a number: C orders pointers into one object only. */
static inline uintptr_t terkwabu_slice_begin(const terkwabu_slice *slice) { return (uintptr_t)slice->pointer; }

static inline uintptr_t terkwabu_slice_end(const terkwabu_slice *slice) {
    return terkwabu_slice_begin(slice) + slice->length * slice->element_bytes;
}

static inline int terkwabu_slice_is_null(const terkwabu_slice *slice) { return slice->pointer == NULL; }

static inline int terkwabu_slice_is_not_aligned(const terkwabu_slice *slice) {
    return terkwabu_slice_begin(slice) % slice->alignment != 0;
}

/* Divides, since a size_t may not hold the length in bytes. */
static inline int terkwabu_slice_is_too_long(const terkwabu_slice *slice) {
    uintptr_t most_bytes = UINTPTR_MAX - terkwabu_slice_begin(slice);
    if (most_bytes > PTRDIFF_MAX) most_bytes = PTRDIFF_MAX;
    return slice->length > most_bytes / slice->element_bytes;
}

/* Compares two slices, neither of which may be too long. */
static inline int terkwabu_slices_overlap(const terkwabu_slice *one, const terkwabu_slice *other) {
    return one->length > 0 && other->length > 0 && terkwabu_slice_begin(one) < terkwabu_slice_end(other) &&
           terkwabu_slice_begin(other) < terkwabu_slice_end(one);
}

static inline terkwabu_answer terkwabu_slices_refused(uint64_t refusal, uint64_t place) {
    terkwabu_answer answer = {refusal, place, 0, 0, 0};
    return answer;
}

/* Tests all slices of a call, in the order of the numbers; returns the refusal, or TERKWABU_NO_REFUSAL. */
static inline terkwabu_answer terkwabu_slices_tested(const terkwabu_slice *slices, size_t count) {
    size_t i, j;
    for (i = 0; i < count; i++)
        if (terkwabu_slice_is_null(&slices[i])) return terkwabu_slices_refused(TERKWABU_NULL_POINTER, slices[i].position);
    for (i = 0; i < count; i++)
        if (terkwabu_slice_is_not_aligned(&slices[i])) return terkwabu_slices_refused(TERKWABU_NOT_ALIGNED, slices[i].position);
    for (i = 0; i < count; i++)
        if (terkwabu_slice_is_too_long(&slices[i])) return terkwabu_slices_refused(TERKWABU_TOO_LONG, slices[i].position);
    for (i = 0; i < count; i++)
        for (j = i + 1; j < count; j++)
            if (terkwabu_slices_overlap(&slices[i], &slices[j])) return terkwabu_slices_refused(TERKWABU_OVERLAP, slices[i].position);
    return terkwabu_slices_refused(TERKWABU_NO_REFUSAL, 0);
}

/* Tests the four slices of the calls that fill two block lists. */
static inline terkwabu_answer terkwabu_two_lists_tested(const uint8_t *table, size_t table_len, const uint8_t *entries, size_t entries_len,
                                                        const uint64_t *first, size_t first_len, const uint64_t *second,
                                                        size_t second_len) {
    const terkwabu_slice slices[] = {
        terkwabu_slice_of_bytes(table, table_len, 1),
        terkwabu_slice_of_bytes(entries, entries_len, 3),
        terkwabu_slice_of_numbers(first, first_len, 5),
        terkwabu_slice_of_numbers(second, second_len, 7),
    };
    return terkwabu_slices_tested(slices, sizeof slices / sizeof slices[0]);
}

/* ---- The calls. terkwabu.h says what each does. */

static inline terkwabu_answer terkwabu_checked_graph(const uint8_t *table, size_t table_len, uint8_t *entries, size_t entries_len) {
    const terkwabu_slice slices[] = {
        terkwabu_slice_of_bytes(table, table_len, 1),
        terkwabu_slice_of_bytes(entries, entries_len, 3),
    };
    terkwabu_answer tested = terkwabu_slices_tested(slices, sizeof slices / sizeof slices[0]);
    if (tested.refusal != TERKWABU_NO_REFUSAL) return tested;
    return terkwabu_graph(table, table_len, entries, entries_len);
}

static inline terkwabu_answer terkwabu_checked_place(const uint8_t *table, size_t table_len, uint8_t *entries, size_t entries_len,
                                                     uint64_t location, uint64_t v0, uint64_t v1, uint64_t v2, uint64_t v3,
                                                     uint64_t denominator) {
    const terkwabu_slice slices[] = {
        terkwabu_slice_of_bytes(table, table_len, 1),
        terkwabu_slice_of_bytes(entries, entries_len, 3),
    };
    terkwabu_answer tested = terkwabu_slices_tested(slices, sizeof slices / sizeof slices[0]);
    if (tested.refusal != TERKWABU_NO_REFUSAL) return tested;
    return terkwabu_place(table, table_len, entries, entries_len, location, v0, v1, v2, v3, denominator);
}

static inline terkwabu_answer terkwabu_checked_reduce(const uint8_t *table, size_t table_len, uint8_t *entries, size_t entries_len,
                                                      uint64_t *first, size_t first_len, uint64_t *second, size_t second_len) {
    terkwabu_answer tested = terkwabu_two_lists_tested(table, table_len, entries, entries_len, first, first_len, second, second_len);
    if (tested.refusal != TERKWABU_NO_REFUSAL) return tested;
    return terkwabu_reduce(table, table_len, entries, entries_len, first, first_len, second, second_len);
}

static inline terkwabu_answer terkwabu_checked_pair(const uint8_t *table, size_t table_len, uint8_t *entries, size_t entries_len,
                                                    uint64_t *first, size_t first_len, uint64_t *second, size_t second_len,
                                                    uint64_t r, uint64_t s) {
    terkwabu_answer tested = terkwabu_two_lists_tested(table, table_len, entries, entries_len, first, first_len, second, second_len);
    if (tested.refusal != TERKWABU_NO_REFUSAL) return tested;
    return terkwabu_pair(table, table_len, entries, entries_len, first, first_len, second, second_len, r, s);
}

static inline terkwabu_answer terkwabu_checked_judge(const uint8_t *table, size_t table_len, uint8_t *entries, size_t entries_len,
                                                     const uint64_t *proposal, size_t proposal_len) {
    const terkwabu_slice slices[] = {
        terkwabu_slice_of_bytes(table, table_len, 1),
        terkwabu_slice_of_bytes(entries, entries_len, 3),
        terkwabu_slice_of_numbers(proposal, proposal_len, 5),
    };
    terkwabu_answer tested = terkwabu_slices_tested(slices, sizeof slices / sizeof slices[0]);
    if (tested.refusal != TERKWABU_NO_REFUSAL) return tested;
    return terkwabu_judge(table, table_len, entries, entries_len, proposal, proposal_len);
}

static inline terkwabu_answer terkwabu_checked_part(const uint8_t *table, size_t table_len, const uint8_t *entries, size_t entries_len,
                                                    const uint64_t *list, size_t list_len, uint64_t regions, uint64_t blocks,
                                                    uint64_t rounds, uint64_t part, uint8_t *buffer, size_t buffer_len) {
    const terkwabu_slice slices[] = {
        terkwabu_slice_of_bytes(table, table_len, 1),
        terkwabu_slice_of_bytes(entries, entries_len, 3),
        terkwabu_slice_of_numbers(list, list_len, 5),
        terkwabu_slice_of_bytes(buffer, buffer_len, 11),
    };
    terkwabu_answer tested = terkwabu_slices_tested(slices, sizeof slices / sizeof slices[0]);
    if (tested.refusal != TERKWABU_NO_REFUSAL) return tested;
    return terkwabu_part(table, table_len, entries, entries_len, list, list_len, regions, blocks, rounds, part, buffer, buffer_len);
}

static inline terkwabu_answer terkwabu_checked_refusal_line(uint64_t number, uint64_t place, uint8_t *buffer, size_t buffer_len) {
    const terkwabu_slice slices[] = {terkwabu_slice_of_bytes(buffer, buffer_len, 3)};
    terkwabu_answer tested = terkwabu_slices_tested(slices, sizeof slices / sizeof slices[0]);
    if (tested.refusal != TERKWABU_NO_REFUSAL) return tested;
    return terkwabu_refusal_line(number, place, buffer, buffer_len);
}

#endif
