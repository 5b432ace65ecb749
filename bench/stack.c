/* How much stack each call takes: the most over a set of tables, the largest ones among them. The header include/terkwabu.h has
 * the figures, rounded up. The calls and the tables are those of host/deep.h.
 *
 * A call runs on memory that was painted with one pattern before. The lowest word that has lost its paint then tells how deep the stack
 * has been. Counted with it are what makecontext puts there, a few words, and the frame of the small function that makes the call.
 *
 * gcc -std=c11 -O2 -Wall -Wextra -Werror -o build/stack bench/stack.c build/libterkwabu.a
 */
#define _DEFAULT_SOURCE
#include "../host/deep.h"

#define STACK_WORDS (((size_t)16 << 20) / sizeof(uint64_t))
#define PAINT UINT64_C(0xa5c396e1b4d2870f)

static uint64_t stack[STACK_WORDS];
static size_t most[CALLS];

/* Measures how many bytes of a painted stack a call takes. It is made once before, elsewhere: the loader, which looks for memcpy and memset
 * when they are first used, is not counted. */
static size_t depth_of(void (*make)(void)) {
    make();
    for (size_t i = 0; i < STACK_WORDS; i++) stack[i] = PAINT;
    run_on_stack(stack, sizeof stack, make);
    size_t painted = 0;
    while (painted < STACK_WORDS && stack[painted] == PAINT) painted++;
    return (STACK_WORDS - painted) * sizeof(uint64_t);
}

/* Measures every call on a table. */
static void measure(const struct deep_table *table) {
    table->make();
    for (int c = 0; c < CALLS; c++) {
        size_t depth = depth_of(calls[c].make);
        if (depth > most[c]) most[c] = depth;
    }
    terkwabu_answer r = work->reduced;
    printf("%5zu bytes  refusal %2u  N %4u  blocks %4u  rounds %2u  %s\n", work->table_len, (unsigned)r.refusal, (unsigned)r.value,
           (unsigned)r.blocks, (unsigned)r.rounds, table->what);
}

int main(void) {
    static struct work memory;
    work = &memory;
    for (int t = 0; t < TABLES; t++) measure(&tables[t]);
    printf("\n");
    for (int c = 0; c < CALLS; c++) printf("%-40s %8zu bytes of stack; the header states %7zu\n", calls[c].name, most[c], calls[c].stack);
    return 0;
}
