/* Makes each call of include/terkwabu.h on a stack of just the size that the header states for it, with no page below that can be touched:
 * on the tables where the calls go deepest (host/deep.h), accepted and refused. It prints a line a call, and stops with a message at the
 * first call that goes below its stack or answers with another refusal than it should.
 *
 * The stated size has to do for all that stands on the stack: the words that makecontext puts there, the frame of the small function that
 * makes the call, with what it hands over on the stack, and the call itself.
 *
 * Every call is made in a process of its own, and this one makes none: so the loader has yet to look for memcpy and memset there (and for
 * the call, in a shared library), and does so on the same stack. -z lazy is what lets it wait until then.
 *
 * gcc -std=c11 -O2 -Wall -Wextra -Werror -Wl,-z,lazy -o build/host-stack host/stack.c build/libterkwabu.a
 */
#define _DEFAULT_SOURCE
#include <errno.h>
#include <inttypes.h>
#include <signal.h>
#include <sys/mman.h>
#include <sys/resource.h>
#include <sys/wait.h>
#include <unistd.h>

#include "deep.h"

/* More than any call takes: a frame may be longer than a page, and need not be touched from its top. */
#define GUARD_BYTES ((size_t)4 << 20)

/* Enough to make a table on; and too few for the partition call. */
#define ROOMY_BYTES ((size_t)1 << 20)
#define SMALL_BYTES ((size_t)4096)

/* Describes the stack at hand: its lowest byte is the first behind the guard. */
struct stack {
    uint8_t *guard, *lowest;
    size_t bytes, mapped;
};
static struct stack stack;

/* Holds what a process leaves for the one that started it: the memory of the calls, and the address at which it was stopped. */
struct left {
    struct work work;
    volatile uintptr_t fault;
};
static struct left *left;

static _Noreturn void give_up(const char *what) {
    fprintf(stderr, "stack: %s: %s\n", what, strerror(errno));
    exit(2);
}

static _Noreturn void stop(const char *what, const char *where, const char *how) {
    printf("%s, %s: on a stack of %zu bytes %s\n", what, where, stack.bytes, how);
    exit(1);
}

/* ---- Processes and their stacks */

static void map_stack(size_t bytes) {
    size_t page = (size_t)sysconf(_SC_PAGESIZE);
    stack.bytes = bytes;
    stack.mapped = GUARD_BYTES + (bytes + page - 1) / page * page;
    stack.guard = mmap(NULL, stack.mapped, PROT_NONE, MAP_PRIVATE | MAP_ANONYMOUS, -1, 0);
    if (stack.guard == MAP_FAILED) give_up("a stack");
    stack.lowest = stack.guard + GUARD_BYTES;
    if (mprotect(stack.lowest, stack.mapped - GUARD_BYTES, PROT_READ | PROT_WRITE) != 0) give_up("a stack's pages");
}

/* Notes where a process went wrong. It then goes wrong there once more, and dies. */
static void note_fault(int signal, siginfo_t *about, void *context) {
    (void)signal, (void)context;
    left->fault = (uintptr_t)about->si_addr;
}

/* Lets the fault be noted on a stack of its own, since there is no room left on the one at hand. */
static void watch_for_faults(void) {
    static uint8_t room[1 << 16];
    stack_t other = {.ss_sp = room, .ss_size = sizeof room};
    struct sigaction action = {.sa_sigaction = note_fault, .sa_flags = SA_SIGINFO | SA_ONSTACK | SA_RESETHAND};
    struct rlimit no_core = {0, 0};
    if (sigaltstack(&other, NULL) != 0 || sigaction(SIGSEGV, &action, NULL) != 0) give_up("a watch for faults");
    if (setrlimit(RLIMIT_CORE, &no_core) != 0) give_up("the limit of core files");
}

/* Runs a function in a process of its own, on a new stack of so many bytes; answers how the process ended. */
static int status_on(size_t bytes, void (*function)(void)) {
    map_stack(bytes);
    left->fault = 0;
    fflush(stdout);
    pid_t child = fork();
    if (child < 0) give_up("a process");
    if (child == 0) {
        watch_for_faults();
        run_on_stack(stack.lowest, bytes, function);
        _exit(0);
    }
    int status;
    if (waitpid(child, &status, 0) != child) give_up("a process's end");
    if (munmap(stack.guard, stack.mapped) != 0) give_up("a stack's end");
    return status;
}

/* Tells whether a process that ended so was stopped in the guard. */
static int is_in_guard(int status) {
    uintptr_t from = (uintptr_t)stack.guard;
    return WIFSIGNALED(status) && WTERMSIG(status) == SIGSEGV && left->fault >= from && left->fault < from + GUARD_BYTES;
}

/* Runs a function that has to come back. */
static void run(const char *what, const char *where, size_t bytes, void (*function)(void)) {
    int status = status_on(bytes, function);
    if (is_in_guard(status)) stop(what, where, "it goes below the stack");
    if (!WIFEXITED(status) || WEXITSTATUS(status) != 0) stop(what, where, "it does not come back");
}

/* ---- The guard */

static void touch_lowest(void) { *(volatile uint8_t *)stack.lowest = 1; }

static void touch_below(void) { *(volatile uint8_t *)(stack.lowest - 1) = 1; }

/* Tries whether a stack has just so many bytes, and whether a call that takes more is stopped. */
static void try_guard(void) {
    for (int c = 0; c < CALLS; c++) {
        run("the stack's lowest byte", "written", calls[c].stack, touch_lowest);
        int below = status_on(calls[c].stack, touch_below);
        if (!is_in_guard(below) || left->fault != (uintptr_t)stack.lowest - 1) stop("the byte below it", "written", "nothing is stopped");
    }
    run("a table", tables[0].what, ROOMY_BYTES, tables[0].make);
    if (!is_in_guard(status_on(SMALL_BYTES, call_reduce))) stop("terkwabu_reduce", tables[0].what, "nothing is stopped in the guard");
}

/* ---- The calls */

static uint64_t wanted(const struct call *call, const struct deep_table *table) {
    return table->refusal > 0 && table->refusal <= call->of_table ? table->refusal : call->refusal;
}

static void try_calls(const struct deep_table *table) {
    run("a table", table->what, ROOMY_BYTES, table->make);
    for (int c = 0; c < CALLS; c++) {
        work->answer.refusal = UINT64_MAX;
        run(calls[c].name, table->what, calls[c].stack, calls[c].make);
        if (work->answer.refusal == wanted(&calls[c], table)) continue;
        printf("%s, %s: refusal %" PRIu64 ", and should be %" PRIu64 "\n", calls[c].name, table->what, work->answer.refusal,
               wanted(&calls[c], table));
        exit(1);
    }
}

int main(void) {
    left = mmap(NULL, sizeof *left, PROT_READ | PROT_WRITE, MAP_SHARED | MAP_ANONYMOUS, -1, 0);
    if (left == MAP_FAILED) give_up("memory for the calls");
    work = &left->work;
    try_guard();
    for (int t = 0; t < TABLES; t++) try_calls(&tables[t]);
    for (int c = 0; c < CALLS; c++) printf("%s: %zu bytes of stack are enough on %d tables\n", calls[c].name, calls[c].stack, TABLES);
    return 0;
}
