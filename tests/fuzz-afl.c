/*
 * What both fuzz targets need of AFL++: inputs one after another in one process, and the counters of the rewritten library
 * (tests/fuzz-edges.py) in AFL's map, after each run and also where a run ends in a fault or an abort, so that AFL tells
 * one crash from another.
 */
#include <signal.h>
#include <stddef.h>
#include <stdint.h>
#include <stdlib.h>
#include <string.h>

extern uint8_t xcoff_edges[];
extern const uint32_t xcoff_edge_count;

/* Of AFL's own runtime, afl-compiler-rt.o. */
extern uint8_t *__afl_area_ptr;
extern unsigned int *__afl_fuzz_len;
extern unsigned char *__afl_fuzz_ptr;
void __sanitizer_cov_trace_pc_guard_init(uint32_t *start, uint32_t *stop);
int __afl_persistent_loop(unsigned int most);
void __afl_manual_init(void);

/* What AFL looks for in the program. */
int __afl_sharedmem_fuzzing = 1;
__attribute__((used)) static const char persistent[] = "##SIG_AFL_PERSISTENT##";
__attribute__((used)) static const char deferred[] = "##SIG_AFL_DEFER_FORKSRV##";

static uint32_t places[32768];

/* As many places of AFL's map, before AFL looks how large its map must be. */
__attribute__((constructor(2))) static void reserve(void)
{
    if (xcoff_edge_count > sizeof places / sizeof places[0])
        abort();
    __sanitizer_cov_trace_pc_guard_init(places, places + xcoff_edge_count);
}

static void report(void)
{
    uint32_t i;
    for (i = 0; i < xcoff_edge_count; i++)
        if (xcoff_edges[i] != 0)
            __afl_area_ptr[places[i]] = xcoff_edges[i];
}

static void on_fault(int number)
{
    report();
    signal(number, SIG_DFL);
    raise(number);
}

static void catch_faults(void)
{
    static const int numbers[] = {SIGSEGV, SIGBUS, SIGILL, SIGFPE, SIGABRT, SIGTRAP};
    static uint8_t stack[65536];
    struct sigaction action;
    stack_t other;
    size_t i;
    memset(&other, 0, sizeof other);
    other.ss_sp = stack;
    other.ss_size = sizeof stack;
    sigaltstack(&other, NULL);
    memset(&action, 0, sizeof action);
    action.sa_handler = on_fault;
    action.sa_flags = SA_ONSTACK | SA_NODEFER;
    for (i = 0; i < sizeof numbers / sizeof numbers[0]; i++)
        sigaction(numbers[i], &action, NULL);
}

/* The next input; 0 at the end. */
int fuzz_next(const uint8_t **input, size_t *length)
{
    static int started;
    if (started)
        report();
    else {
        catch_faults();
        __afl_manual_init();
    }
    started = 1;
    if (__afl_fuzz_ptr == NULL || !__afl_persistent_loop(2000))
        return 0;
    memset(xcoff_edges, 0, xcoff_edge_count);
    *input = __afl_fuzz_ptr;
    *length = *__afl_fuzz_len;
    return 1;
}
