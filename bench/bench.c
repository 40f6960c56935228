/* bench times SECONDS | count | heap | list   [NAME..]
 * Puts the families (or those named) to both sides and writes a line for each problem, fields separated by tabs.
 *   times   medians of interleaved samples, SECONDS for each problem, but not less than 3 + 20 x SECONDS samples
 *   count   a call of ours, one of the Rust and one of the Rust that gives no memory back, for a profiler that counts within `counted`
 *   heap    how often each side asks for memory, and for how many bytes (linked with heap.c)
 *   list    what the problems are
 * Every answer and every list of ours is compared with what the Rust gave. Ends with 1 at the first difference. */
#define _POSIX_C_SOURCE 199309L
#include <stdio.h>
#include <stdlib.h>
#include <string.h>
#include <time.h>

#include "families.h"
#include "heap.h"
#include "sides.h"

static void fail(const char *why)
{
    fprintf(stderr, "bench: %s\n", why);
    exit(1);
}

/* ---- Times ---- */

enum { MOST_SAMPLES = 2000 };

/* A sample lasts at least this long: small problems are called several times for one. */
static const double sample_seconds = 0.0005;

/* What this thread has had of a processor. Other programs that run at the same time do not count. */
static double now(void)
{
    struct timespec t;
    clock_gettime(CLOCK_THREAD_CPUTIME_ID, &t);
    return (double)t.tv_sec + 1e-9 * (double)t.tv_nsec;
}

/* The time of one call, from `calls` of them; each must give the answer that is wanted. */
static double sample(uint64_t (*call)(const job *), const job *j, uint64_t wanted, unsigned calls)
{
    uint64_t wrong = 0;
    double before = now();
    for (unsigned k = 0; k < calls; k++)
        wrong |= call(j) ^ wanted;
    double after = now();
    if (wrong != 0)
        fail("an answer differs");
    return (after - before) / calls;
}

static double sample_ours(const job *j, unsigned calls)
{
    spoil_result();
    double t = sample(call_ours, j, j->ours, calls);
    if (!good_result(j))
        fail("a result differs");
    return t;
}

static int by_size(const void *a, const void *b)
{
    double x = *(const double *)a, y = *(const double *)b;
    return (x > y) - (x < y);
}

static double median(double *list, size_t count)
{
    qsort(list, count, sizeof *list, by_size);
    return count % 2 ? list[count / 2] : (list[count / 2 - 1] + list[count / 2]) / 2;
}

static unsigned calls_for(double one)
{
    return one >= sample_seconds ? 1 : (unsigned)(sample_seconds / one) + 1;
}

/* Ours, the Rust's, ours, the Rust's, and so on, until the time is used up. */
static void write_times(const job *j, double seconds)
{
    static double ours[MOST_SAMPLES], rust[MOST_SAMPLES];
    unsigned few = calls_for(sample_ours(j, 1)), some = calls_for(sample(call_rust, j, j->rust, 1));
    size_t count = 0, least = 3 + (size_t)(20 * seconds);
    double begun = now();
    while (count < MOST_SAMPLES && (count < least || now() - begun < seconds)) {
        ours[count] = sample_ours(j, few);
        rust[count] = sample(call_rust, j, j->rust, some);
        count++;
    }
    printf("\t%zu\t%.3f\t%.3f\n", count, 1e6 * median(ours, count), 1e6 * median(rust, count));
}

/* ---- Counts ---- */

static void write_heap(const job *j)
{
    heap_use before = heap_used();
    call_ours(j);
    heap_use between = heap_used();
    call_rust(j);
    heap_use after = heap_used();
    printf("\t%llu\t%llu\t%llu\n", between.asked - before.asked, after.asked - between.asked, after.bytes - between.bytes);
}

/* What a profiler counts within. It is not inlined, so that it is found by its name. */
__attribute__((noinline)) static uint64_t counted(uint64_t (*call)(const job *), const job *j)
{
    volatile uint64_t answer = call(j);
    return answer;
}

/* Opening the job has called each side before, so what is counted is a call like all that follow. */
static void count_calls(const job *j)
{
    uint64_t wrong = counted(call_ours, j) ^ j->ours;
    wrong |= counted(call_rust, j) ^ j->rust;
    wrong |= counted(call_rust_keeping, j) ^ j->rust;
    drop_kept();
    if (wrong != 0)
        fail("an answer differs");
    printf("\n");
}

/* ---- All of them ---- */

static bool is_named(const char *name, int count, char **names)
{
    for (int k = 0; k < count; k++)
        if (strcmp(names[k], name) == 0)
            return true;
    return count == 0;
}

static void one_problem(const char *mode, double seconds, const family *f, int size)
{
    static problem p;
    job j;
    f->make(&p, size);
    int module = is_plain(&p) && !getenv("BENCH_COLOURED") ? RUST_DLX_PLAIN : RUST_DLX_COLOURED;
    printf("%s\t%d\t%c\t%u\t%zu\t%zu", f->name, size, module == RUST_DLX_PLAIN ? 'x' : 'c', p.np + p.ns, p.m, p.e);
    if (!open_job(&j, &p, f->desk, module))
        fail(f->name);
    printf("\t%s\t%u\t%u", j.rust == 0 ? "infeasible" : "reduced", j.rounds, j.options);
    if (strcmp(mode, "times") == 0)
        write_times(&j, seconds);
    else if (strcmp(mode, "heap") == 0)
        write_heap(&j);
    else if (strcmp(mode, "count") == 0)
        count_calls(&j);
    else
        printf("\n");
    fflush(stdout);
    close_job(&j);
}

int main(int argc, char **argv)
{
    const char *mode = argc > 1 ? argv[1] : "list";
    bool timed = strcmp(mode, "times") == 0;
    int used = argc < 2 ? argc : timed ? 3 : 2;
    if (used > argc)
        fail("times needs seconds");
    for (size_t k = 0; k < families_count; k++)
        for (int size = 0; size < SIZES; size++)
            if (is_named(families[k].name, argc - used, argv + used))
                one_problem(mode, timed ? atof(argv[2]) : 0, &families[k], size);
    return 0;
}
