/* The speed of the library beside two plain models of the same paper, tests/model in Rust and plain.c over a C struct, and beside a
 * ring of twelve bytes in Rust. Nanoseconds per call, and how many times slower the library is.
 * `make bench BEFORE=LIBRARY` sets an earlier library in the place of the model in Rust, so that both are measured in one run.
 *
 *     gcc -O2 -std=c11 -Wall -Wextra -Werror -Iinclude -o bench bench/bench.c bench/plain.c librust_sides.a libam33c93a.a */
#define _GNU_SOURCE
#include <sched.h>
#include <time.h>
enum { LONGEST = 16000000 };
#include "rows.h"

static volatile uint32_t sink;

static double seconds(void)
{
    struct timespec t;
    clock_gettime(CLOCK_MONOTONIC, &t);
    return (double)t.tv_sec + 1e-9 * (double)t.tv_nsec;
}

static double once(const struct side *s, uint32_t (*work)(long n), long n)
{
    s->from();
    double start = seconds();
    sink = work(n);
    return seconds() - start;
}

enum { ROUNDS = 25 };

/* How many turns take more than 20 ms. */
static long enough(const struct side *s, uint32_t (*work)(long n), long n)
{
    while (once(s, work, n) < 0.020) n *= 2;
    return n;
}

/* Nanoseconds for one turn on each side: best of the rounds. The sides take turns, so that other work on the machine meets all. */
static void measure(const struct row *row, double times[SIDES])
{
    double work[SIDES], restoring[SIDES];
    long n[SIDES], m[SIDES];
    for (int k = 0; k < SIDES; k++) {
        const struct side *s = &row->sides[k];
        long least = row->bytes ? 1 : 16 * COPIES;
        work[k] = restoring[k] = 1e9;
        if (!s->work) continue;
        n[k] = enough(s, s->work, least);
        m[k] = s->restoring ? enough(s, s->restoring, least) : 1;
    }
    for (int round = 0; round < ROUNDS; round++)
        for (int k = 0; k < SIDES; k++) {
            const struct side *s = &row->sides[k];
            if (!s->work) continue;
            double t = once(s, s->work, n[k]), r = s->restoring ? once(s, s->restoring, m[k]) : 0;
            if (t < work[k]) work[k] = t;
            if (r < restoring[k]) restoring[k] = r;
        }
    for (int k = 0; k < SIDES; k++)
        times[k] = row->sides[k].work ? (work[k] / (double)n[k] - restoring[k] / (double)m[k]) * 1e9 : 0;
}

/* One core: the one we are on. */
static void stay_here(void)
{
    cpu_set_t set;
    int cpu = sched_getcpu();
    if (cpu < 0) return;
    CPU_ZERO(&set);
    CPU_SET(cpu, &set);
    sched_setaffinity(0, sizeof set, &set);
}

/* A whole transfer is told in milliseconds. */
static void print_time(double nanoseconds)
{
    if (nanoseconds == 0) printf(" %9s   ", "-");
    else if (nanoseconds < 1e5) printf(" %9.2f   ", nanoseconds);
    else printf(" %9.2f ms", nanoseconds * 1e-6);
}

static void print_ratio(double library, double other)
{
    if (other == 0) printf(" %9s", "-");
    else printf(" %9.2f", library / other);
}

static void print_head(void)
{
    printf("Nanoseconds per call: the library (an image of %d bytes lent to each call), " OTHER_SIDE ", plain C over a struct, and a\n"
           "ring of twelve bytes in Rust that moves blocks in two runs (ring) or byte by byte (loop), tests no image and refuses nothing.\n"
           "One core, lowest of %d runs of 20 ms or more, the sides in turn. 'two calls', 'four calls': for all of them. 'restored': the\n"
           "state by memcpy, its own time subtracted. 1 MiB and 16 MB (16,000,000 bytes): a whole Select-And-Transfer, each byte compared\n"
           "at the end; polled: Request, auxiliary read, access; by blocks: slices of 4096 bytes lent, of which 12 move, then 12 Requests\n"
           "(1 MiB: Requests until one is Held). 'over the end': six of the bytes stand in the FIFO's last places and six in its first;\n"
           "else a block begins at the first place.\n",
           (int)library_length, ROUNDS);
#ifdef BEFORE
    printf("Images of the library: %u bytes, before: %u.\n", (unsigned)library_length, (unsigned)other_length);
#endif
    printf("%-46s", "");
    for (int k = 0; k < SIDES; k++) printf(" %9s   ", side_names[k]);
    for (int k = 1; k < SIDES; k++) printf(" %*s%s", 9 - (int)strlen(side_names[k]), "to ", side_names[k]);
    printf("\n");
}

int main(void)
{
    stay_here();
    if (!is_ready(LONGEST)) return 1;
    print_head();
    for (int i = 0; i < ROWS; i++) {
        double times[SIDES];
        printf("%-46s", rows[i].name);
        fflush(stdout);
        whole = rows[i].bytes;
        measure(&rows[i], times);
        for (int k = 0; k < SIDES; k++) print_time(times[k]);
        for (int k = 1; k < SIDES; k++) print_ratio(times[LIBRARY], times[k]);
        printf("\n");
        fflush(stdout);
    }
    return 0;
}
