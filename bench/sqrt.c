/* Holds rovignesc_sqrt to the processor's square root, bit for bit, on 40 million doubles, and times both. bench/sqrt.sh builds and runs it. */
#include <math.h>
#include <stdint.h>
#include <stdio.h>
#include <stdlib.h>
#include <string.h>
#include <time.h>
#include "rovignesc.h"

#define MANY 10000000           /* doubles compared, of each of four kinds */
#define ROW (1 << 20)           /* doubles in the row that is timed: more than a processor can learn the branches of */
#define RUNS 15                 /* the best of these counts */

/* splitmix64 */
static uint64_t state = 20261115;
static uint64_t word(void)
{
    uint64_t w = state += 0x9e3779b97f4a7c15u;
    w = (w ^ w >> 30) * 0xbf58476d1ce4e5b9u;
    w = (w ^ w >> 27) * 0x94d049bb133111ebu;
    return w ^ w >> 31;
}

static double of_bits(uint64_t b) { double x; memcpy(&x, &b, 8); return x; }
static uint64_t bits_of(double x) { uint64_t b; memcpy(&b, &x, 8); return b; }

/* The kinds of doubles: each gives a pattern. */
static uint64_t any(void) { return word(); }
static uint64_t near_one(void) { return (959 + word() % 129) << 52 | word() >> 12; }      /* 2^-64 up to 2^65 */
static uint64_t subnormal(void) { return word() >> 12; }
static uint64_t short_subnormal(void) { return word() >> (12 + word() % 52); }           /* any number of digits */

static uint64_t differences;
static void compare(const char *kind, uint64_t (*next)(void))
{
    uint64_t found = 0;
    for (long i = 0; i < MANY; i++) {
        uint64_t b = next();
        double x = of_bits(b), ours = rovignesc_sqrt(x), theirs = sqrt(x);
        if (bits_of(ours) != bits_of(theirs) && !(ours != ours && theirs != theirs) && found++ == 0)
            printf("  at %016llx: %016llx, the processor %016llx\n", (unsigned long long)b, (unsigned long long)bits_of(ours), (unsigned long long)bits_of(theirs));
    }
    printf("%-26s %d compared, %llu differ\n", kind, MANY, (unsigned long long)found);
    differences += found;
}

static double now(void)
{
    struct timespec t;
    clock_gettime(CLOCK_MONOTONIC, &t);
    return t.tv_sec * 1e9 + t.tv_nsec;
}

static double *in, *out;
static void row_ours(void) { for (long i = 0; i < ROW; i++) out[i] = rovignesc_sqrt(in[i]); }
static void row_theirs(void) { for (long i = 0; i < ROW; i++) out[i] = sqrt(in[i]); }

static double best(void (*row)(void))
{
    double least = INFINITY;
    for (int run = 0; run < RUNS; run++) {
        double start = now();
        row();
        double took = (now() - start) / ROW;
        if (took < least) least = took;
    }
    return least;
}

/* The row is filled and the answers written once before the clock starts, so that every page is there. */
static void timed(const char *kind, uint64_t (*next)(void))
{
    for (long i = 0; i < ROW; i++) in[i] = of_bits(next());
    memset(out, 0, ROW * sizeof *out);
    double ours = best(row_ours), theirs = best(row_theirs);
    printf("%-26s rovignesc_sqrt %.1f ns a call, the processor's %.1f ns\n", kind, ours, theirs);
}

int main(void)
{
    compare("any pattern", any);
    compare("2^-64 up to 2^65", near_one);
    compare("subnormals", subnormal);
    compare("subnormals, few digits", short_subnormal);
    in = malloc(ROW * sizeof *in);
    out = malloc(ROW * sizeof *out);
    if (!in || !out) return 2;
    timed("2^-64 up to 2^65", near_one);
    timed("any pattern", any);
    timed("subnormals", subnormal);
    return differences != 0;
}
