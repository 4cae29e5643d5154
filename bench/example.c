/* A first program over the library: shares an account of three assets out and prints its sheet, then hands in an account that is refused.
   bench/example.sh builds and runs it. */
#include <stdio.h>
#include <string.h>
#include "rovignesc.h"

#define ASSETS 3

static const char *const names[ASSETS] = {"A", "B", "C"};

/* A and B move together half of the time, C on its own. Row by row. */
static const double covariance[ASSETS * ASSETS] = {
    1.0, 0.5, 0.0,
    0.5, 1.0, 0.0,
    0.0, 0.0, 1.0,
};

/* What the library writes to. It needs no memory of its own, and nothing of an earlier account is left in these after a call. */
static size_t rows[2 * (ASSETS - 1)], order[ASSETS], asked[2];
static double weights[ASSETS], scratch[8192];

static const uint8_t *bytes(const char *name) { return (const uint8_t *)name; }

/* The account by equal weighting, cut into so many clusters, or down to single assets where none are given. Answers a refusal's number or 0. */
static uint8_t allocate(uint8_t clusters_given, size_t clusters)
{
    const char *metric = "equal_weighting", *method = "mean", *distance = "correlation", *linkage = "single";
    return rovignesc_hcaa(ASSETS,
                          NULL, 0, 0, 0, 0,                                       /* no prices */
                          NULL, 0, 0, 0, 0,                                       /* no returns */
                          covariance, ASSETS * ASSETS, 1, ASSETS, ASSETS,
                          NULL, 0, 0,                                             /* no expected returns: only the Sharpe ratio asks for them */
                          bytes(metric), strlen(metric),
                          bytes(method), strlen(method),
                          0.05,                                                   /* the part of the days that are bad ones: only the tail-risk metrics ask for it */
                          clusters_given, clusters,
                          NULL, 0,                                                /* prices would be taken as they are, not by the week or month */
                          bytes(distance), strlen(distance),
                          bytes(linkage), strlen(linkage),
                          rows, 2 * (ASSETS - 1),
                          order, ASSETS,
                          weights, ASSETS,
                          scratch, 8192,
                          asked, 2);
}

static void print_sheet(void)
{
    for (size_t i = 0; i < ASSETS; i++)
        printf("%s  %.6f\n", names[i], weights[i]);
    printf("in the order of the tree:");
    for (size_t i = 0; i < ASSETS; i++)
        printf(" %s", names[order[i]]);
    printf("\n");
}

/* The line that the program weights prints for a refusal: refused, tab, number. */
static void print_refusal(uint8_t refusal)
{
    uint8_t line[16];
    size_t bytes;
    if (rovignesc_refusal_line(refusal, line, sizeof line, &bytes, 1) == 0)
        fwrite(line, 1, bytes, stdout);
}

static void play(uint8_t clusters_given, size_t clusters)
{
    uint8_t refusal = allocate(clusters_given, clusters);
    if (refusal == 0)
        print_sheet();
    else
        print_refusal(refusal);
    if (refusal == 6)
        printf("%zu clusters were asked for, of %zu assets\n", asked[0], asked[1]);
}

int main(void)
{
    play(0, 0);
    play(1, 4);
    return 0;
}
