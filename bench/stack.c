/* Prints how many bytes of stack each call of the library takes. bench/stack.sh builds and runs it.
   A call runs on a thread of its own whose stack was painted before; the lowest word that is no longer as painted shows how deep it went. That is counted from
   the frame of the function that the thread runs, not from the end of the stack: above that frame stands what the C library keeps of a thread. So that
   frame, the arguments that C lays on the stack and every return address are in the count; 'empty', a call that does nothing, shows how little of it is
   the measuring. Left out are the frame of a signal, and room at the low end of the lowest frame that nothing was written to. */
#include <math.h>
#include <pthread.h>
#include <stdint.h>
#include <stdio.h>
#include <string.h>
#include <sys/mman.h>
#include "rovignesc.h"

#define MOST 64                         /* assets */
#define LISTED 62                       /* the most assets whose lines a text has room for, in hex */
#define FEW 8
#define ROWS 60                         /* of returns; the prices have one more */
#define TEXT 65536                      /* bytes of a job text at most */
#define DEPTH ((size_t)1 << 20)         /* words of a thread's stack */

/* splitmix64 */
static inline uint64_t mixed(uint64_t w)
{
    w = (w ^ w >> 30) * 0xbf58476d1ce4e5b9u;
    w = (w ^ w >> 27) * 0x94d049bb133111ebu;
    return w ^ w >> 31;
}

static uint64_t state = 20261115;
static double unit(void) { return (mixed(state += 0x9e3779b97f4a7c15u) >> 11) * 0x1p-53; }

/* An account in every form. A skewed matrix is the one before it, but for one cell that is not as its mirror. */
struct account {
    size_t assets;
    const char *linkage;                /* of HCAA and the merge step */
    double returns[ROWS * MOST], prices[(ROWS + 1) * MOST], expected[MOST];
    double covariance[MOST * MOST], skewed_covariance[MOST * MOST];
    double distances[MOST * MOST], skewed_distances[MOST * MOST];
    size_t length;
    uint8_t text[TEXT];
};
static struct account none, few = {.assets = FEW, .linkage = "ward"}, many = {.assets = MOST, .linkage = "ward"},
                      chain = {.assets = MOST, .linkage = "single"}, sheet = {.assets = LISTED}, strung = {.assets = LISTED}, sample,
                      hrp_days = {.assets = LISTED}, hcaa_days = {.assets = LISTED}, tail_days = {.assets = LISTED};

enum form { COVARIANCE, SKEWED, RETURNS, BOTH, PRICES, PRICES_SHRUNK };

struct job {
    const char *what;
    const struct kind *kind;
    const struct account *account;
    enum form form;
    const char *distance, *metric;
    uint8_t refusal;                    /* that it is answered by, or 0 */
};

/* A call, and whether what it has written is the answer of a job that was accepted. */
struct kind {
    uint8_t (*call)(const struct job *);
    int (*is_answer)(const struct job *);
};

/* What the library writes to. */
static size_t rows[2 * (MOST - 1)], order[MOST], asked[2], pairs[1], listed[1];
static double weights[MOST], correlations[MOST * MOST], distances[MOST * MOST], scratch[8192];
static uint8_t printed[32768];          /* a listing, or a sheet */

static const uint8_t *bytes(const char *name) { return (const uint8_t *)name; }
static int has_covariance(enum form f) { return f == COVARIANCE || f == SKEWED || f == BOTH; }
static int has_returns(enum form f) { return f == RETURNS || f == BOTH; }
static int has_prices(enum form f) { return f == PRICES || f == PRICES_SHRUNK; }
static const double *covariance_of(const struct job *j) { return j->form == SKEWED ? j->account->skewed_covariance : j->account->covariance; }
static const double *distances_of(const struct job *j) { return j->form == SKEWED ? j->account->skewed_distances : j->account->distances; }

static uint8_t call_hrp(const struct job *j)
{
    const struct account *a = j->account;
    size_t n = a->assets;
    return rovignesc_hrp(n,
                         a->prices, (ROWS + 1) * n, has_prices(j->form), ROWS + 1, n,
                         a->returns, ROWS * n, has_returns(j->form), ROWS, n,
                         covariance_of(j), n * n, has_covariance(j->form), n, n,
                         NULL, 0, j->form == PRICES_SHRUNK,
                         bytes(j->distance), strlen(j->distance),
                         rows, 2 * (n - 1), order, n, weights, n, correlations, n * n, distances, n * n, scratch, 8192);
}

static uint8_t call_hcaa(const struct job *j)
{
    const struct account *a = j->account;
    size_t n = a->assets;
    return rovignesc_hcaa(n,
                          a->prices, (ROWS + 1) * n, has_prices(j->form), ROWS + 1, n,
                          a->returns, ROWS * n, has_returns(j->form), ROWS, n,
                          covariance_of(j), n * n, has_covariance(j->form), n, n,
                          a->expected, n, 1,
                          bytes(j->metric), strlen(j->metric),
                          NULL, 0, 0.05, 0, 0, NULL, 0,
                          bytes(j->distance), strlen(j->distance), bytes(a->linkage), strlen(a->linkage),
                          rows, 2 * (n - 1), order, n, weights, n, scratch, 8192, asked, 2);
}

static uint8_t call_merge(const struct job *j)
{
    const struct account *a = j->account;
    size_t n = a->assets;
    return rovignesc_linkage_children(distances_of(j), n * n, n, n, bytes(a->linkage), strlen(a->linkage), rows, 2 * (n - 1), pairs, 1);
}

static uint8_t call_listing(const struct job *j) { return rovignesc_listing(j->account->text, j->account->length, printed, 8192, listed, 1); }
static uint8_t call_sheet(const struct job *j) { return rovignesc_sheet(j->account->text, j->account->length, 0, printed, 8192, listed, 1); }
static uint8_t call_named(const struct job *j) { return rovignesc_sheet(j->account->text, j->account->length, 1, printed, 32768, listed, 1); }
static uint8_t call_nothing(const struct job *j) { (void)j; return 0; }

/* A weight that is not finite leaves a total that is not. */
static int is_shared(const struct job *j)
{
    double total = 0;
    for (size_t i = 0; i < j->account->assets; i++) total += weights[i];
    return fabs(total - 1) < 1e-9;
}

static int is_merged(const struct job *j)
{
    size_t n = j->account->assets;
    return pairs[0] == (n * n * n - n) / 6;
}

static int is_listed(const struct job *j) { (void)j; return 0 < listed[0] && printed[listed[0] - 1] == '\n'; }
static int is_nothing(const struct job *j) { (void)j; return 1; }

/* Nothing of an earlier answer may pass for this one's. */
static void spoil(void)
{
    for (size_t i = 0; i < MOST; i++) weights[i] = NAN;
    pairs[0] = listed[0] = 0;
}

static const struct kind empty = {call_nothing, is_nothing}, hrp = {call_hrp, is_shared}, hcaa = {call_hcaa, is_shared},
                         merge = {call_merge, is_merged}, list = {call_listing, is_listed},
                         group = {call_sheet, is_listed}, group_named = {call_named, is_listed};

#define BETWEEN "distance_of_distances"
#define ALIKE "correlation"
#define VARIANCE "minimum_variance"
#define SHORTFALL "expected_shortfall"
#define DRAWDOWN "conditional_drawdown_risk"

/* The distances are bench/run's, but where the name has another. Distances of distances are symmetric even where the covariance is not. */
static const struct job jobs[] = {
    {"empty", &empty, &none, COVARIANCE, "", "", 0},
    {"hrp_covariance", &hrp, &few, COVARIANCE, BETWEEN, "", 0},
    {"hrp_covariance", &hrp, &many, COVARIANCE, BETWEEN, "", 0},
    {"hrp_returns", &hrp, &many, RETURNS, BETWEEN, "", 0},
    {"hrp_prices", &hrp, &many, PRICES, BETWEEN, "", 0},
    {"hrp_prices_shrunk", &hrp, &many, PRICES_SHRUNK, BETWEEN, "", 0},
    {"hrp_correlation", &hrp, &many, COVARIANCE, ALIKE, "", 0},
    {"hrp_correlation_skewed", &hrp, &many, SKEWED, ALIKE, "", 0},
    {"hrp_refused_distance", &hrp, &many, COVARIANCE, "euclid", "", 7},
    {"hcaa_covariance", &hcaa, &few, COVARIANCE, ALIKE, VARIANCE, 0},
    {"hcaa_covariance", &hcaa, &many, COVARIANCE, ALIKE, VARIANCE, 0},
    {"hcaa_covariance_skewed", &hcaa, &many, SKEWED, ALIKE, VARIANCE, 0},
    {"hcaa_distance_of_distances", &hcaa, &many, COVARIANCE, BETWEEN, VARIANCE, 0},
    {"hcaa_returns", &hcaa, &many, RETURNS, ALIKE, VARIANCE, 0},
    {"hcaa_prices", &hcaa, &many, PRICES, ALIKE, VARIANCE, 0},
    {"hcaa_sharpe", &hcaa, &many, RETURNS, ALIKE, "sharpe_ratio", 0},
    {"hcaa_shortfall", &hcaa, &many, RETURNS, ALIKE, SHORTFALL, 0},
    {"hcaa_drawdown", &hcaa, &many, RETURNS, ALIKE, DRAWDOWN, 0},
    {"hcaa_shortfall_chain", &hcaa, &chain, BOTH, ALIKE, SHORTFALL, 0},
    {"hcaa_drawdown_chain", &hcaa, &chain, BOTH, ALIKE, DRAWDOWN, 0},
    {"hcaa_refused_metric", &hcaa, &many, COVARIANCE, ALIKE, "variance", 2},
    {"merge_ward", &merge, &many, COVARIANCE, "", "", 0},
    {"merge_ward_skewed", &merge, &many, SKEWED, "", "", 0},
    {"listing_hcaa", &list, &sample, COVARIANCE, "", "", 0},
    {"listing_hrp", &list, &sheet, COVARIANCE, "", "", 0},
    {"listing_hrp_prices", &list, &hrp_days, PRICES, "", "", 0},
    {"listing_hcaa_prices", &list, &hcaa_days, PRICES, "", "", 0},
    {"listing_shortfall_prices", &list, &tail_days, PRICES, "", "", 0},
    {"sheet_hcaa", &group, &sample, COVARIANCE, "", "", 0},
    {"sheet_hrp", &group, &sheet, COVARIANCE, "", "", 0},
    {"sheet_names_hcaa", &group_named, &sample, COVARIANCE, "", "", 0},
    {"listing_hcaa_chain", &list, &strung, COVARIANCE, "", "", 0},
    {"sheet_hcaa_chain", &group, &strung, COVARIANCE, "", "", 0},
    {"sheet_names_hcaa_chain", &group_named, &strung, COVARIANCE, "", "", 0},
};

/* A place's word is its own, so that no callee happens to write it there. */
static uint64_t *stack;
static void paint(void) { for (size_t i = 0; i < DEPTH; i++) stack[i] = mixed(i); }

/* Always inlined: a frame of its own would be found in place of a small call's. */
static inline __attribute__((always_inline)) const void *deepest(void)
{
    size_t i = 0;
    while (i < DEPTH && stack[i] == mixed(i)) i++;
    return stack + i;
}

struct run {
    const struct job *job;
    uint8_t answer;
    size_t bytes;
};

static __attribute__((noinline)) void *run_job(void *of)
{
    struct run *r = of;
    const char *top = __builtin_frame_address(0);
    r->answer = r->job->kind->call(r->job);
    r->bytes = (size_t)(top - (const char *)deepest());
    return NULL;
}

static int run_on_paint(struct run *r)
{
    pthread_attr_t on;
    pthread_t thread;
    paint();
    if (pthread_attr_init(&on) != 0) return 0;
    int runs = pthread_attr_setstack(&on, stack, DEPTH * sizeof *stack) == 0 && pthread_create(&thread, &on, run_job, r) == 0;
    pthread_attr_destroy(&on);
    return runs && pthread_join(thread, NULL) == 0;
}

/* Answers whether the call went as it should. */
static int measure(const struct job *j)
{
    struct run r = {.job = j};
    spoil();
    if (!run_on_paint(&r)) return 0;
    printf("%s %zu %zu\n", j->what, j->account->assets, r.bytes);
    int right = r.answer == j->refusal && (r.answer != 0 || j->kind->is_answer(j));
    if (!right) fprintf(stderr, "%s: answered %u, and not as it should\n", j->what, r.answer);
    return right;
}

/* Half of an asset's return is the market's. */
static void earn(struct account *a)
{
    size_t n = a->assets;
    for (size_t t = 0; t < ROWS; t++) {
        double market = unit();
        for (size_t i = 0; i < n; i++) a->returns[t * n + i] = 0.02 * (market + unit() - 0.9);
    }
    for (size_t i = 0; i < n; i++) a->expected[i] = 0.001 + 0.001 * unit();
}

static void price(struct account *a)
{
    size_t n = a->assets;
    for (size_t i = 0; i < n; i++) a->prices[i] = 100;
    for (size_t k = 0; k < ROWS * n; k++) a->prices[k + n] = a->prices[k] * (1 + a->returns[k]);
}

static void part(struct account *a)
{
    size_t n = a->assets;
    for (size_t i = 0; i < n; i++)
        for (size_t j = 0; j < i; j++) a->distances[i * n + j] = a->distances[j * n + i] = unit();
}

static void skew(const double *cells, double *skewed, size_t n)
{
    memcpy(skewed, cells, n * n * sizeof *cells);
    skewed[1] *= 1.5;
}

static int fill(struct account *a)
{
    size_t n = a->assets;
    earn(a);
    price(a);
    part(a);
    if (rovignesc_covariance(a->returns, ROWS * n, ROWS, n, a->covariance, n * n) != 0) return 0;
    skew(a->covariance, a->skewed_covariance, n);
    skew(a->distances, a->skewed_distances, n);
    return 1;
}

/* By single linkage each asset then joins all those before it: no tree is deeper, and sharing down a tree goes as deep as the tree. */
static void string_out(struct account *a)
{
    size_t n = a->assets;
    for (size_t i = 0; i < n; i++)
        for (size_t j = 0; j <= i; j++) a->covariance[i * n + j] = a->covariance[j * n + i] = i == j ? 1 : 1 - (double)i / n;
}

/* The job text of an account's covariance, in hex, after this first line. */
static void write_text(struct account *a, const char *first)
{
    size_t n = a->assets;
    char *at = (char *)a->text;
    at += sprintf(at, "%s\n", first);
    for (size_t i = 0; i < n; i++) {
        *at++ = (char)('0' + i);
        for (size_t j = 0; j < n; j++) {
            uint64_t b;
            memcpy(&b, &a->covariance[i * n + j], 8);
            at += sprintf(at, "\t%016llx", (unsigned long long)b);
        }
        *at++ = '\n';
    }
    a->length = (size_t)(at - (char *)a->text);
}

/* The job text of an account's prices, in decimals, after this first line. */
static void write_days(struct account *a, const char *first)
{
    size_t n = a->assets;
    char *at = (char *)a->text;
    at += sprintf(at, "%s\tprices\n", first);
    for (size_t i = 0; i < n; i++) at += sprintf(at, "%c%c", (char)('0' + i), i + 1 < n ? '\t' : '\n');
    for (size_t k = 0; k < (ROWS + 1) * n; k++) at += sprintf(at, "%.2f%c", a->prices[k], (k + 1) % n ? '\t' : '\n');
    a->length = (size_t)(at - (char *)a->text);
}

/* A line for each asset, after the first line. */
static int read_text(struct account *a, const char *path)
{
    FILE *f = fopen(path, "rb");
    if (!f) return 0;
    a->length = fread(a->text, 1, TEXT, f);
    fclose(f);
    size_t lines = 0;
    for (size_t i = 0; i < a->length; i++) lines += a->text[i] == '\n';
    if (lines == 0) return 0;
    a->assets = lines - 1;
    return 1;
}

int main(int count, char **words)
{
    stack = mmap(NULL, DEPTH * sizeof *stack, PROT_READ | PROT_WRITE, MAP_PRIVATE | MAP_ANONYMOUS, -1, 0);
    if (stack == MAP_FAILED || count != 2 || !read_text(&sample, words[1])) return 2;
    if (!fill(&few) || !fill(&many) || !fill(&chain) || !fill(&sheet) || !fill(&hrp_days) || !fill(&hcaa_days) || !fill(&tail_days)) return 2;
    string_out(&chain);
    string_out(&strung);
    write_text(&sheet, "hrp\t" BETWEEN);
    write_text(&strung, "hcaa\t" VARIANCE "\tsingle\t" ALIKE "\t-");
    write_days(&hrp_days, "hrp\t" BETWEEN);
    write_days(&hcaa_days, "hcaa\t" VARIANCE "\tward\t" ALIKE "\t-");
    write_days(&tail_days, "hcaa\t" SHORTFALL "\tward\t" ALIKE "\t-");
    int right = 1;
    for (size_t i = 0; i < sizeof jobs / sizeof *jobs; i++) right &= measure(&jobs[i]);
    return !right;
}
