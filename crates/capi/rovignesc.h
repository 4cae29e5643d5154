/* Rovignesc: the engine for C. Link target/native/libcapi.a (bench/native-staticlib capi builds it for this machine).

   Every call takes any input. It answers document 01's refusal number, or 0 where the job is accepted.
   After a refusal every lent answer and scratch entry is zero; after an accepted job everything past the answer is, and all scratch. The one thing that
   is not zero after a refusal are the two numbers of asked after 6: document 01 has that refusal return them, and a C call can return them nowhere else.
   Inputs never change. A slice is a pointer and its number of entries; where that is 0 the pointer is not read.
   The lent buffers of one call must not overlap each other or its inputs.

   A flag is false where it is 0. A matrix is a slice, a flag that says whether it is given, its rows and its columns; cell (r, c) is entry
   r * columns + c. Names are bytes: distance "correlation" or "distance_of_distances", linkage "single", "complete", "average" or "ward"
   (any case; else 7, 8), a metric "minimum_variance", "minimum_standard_deviation", "sharpe_ratio", "equal_weighting", "expected_shortfall" or
   "conditional_drawdown_risk" (as written; else 2).
   A name of linkage or distance that is unknown is refused after 9, 10 and 11 and before everything else, 8 before 7.

   Of n assets the rows take 2(n - 1) numbers, the order n, the weights n, each seriated matrix n * n, scratch at least 8192. */
#ifndef ROVIGNESC_H
#define ROVIGNESC_H

#include <stddef.h>
#include <stdint.h>

#ifdef __cplusplus
extern "C" {
#endif

/* The square root of x, correctly rounded. A NaN answer has the bits 7ff8000000000000. */
double rovignesc_sqrt(double x);

/* Hierarchical risk parity: the tree, its leaf order, the weights, and the correlations and distances in that order. */
uint8_t rovignesc_hrp(size_t assets,
                      const double *prices, size_t prices_len, uint8_t prices_given, size_t prices_rows, size_t prices_columns,
                      const double *returns, size_t returns_len, uint8_t returns_given, size_t returns_rows, size_t returns_columns,
                      const double *covariance, size_t covariance_len, uint8_t covariance_given, size_t covariance_rows, size_t covariance_columns,
                      const uint8_t *resample_by, size_t resample_by_len,
                      uint8_t use_shrinkage,
                      const uint8_t *distance, size_t distance_len,
                      size_t *rows, size_t rows_len,
                      size_t *order, size_t order_len,
                      double *weights, size_t weights_len,
                      double *seriated_correlations, size_t seriated_correlations_len,
                      double *seriated_distances, size_t seriated_distances_len,
                      double *scratch, size_t scratch_len);

/* Hierarchical clustering-based asset allocation: the tree, its leaf order and the weights. expected_given and clusters_given are flags:
   without clusters the tree is split down to single assets. confidence is the part of the days that expected_shortfall and
   conditional_drawdown_risk count as bad, from 0 to 1 (else 17, after 16 where there are no return rows); no other metric reads it. asked has room for
   two numbers (else 11): after refusal 6 the clusters that were asked for and the assets, else zeros. */
uint8_t rovignesc_hcaa(size_t assets,
                       const double *prices, size_t prices_len, uint8_t prices_given, size_t prices_rows, size_t prices_columns,
                       const double *returns, size_t returns_len, uint8_t returns_given, size_t returns_rows, size_t returns_columns,
                       const double *covariance, size_t covariance_len, uint8_t covariance_given, size_t covariance_rows, size_t covariance_columns,
                       const double *expected, size_t expected_len, uint8_t expected_given,
                       const uint8_t *metric, size_t metric_len,
                       const uint8_t *method, size_t method_len,
                       double confidence,
                       uint8_t clusters_given, size_t clusters,
                       const uint8_t *resample_by, size_t resample_by_len,
                       const uint8_t *distance, size_t distance_len,
                       const uint8_t *linkage, size_t linkage_len,
                       size_t *rows, size_t rows_len,
                       size_t *order, size_t order_len,
                       double *weights, size_t weights_len,
                       double *scratch, size_t scratch_len,
                       size_t *asked, size_t asked_len);

/* The covariance of the columns of a matrix of returns, columns * columns cells (else 11), each pair of columns once and copied across. Under two
   rows is 1. */
uint8_t rovignesc_covariance(const double *returns, size_t returns_len, size_t returns_rows, size_t returns_columns,
                             double *covariance, size_t covariance_len);

/* The merge step: the rows of the tree of a matrix of distances, two numbers each. pairs has room for one number (else 11): how many pairs of slots were
   looked at, (n^3 - n) / 6 of n assets, n at least 1; zero after a refusal. */
uint8_t rovignesc_linkage_children(const double *distances, size_t distances_len, size_t distances_rows, size_t distances_columns,
                                   const uint8_t *linkage, size_t linkage_len,
                                   size_t *rows, size_t rows_len,
                                   size_t *pairs, size_t pairs_len);

/* The leaf order: the leaves under a node of the tree of given merge rows. leaves has room for one number (else 11): how many there are. */
uint8_t rovignesc_quasi_diagonalization(const size_t *rows, size_t rows_len, size_t assets, size_t node,
                                        size_t *order, size_t order_len,
                                        size_t *leaves, size_t leaves_len);

/* A job text to its listing. The listing takes at least 8192 bytes (else 11); bytes has room for one number (else 11): how many bytes of it there
   are. A refused text has no listing: every byte is zero, and the number too.
   The millionths of a listing total 1,000,000; where they cannot, nobody's moved by more than one, the text is refused by 18. Where the text has
   ceilings, each line has the asset's as a fourth field, and no millionths are above it; where they total less than 1,000,000 the text is refused by 20. */
uint8_t rovignesc_listing(const uint8_t *text, size_t text_len,
                          uint8_t *listing, size_t listing_len,
                          size_t *bytes, size_t bytes_len);

/* A job text to its sheet: a line for each node of its tree, from the root down, left first: depth, size and the subtotal of the listing's millionths
   (after ceilings), with tabs between. With names (named is not 0) the same lines, each indented by two spaces for each node above, and the asset's name after a tab on a
   leaf's. The sheet takes at least 8192 bytes, 32768 with names (else 11); bytes has room for one number (else 11): how many bytes of it there are. A
   refused text has no sheet: every byte is zero, and the number too.
   The first line's subtotal, the root's, is 1,000,000, and each branch's is the sum of its two children's. */
uint8_t rovignesc_sheet(const uint8_t *text, size_t text_len, uint8_t named,
                        uint8_t *sheet, size_t sheet_len,
                        size_t *bytes, size_t bytes_len);

/* The line of a refusal's number: "refused", tab, number, newline, 12 bytes at most. The line takes as many (else 11); bytes has room for one number
   (else 11): how many bytes of it there are. */
uint8_t rovignesc_refusal_line(uint8_t number,
                               uint8_t *line, size_t line_len,
                               size_t *bytes, size_t bytes_len);

#ifdef __cplusplus
}
#endif

#endif
