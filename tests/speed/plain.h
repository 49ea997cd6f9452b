/* The same jobs in plain C, as one would write them without proofs: they judge what the library judges, in the same order, and give
 * its answers.
 */
#ifndef PLAIN_H
#define PLAIN_H

#include "shtegomir.h"

/* Scores are in ten-thousandths; in bytes a missing one is all 255. */
enum { SLOTS = 100, SCORE_BYTES = 4, ROW_BYTES = SCORE_BYTES * SLOTS, TOP_SCORE = 1000000, HUNDREDTH = 100 };

#define MISSING_SCORE UINT32_MAX

struct shtegomir_best plain_best_set(const uint8_t *catalogue, size_t catalogue_len, const uint8_t *table, size_t table_len,
                                     uint32_t year, const uint8_t *results, size_t results_len);

struct shtegomir_scored plain_first_scores(uint32_t kind, uint32_t subject, const uint32_t *counts, size_t counts_len, uint8_t *table,
                                           size_t table_len);

struct shtegomir_curve plain_participation(const uint32_t *figures, size_t figures_len, uint32_t *table, size_t table_len);

/* Sorts by the C library's qsort; its room comes from malloc. */
struct shtegomir_ranked plain_rank(const uint32_t *values, size_t values_len, uint32_t *ranks, size_t ranks_len,
                                   uint32_t *percentiles, size_t percentiles_len);

struct shtegomir_placed plain_place_direct(const uint32_t *aggregates, size_t aggregates_len, const uint32_t *table,
                                           size_t table_len, uint32_t population, uint16_t *bands, size_t bands_len);

/* Bands by tally alone, for which the library has no entry: for plain_report, and for the two calls of speed.c. */
struct shtegomir_placed plain_place_tally(const uint32_t *aggregates, size_t aggregates_len, const uint32_t *table,
                                          size_t table_len, uint32_t population, uint16_t *bands, size_t bands_len,
                                          uint32_t *counts, size_t counts_len);

struct shtegomir_placed plain_rank_and_place(const uint32_t *aggregates, size_t aggregates_len, const uint32_t *table,
                                             size_t table_len, uint32_t population, uint32_t *ranks, size_t ranks_len,
                                             uint32_t *percentiles, size_t percentiles_len, uint16_t *bands, size_t bands_len,
                                             uint32_t *counts, size_t counts_len);

/* Bands by tally, whose counts are kept from call to call: they are the faster ones for a full file too. */
struct shtegomir_text plain_report(const uint8_t *file, size_t file_len, uint8_t *text, size_t text_len);

#endif
