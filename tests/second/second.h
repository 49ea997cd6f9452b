/* A second implementation of the office's paper, outside the proofs: each entry as the paper's words have it, in plain loops.
 *
 * Refusal 0 is accepted, with place 0. Refused: every other field is 0, and nothing is written. The bytes are those of the paper,
 * big-endian; arrays of numbers are the machine's own. No pointer may be NULL where its length is not 0.
 */
#ifndef SECOND_H
#define SECOND_H

#include <stddef.h>
#include <stdint.h>

struct second_best {
    uint64_t refusal, place;
    uint32_t aggregate;      /* the sum of the five scores in hundredths, nearest, halves up */
    uint32_t sum;            /* unrounded, in ten-thousandths */
    uint16_t set;            /* bit i for result i */
    uint16_t set_by_rounded; /* no answer of the paper's: the set that would be given if sets went by their rounded sums */
};

struct second_curve {
    uint64_t refusal, place;
    uint32_t population; /* Y */
    uint32_t rate;       /* r, in ten-thousandths */
};

struct second_scored {
    uint64_t refusal, place;
};

struct second_ranked {
    uint64_t refusal, place;
};

struct second_placed {
    uint64_t refusal, place;
    uint32_t remainder; /* the students for whom C doesn't fit band 0 either */
};

struct second_text {
    uint64_t refusal, place, length; /* the length of the text */
    uint32_t tied_by_rounding;       /* the students whose aggregate another has too, from another unrounded sum */
};

/* Refused: catalogue 1, 2, 3; table length 11; year 14; results 1, 2; for each result in turn 3, 4, 5; then 6, 7, 8. */
struct second_best second_best_set(const uint8_t *catalogue, size_t catalogue_len, const uint8_t *table, size_t table_len,
                                   uint32_t year, const uint8_t *results, size_t results_len);

/* First scores from counts: the subject's row of the table is written. Refused: 3, 11, 15. */
struct second_scored second_first_scores(uint32_t kind, uint32_t subject, const uint32_t *counts, size_t counts_len, uint8_t *table,
                                         size_t table_len);

/* The figures are Q16..Q20, E16..E20; 2000 entries are written. Refused: 11, 9, 10. */
struct second_curve second_participation(const uint32_t *figures, size_t figures_len, uint32_t *table, size_t table_len);

/* A rank and a percentile, in thousandths, for each of up to 100000 values; each is counted, which takes seconds for 100000.
 * Refused: 2, 11. */
struct second_ranked second_rank(const uint32_t *values, size_t values_len, uint32_t *ranks, size_t ranks_len,
                                 uint32_t *percentiles, size_t percentiles_len);

/* A band for each of up to 512 students, by direct count. Refused: 2, 11, 9, 13, 12. */
struct second_placed second_place_direct(const uint32_t *aggregates, size_t aggregates_len, const uint32_t *table, size_t table_len,
                                         uint32_t population, uint16_t *bands, size_t bands_len);

/* A rank, a percentile and a band for each of up to 100000 students, and a tally of 50001 counts: entry t is left with the number of
 * students with aggregate t. All are read off the students in order of their aggregates. Refused: 2, 11, 9, 13, 12. */
struct second_placed second_rank_and_place(const uint32_t *aggregates, size_t aggregates_len, const uint32_t *table,
                                           size_t table_len, uint32_t population, uint32_t *ranks, size_t ranks_len,
                                           uint32_t *percentiles, size_t percentiles_len, uint16_t *bands, size_t bands_len,
                                           uint32_t *counts, size_t counts_len);

/* The listing of a cohort file, in front of a text of 65536 bytes, whose rest stays as it was. Refused: 11 at 0, a text of another
 * length. A refused file is an accepted call: its text is the line `refused`, number, place. */
struct second_text second_report(const uint8_t *file, size_t file_len, uint8_t *text, size_t text_len);

#endif
