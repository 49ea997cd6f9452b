/* Numbers by chance, and the years of a student's results: the same ones for the same seed. */
#ifndef CHANCE_H
#define CHANCE_H

#include <stddef.h>
#include <stdint.h>

void seed_chance(uint64_t seed);

/* 0 to limit - 1; the limit is at most 2 to the 32, and for 0 it gives 0. */
uint32_t below(uint64_t limit);

uint32_t from(uint32_t least, uint32_t greatest);

int chance(unsigned percent);

uint32_t pick(const uint32_t *of, size_t count);

#define ONE_OF(...) pick((const uint32_t[]){__VA_ARGS__}, sizeof((const uint32_t[]){__VA_ARGS__}) / sizeof(uint32_t))

/* How the years of one student's results lie: in one year, in a stretch of five, around spans of four and five, over nine years, in a
 * stretch and again in the assessment year, over decades. They end in the assessment year, or before it. */
struct years {
    uint32_t manner, last, assessment;
};

struct years some_years(uint32_t assessment);

/* One of them, 1980 to the assessment year. */
uint32_t year_of(struct years y);

/* A year from which English may be shown: any. */
uint32_t any_year(struct years y);

/* So many years before it, but not before 1980. */
uint32_t years_before(uint32_t year, uint32_t many);

#endif
