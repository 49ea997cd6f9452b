/* The curve, ranks and bands as another program calls them: the paper's values, refusals, and buffers that stay. */
#include <stdio.h>
#include <string.h>

#include "shtegomir.h"

static int failures;

static void expect(const char *what, unsigned long long found, unsigned long long wanted)
{
    if (found == wanted)
        return;
    failures++;
    printf("%s: %llu, expected %llu\n", what, found, wanted);
}

static void refused(const char *what, uint64_t refusal, uint64_t place, uint64_t number, uint64_t at)
{
    expect(what, refusal, number);
    expect("its place", place, at);
}

/* Q17 and E17, other ages 0 */
static void age17(uint32_t *figures, uint32_t q, uint32_t e)
{
    memset(figures, 0, 10 * sizeof *figures);
    figures[1] = q;
    figures[6] = e;
}

static void curve(void)
{
    static const uint32_t rates[][2] = {{24995, 2500}, {24994, 0}, {75004, 7500}, {75005, 0}};
    uint32_t figures[10], table[2000];
    struct shtegomir_curve a;
    for (int i = 0; i < 4; i++) {
        age17(figures, 100000, rates[i][0]);
        a = shtegomir_participation(figures, 10, table, 2000);
        expect("a rate", a.rate, rates[i][1]);
        refused("refusal of a rate", a.refusal, a.place, rates[i][1] ? 0 : SHTEGOMIR_WRONG_RATE, 0);
    }
    age17(figures, 40, 20);
    a = shtegomir_participation(figures, 10, table, 2000);
    expect("population", a.population, 40);
    expect("rate", a.rate, 5000);
    expect("entry 1", table[1], 0);
    expect("entry 500", table[500], 62500);
    expect("entry 1000", table[1000], 500000);
    expect("entry 1999", table[1999], 999999);
    age17(figures, 40, 1000001);
    table[7] = 77;
    a = shtegomir_participation(figures, 10, table, 2000);
    refused("a figure over", a.refusal, a.place, SHTEGOMIR_WRONG_POPULATION, 6);
    a = shtegomir_participation(figures, 10, table, 1999);
    refused("a short table", a.refusal, a.place, SHTEGOMIR_WRONG_LENGTH, 0);
    a = shtegomir_participation(figures, 9, table, 2000);
    refused("nine figures", a.refusal, a.place, SHTEGOMIR_WRONG_LENGTH, 0);
    expect("a table that stays", table[7], 77);
}

static void ranks(void)
{
    static const uint32_t values[3] = {35500, 36000, 35500};
    static uint32_t many[100001];
    uint32_t rank[3] = {9, 9, 9}, percentile[3] = {9, 9, 9};
    struct shtegomir_ranked a = shtegomir_rank(values, 3, rank, 3, percentile, 2);
    refused("a short buffer", a.refusal, a.place, SHTEGOMIR_WRONG_LENGTH, 0);
    a = shtegomir_rank(many, 100001, rank, 3, percentile, 3);
    refused("100001 values", a.refusal, a.place, SHTEGOMIR_TOO_MANY, 100000);
    expect("ranks that stay", rank[0], 9);
    expect("percentiles that stay", percentile[0], 9);
    a = shtegomir_rank(values, 3, rank, 3, percentile, 3);
    refused("ranks", a.refusal, a.place, SHTEGOMIR_ACCEPTED, 0);
    expect("a tied rank", rank[0], 2);
    expect("the highest rank", rank[1], 3);
    expect("a tied percentile", percentile[2], 66667);
    expect("the highest percentile", percentile[1], 100000);
}

static uint32_t table[2000];

static void fill_table(void)
{
    for (int k = 0; k < 2000; k++)
        table[k] = 1000000;
}

static void direct(void)
{
    static const uint32_t aggregates[3] = {40000, 40000, 30000}, over[3] = {40000, 50001, 30000};
    static uint32_t many[513];
    uint16_t band[3] = {9, 9, 9};
    fill_table();
    struct shtegomir_placed a = shtegomir_place_direct(many, 513, table, 2000, 2000, band, 3);
    refused("513 students", a.refusal, a.place, SHTEGOMIR_TOO_MANY, 512);
    a = shtegomir_place_direct(aggregates, 3, table, 2000, 0, band, 3);
    refused("nobody to place", a.refusal, a.place, SHTEGOMIR_WRONG_POPULATION, 0);
    a = shtegomir_place_direct(over, 3, table, 2000, 2000, band, 3);
    refused("an aggregate over", a.refusal, a.place, SHTEGOMIR_WRONG_AGGREGATE, 1);
    expect("bands that stay", band[0], 9);
    a = shtegomir_place_direct(aggregates, 3, table, 2000, 2000, band, 3);
    refused("bands", a.refusal, a.place, SHTEGOMIR_ACCEPTED, 0);
    expect("no remainder", a.remainder, 0);
    expect("99.90", band[0], 1998);
    expect("99.90 too", band[1], 1998);
    expect("99.85", band[2], 1997);
}

/* What is lent for ranks and bands in one call. */
struct lent {
    uint32_t rank[64], percentile[64], counts[50001];
    uint16_t band[64];
};

static struct lent lent, before;

static struct shtegomir_placed rank_and_place(const uint32_t *aggregates, size_t count, size_t entries, uint32_t population,
                                              size_t many)
{
    return shtegomir_rank_and_place(aggregates, count, table, entries, population, lent.rank, many, lent.percentile, many, lent.band,
                                    many, lent.counts, 50001);
}

/* All that is lent holds something, and is looked at again. */
static void fill_lent(void)
{
    memset(&lent, 9, sizeof lent);
    memcpy(&before, &lent, sizeof lent);
}

/* A refused call leaves all four buffers. */
static void left(const char *what, struct shtegomir_placed a, uint64_t number, uint64_t at)
{
    refused(what, a.refusal, a.place, number, at);
    expect("no remainder of a refused call", a.remainder, 0);
    expect("buffers that stay", memcmp(&lent, &before, sizeof lent) != 0, 0);
}

static unsigned long all_counts(void)
{
    unsigned long all = 0;
    for (int t = 0; t <= 50000; t++)
        all += lent.counts[t];
    return all;
}

/* The eligible students of the paper's example, 7, 8 and 11, of whom two are tied: from the curve to their lines of the listing. */
static void example(void)
{
    static const uint32_t aggregates[3] = {36000, 35500, 35500};
    uint32_t figures[10];
    age17(figures, 40, 20);
    struct shtegomir_curve c = shtegomir_participation(figures, 10, table, 2000);
    fill_lent();
    struct shtegomir_placed a = rank_and_place(aggregates, 3, 2000, c.population, 3);
    refused("ranks and bands", a.refusal, a.place, SHTEGOMIR_ACCEPTED, 0);
    expect("no remainder", a.remainder, 0);
    expect("rank of 7", lent.rank[0], 3);
    expect("rank of 8", lent.rank[1], 2);
    expect("rank of 11", lent.rank[2], 2);
    expect("percentile of 7", lent.percentile[0], 100000);
    expect("percentile of 8", lent.percentile[1], 66667);
    expect("percentile of 11", lent.percentile[2], 66667);
    expect("97.45", lent.band[0], 1949);
    expect("92.45", lent.band[1], 1849);
    expect("92.45 too", lent.band[2], 1849);
    expect("the tally of one", lent.counts[36000], 1);
    expect("the tally of two", lent.counts[35500], 2);
    expect("the tally of all", all_counts(), 3);
}

/* Y=1, two different. */
static void one_place(void)
{
    static const uint32_t aggregates[2] = {40000, 30000};
    fill_table();
    fill_lent();
    struct shtegomir_placed a = rank_and_place(aggregates, 2, 2000, 1, 2);
    refused("one place", a.refusal, a.place, SHTEGOMIR_ACCEPTED, 0);
    expect("the remainder", a.remainder, 1);
    expect("band 0", lent.band[0], 0);
    expect("band 0 too", lent.band[1], 0);
    expect("the higher rank", lent.rank[0], 2);
    expect("the lower percentile", lent.percentile[1], 50000);
    expect("a tally of one", lent.counts[40000], 1);
}

/* Halves up: of 64, rank 1 is 1.5625 and rank 63 is 98.4375. */
static void halves(void)
{
    uint32_t aggregates[64];
    for (uint32_t i = 0; i < 64; i++)
        aggregates[i] = i;
    fill_table();
    fill_lent();
    struct shtegomir_placed a = rank_and_place(aggregates, 64, 2000, 2000, 64);
    refused("64 students", a.refusal, a.place, SHTEGOMIR_ACCEPTED, 0);
    expect("1.563", lent.percentile[0], 1563);
    expect("98.438", lent.percentile[62], 98438);
}

/* Every rule is broken at first, and then kept, one after another, in their order. */
static void order(void)
{
    static uint32_t many[100001];
    fill_table();
    fill_lent();
    many[2] = 50001;
    table[9] = 1000001;
    left("100001 students", rank_and_place(many, 100001, 1999, 0, 3), SHTEGOMIR_TOO_MANY, 100000);
    left("a short table", rank_and_place(many, 3, 1999, 0, 3), SHTEGOMIR_WRONG_LENGTH, 0);
    left("short buffers", rank_and_place(many, 3, 2000, 0, 2), SHTEGOMIR_WRONG_LENGTH, 0);
    left("a population of zero", rank_and_place(many, 3, 2000, 0, 3), SHTEGOMIR_WRONG_POPULATION, 0);
    left("a population over 1000000", rank_and_place(many, 3, 2000, 1000001, 3), SHTEGOMIR_WRONG_POPULATION, 0);
    left("an entry over", rank_and_place(many, 3, 2000, 1000000, 3), SHTEGOMIR_WRONG_ENTRY, 9);
    table[9] = 1000000;
    left("an aggregate over", rank_and_place(many, 3, 2000, 1000000, 3), SHTEGOMIR_WRONG_AGGREGATE, 2);
    many[2] = 50000;
    struct shtegomir_placed a = rank_and_place(many, 3, 2000, 1000000, 3);
    refused("nothing wrong", a.refusal, a.place, SHTEGOMIR_ACCEPTED, 0);
    expect("the top aggregate", lent.counts[50000], 1);
}

int main(void)
{
    curve();
    ranks();
    direct();
    example();
    one_place();
    halves();
    order();
    printf(failures ? "cohorts: %d wrong\n" : "cohorts: all as it must be\n", failures);
    return failures != 0;
}
