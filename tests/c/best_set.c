/* The best set as the record system calls it: students 7, 8 and 9 of the paper's example, calls that are refused, results over many
 * years, and scores that are not whole hundredths. */
#include <stdio.h>
#include <string.h>

#include "shtegomir.h"

enum { ENGLISH, METHODS, BIOLOGY, CHEMISTRY, ESSENTIAL, PHYSICS, HOSPITALITY, SUBJECTS };

static const uint8_t catalogue[5 * SUBJECTS] = {
    1, 1, 0, 0, 1, /* English */
    1, 2, 0, 0, 2, /* Mathematical Methods */
    1, 0, 0, 0, 3, /* Biology */
    1, 0, 0, 0, 4, /* Chemistry */
    4, 2, 0, 0, 0, /* Essential Mathematics, Applied */
    1, 0, 0, 0, 5, /* Physics */
    4, 0, 0, 0, 0, /* Hospitality, Applied */
};

/* A score is in ten-thousandths. */
enum { SLOTS = 100, SCORE = 4, ROW = SCORE * SLOTS, ONE = 10000, TOP = 100 * ONE };

#define MISSING UINT32_MAX

static uint8_t table[ROW * SUBJECTS];
static int failures;

static void score(int subject, int slot, uint32_t value)
{
    const uint8_t bytes[SCORE] = {(uint8_t)(value >> 24), (uint8_t)(value >> 16), (uint8_t)(value >> 8), (uint8_t)value};
    memcpy(table + ROW * subject + SCORE * (slot - 1), bytes, SCORE);
}

static void fill_table(void)
{
    memset(table, 255, sizeof table);
    for (int subject = 0; subject < SUBJECTS; subject++)
        for (int slot = 1; catalogue[5 * subject] == 1 && slot <= SLOTS; slot++)
            score(subject, slot, (uint32_t)slot * ONE);
    score(ESSENTIAL, 90, 95 * ONE);
    score(HOSPITALITY, 70, 60 * ONE);
}

/* Results are written one after another. */
struct results {
    uint8_t bytes[6 * 17];
    size_t length;
};

static void add_of(struct results *r, int subject, char letter, int number, int year)
{
    const uint8_t bytes[6] = {0, (uint8_t)subject, (uint8_t)letter, (uint8_t)number, (uint8_t)(year >> 8), (uint8_t)year};
    memcpy(r->bytes + r->length, bytes, 6);
    r->length += 6;
}

static void add(struct results *r, int subject, char letter, int number)
{
    add_of(r, subject, letter, number, 2021);
}

static void expect(const char *what, struct shtegomir_best a, uint64_t refusal, uint64_t place, uint32_t aggregate,
                   uint16_t set)
{
    if (a.refusal == refusal && a.place == place && a.aggregate == aggregate && a.set == set)
        return;
    failures++;
    printf("%s: refusal %llu at %llu, aggregate %lu, set %#x; expected refusal %llu at %llu, aggregate %lu, set %#x\n", what,
           (unsigned long long)a.refusal, (unsigned long long)a.place, (unsigned long)a.aggregate, (unsigned)a.set,
           (unsigned long long)refusal, (unsigned long long)place, (unsigned long)aggregate, (unsigned)set);
}

static struct shtegomir_best ask(const struct results *r, uint32_t year)
{
    return shtegomir_best_set(catalogue, sizeof catalogue, table, sizeof table, year, r->bytes, r->length);
}

static struct results of(int english, int methods, int biology, int chemistry)
{
    struct results r = {{0}, 0};
    add(&r, ENGLISH, 'B', english);
    add(&r, METHODS, 'B', methods);
    add(&r, BIOLOGY, 'B', biology);
    add(&r, CHEMISTRY, 'B', chemistry);
    add(&r, ESSENTIAL, 'A', 0);
    return r;
}

/* English, Methods, Biology, Chemistry and Physics with 60.00 each, of these years. */
static struct results over(int english, int methods, int biology, int chemistry, int physics)
{
    struct results r = {{0}, 0};
    add_of(&r, ENGLISH, 'C', 60, english);
    add_of(&r, METHODS, 'B', 60, methods);
    add_of(&r, BIOLOGY, 'B', 60, biology);
    add_of(&r, CHEMISTRY, 'B', 60, chemistry);
    add_of(&r, PHYSICS, 'B', 60, physics);
    return r;
}

/* Any five consecutive years, all asked in 2021. */
static void years(void)
{
    struct results mature = over(2012, 2013, 2014, 2015, 2016), longer = over(2013, 2016, 2014, 2011, 2015);
    expect("a span of four", ask(&mature, 2021), 0, 0, 30000, 0x1f);
    expect("a span of five", ask(&longer, 2021), SHTEGOMIR_NO_SET, 0, 0, 0);

    struct results better = over(2012, 2013, 2014, 2016, 2016), english = over(1990, 2012, 2013, 2014, 2015);
    better.bytes[3] = 50; /* English */
    add_of(&better, HOSPITALITY, 'B', 0, 2011);
    expect("290.00 in a span of four, 300.00 in one of five", ask(&better, 2021), 0, 0, 29000, 0x1f);
    add_of(&english, HOSPITALITY, 'B', 0, 2016);
    expect("English of 1990, which is not in the five", ask(&english, 2021), 0, 0, 30000, 0x3e);

    struct results repeated = mature, other = mature, missing = mature, again = mature;
    add(&repeated, ENGLISH, 'C', 70);
    expect("English of 2012, repeated in 2021", ask(&repeated, 2021), SHTEGOMIR_NO_SET, 0, 0, 0);
    add(&other, HOSPITALITY, 'B', 0);
    expect("a result that is in no set", ask(&other, 2021), 0, 0, 30000, 0x1f);
    add_of(&missing, ESSENTIAL, 'C', 0, 1990);
    expect("a missing slot of 1990", ask(&missing, 2021), SHTEGOMIR_WRONG_SCORE, 5, 0, 0);
    add_of(&again, BIOLOGY, 'B', 60, 1990);
    add_of(&again, BIOLOGY, 'B', 70, 1990);
    expect("two of one subject in 1990", ask(&again, 2021), SHTEGOMIR_AGAIN, 6, 0, 0);
}

/* Five of 60.0000, of which the last, Physics, has this score. */
static struct shtegomir_best with(uint32_t physics)
{
    struct results five = over(2021, 2021, 2021, 2021, 2021);
    score(PHYSICS, 60, physics);
    struct shtegomir_best best = ask(&five, 2021);
    score(PHYSICS, 60, 60 * ONE);
    return best;
}

/* Five of this score. */
static struct shtegomir_best five_of(uint32_t value)
{
    struct results five = over(2021, 2021, 2021, 2021, 2021);
    for (int subject = 0; subject < SUBJECTS; subject++)
        score(subject, 60, value);
    struct shtegomir_best best = ask(&five, 2021);
    fill_table();
    return best;
}

/* Five of 60.0000 and then Hospitality, of this score. */
static struct shtegomir_best and_hospitality(uint32_t value)
{
    struct results six = over(2021, 2021, 2021, 2021, 2021);
    add(&six, HOSPITALITY, 'B', 0);
    score(HOSPITALITY, 70, value);
    struct shtegomir_best best = ask(&six, 2021);
    score(HOSPITALITY, 70, 60 * ONE);
    return best;
}

/* The greatest score, what is over it, and 65535, which was missing when scores were in hundredths. */
static void limits(void)
{
    expect("1000000", with(TOP), 0, 0, 34000, 0x1f); /* 2400000 + 1000000 = 3400000 */
    expect("1000001", with(TOP + 1), SHTEGOMIR_WRONG_SCORE, 4, 0, 0);
    expect("4294967294", with(MISSING - 1), SHTEGOMIR_WRONG_SCORE, 4, 0, 0);
    expect("4294967295, which is missing", with(MISSING), SHTEGOMIR_WRONG_SCORE, 4, 0, 0);
    expect("65535", with(65535), 0, 0, 24655, 0x1f); /* 2400000 + 65535 = 2465535, 246.5535 */
    expect("0", with(0), 0, 0, 24000, 0x1f);
    expect("five of 1000000", five_of(TOP), 0, 0, 50000, 0x1f);
    expect("five of 0", five_of(0), 0, 0, 0, 0x1f);
}

/* The sum alone is rounded, to the nearest hundredth, halves up. */
static void rounding(void)
{
    expect("240.0049", with(49), 0, 0, 24000, 0x1f);
    expect("240.0050", with(50), 0, 0, 24001, 0x1f);
    expect("240.0051", with(51), 0, 0, 24001, 0x1f);
    expect("240.0149", with(149), 0, 0, 24001, 0x1f);
    expect("five of 60.0010", five_of(60 * ONE + 10), 0, 0, 30001, 0x1f); /* 300.0050; five of 60.00 are 300.00 */
    expect("five of 60.0050", five_of(60 * ONE + 50), 0, 0, 30003, 0x1f); /* 300.0250; five of 60.01 are 300.05 */
    expect("five of 99.9990", five_of(TOP - 10), 0, 0, 50000, 0x1f);      /* 499.9950 */
    expect("five of 99.9989", five_of(TOP - 11), 0, 0, 49999, 0x1f);      /* 499.9945 */
}

/* Sets go by their unrounded sums. The five Generals have 300.0000, and come first in dictionary order; four of them with
 * Hospitality, of which 0, 1, 2, 3, 5 come first, have 240.0000 and its score. By rounded sums 300.0001 would be no more
 * than 300.0000, and the set 0x1f. */
static void unrounded(void)
{
    expect("300.0001, and 300.0000 first", and_hospitality(60 * ONE + 1), 0, 0, 30000, 0x2f);
    expect("300.0000 twice", and_hospitality(60 * ONE), 0, 0, 30000, 0x1f);
    expect("299.9999, and 300.0000 first", and_hospitality(60 * ONE - 1), 0, 0, 30000, 0x1f);
    expect("300.0050, and 300.0000 first", and_hospitality(60 * ONE + 50), 0, 0, 30001, 0x2f);
}

int main(void)
{
    fill_table();
    struct results seven = of(70, 90, 80, 75), eight = of(50, 90, 80, 75), nine = of(70, 60, 80, 75);
    add(&seven, PHYSICS, 'B', 40);
    add(&eight, HOSPITALITY, 'B', 0);
    expect("student 7", ask(&seven, 2021), 0, 0, 36000, 0x3d);
    expect("student 8", ask(&eight, 2021), 0, 0, 35500, 0x2f);
    expect("student 9", ask(&nine, 2021), SHTEGOMIR_NO_SET, 0, 0, 0);

    struct results none = {{0}, 0}, cut = seven, many = {{0}, 0}, unknown = seven, missing = seven;
    expect("no results", ask(&none, 2021), SHTEGOMIR_NO_ENGLISH, 0, 0, 0);
    expect("year 1983", ask(&seven, 1983), SHTEGOMIR_WRONG_YEAR, 0, 0, 0);
    expect("year 65536 + 2021", ask(&seven, 65536 + 2021), SHTEGOMIR_WRONG_YEAR, 0, 0, 0);
    expect("years later", ask(&seven, 2026), 0, 0, 36000, 0x3d);
    expect("a year before", ask(&seven, 2020), SHTEGOMIR_WRONG_RESULT, 0, 0, 0);
    cut.length -= 1;
    expect("a result cut short", ask(&cut, 2021), SHTEGOMIR_MALFORMED, 5, 0, 0);
    for (int i = 0; i < 17; i++)
        add(&many, ENGLISH, 'B', 50);
    expect("17 results", ask(&many, 2021), SHTEGOMIR_TOO_MANY, 16, 0, 0);
    unknown.bytes[6 * 3 + 1] = SUBJECTS;
    expect("a subject not in the catalogue", ask(&unknown, 2021), SHTEGOMIR_WRONG_SUBJECT, 3, 0, 0);
    missing.bytes[6 * 4 + 2] = 'C';
    expect("a missing slot", ask(&missing, 2021), SHTEGOMIR_WRONG_SCORE, 4, 0, 0);
    expect("a short table",
           shtegomir_best_set(catalogue, sizeof catalogue, table, sizeof table - 1, 2021, seven.bytes, seven.length),
           SHTEGOMIR_WRONG_LENGTH, 0, 0, 0);
    expect("a catalogue cut short",
           shtegomir_best_set(catalogue, sizeof catalogue - 1, table, sizeof table, 2021, seven.bytes, seven.length),
           SHTEGOMIR_MALFORMED, 6, 0, 0);
    years();
    limits();
    rounding();
    unrounded();

    printf(failures ? "best_set: %d wrong\n" : "best_set: all as it must be\n", failures);
    return failures != 0;
}
