/* The paper once more, in the simplest way: see second.h. */
#include "second.h"

#include <inttypes.h>
#include <stdarg.h>
#include <stdio.h>
#include <stdlib.h>
#include <string.h>

enum {
    SUBJECTS = 64, RESULTS = 16, STUDENTS = 512, TALLIED = 100000, FILE_BYTES = 65536, TEXT_BYTES = 65536,
    ENTRY = 5, RESULT = 6, SLOTS = 100, SCORE = 4, ROW = SCORE * SLOTS, BANDS = 2000, AGGREGATES = 50001,
    FIRST_YEAR = 1980, TOP_SCORE = 1000000, HUNDREDTH = 100, MILLION = 1000000 /* scores are in ten-thousandths */
};

#define MISSING UINT32_MAX

/* Number 0 is no refusal. */
struct refusal {
    uint64_t number, place;
};

static struct refusal refused(uint64_t number, uint64_t place)
{
    struct refusal r = {number, place};
    return r;
}

static struct refusal accepted(void)
{
    return refused(0, 0);
}

/* All numbers are big-endian. */
static uint32_t two(const uint8_t *bytes)
{
    return 256u * bytes[0] + bytes[1];
}

static uint32_t four(const uint8_t *bytes)
{
    return 65536u * two(bytes) + two(bytes + 2);
}

/* To the nearest whole, halves up. */
static uint64_t nearest(uint64_t above, uint64_t below)
{
    return (2 * above + below) / (2 * below);
}

/* ---- Subjects, results and scores ---- */

enum { GENERAL = 1, EXTENSION = 2, EXTERNAL = 3, APPLIED = 4, SHORT_COURSE = 5, VET = 6 };
enum { ENGLISH = 1, MATHEMATICS = 2 };

struct subject {
    uint32_t kind, strand, level, identity;
};

struct result {
    uint32_t place; /* of the subject in the catalogue */
    uint32_t letter, number, year;
};

static struct subject subject_at(const uint8_t *catalogue, size_t index)
{
    const uint8_t *entry = catalogue + ENTRY * index;
    struct subject s = {entry[0], entry[1], entry[2], two(entry + 3)};
    return s;
}

static struct result result_at(const uint8_t *results, size_t index)
{
    const uint8_t *bytes = results + RESULT * index;
    struct result r = {two(bytes), bytes[2], bytes[3], two(bytes + 4)};
    return r;
}

static int within(uint32_t value, uint32_t least, uint32_t greatest)
{
    return least <= value && value <= greatest;
}

/* Kinds 1 to 3 count as General. */
static int is_general(struct subject s)
{
    return within(s.kind, GENERAL, EXTERNAL);
}

/* Kinds 1 and 3 have an identity. */
static int has_identity(struct subject s)
{
    return s.kind == GENERAL || s.kind == EXTERNAL;
}

static int entry_in_its_ranges(struct subject s)
{
    if (!within(s.kind, GENERAL, VET))
        return 0;
    if (s.strand > (s.kind == SHORT_COURSE || s.kind == VET ? 0 : MATHEMATICS))
        return 0;
    if (s.kind == VET ? !within(s.level, 1, 6) : s.level != 0)
        return 0;
    return has_identity(s) ? s.identity >= 1 : s.identity == 0;
}

static int letter_and_number_right(struct subject s, struct result r)
{
    if (s.kind == VET)
        return (r.letter == 'Y' || r.letter == 'N') && r.number == 0;
    if (!within(r.letter, 'A', 'E'))
        return 0;
    return is_general(s) ? within(r.number, 1, 100) : r.number == 0;
}

/* Usable: kinds 1 to 4, or VET with `Y` and level 3 or more. It has no year rule. */
static int is_usable(struct subject s, struct result r)
{
    if (s.kind == VET)
        return r.letter == 'Y' && s.level >= 3;
    return within(s.kind, GENERAL, APPLIED);
}

/* General uses the slot of its number. Applied uses A=90, B=70, C=50, D=30, E=10. VET uses slot 1. */
static uint32_t slot_of(struct subject s, struct result r)
{
    if (is_general(s))
        return r.number;
    if (s.kind == VET)
        return 1;
    switch (r.letter) {
    case 'A': return 90;
    case 'B': return 70;
    case 'C': return 50;
    case 'D': return 30;
    default: return 10;
    }
}

/* Slot 1 is first in its subject's row. */
static uint32_t score_in(const uint8_t *table, uint32_t subject, uint32_t slot)
{
    return four(table + ROW * subject + SCORE * (slot - 1));
}

/* ---- Best set ---- */

/* The results of one student, read, with what the rules say of each. */
struct record {
    size_t count;
    struct result results[RESULTS];
    struct subject subjects[RESULTS]; /* of each result */
    int usable[RESULTS], kept[RESULTS];
    uint32_t scores[RESULTS]; /* of the usable */
};

static struct refusal judge_catalogue(const uint8_t *catalogue, size_t length)
{
    size_t subjects = length / ENTRY;
    if (length % ENTRY != 0)
        return refused(1, subjects);
    if (subjects > SUBJECTS)
        return refused(2, SUBJECTS);
    for (size_t i = 0; i < subjects; i++)
        if (!entry_in_its_ranges(subject_at(catalogue, i)))
            return refused(3, i);
    return accepted();
}

/* One result: 3, 4, 5. */
static struct refusal read_result(struct record *of, size_t i, const uint8_t *catalogue, size_t subjects, const uint8_t *table,
                                  uint32_t year)
{
    struct result r = of->results[i];
    if (r.place >= subjects)
        return refused(3, i);
    struct subject s = subject_at(catalogue, r.place);
    if (!letter_and_number_right(s, r) || !within(r.year, FIRST_YEAR, year))
        return refused(4, i);
    of->subjects[i] = s;
    of->usable[i] = is_usable(s, r);
    if (!of->usable[i])
        return accepted();
    of->scores[i] = score_in(table, r.place, slot_of(s, r));
    return of->scores[i] > TOP_SCORE ? refused(5, i) : accepted(); /* missing is over it too */
}

static int one_subject(const struct record *of, size_t i, size_t j)
{
    return of->results[i].place == of->results[j].place;
}

/* Two usable results of one subject and year: 6 at the later one. */
static struct refusal judge_repeats(const struct record *of)
{
    for (size_t later = 0; later < of->count; later++)
        for (size_t i = 0; i < later; i++)
            if (of->usable[i] && of->usable[later] && one_subject(of, i, later) && of->results[i].year == of->results[later].year)
                return refused(6, later);
    return accepted();
}

/* English: some usable result with strand 1 has letter `A`, `B` or `C`. It may be shown from any year. */
static int shows_english(const struct record *of)
{
    for (size_t i = 0; i < of->count; i++)
        if (of->usable[i] && of->subjects[i].strand == ENGLISH && within(of->results[i].letter, 'A', 'C'))
            return 1;
    return 0;
}

/* Kept: a usable result with no usable result of the same subject in a later year. */
static int is_kept(const struct record *of, size_t i)
{
    if (!of->usable[i])
        return 0;
    for (size_t j = 0; j < of->count; j++)
        if (of->usable[j] && one_subject(of, i, j) && of->results[j].year > of->results[i].year)
            return 0;
    return 1;
}

/* Not both a General and an Applied of strand 1; not both of strand 2; no two of kinds 1 or 3 with one identity. */
static int clash(struct subject a, struct subject b)
{
    if (a.strand != 0 && a.strand == b.strand)
        if ((is_general(a) && b.kind == APPLIED) || (a.kind == APPLIED && is_general(b)))
            return 1;
    return has_identity(a) && has_identity(b) && a.identity == b.identity;
}

/* By how much the latest year of the five exceeds their earliest. */
static uint32_t span_of(const struct record *of, const size_t set[5])
{
    uint32_t earliest = of->results[set[0]].year, latest = earliest;
    for (int i = 1; i < 5; i++) {
        uint32_t year = of->results[set[i]].year;
        if (year < earliest)
            earliest = year;
        if (year > latest)
            latest = year;
    }
    return latest - earliest;
}

/* Admissible: five kept results, at least four of them General, no clash, and a span of at most four years. */
static int is_admissible(const struct record *of, const size_t set[5])
{
    int general = 0;
    for (int i = 0; i < 5; i++) {
        if (!of->kept[set[i]])
            return 0;
        general += is_general(of->subjects[set[i]]);
        for (int j = 0; j < i; j++)
            if (clash(of->subjects[set[i]], of->subjects[set[j]]))
                return 0;
    }
    return general >= 4 && span_of(of, set) <= 4;
}

/* In hundredths. */
static uint32_t rounded(uint32_t sum)
{
    return (uint32_t)nearest(sum, HUNDREDTH);
}

/* A set is taken if it is the first that is admissible, or its unrounded sum is greater. The aggregate is the sum of the one taken,
 * in hundredths. By rounded sums a set would be taken if its rounded sum were greater than those before. */
static void consider(const struct record *of, const size_t set[5], int *found, struct second_best *best)
{
    uint32_t sum = 0, bits = 0;
    if (!is_admissible(of, set))
        return;
    for (int i = 0; i < 5; i++) {
        sum += of->scores[set[i]];
        bits |= 1u << set[i];
    }
    if (!*found || rounded(sum) > best->aggregate)
        best->set_by_rounded = (uint16_t)bits;
    if (*found && sum <= best->sum)
        return;
    *found = 1;
    best->sum = sum;
    best->aggregate = rounded(sum);
    best->set = (uint16_t)bits;
}

/* Considers all sets of five positions, each in ascending order, in dictionary order. */
static int find_best(const struct record *of, struct second_best *best)
{
    int found = 0;
    size_t s[5], n = of->count;
    for (s[0] = 0; s[0] < n; s[0]++)
        for (s[1] = s[0] + 1; s[1] < n; s[1]++)
            for (s[2] = s[1] + 1; s[2] < n; s[2]++)
                for (s[3] = s[2] + 1; s[3] < n; s[3]++)
                    for (s[4] = s[3] + 1; s[4] < n; s[4]++)
                        consider(of, s, &found, best);
    return found;
}

static struct second_best no_best(struct refusal r)
{
    struct second_best best = {r.number, r.place, 0, 0, 0, 0};
    return best;
}

struct second_best second_best_set(const uint8_t *catalogue, size_t catalogue_len, const uint8_t *table, size_t table_len,
                                   uint32_t year, const uint8_t *results, size_t results_len)
{
    struct second_best best = {0, 0, 0, 0, 0, 0};
    struct record of = {0};
    size_t subjects = catalogue_len / ENTRY, count = results_len / RESULT;
    struct refusal r = judge_catalogue(catalogue, catalogue_len);
    if (r.number != 0)
        return no_best(r);
    if (table_len != ROW * subjects)
        return no_best(refused(11, 0));
    if (!within(year, 1984, 9999))
        return no_best(refused(14, 0));
    if (results_len % RESULT != 0)
        return no_best(refused(1, count));
    if (count > RESULTS)
        return no_best(refused(2, RESULTS));
    of.count = count;
    for (size_t i = 0; i < count; i++) {
        of.results[i] = result_at(results, i);
        r = read_result(&of, i, catalogue, subjects, table, year);
        if (r.number != 0)
            return no_best(r);
    }
    r = judge_repeats(&of);
    if (r.number != 0)
        return no_best(r);
    if (!shows_english(&of))
        return no_best(refused(7, 0));
    for (size_t i = 0; i < count; i++)
        of.kept[i] = is_kept(&of, i);
    return find_best(&of, &best) ? best : no_best(refused(8, 0));
}

/* ---- First scores from counts ---- */

enum { LETTERS = 5, HALF_SCORE = TOP_SCORE / 2 };

static void put_slot(uint8_t *row, uint32_t slot, uint32_t value)
{
    for (uint32_t i = SCORE; i > 0; i--) { /* the last byte is the lowest */
        row[SCORE * (slot - 1) + i - 1] = (uint8_t)(value % 256);
        value /= 256;
    }
}

/* How many students have a result below this one, which is counted from 0. */
static uint64_t counted_below(const uint32_t *counts, size_t index)
{
    uint64_t sum = 0;
    for (size_t i = 0; i < index; i++)
        sum += counts[i];
    return sum;
}

/* 100 times (half the count at the result, plus all below), divided by the total, in ten-thousandths: twice of it over twice the
 * total. */
static uint32_t first_score(const uint32_t *counts, size_t index, uint64_t total)
{
    return (uint32_t)nearest(TOP_SCORE * (counts[index] + 2 * counted_below(counts, index)), 2 * total);
}

static size_t counts_for(uint32_t kind)
{
    if (within(kind, GENERAL, EXTERNAL))
        return SLOTS;
    return kind == APPLIED ? LETTERS : 0;
}

static struct refusal judge_counts(uint32_t kind, uint32_t subject, const uint32_t *counts, size_t counts_len, size_t table_len)
{
    if (kind == SHORT_COURSE || !within(kind, GENERAL, VET) || subject >= table_len / ROW)
        return refused(3, 0);
    if (counts_len != counts_for(kind) || table_len % ROW != 0)
        return refused(11, 0);
    for (size_t i = 0; i < counts_len; i++)
        if (counts[i] > MILLION)
            return refused(15, i);
    return counted_below(counts, counts_len) > MILLION ? refused(15, 0) : accepted();
}

struct second_scored second_first_scores(uint32_t kind, uint32_t subject, const uint32_t *counts, size_t counts_len, uint8_t *table,
                                         size_t table_len)
{
    static const uint32_t applied_slots[LETTERS] = {10, 30, 50, 70, 90};
    struct refusal r = judge_counts(kind, subject, counts, counts_len, table_len);
    if (r.number != 0)
        return (struct second_scored){r.number, r.place};
    uint8_t *row = table + (size_t)ROW * subject;
    uint64_t total = counted_below(counts, counts_len);
    for (uint32_t slot = 1; slot <= SLOTS; slot++)
        put_slot(row, slot, MISSING);
    if (kind == VET)
        put_slot(row, 1, HALF_SCORE);
    for (size_t i = 0; total != 0 && i < counts_len; i++)
        put_slot(row, kind == APPLIED ? applied_slots[i] : (uint32_t)i + 1, first_score(counts, i, total));
    return (struct second_scored){0, 0};
}

/* ---- Population and curve ---- */

/* The entry of band k in millionths, rounded down. a is 0 to 10000 as r is 2500 to 7500. */
static uint32_t entry_of(uint64_t k, uint64_t a)
{
    if (5 * k <= a && a > 0)
        return (uint32_t)(12500 * k * k * k / (a * a));
    /* 1000000 - n/d, rounded down, is (1000000 d - n)/d, rounded down */
    uint64_t n = 12500 * (2000 - k) * (2000 - k) * (2000 - k), d = (10000 - a) * (10000 - a);
    return (uint32_t)((MILLION * d - n) / d);
}

static struct second_curve no_curve(uint64_t number, uint64_t place)
{
    struct second_curve curve = {number, place, 0, 0};
    return curve;
}

struct second_curve second_participation(const uint32_t *figures, size_t figures_len, uint32_t *table, size_t table_len)
{
    uint64_t s = 0, e = 0;
    if (figures_len != 10 || table_len != BANDS)
        return no_curve(11, 0);
    for (size_t i = 0; i < 10; i++)
        if (figures[i] > MILLION)
            return no_curve(9, i);
    for (size_t age = 0; age < 5; age++) {
        s += (uint64_t)figures[age] * figures[5 + age];
        e += figures[5 + age];
    }
    if (e == 0)
        return no_curve(9, 10);
    uint64_t y = nearest(s, e);
    if (y == 0)
        return no_curve(9, 10);
    uint64_t r = nearest(10000 * e, y);
    if (r < 2500 || r > 7500)
        return no_curve(10, 0);
    for (uint64_t k = 0; k < BANDS; k++)
        table[k] = entry_of(k, 15000 - 2 * r);
    struct second_curve curve = {0, 0, (uint32_t)y, (uint32_t)r};
    return curve;
}

/* ---- Ranks ---- */

/* 100 times rank/N, in thousandths. */
static uint32_t percentile_of(uint32_t rank, size_t count)
{
    return (uint32_t)nearest(100000 * (uint64_t)rank, count);
}

struct second_ranked second_rank(const uint32_t *values, size_t values_len, uint32_t *ranks, size_t ranks_len,
                                 uint32_t *percentiles, size_t percentiles_len)
{
    struct second_ranked over = {2, TALLIED}, length = {11, 0}, done = {0, 0};
    if (values_len > TALLIED)
        return over;
    if (ranks_len != values_len || percentiles_len != values_len)
        return length;
    for (size_t i = 0; i < values_len; i++) {
        uint32_t rank = 0; /* the number of students whose value is at most one's own */
        for (size_t j = 0; j < values_len; j++)
            rank += values[j] <= values[i];
        ranks[i] = rank;
        percentiles[i] = percentile_of(rank, values_len);
    }
    return done;
}

/* ---- Bands ---- */

/* The highest band that C fits; -1 if it fits none. */
static int band_of(uint64_t c, const uint32_t *table, uint64_t y)
{
    uint64_t f = 0; /* F(k), the sum of table entries k to 1999 */
    for (int k = BANDS - 1; k >= 0; k--) {
        f += table[k];
        if (2000000000 * c <= y * f)
            return k;
    }
    return -1;
}

static struct second_placed no_place(struct refusal r)
{
    struct second_placed placed = {r.number, r.place, 0};
    return placed;
}

/* What both entries refuse after 2 and 11: 9, 13, 12. */
static struct refusal judge_bands(const uint32_t *aggregates, size_t aggregates_len, const uint32_t *table, uint32_t population)
{
    if (population == 0 || population > MILLION)
        return refused(9, 0);
    for (size_t k = 0; k < BANDS; k++)
        if (table[k] > MILLION)
            return refused(13, k);
    for (size_t i = 0; i < aggregates_len; i++)
        if (aggregates[i] >= AGGREGATES)
            return refused(12, i);
    return accepted();
}

struct second_placed second_place_direct(const uint32_t *aggregates, size_t aggregates_len, const uint32_t *table, size_t table_len,
                                         uint32_t population, uint16_t *bands, size_t bands_len)
{
    struct second_placed placed = {0, 0, 0};
    if (aggregates_len > STUDENTS)
        return no_place(refused(2, STUDENTS));
    if (table_len != BANDS || bands_len != aggregates_len)
        return no_place(refused(11, 0));
    struct refusal r = judge_bands(aggregates, aggregates_len, table, population);
    if (r.number != 0)
        return no_place(r);
    for (size_t i = 0; i < aggregates_len; i++) {
        uint64_t c = 0; /* the number with an aggregate at least one's own */
        for (size_t j = 0; j < aggregates_len; j++)
            c += aggregates[j] >= aggregates[i];
        int band = band_of(c, table, population);
        bands[i] = (uint16_t)(band < 0 ? 0 : band);
        placed.remainder += band < 0;
    }
    return placed;
}

/* ---- Ranks and bands in one call ---- */

struct standing {
    uint32_t aggregate, student;
};

static int by_aggregate(const void *a, const void *b)
{
    uint32_t x = ((const struct standing *)a)->aggregate, y = ((const struct standing *)b)->aggregate;
    return (x > y) - (x < y);
}

/* The students in order of their aggregates, the lowest first, so that those tied stand side by side. */
static void put_in_order(struct standing *order, const uint32_t *aggregates, size_t count)
{
    for (size_t i = 0; i < count; i++) {
        order[i].aggregate = aggregates[i];
        order[i].student = (uint32_t)i;
    }
    qsort(order, count, sizeof *order, by_aggregate);
}

/* Where those end who are tied with the one at `first`. */
static size_t end_of_tie(const struct standing *order, size_t count, size_t first)
{
    size_t end = first;
    while (end < count && order[end].aggregate == order[first].aggregate)
        end++;
    return end;
}

/* F(k), the sum of table entries k to 1999, for each band. */
static void sum_table(uint64_t *f, const uint32_t *table)
{
    f[BANDS - 1] = table[BANDS - 1];
    for (size_t k = BANDS - 1; k > 0; k--)
        f[k - 1] = f[k] + table[k - 1];
}

/* The same band as band_of gives, by halves: F never rises with k, so C fits the bands up to the highest that it fits, and no other. */
static int band_by_halves(uint64_t c, const uint64_t *f, uint64_t y)
{
    int fits = -1, above = BANDS;
    while (above - fits > 1) {
        int middle = (fits + above) / 2;
        if (2000000000 * c <= y * f[middle])
            fits = middle;
        else
            above = middle;
    }
    return fits;
}

struct second_placed second_rank_and_place(const uint32_t *aggregates, size_t aggregates_len, const uint32_t *table,
                                           size_t table_len, uint32_t population, uint32_t *ranks, size_t ranks_len,
                                           uint32_t *percentiles, size_t percentiles_len, uint16_t *bands, size_t bands_len,
                                           uint32_t *counts, size_t counts_len)
{
    static struct standing order[TALLIED];
    struct second_placed placed = {0, 0, 0};
    uint64_t f[BANDS];
    size_t n = aggregates_len;
    if (n > TALLIED)
        return no_place(refused(2, TALLIED));
    if (table_len != BANDS || ranks_len != n || percentiles_len != n || bands_len != n || counts_len != AGGREGATES)
        return no_place(refused(11, 0));
    struct refusal r = judge_bands(aggregates, n, table, population);
    if (r.number != 0)
        return no_place(r);
    put_in_order(order, aggregates, n);
    sum_table(f, table);
    for (size_t t = 0; t < AGGREGATES; t++)
        counts[t] = 0;
    for (size_t first = 0, end; first < n; first = end) {
        end = end_of_tie(order, n, first);
        /* those before `end` have at most their aggregate, those from `first` on at least theirs */
        uint32_t rank = (uint32_t)end, tied = (uint32_t)(end - first);
        int band = band_by_halves(n - first, f, population);
        for (size_t i = first; i < end; i++) {
            size_t student = order[i].student;
            ranks[student] = rank;
            percentiles[student] = percentile_of(rank, n);
            bands[student] = (uint16_t)(band < 0 ? 0 : band);
        }
        counts[order[first].aggregate] = tied;
        placed.remainder += band < 0 ? tied : 0;
    }
    return placed;
}

/* ---- The cohort file ---- */

struct student {
    uint32_t id;
    size_t count; /* of its results */
    uint8_t results[RESULT * RESULTS];
};

struct cohort {
    uint32_t year;
    size_t subjects;
    uint8_t catalogue[ENTRY * SUBJECTS];
    uint8_t table[ROW * SUBJECTS];
    uint32_t population, curve[BANDS];
    size_t count; /* of its students */
    struct student students[STUDENTS];
};

/* Tag 1: 14. */
static uint64_t take_year(struct cohort *into, const uint8_t *value)
{
    into->year = two(value);
    return within(into->year, 1984, 9999) ? 0 : 14;
}

/* Tag 2: 2, 3. */
static uint64_t take_entry(struct cohort *into, const uint8_t *value)
{
    if (into->subjects == SUBJECTS)
        return 2;
    if (!entry_in_its_ranges(subject_at(value, 0)))
        return 3;
    memcpy(into->catalogue + ENTRY * into->subjects, value, ENTRY);
    into->subjects++;
    return 0;
}

/* Tag 3: 3, 5, 6. */
static uint64_t take_score(struct cohort *into, const uint8_t *value)
{
    uint32_t subject = two(value), slot = value[2], score = four(value + 3);
    if (subject >= into->subjects)
        return 3;
    if (!within(slot, 1, SLOTS) || score > TOP_SCORE)
        return 5;
    if (score_in(into->table, subject, slot) != MISSING)
        return 6;
    put_slot(into->table + ROW * subject, slot, score);
    return 0;
}

/* Tag 4: 9, 10. */
static uint64_t take_figures(struct cohort *into, const uint8_t *value)
{
    uint32_t figures[10];
    for (size_t i = 0; i < 10; i++)
        figures[i] = four(value + 4 * i);
    struct second_curve curve = second_participation(figures, 10, into->curve, BANDS);
    into->population = curve.population;
    return curve.refusal;
}

/* Tag 5: 2, 6. */
static uint64_t take_student(struct cohort *into, const uint8_t *value)
{
    if (into->count == STUDENTS)
        return 2;
    for (size_t i = 0; i < into->count; i++)
        if (into->students[i].id == four(value))
            return 6;
    into->students[into->count].id = four(value);
    into->students[into->count].count = 0;
    into->count++;
    return 0;
}

/* Tag 6: 2. Its values are judged per student. */
static uint64_t take_result(struct cohort *into, const uint8_t *value)
{
    struct student *of = &into->students[into->count - 1];
    if (of->count == RESULTS)
        return 2;
    memcpy(of->results + RESULT * of->count, value, RESULT);
    of->count++;
    return 0;
}

static uint64_t take(struct cohort *into, unsigned tag, const uint8_t *value)
{
    switch (tag) {
    case 1: return take_year(into, value);
    case 2: return take_entry(into, value);
    case 3: return take_score(into, value);
    case 4: return take_figures(into, value);
    case 5: return take_student(into, value);
    default: return take_result(into, value);
    }
}

/* One tag 1, tags 2, tags 3, one tag 4, then for each student a tag 5 and its tags 6; 0 stands before the first field. */
static int may_follow(unsigned tag, unsigned last)
{
    switch (tag) {
    case 1: return last == 0;
    case 2: return last == 1 || last == 2;
    case 3: return last == 1 || last == 2 || last == 3;
    case 4: return last == 1 || last == 2 || last == 3;
    case 5: return last == 4 || last == 5 || last == 6;
    case 6: return last == 5 || last == 6;
    default: return 0;
    }
}

static struct refusal read_file(struct cohort *into, const uint8_t *file, size_t length)
{
    static const size_t lengths[] = {0, 2, ENTRY, 3 + SCORE, 40, 4, RESULT}; /* of the value of each tag */
    size_t at = 0;
    unsigned last = 0;
    if (length > FILE_BYTES)
        return refused(2, FILE_BYTES);
    while (at < length) {
        unsigned tag = file[at];
        if (!may_follow(tag, last))
            return refused(1, at);
        if (length - at < 3 || two(file + at + 1) != lengths[tag] || length - at - 3 < lengths[tag])
            return refused(1, at);
        uint64_t number = take(into, tag, file + at + 3);
        if (number != 0)
            return refused(number, at);
        at += 3 + lengths[tag];
        last = tag;
    }
    return last < 4 ? refused(1, length) : accepted(); /* it ends before its tag 1 or 4 */
}

/* ---- The listing ---- */

struct listing {
    uint8_t *text;
    size_t length;
};

static void print(struct listing *to, const char *format, ...)
{
    char part[100];
    va_list values;
    va_start(values, format);
    int length = vsnprintf(part, sizeof part, format, values);
    va_end(values);
    memcpy(to->text + to->length, part, (size_t)length);
    to->length += (size_t)length;
}

/* What the eligible students, in file order, have. */
struct eligible {
    size_t count;
    uint32_t aggregates[STUDENTS], ranks[STUDENTS], percentiles[STUDENTS];
    uint16_t bands[STUDENTS];
    uint32_t remainder, tied_by_rounding;
};

/* Whether another eligible student has its aggregate, from another unrounded sum. */
static int is_tied_by_rounding(const struct second_best *best, size_t count, size_t i)
{
    for (size_t j = 0; j < count; j++)
        if (best[j].refusal == 0 && best[j].aggregate == best[i].aggregate && best[j].sum != best[i].sum)
            return 1;
    return 0;
}

static void judge_students(const struct cohort *of, struct second_best *best, struct eligible *all)
{
    for (size_t i = 0; i < of->count; i++) {
        const struct student *s = &of->students[i];
        best[i] = second_best_set(of->catalogue, ENTRY * of->subjects, of->table, ROW * of->subjects, of->year, s->results,
                                  RESULT * s->count);
        if (best[i].refusal == 0)
            all->aggregates[all->count++] = best[i].aggregate;
    }
    for (size_t i = 0; i < of->count; i++)
        all->tied_by_rounding += best[i].refusal == 0 && is_tied_by_rounding(best, of->count, i);
    second_rank(all->aggregates, all->count, all->ranks, all->count, all->percentiles, all->count);
    all->remainder = second_place_direct(all->aggregates, all->count, of->curve, BANDS, of->population, all->bands, all->count)
                         .remainder;
}

/* Id, aggregate, rank, percentile, ATAR. */
static void print_eligible(struct listing *to, uint32_t id, const struct eligible *all, size_t i)
{
    uint32_t aggregate = all->aggregates[i], percentile = all->percentiles[i], atar = 5u * all->bands[i];
    print(to, "%" PRIu32 " %" PRIu32 ".%02" PRIu32 " %" PRIu32, id, aggregate / 100, aggregate % 100, all->ranks[i]);
    print(to, " %" PRIu32 ".%03" PRIu32, percentile / 1000, percentile % 1000);
    if (all->bands[i] <= 600)
        print(to, " 30.00 or less\n");
    else
        print(to, " %" PRIu32 ".%02" PRIu32 "\n", atar / 100, atar % 100);
}

/* Gives how many are tied by rounding. */
static uint32_t print_cohort(struct listing *to, const struct cohort *of)
{
    struct second_best best[STUDENTS];
    struct eligible all = {0};
    size_t next = 0; /* of the eligible */
    judge_students(of, best, &all);
    print(to, "cohort %zu eligible %zu remainder %" PRIu32 "\n", of->count, all.count, all.remainder);
    for (size_t i = 0; i < of->count; i++)
        if (best[i].refusal == 0)
            print_eligible(to, of->students[i].id, &all, next++);
        else
            print(to, "%" PRIu32 " refused %" PRIu64 " %" PRIu64 "\n", of->students[i].id, best[i].refusal, best[i].place);
    return all.tied_by_rounding;
}

struct second_text second_report(const uint8_t *file, size_t file_len, uint8_t *text, size_t text_len)
{
    struct second_text answer = {0, 0, 0, 0};
    struct listing to = {text, 0};
    struct cohort of = {0};
    if (text_len != TEXT_BYTES) {
        answer.refusal = 11;
        return answer;
    }
    memset(of.table, 255, sizeof of.table); /* slots not given are missing: all bytes of MISSING are 255 */
    struct refusal r = read_file(&of, file, file_len);
    if (r.number != 0)
        print(&to, "refused %" PRIu64 " %" PRIu64 "\n", r.number, r.place);
    else
        answer.tied_by_rounding = print_cohort(&to, &of);
    answer.length = to.length;
    return answer;
}
