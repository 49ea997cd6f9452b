/* Holds each entry of the library to the second implementation, on inputs made from a seed: long and short, valid and damaged.
 * Answers are compared field by field, lent buffers whole and past their ends, and a refused call must leave them as they were.
 * Ranks and bands in one call are held to the calls apart, too. Each refusal that an entry can give must be met; answers that the
 * span of years changes, in students whose results lie over many years; answers that rounding would change, and scores at each
 * limit; and of ranks and bands in one call each length that alone is wrong, and cohorts of each kind. The first difference ends
 * the run, with its input. tests/compare builds and runs it.
 *
 *   compare SEED
 */
#include <stdio.h>
#include <stdlib.h>
#include <string.h>

#include "chance.h"
#include "files.h"
#include "second.h"
#include "shtegomir.h"

/* How many inputs of each entry for one seed: such that each refusal is met, the rarest about a dozen times. */
enum { SCORES = 5000, BEST_SETS = 50000, CURVES = 1500, RANKINGS = 5000, DIRECT = 5000, IN_ONE_CALL = 500, REPORTS = 1000 };

enum { BANDS = 2000, COUNTS = 50001, MOST = 100000, MILLION = 1000000, NUMBERS = REFUSALS };

enum { PATTERN = 0xa5, PAST = 8, SPARE = 16 }; /* bytes that are looked at past a buffer, and room for that and for lengths that are off */

/* One more, one less, or next to nothing. */
static size_t another(size_t length)
{
    return chance(30) || length == 0 ? length == 0 : length + ONE_OF(0, 2) - 1;
}

/* ---- What is found ---- */

struct entry {
    const char *name;
    unsigned gives; /* bit n: it can give refusal n; bit 0: it can accept */
    unsigned long inputs, met[NUMBERS];
};

static unsigned bits_of(const unsigned *numbers, size_t count)
{
    unsigned bits = 0;
    for (size_t i = 0; i < count; i++)
        bits |= 1u << numbers[i];
    return bits;
}

/* The refusals that an entry can give, by their numbers; 0: it can accept. */
#define GIVES(...) bits_of((const unsigned[]){__VA_ARGS__}, sizeof((const unsigned[]){__VA_ARGS__}) / sizeof(unsigned))

static int differs;

static void same(const char *what, uint64_t found, uint64_t second)
{
    if (found == second)
        return;
    differs = 1;
    printf("%s: %llu, and by the second implementation %llu\n", what, (unsigned long long)found, (unsigned long long)second);
}

static void same_refusal(struct entry *e, uint64_t refusal, uint64_t place, uint64_t second_refusal, uint64_t second_place)
{
    e->inputs++;
    same("refusal", refusal, second_refusal);
    same("place", place, second_place);
    if (refusal < NUMBERS)
        e->met[refusal]++;
}

/* Buffers are filled before the calls, with PAST bytes more than are lent. */
static void fill(void *found, void *second, size_t size)
{
    memset(found, PATTERN, size + PAST);
    memset(second, PATTERN, size + PAST);
}

static void same_buffer(const char *what, uint64_t refusal, const void *found, const void *second, size_t size)
{
    const uint8_t *ours = found, *theirs = second;
    for (size_t i = 0; i < size + PAST; i++)
        if (ours[i] != theirs[i] || ((refusal != 0 || i >= size) && ours[i] != PATTERN)) {
            differs = 1;
            printf("%s: byte %zu is %u, and by the second implementation %u; it was %u\n", what, i, ours[i], theirs[i], PATTERN);
            return;
        }
}

static void print_bytes(const char *name, const uint8_t *bytes, size_t length)
{
    printf("%s, %zu bytes:", name, length);
    for (size_t i = 0; i < length; i++)
        printf(i % 50 == 0 ? "\n%02x" : " %02x", bytes[i]);
    printf("\n");
}

static void print_numbers(const char *name, const uint32_t *numbers, size_t length)
{
    printf("%s, %zu numbers:", name, length);
    for (size_t i = 0; i < length; i++)
        printf(i % 20 == 0 ? "\n%lu" : " %lu", (unsigned long)numbers[i]);
    printf("\n");
}

/* Each refusal that it can give was met, and no other. */
static int all_met(const struct entry *e)
{
    unsigned met = 0;
    printf("%s: %lu inputs, of these", e->name, e->inputs);
    for (unsigned n = 0; n < NUMBERS; n++)
        if (e->met[n] != 0) {
            met |= 1u << n;
            printf(n == 0 ? " %lu accepted" : ", %lu refused %u", e->met[n], n);
        }
    printf(met == e->gives ? "\n" : "; not all that it can give, or more\n");
    return met == e->gives;
}

/* ---- The best set ---- */

enum { ENTRY = 5, SLOTS = 100, SCORE = 4, ROW = SCORE * SLOTS, RESULT = 6, SUBJECTS = 66, RESULTS = 18 };
enum { OLD_ROW = 2 * SLOTS, OLD_MISSING = 65535 }; /* as they were in hundredths */
enum { TOP_SCORE = 1000000, ONE = 10000, HUNDREDTH = 100 }; /* in ten-thousandths */

#define MISSING UINT32_MAX

struct student {
    size_t subjects, count; /* of its results */
    uint8_t catalogue[ENTRY * SUBJECTS], table[ROW * SUBJECTS], results[RESULT * RESULTS];
    size_t catalogue_len, table_len, results_len;
    uint32_t year;
    struct years years;
};

static void put_two(uint8_t *bytes, uint32_t value)
{
    bytes[0] = (uint8_t)(value >> 8);
    bytes[1] = (uint8_t)value;
}

static uint32_t two(const uint8_t *bytes)
{
    return 256u * bytes[0] + bytes[1];
}

static void put_four(uint8_t *bytes, uint32_t value)
{
    put_two(bytes, value >> 16);
    put_two(bytes + 2, value);
}

static uint32_t four(const uint8_t *bytes)
{
    return 65536u * two(bytes) + two(bytes + 2);
}

static void make_subject(struct student *s, size_t i)
{
    uint8_t *entry = s->catalogue + ENTRY * i;
    entry[0] = (uint8_t)ONE_OF(1, 1, 1, 1, 1, 1, 1, 1, 1, 1, 2, 3, 3, 4, 4, 5, 6, 6);
    entry[1] = (uint8_t)(entry[0] >= 5 ? 0 : ONE_OF(0, 0, 1, 1, 2));
    entry[2] = (uint8_t)(entry[0] == 6 ? from(1, 6) : 0);
    put_two(entry + 3, entry[0] != 1 && entry[0] != 3 ? 0 : chance(80) ? (uint32_t)i + 1 : ONE_OF(1, 2, 3, 256, 65535));
}

/* The catalogue entry of a result; one of no kind if it is no result. */
static const uint8_t *entry_of(const struct student *s, size_t i)
{
    static const uint8_t none[ENTRY] = {0};
    uint32_t subject = two(s->results + RESULT * i);
    return subject < s->subjects ? s->catalogue + ENTRY * subject : none;
}

static uint32_t kind_of(const struct student *s, size_t i)
{
    return entry_of(s, i)[0];
}

static int is_english(const struct student *s, size_t i)
{
    return entry_of(s, i)[1] == 1;
}

static uint32_t year_at(const struct student *s, size_t i)
{
    return two(s->results + RESULT * i + 4);
}

/* Where in the table the score of a result stands; 0 if it is no result. */
static size_t place_of_score(const struct student *s, size_t i)
{
    const uint8_t *result = s->results + RESULT * i;
    uint32_t kind = kind_of(s, i), slot = kind == 4 ? 90 - 20 * (result[2] - 'A') : kind == 6 ? 1 : result[3];
    return kind == 0 || slot < 1 || slot > SLOTS ? 0 : ROW * two(result) + SCORE * (slot - 1);
}

static void put_score(struct student *s, size_t i, uint32_t score)
{
    put_four(s->table + place_of_score(s, i), score);
}

static uint32_t score_of(const struct student *s, size_t i)
{
    return four(s->table + place_of_score(s, i));
}

/* Few values make sets of one sum. Values that lie close make sets of one rounded sum, and a tenth of a hundredth beside the
 * hundredths makes sums that end in half a hundredth, or next to it. Most are not whole hundredths. */
static uint32_t some_score(unsigned manner)
{
    switch (manner) {
    case 0: return ONE_OF(0, TOP_SCORE);
    case 1: return 50 * ONE + below(3);
    case 2: return 70 * ONE;
    case 3: return ONE * from(1, 100);
    case 4: return HUNDREDTH * from(7000, 7002) + ONE_OF(9, 10, 10, 10, 11);
    case 5: return 60 * ONE + below(40);
    default: return chance(6) ? ONE_OF(0, OLD_MISSING, TOP_SCORE) : below(TOP_SCORE + 1);
    }
}

enum { MANNERS = 8, ANY_SCORE = MANNERS - 1 };

static int one_subject(const struct student *s, size_t i, size_t j)
{
    return two(s->results + RESULT * i) == two(s->results + RESULT * j);
}

/* Whether an earlier result has the subject and the year of result i. */
static int is_again(const struct student *s, size_t i)
{
    for (size_t j = 0; j < i; j++)
        if (one_subject(s, i, j) && year_at(s, i) == year_at(s, j))
            return 1;
    return 0;
}

/* In one of the student's years, English at times in any, and not again. */
static void make_result(struct student *s, size_t i, unsigned manner)
{
    uint8_t *result = s->results + RESULT * i;
    unsigned tries = 0;
    do {
        put_two(result, s->subjects == 0 ? 0 : below(s->subjects));
        put_two(result + 4, is_english(s, i) && chance(20) ? any_year(s->years) : year_of(s->years));
    } while (is_again(s, i) && ++tries < 8);
    uint32_t kind = kind_of(s, i);
    result[2] = (uint8_t)(kind == 6 ? ONE_OF('Y', 'Y', 'Y', 'N') : ONE_OF('A', 'A', 'B', 'B', 'C', 'C', 'D', 'E'));
    result[3] = (uint8_t)(kind > 3 ? 0 : chance(10) ? ONE_OF(1, 100) : from(1, 100));
    if (result[2] != 'N' && kind != 5) /* the others are not usable, and need no score */
        put_score(s, i, some_score(manner));
}

static void make_student(struct student *s)
{
    unsigned manner = below(MANNERS);
    s->subjects = chance(95) ? from(5, 20) : ONE_OF(0, 1, 2, 63, 64);
    s->count = chance(80) ? from(6, 12) : below(17);
    s->year = chance(70) ? 2021 : chance(50) ? ONE_OF(1984, 1985, 1988, 9999) : from(1984, 9999);
    s->years = some_years(s->year);
    uint32_t anything = chance(50) ? 255 : chance(75) ? below(256) : 0;
    memset(s->table, (int)anything, sizeof s->table); /* slots that serve nobody hold anything */
    for (size_t i = 0; i < s->subjects; i++)
        make_subject(s, i);
    for (size_t i = 0; i < s->count; i++)
        make_result(s, i, manner);
    s->catalogue_len = ENTRY * s->subjects;
    s->table_len = ROW * s->subjects;
    s->results_len = RESULT * s->count;
}

/* More subjects, or more results, than there may be. */
static void make_many(struct student *s)
{
    if (chance(50)) {
        for (; s->subjects < SUBJECTS - 1; s->subjects++)
            make_subject(s, s->subjects);
        s->catalogue_len = ENTRY * s->subjects;
        s->table_len = ROW * s->subjects;
    } else {
        for (; s->count < RESULTS - 1; s->count++)
            make_result(s, s->count, ANY_SCORE);
        s->results_len = RESULT * s->count;
    }
}

/* Four or five years before another result, or after it. */
static uint32_t year_near(const struct student *s)
{
    uint32_t year = year_at(s, below(s->count));
    return year + ONE_OF(0, 1, 9, 10) - 5;
}

static void damage_result(struct student *s)
{
    size_t i = below(s->count);
    uint8_t *result = s->results + RESULT * i;
    switch (below(9)) {
    case 0: put_two(result, (uint32_t)s->subjects - below(2)); break;
    case 1: put_two(result, ONE_OF(256, 65535)); break;
    case 2: result[2] = (uint8_t)ONE_OF('@', 'F', 'a', 'N', 'Y', 'X', 'Z', 0); break;
    case 3: result[3] = (uint8_t)ONE_OF(0, 1, 100, 101, 255); break;
    case 4: put_two(result + 4, ONE_OF(1979, 1980, 0, s->year, s->year + 1)); break;
    case 5: put_two(result + 4, year_near(s)); break;
    case 6:
    case 7: put_score(s, i, ONE_OF(0, OLD_MISSING, TOP_SCORE, TOP_SCORE + 1, MISSING - 1, MISSING)); break;
    default: memcpy(result, s->results + RESULT * below(s->count), RESULT); break;
    }
}

static void damage_student(struct student *s)
{
    switch (below(13)) {
    case 0: s->catalogue_len = another(s->catalogue_len); break;
    case 1: s->table_len = another(s->table_len); break;
    case 2: s->results_len = another(s->results_len); break;
    case 3: s->year = ONE_OF(0, 1983, 10000, 65536 + 2021, UINT32_MAX); break;
    case 4: make_many(s); break;
    case 5: s->catalogue[below(ENTRY * s->subjects + 1)] = (uint8_t)ONE_OF(0, 1, 2, 3, 4, 5, 6, 7, 255); break;
    case 6: s->results[below(RESULT * s->count + 1)] = (uint8_t)below(256); break;
    case 7: s->table_len = OLD_ROW * s->subjects; break;
    default:
        if (s->count > 0)
            damage_result(s);
        break;
    }
}

/* What was met of the years, besides refusals. With fewer than FEWEST of one of them the run says little. */
enum { ANOTHER_SET, NO_SET, SPAN_OF_FOUR, ENGLISH_OUTSIDE, OLD_SCORE, OLD_AGAIN, OF_YEARS, FEWEST = 50 };

static unsigned long met_years[OF_YEARS];

/* What the answer would be without the span rule: of each subject the latest result is moved to the assessment year, the one before
 * it to the year before, and so on; so all that are kept are of one year. */
static struct second_best best_without_span(const struct student *s)
{
    uint8_t results[sizeof s->results];
    memcpy(results, s->results, sizeof results);
    for (size_t i = 0; i < s->count; i++) {
        uint32_t later = 0;
        for (size_t j = 0; j < s->count; j++)
            later += one_subject(s, i, j) && s->results[RESULT * j + 2] != 'N' && year_at(s, j) > year_at(s, i);
        put_two(results + RESULT * i + 4, s->year - later);
    }
    return second_best_set(s->catalogue, s->catalogue_len, s->table, s->table_len, s->year, results, s->results_len);
}

/* Whether the latest year of all exceeds its year by more than four. */
static int is_old(const struct student *s, size_t i)
{
    for (size_t j = 0; j < s->count; j++)
        if (year_at(s, j) > year_at(s, i) + 4)
            return 1;
    return 0;
}

/* A chosen set: its span, and whether English is shown from its years. */
static void note_set(const struct student *s, unsigned set)
{
    uint32_t earliest = UINT32_MAX, latest = 0, shown = 0;
    for (size_t i = 0; i < s->count; i++)
        if (set >> i & 1) {
            earliest = year_at(s, i) < earliest ? year_at(s, i) : earliest;
            latest = year_at(s, i) > latest ? year_at(s, i) : latest;
        }
    for (size_t i = 0; i < s->count; i++)
        shown += is_english(s, i) && s->results[RESULT * i + 2] <= 'C' && earliest <= year_at(s, i) && year_at(s, i) <= latest;
    met_years[SPAN_OF_FOUR] += latest - earliest == 4;
    met_years[ENGLISH_OUTSIDE] += shown == 0;
}

static void note_years(const struct student *s, const struct second_best *b)
{
    if (b->refusal == 5 || b->refusal == 6)
        met_years[b->refusal == 5 ? OLD_SCORE : OLD_AGAIN] += is_old(s, b->place);
    if (b->refusal != 0 && b->refusal != 8)
        return;
    struct second_best without = best_without_span(s);
    if (b->refusal == 0)
        note_set(s, b->set);
    if (without.refusal == 0 && (b->refusal == 8 || without.set != b->set))
        met_years[b->refusal == 8 ? NO_SET : ANOTHER_SET]++;
}

static int all_years(void)
{
    static const char *const names[OF_YEARS] = {"with another set than without the span rule", "refused 8 by it alone",
                                                "with a span of four", "with English from outside the years of the five",
                                                "refused 5 at an old result", "refused 6 at an old result"};
    int all = 1;
    printf("best set by years:");
    for (size_t i = 0; i < OF_YEARS; i++) {
        printf("%s %lu %s", i == 0 ? "" : ",", met_years[i], names[i]);
        all &= met_years[i] >= FEWEST;
    }
    printf(all ? "\n" : "; of some too few\n");
    return all;
}

/* What was met of rounding and of scores, besides refusals. */
enum {
    BY_ROUNDED, HALF, UNDER_HALF, OVER_HALF, OLD_MISSING_COUNTS, TOP_COUNTS, JUST_OVER, NEARLY_MISSING, IS_MISSING, OLD_TABLE,
    OF_SCORES
};

static unsigned long met_scores[OF_SCORES];

/* A chosen set: what its sum ends in, and scores that are in it. */
static void note_sum(const struct student *s, const struct second_best *b)
{
    uint32_t end = b->sum % HUNDREDTH, old = 0, top = 0;
    for (size_t i = 0; i < s->count; i++) {
        old += b->set >> i & 1 && score_of(s, i) == OLD_MISSING;
        top += b->set >> i & 1 && score_of(s, i) == TOP_SCORE;
    }
    met_scores[BY_ROUNDED] += b->set_by_rounded != b->set;
    met_scores[HALF] += end == HUNDREDTH / 2;
    met_scores[UNDER_HALF] += end == HUNDREDTH / 2 - 1;
    met_scores[OVER_HALF] += end == HUNDREDTH / 2 + 1;
    met_scores[OLD_MISSING_COUNTS] += old != 0;
    met_scores[TOP_COUNTS] += top != 0;
}

static void note_scores(const struct student *s, const struct second_best *b)
{
    if (b->refusal == 0)
        note_sum(s, b);
    if (b->refusal == 5) {
        uint32_t score = score_of(s, b->place);
        met_scores[JUST_OVER] += score == TOP_SCORE + 1;
        met_scores[NEARLY_MISSING] += score == MISSING - 1;
        met_scores[IS_MISSING] += score == MISSING;
    }
    met_scores[OLD_TABLE] += b->refusal == 11 && s->table_len == OLD_ROW * s->subjects;
}

static int all_scores(void)
{
    static const struct {
        const char *name;
        unsigned long fewest; /* half of what seed 1 meets, or less */
    } sorts[OF_SCORES] = {{"with another set than by rounded sums", 1000}, {"with a sum that ends in 50", 250},
                          {"in 49", 150}, {"in 51", 200}, {"with 6.5535 in the five", 70}, {"with 100.0000", 1000},
                          {"refused 5 at 1000001", FEWEST}, {"at 4294967294", FEWEST}, {"at a missing slot", 120},
                          {"refused 11 for a table of 200 bytes to a subject", 1000}};
    int all = 1;
    printf("best set by scores:");
    for (size_t i = 0; i < OF_SCORES; i++) {
        printf("%s %lu %s", i == 0 ? "" : ",", met_scores[i], sorts[i].name);
        all &= met_scores[i] >= sorts[i].fewest;
    }
    printf(all ? "\n" : "; of some too few\n");
    return all;
}

static void compare_best_set(struct entry *e)
{
    static struct student s;
    make_student(&s);
    for (unsigned times = chance(35) ? from(1, 3) : 0; times > 0; times--)
        damage_student(&s);
    struct shtegomir_best a =
        shtegomir_best_set(s.catalogue, s.catalogue_len, s.table, s.table_len, s.year, s.results, s.results_len);
    struct second_best b = second_best_set(s.catalogue, s.catalogue_len, s.table, s.table_len, s.year, s.results, s.results_len);
    same_refusal(e, a.refusal, a.place, b.refusal, b.place);
    same("aggregate", a.aggregate, b.aggregate);
    same("set", a.set, b.set);
    note_years(&s, &b);
    note_scores(&s, &b);
    if (!differs)
        return;
    printf("year %lu\n", (unsigned long)s.year);
    print_bytes("catalogue", s.catalogue, s.catalogue_len);
    print_bytes("table", s.table, s.table_len);
    print_bytes("results", s.results, s.results_len);
}

/* ---- First scores ---- */

enum { RESULTS_MOST = 102, ROWS = 66 };

/* Of General, Applied and VET mostly; some of no kind. */
static uint32_t some_kind(void)
{
    return chance(8) ? ONE_OF(0, 5, 7, 257, 260, 4294967295u) : ONE_OF(1, 1, 2, 3, 4, 4, 6);
}

static uint64_t total_of(const uint32_t *counts, size_t count)
{
    uint64_t total = 0;
    for (size_t i = 0; i < count; i++)
        total += counts[i];
    return total;
}

/* A total that is a power of two, 64 or more, makes scores with halves of a ten-thousandth: one count more makes it up. */
static void make_halves(uint32_t *counts, size_t count)
{
    uint64_t total = total_of(counts, count), wanted = 64;
    while (wanted < total)
        wanted *= 2;
    counts[below(count)] += (uint32_t)(wanted - total);
}

/* Small and great, some nobody's, so that totals lie on both sides of the limit. So many of them are lent. */
static void make_counts(uint32_t *counts, size_t count)
{
    uint32_t limit = ONE_OF(1, 2, 10, 1000, 20000, 400000);
    for (size_t i = 0; i < RESULTS_MOST; i++)
        counts[i] = chance(20) ? 0 : below(limit);
    if (chance(15))
        memset(counts + 1, 0, (RESULTS_MOST - 1) * sizeof *counts);
    if (chance(20) && count > 0)
        make_halves(counts, count);
    if (chance(10))
        counts[below(5)] = ONE_OF(999999, MILLION, MILLION + 1, 4294967295u);
}

/* What was met besides refusals: accepted calls of each kind, a total over the limit, and a score with a half. */
static unsigned long scored[7], totals_over, with_half;

/* Whether 1000000 times (the count at the result, plus twice all below) over twice the total has a half. */
static int has_half(const uint32_t *counts, size_t count)
{
    uint64_t total = total_of(counts, count), below_it = 0;
    for (size_t i = 0; total != 0 && i < count; below_it += counts[i++])
        if (TOP_SCORE * (counts[i] + 2 * below_it) % (2 * total) == total)
            return 1;
    return 0;
}

static void note_counts(uint32_t kind, const struct shtegomir_scored *a, const uint32_t *counts, size_t count)
{
    if (a->refusal == 0 && kind <= 6) {
        scored[kind]++;
        with_half += has_half(counts, count);
    }
    if (a->refusal == 15 && a->place == 0 && counts[0] <= MILLION)
        totals_over++;
}

static int all_kinds(void)
{
    static const int kinds[] = {1, 2, 3, 4, 6};
    int all = totals_over > 0 && with_half >= FEWEST;
    printf("first scores by kind:");
    for (size_t i = 0; i < sizeof kinds / sizeof *kinds; i++) {
        printf(" %lu of kind %d,", scored[kinds[i]], kinds[i]);
        all &= scored[kinds[i]] > 0;
    }
    printf(" %lu totals over 1000000, %lu with a half%s\n", totals_over, with_half, all ? "" : "; not all that there are");
    return all;
}

static void compare_scores(struct entry *e)
{
    static uint32_t counts[RESULTS_MOST];
    static uint8_t table[ROW * ROWS + SPARE], other[ROW * ROWS + SPARE];
    uint32_t kind = some_kind(), rows = chance(5) ? ROWS : from(0, 4), subject = rows == 0 || chance(8) ? ONE_OF(0, rows, rows + 1, 536870912u) : below(rows);
    size_t count = kind >= 1 && kind <= 3 ? 100 : kind == 4 ? 5 : 0, length = ROW * rows;
    make_counts(counts, count);
    if (chance(8))
        count = another(count);
    if (chance(8))
        length = chance(50) ? another(length) : OLD_ROW * rows;
    fill(table, other, length);
    struct shtegomir_scored a = shtegomir_first_scores(kind, subject, counts, count, table, length);
    struct second_scored b = second_first_scores(kind, subject, counts, count, other, length);
    same_refusal(e, a.refusal, a.place, b.refusal, b.place);
    same_buffer("table", a.refusal, table, other, length);
    note_counts(kind, &a, counts, count);
    if (!differs)
        return;
    printf("kind %lu, subject %lu, a table of %zu bytes\n", (unsigned long)kind, (unsigned long)subject, length);
    print_numbers("counts", counts, count);
}

/* ---- The curve ---- */

/* E of one age, such that the rate is near a given one. */
static void make_one_age(uint32_t *figures)
{
    uint32_t age = below(5), q = chance(30) ? ONE_OF(1, 2, 40, 100000, MILLION) : from(1, MILLION);
    uint64_t rate = chance(50) ? ONE_OF(2500, 7500, 5000) : from(2400, 7600), e = q * rate / 10000 + ONE_OF(0, 0, 1, 2, 5);
    memset(figures, 0, 10 * sizeof *figures);
    figures[age] = q;
    figures[5 + age] = (uint32_t)(e > 5 ? e - below(6) : e);
}

/* E of each age is about a fifth of the rate. */
static void make_ages(uint32_t *figures)
{
    uint32_t middle = chance(50) ? from(1, 100) : from(1, MILLION), rate = from(2300, 7700);
    for (int age = 0; age < 5; age++) {
        uint32_t q = from(middle - middle / 8, middle + middle / 8);
        figures[age] = q > MILLION ? MILLION : q;
        figures[5 + age] = (uint32_t)((uint64_t)q * rate / 10000 * from(1, 9) / 25);
    }
}

static void make_figures(uint32_t *figures)
{
    uint32_t most = ONE_OF(1, 2, 5, 20, MILLION);
    switch (below(4)) {
    case 0:
        for (int i = 0; i < 10; i++)
            figures[i] = below(most + 1);
        break;
    case 1: make_ages(figures); break;
    default: make_one_age(figures); break;
    }
}

static void compare_curve(struct entry *e)
{
    static uint32_t figures[10 + SPARE], ours[BANDS + SPARE], theirs[BANDS + SPARE];
    size_t length = 10, table_len = BANDS;
    make_figures(figures);
    for (unsigned times = chance(25) ? from(1, 2) : 0; times > 0; times--)
        switch (below(3)) {
        case 0: length = another(length); break;
        case 1: table_len = another(table_len); break;
        default: figures[below(10)] = ONE_OF(0, MILLION, MILLION + 1, UINT32_MAX); break;
        }
    fill(ours, theirs, table_len * sizeof *ours);
    struct shtegomir_curve a = shtegomir_participation(figures, length, ours, table_len);
    struct second_curve b = second_participation(figures, length, theirs, table_len);
    same_refusal(e, a.refusal, a.place, b.refusal, b.place);
    same("population", a.population, b.population);
    same("rate", a.rate, b.rate);
    same_buffer("table", a.refusal, ours, theirs, table_len * sizeof *ours);
    if (!differs)
        return;
    printf("a table of %zu\n", table_len);
    print_numbers("figures", figures, length);
}

/* ---- Ranks ---- */

/* Values with many ties, at the ends of their range, sorted either way, or any. */
static void make_values(uint32_t *values, size_t count)
{
    unsigned manner = below(6);
    uint32_t few = from(1, 5), start = below(UINT64_C(1) << 32);
    for (size_t i = 0; i < count; i++)
        switch (manner) {
        case 0: values[i] = start + below(few); break;
        case 1: values[i] = ONE_OF(0, 1, UINT32_MAX - 1, UINT32_MAX); break;
        case 2: values[i] = (uint32_t)i; break;
        case 3: values[i] = UINT32_MAX - (uint32_t)i / 2; break;
        case 4: values[i] = below(50001); break;
        default: values[i] = below(UINT64_C(1) << 32); break;
        }
}

/* A number divisible by 64 makes percentiles with halves. */
static size_t some_values(void)
{
    if (chance(1))
        return chance(90) ? from(500, 1000) : from(3000, 4096);
    return chance(40) ? 64 * below(4) : chance(80) ? below(30) : below(300);
}

static void compare_ranks(struct entry *e)
{
    static uint32_t values[MOST + SPARE], ranks[MOST + SPARE], others[MOST + SPARE];
    static uint32_t percentiles[MOST + SPARE], other_percentiles[MOST + SPARE];
    size_t count = some_values();
    make_values(values, count);
    if (chance(3))
        count = MOST + from(1, 2);
    size_t length = count, percentiles_len = count;
    if (chance(15))
        length = another(length);
    if (chance(15))
        percentiles_len = another(percentiles_len);
    fill(ranks, others, length * sizeof *ranks);
    fill(percentiles, other_percentiles, percentiles_len * sizeof *ranks);
    struct shtegomir_ranked a = shtegomir_rank(values, count, ranks, length, percentiles, percentiles_len);
    struct second_ranked b = second_rank(values, count, others, length, other_percentiles, percentiles_len);
    same_refusal(e, a.refusal, a.place, b.refusal, b.place);
    same_buffer("ranks", a.refusal, ranks, others, length * sizeof *ranks);
    same_buffer("percentiles", a.refusal, percentiles, other_percentiles, percentiles_len * sizeof *ranks);
    if (!differs)
        return;
    printf("ranks of %zu, percentiles of %zu\n", length, percentiles_len);
    print_numbers("values", values, count);
}

/* ---- Bands ---- */

/* The lengths besides that of the aggregates; direct count takes those of the table and the bands. */
enum { OF_TABLE, OF_RANKS, OF_PERCENTILES, OF_BANDS, OF_COUNTS, LENGTHS };

struct cohort {
    size_t count, length[LENGTHS];
    uint32_t aggregates[MOST + SPARE], table[BANDS + SPARE], population;
};

static size_t asked(const struct cohort *c, int which)
{
    return which == OF_TABLE ? BANDS : which == OF_COUNTS ? COUNTS : c->count;
}

/* So many students, and every length as asked. */
static void set_count(struct cohort *c, size_t count)
{
    c->count = count;
    for (int which = 0; which < LENGTHS; which++)
        c->length[which] = asked(c, which);
}

/* Y·F(k) is a multiple of 2000000000 at every band, so C is often equal to the places; a little more or less at one band. */
static void make_equal_places(struct cohort *c)
{
    uint32_t unit = ONE_OF(2000, 20000, 200000, 500000, MILLION), few = from(0, 40);
    c->population = 2000000000 / unit;
    for (size_t k = 0; k < BANDS; k++)
        c->table[k] = few == 0 || below(BANDS) < few ? unit * from(0, MILLION / unit < 3 ? MILLION / unit : 3) : 0;
    uint32_t *entry = &c->table[chance(50) ? BANDS - 1 : below(BANDS)];
    if (chance(30))
        *entry = *entry > 0 && (*entry == MILLION || chance(50)) ? *entry - 1 : *entry + 1;
}

static void make_table(struct cohort *c)
{
    uint32_t most = ONE_OF(0, 1, 1000, MILLION), manner = below(4);
    c->population = chance(30) ? ONE_OF(1, 2, 3, 40, MILLION) : chance(50) ? from(1, 5000) : from(1, MILLION);
    for (uint32_t k = 0; k < BANDS; k++)
        switch (manner) {
        case 0: c->table[k] = most; break;
        case 1: c->table[k] = below(most + 1); break;
        case 2: c->table[k] = 500 * k; break;
        default: c->table[k] = below(100) == 0 ? MILLION : 0; break;
        }
}

static void make_aggregates(struct cohort *c)
{
    uint32_t manner = below(4), few = from(1, 5), start = below(49995);
    for (size_t i = 0; i < c->count; i++)
        switch (manner) {
        case 0: c->aggregates[i] = start + below(few); break;
        case 1: c->aggregates[i] = ONE_OF(0, 1, 49999, 50000); break;
        case 2: c->aggregates[i] = 50000 - (uint32_t)i % 50001; break;
        default: c->aggregates[i] = below(50001); break;
        }
}

static void make_cohort(struct cohort *c, size_t count)
{
    set_count(c, count);
    if (chance(50))
        make_equal_places(c);
    else
        make_table(c);
    make_aggregates(c);
}

static void damage_length(struct cohort *c, int which)
{
    c->length[which] = another(c->length[which]);
}

/* Damage to what one rule is about, the rules in their order: 2, 11, 9, 13, 12. Some of it comes up to a limit and not past it. */
static void damage_for(struct cohort *c, unsigned rule, size_t limit)
{
    switch (rule) {
    case 0: set_count(c, limit + from(1, 2)); break;
    case 1: damage_length(c, (int)below(LENGTHS)); break;
    case 2: c->population = ONE_OF(0, MILLION, MILLION + 1, UINT32_MAX); break;
    case 3: c->table[below(BANDS)] = ONE_OF(MILLION, MILLION + 1, UINT32_MAX); break;
    default: c->aggregates[below(c->count + (c->count == 0))] = ONE_OF(50000, 50001, UINT32_MAX); break;
    }
}

static void damage_cohort(struct cohort *c, size_t limit)
{
    for (unsigned times = chance(40) ? from(1, 3) : 0; times > 0; times--)
        damage_for(c, ONE_OF(0, 1, 1, 1, 2, 2, 3, 3, 4, 4), limit);
}

static const char *const length_names[LENGTHS] = {"table", "ranks", "percentiles", "bands", "counts"};

static void print_cohort(const struct cohort *c)
{
    printf("population %lu", (unsigned long)c->population);
    for (int which = 0; which < LENGTHS; which++)
        printf(", %s of %zu", length_names[which], c->length[which]);
    printf("\n");
    print_numbers("aggregates", c->aggregates, c->count);
    print_numbers("table", c->table, c->length[OF_TABLE]);
}

static void same_placed(struct entry *e, struct shtegomir_placed a, struct second_placed b)
{
    same_refusal(e, a.refusal, a.place, b.refusal, b.place);
    same("remainder", a.remainder, b.remainder);
}

/* What is lent to be written. */
struct written {
    uint32_t ranks[MOST + SPARE], percentiles[MOST + SPARE], counts[COUNTS + SPARE];
    uint16_t bands[MOST + SPARE];
};

static struct cohort cohort;
static struct written ours, theirs, apart; /* by the library, by the second implementation, by the library's calls apart */

static void compare_direct(struct entry *e)
{
    struct cohort *c = &cohort;
    make_cohort(c, chance(90) ? below(40) : chance(80) ? below(200) : from(500, 512));
    damage_cohort(c, 512);
    size_t count = c->length[OF_BANDS], size = count * sizeof *ours.bands;
    fill(ours.bands, theirs.bands, size);
    struct shtegomir_placed a =
        shtegomir_place_direct(c->aggregates, c->count, c->table, c->length[OF_TABLE], c->population, ours.bands, count);
    same_placed(e, a,
                second_place_direct(c->aggregates, c->count, c->table, c->length[OF_TABLE], c->population, theirs.bands, count));
    same_buffer("bands", a.refusal, ours.bands, theirs.bands, size);
    if (differs)
        print_cohort(c);
}

/* ---- Ranks and bands in one call ---- */

/* A number divisible by 64 makes percentiles with halves. */
static size_t some_students(void)
{
    if (chance(80))
        return chance(30) ? 64 * below(10) : below(600);
    return chance(90) ? below(5000) : chance(50) ? MOST : from(20000, MOST);
}

static void tie_all(struct cohort *c)
{
    for (size_t i = 0; i < c->count; i++)
        c->aggregates[i] = c->aggregates[0];
}

static void spread(struct cohort *c)
{
    for (size_t i = 0; i < c->count; i++)
        c->aggregates[i] = below(50001);
}

/* Of a hundred cohorts each length is damaged alone in one, each rule with the next in two (the last with itself), and a length for nobody in
 * one; one is of nobody, one all tied, one of as many students as there may be, with aggregates by chance. The others are any, some of them damaged. */
static void make_any_cohort(struct cohort *c, unsigned turn)
{
    switch (turn) {
    case 96: make_cohort(c, 0); damage_length(c, (int)below(LENGTHS)); return;
    case 97: make_cohort(c, 0); return;
    case 98: make_cohort(c, chance(80) ? from(2, 600) : MOST); tie_all(c); return;
    case 99: make_cohort(c, MOST); spread(c); return;
    default: make_cohort(c, some_students()); break;
    }
    if (turn % 20 == 0)
        damage_length(c, (int)turn / 20);
    else if (turn % 10 == 5) {
        damage_for(c, turn / 20, MOST);
        damage_for(c, turn / 20 + 1, MOST);
    } else
        damage_cohort(c, MOST);
}

/* What was met besides refusals: refused 11 for one length alone, and accepted cohorts. */
enum { FULL, OVER_BANDS, ALL_TIED, NOBODY, HALVES, NOT_ALL_PLACED, BY_DIRECT_COUNT, OF_COHORTS };

static unsigned long met_lengths[LENGTHS], met_cohorts[OF_COHORTS];

static struct second_placed second_of(const struct cohort *c)
{
    const size_t *length = c->length;
    return second_rank_and_place(c->aggregates, c->count, c->table, length[OF_TABLE], c->population, theirs.ranks, length[OF_RANKS],
                                 theirs.percentiles, length[OF_PERCENTILES], theirs.bands, length[OF_BANDS], theirs.counts,
                                 length[OF_COUNTS]);
}

/* Of a cohort refused 11: whether one length is to blame for it, and with that one mended it is accepted. */
static void note_length(struct cohort *c)
{
    int blamed = 0, wrong = 0;
    for (int which = 0; which < LENGTHS; which++)
        if (c->length[which] != asked(c, which)) {
            blamed = which;
            wrong++;
        }
    size_t damaged = c->length[blamed];
    c->length[blamed] = asked(c, blamed);
    met_lengths[blamed] += wrong == 1 && second_of(c).refusal == 0;
    c->length[blamed] = damaged;
}

/* Whether 100 times rank/N has a half of a thousandth. */
static int is_half(uint32_t rank, size_t count)
{
    return 2 * (100000 * (uint64_t)rank % count) == count;
}

/* Of an accepted cohort. */
static void note_cohort(const struct cohort *c, uint32_t remainder)
{
    size_t different = 0, halves = 0;
    for (size_t t = 0; t < COUNTS; t++)
        different += theirs.counts[t] != 0;
    for (size_t i = 0; i < c->count; i++)
        halves += is_half(theirs.ranks[i], c->count);
    met_cohorts[FULL] += c->count == MOST;
    met_cohorts[OVER_BANDS] += different > BANDS;
    met_cohorts[ALL_TIED] += c->count > 1 && different == 1;
    met_cohorts[NOBODY] += c->count == 0;
    met_cohorts[HALVES] += halves != 0;
    met_cohorts[NOT_ALL_PLACED] += remainder != 0;
    met_cohorts[BY_DIRECT_COUNT] += c->count <= 512;
}

static int all_cohorts(void)
{
    static const char *const names[OF_COHORTS] = {"of 100000 students", "of over 2000 different aggregates", "all tied", "of nobody",
                                                  "with a percentile of a half", "with a remainder", "held to direct count"};
    int all = 1;
    printf("ranks and bands, refused 11 for one length alone:");
    for (int which = 0; which < LENGTHS; which++) {
        printf("%s %lu %s", which == 0 ? "" : ",", met_lengths[which], length_names[which]);
        all &= met_lengths[which] != 0;
    }
    printf("\nranks and bands, accepted cohorts:");
    for (int i = 0; i < OF_COHORTS; i++) {
        printf("%s %lu %s", i == 0 ? "" : ",", met_cohorts[i], names[i]);
        all &= met_cohorts[i] != 0;
    }
    printf(all ? "\n" : "; not all that there are\n");
    return all;
}

static void unlike_apart(const char *what)
{
    differs = 1;
    printf("%s: not as by the library's calls apart\n", what);
}

/* An accepted cohort by the calls apart: ranks, and bands by direct count, which takes up to 512 students. */
static void compare_apart(const struct cohort *c, uint32_t remainder)
{
    size_t size = c->count * sizeof *ours.ranks;
    struct shtegomir_ranked r = shtegomir_rank(c->aggregates, c->count, apart.ranks, c->count, apart.percentiles, c->count);
    if (r.refusal != 0 || memcmp(ours.ranks, apart.ranks, size) != 0)
        unlike_apart("ranks");
    if (memcmp(ours.percentiles, apart.percentiles, size) != 0)
        unlike_apart("percentiles");
    if (c->count > 512)
        return;
    struct shtegomir_placed p =
        shtegomir_place_direct(c->aggregates, c->count, c->table, BANDS, c->population, apart.bands, c->count);
    if (p.refusal != 0 || p.remainder != remainder)
        unlike_apart("remainder");
    if (memcmp(ours.bands, apart.bands, c->count * sizeof *ours.bands) != 0)
        unlike_apart("bands");
}

static void compare_in_one_call(struct entry *e)
{
    struct cohort *c = &cohort;
    make_any_cohort(c, (unsigned)(e->inputs % 100));
    size_t *length = c->length, ranks = length[OF_RANKS] * sizeof *ours.ranks, counts = length[OF_COUNTS] * sizeof *ours.counts;
    size_t percentiles = length[OF_PERCENTILES] * sizeof *ours.percentiles, bands = length[OF_BANDS] * sizeof *ours.bands;
    fill(ours.ranks, theirs.ranks, ranks);
    fill(ours.percentiles, theirs.percentiles, percentiles);
    fill(ours.bands, theirs.bands, bands);
    fill(ours.counts, theirs.counts, counts);
    struct shtegomir_placed a = shtegomir_rank_and_place(
        c->aggregates, c->count, c->table, length[OF_TABLE], c->population, ours.ranks, length[OF_RANKS], ours.percentiles,
        length[OF_PERCENTILES], ours.bands, length[OF_BANDS], ours.counts, length[OF_COUNTS]);
    struct second_placed b = second_of(c);
    same_placed(e, a, b);
    same_buffer("ranks", a.refusal, ours.ranks, theirs.ranks, ranks);
    same_buffer("percentiles", a.refusal, ours.percentiles, theirs.percentiles, percentiles);
    same_buffer("bands", a.refusal, ours.bands, theirs.bands, bands);
    same_buffer("counts", a.refusal, ours.counts, theirs.counts, counts);
    if (b.refusal == 0) {
        note_cohort(c, b.remainder);
        compare_apart(c, a.remainder);
    } else if (b.refusal == 11)
        note_length(c);
    if (differs)
        print_cohort(c);
}

/* ---- The report ---- */

static struct seen seen;

static void compare_report(struct entry *e)
{
    static struct file file;
    size_t text_len = chance(96) ? TEXT_BYTES : ONE_OF(0, TEXT_BYTES - 1, TEXT_BYTES + 1);
    make_file(&file);
    for (unsigned times = chance(60) ? from(1, 3) : 0; times > 0; times--)
        damage_file(&file);
    differs = !same_report(&file, text_len, &seen);
    e->inputs++;
    memcpy(e->met, seen.calls, sizeof e->met);
    if (!differs)
        return;
    printf("a text of %zu\n", text_len);
    print_file(&file);
}

/* What the listings showed, of the files and of their students. */
static int all_shown(void)
{
    struct entry files = {"files", GIVES(0, 1, 2, 3, 5, 6, 9, 10, 14), 0, {0}};
    struct entry students = {"their students", GIVES(0, 3, 4, 5, 6, 7, 8), 0, {0}};
    for (unsigned n = 0; n < NUMBERS; n++) {
        files.inputs += files.met[n] = seen.files[n];
        students.inputs += students.met[n] = seen.students[n];
    }
    int met = all_met(&files) & all_met(&students);
    printf("cohorts of at least five eligible: %lu; students tied by rounding: %lu\n", seen.cohorts, seen.tied_by_rounding);
    return met && seen.cohorts != 0 && seen.tied_by_rounding >= FEWEST;
}

/* ---- All of them ---- */

static int run(const char *name, unsigned gives, void (*compare)(struct entry *), unsigned long inputs)
{
    struct entry e = {name, gives, 0, {0}};
    while (e.inputs < inputs && !differs)
        compare(&e);
    if (!differs)
        return all_met(&e);
    printf("%s: the two differ at input %lu\n", name, e.inputs);
    return 0;
}

int main(int arguments, char **argument)
{
    if (arguments != 2) {
        printf("compare: give it a seed\n");
        return 1;
    }
    uint64_t seed = strtoull(argument[1], NULL, 10);
    seed_chance(seed);
    printf("compare: seed %llu\n", (unsigned long long)seed);
    fflush(stdout);
    int fine = run("first scores", GIVES(0, 3, 11, 15), compare_scores, SCORES) && all_kinds() &&
               run("best set", GIVES(0, 1, 2, 3, 4, 5, 6, 7, 8, 11, 14), compare_best_set, BEST_SETS) && all_years() &&
               all_scores() &&
               run("curve", GIVES(0, 9, 10, 11), compare_curve, CURVES) &&
               run("ranks", GIVES(0, 2, 11), compare_ranks, RANKINGS) &&
               run("direct bands", GIVES(0, 2, 9, 11, 12, 13), compare_direct, DIRECT) &&
               run("ranks and bands", GIVES(0, 2, 9, 11, 12, 13), compare_in_one_call, IN_ONE_CALL) && all_cohorts() &&
               run("report", GIVES(0, 11), compare_report, REPORTS) && all_shown();
    printf(fine ? "compare: no difference\n" : "compare: failed, seed %llu\n", (unsigned long long)seed);
    return !fine;
}
