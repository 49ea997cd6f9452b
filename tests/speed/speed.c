/* Times each entry against plain C that does the same job (plain.h), in one run, and holds what both give to each other. Prints a
 * table. The two take turns, and the least time of each counts. Buffers are not cleared between calls: they hold what the call
 * before left; what a call clears itself is in its time. In the rows 'one call for two' the second column is not plain C alone: see
 * two_calls.
 */
#include <stdio.h>
#include <string.h>
#include <time.h>

#include "plain.h"

enum { MOST = 100000, BANDS = 2000, COUNTS = 50001, SUBJECTS = 16, STUDENTS = 64, TURNS = 25 };

static uint64_t seed = 1;
static int differ;

static uint32_t next(uint32_t below)
{
    seed = seed * 6364136223846793005u + 1442695040888963407u;
    return (uint32_t)((seed >> 33) % below);
}

/* ---- Time ---- */

static double now(void)
{
    struct timespec t;
    clock_gettime(CLOCK_MONOTONIC, &t);
    return (double)t.tv_sec * 1e6 + (double)t.tv_nsec / 1e3;
}

/* in microseconds */
static double took(void (*job)(void), int times)
{
    double start = now();
    for (int i = 0; i < times; i++)
        job();
    return (now() - start) / times;
}

static void print_time(double time)
{
    if (time < 1000)
        printf(" %.*f us |", time < 10 ? 2 : 1, time);
    else
        printf(" %.2f ms |", time / 1000);
}

/* One row: the job does `each` units; growth is over the last row of the same job. */
static void race(const char *job, size_t size, void (*proved)(void), void (*plain)(void), int each)
{
    static const char *last_job;
    static double last;
    double a = took(proved, 1), b = took(plain, 1), longer = a > b ? a : b;
    int times = longer > 3000 ? 1 : (int)(3000 / longer) + 1;
    for (int turn = 0; turn < TURNS; turn++) {
        double x = took(proved, times), y = took(plain, times);
        a = x < a ? x : a;
        b = y < b ? y : b;
    }
    printf("| %s | %zu |", job, size);
    print_time(a / each);
    print_time(b / each);
    printf(" %.2f |", a / b);
    if (last_job == job)
        printf(" %.1f |\n", a / each / last);
    else
        printf(" |\n");
    last_job = job;
    last = a / each;
}

static void same(const char *what, const void *a, const void *b, size_t size)
{
    if (memcmp(a, b, size) == 0)
        return;
    differ = 1;
    printf("%s: the two differ\n", what);
}

/* ---- The best set ---- */

/* English, two of Mathematics, ten more Generals, an external examination of one of these, an Applied of Mathematics, a Certificate III. */
static uint8_t catalogue[5 * SUBJECTS], scores[ROW_BYTES * SUBJECTS], results[STUDENTS][6 * 16];
static size_t results_len;
static struct shtegomir_best sets[STUDENTS], sets_plain[STUDENTS];

static void make_catalogue(void)
{
    for (int i = 0; i < SUBJECTS; i++) {
        const uint8_t general[5] = {1, (uint8_t)(i == 0 ? 1 : i <= 2 ? 2 : 0), 0, 0, (uint8_t)(i + 1)};
        memcpy(catalogue + 5 * i, general, 5);
        for (int slot = 0; slot < SLOTS; slot++) {
            uint32_t score = next(TOP_SCORE + 1);
            for (int byte = 0; byte < SCORE_BYTES; byte++)
                scores[ROW_BYTES * i + SCORE_BYTES * slot + byte] = (uint8_t)(score >> 8 * (SCORE_BYTES - 1 - byte));
        }
    }
    memcpy(catalogue + 5 * 13, (const uint8_t[]){3, 0, 0, 0, 5, 4, 2, 0, 0, 0, 6, 0, 3, 0, 0}, 15);
}

/* English first, then other subjects by chance; all of 2021, or of that year and those before it by chance. */
static void make_students(size_t count, uint32_t years)
{
    results_len = 6 * count;
    for (int s = 0; s < STUDENTS; s++) {
        uint8_t order[SUBJECTS];
        for (int i = 0; i < SUBJECTS; i++)
            order[i] = (uint8_t)i;
        for (int i = SUBJECTS - 1; i > 1; i--) {
            uint32_t j = 1 + next((uint32_t)i);
            uint8_t moved = order[i];
            order[i] = order[j];
            order[j] = moved;
        }
        for (size_t i = 0; i < count; i++) {
            unsigned kind = catalogue[5 * order[i]], letter = kind == 6 ? 'Y' : 'A' + next(3), number = kind > 3 ? 0 : 1 + next(100), year = 2021 - next(years);
            const uint8_t result[6] = {0, order[i], (uint8_t)letter, (uint8_t)number, (uint8_t)(year / 256), (uint8_t)(year % 256)};
            memcpy(results[s] + 6 * i, result, 6);
        }
    }
}

static void sets_by_proof(void)
{
    for (int s = 0; s < STUDENTS; s++)
        sets[s] = shtegomir_best_set(catalogue, sizeof catalogue, scores, sizeof scores, 2021, results[s], results_len);
}

static void sets_by_c(void)
{
    for (int s = 0; s < STUDENTS; s++)
        sets_plain[s] = plain_best_set(catalogue, sizeof catalogue, scores, sizeof scores, 2021, results[s], results_len);
}

static void race_students(const char *job, size_t count, uint32_t years)
{
    make_students(count, years);
    race(job, count, sets_by_proof, sets_by_c, STUDENTS);
    for (int s = 0; s < STUDENTS; s++) {
        same("refusals", &sets[s].refusal, &sets_plain[s].refusal, sizeof sets[s].refusal);
        same("aggregates", &sets[s].aggregate, &sets_plain[s].aggregate, sizeof sets[s].aggregate);
        same("sets", &sets[s].set, &sets_plain[s].set, sizeof sets[s].set);
    }
}

static void race_best_sets(void)
{
    static const char *job = "best set, results";
    make_catalogue();
    for (int i = 0; i < 4; i++)
        race_students(job, (const size_t[]){5, 8, 12, 16}[i], 1);
    race_students("best set, results over nine years", 16, 9);
}

/* ---- The curve ---- */

static const uint32_t figures[10] = {0, 100000, 0, 0, 0, 0, 50000, 0, 0, 0};
static uint32_t table[BANDS], table_plain[BANDS];

static void curve_by_proof(void)
{
    shtegomir_participation(figures, 10, table, BANDS);
}

static void curve_by_c(void)
{
    plain_participation(figures, 10, table_plain, BANDS);
}

static void race_curve(void)
{
    race("curve, entries", BANDS, curve_by_proof, curve_by_c, 1);
    same("curve", table, table_plain, sizeof table);
}

/* ---- First scores ---- */

static uint32_t at_each[SLOTS];
static uint8_t scored[ROW_BYTES * SUBJECTS], scored_plain[ROW_BYTES * SUBJECTS];

static void scores_by_proof(void)
{
    shtegomir_first_scores(1, 1, at_each, SLOTS, scored, sizeof scored);
}

static void scores_by_c(void)
{
    plain_first_scores(1, 1, at_each, SLOTS, scored_plain, sizeof scored_plain);
}

static void race_scores(void)
{
    for (int i = 0; i < SLOTS; i++)
        at_each[i] = next(1000);
    race("first scores, counts", SLOTS, scores_by_proof, scores_by_c, 1);
    same("first scores", scored, scored_plain, sizeof scored);
}

/* ---- Ranks and bands ---- */

static uint32_t values[MOST], ranks[MOST], ranks_plain[MOST], percentiles[MOST], percentiles_plain[MOST];
static uint32_t counts[COUNTS], counts_plain[COUNTS];
static uint16_t bands[MOST], bands_plain[MOST];
static uint32_t remainder, remainder_plain;
static size_t count;

static void ranks_by_proof(void)
{
    shtegomir_rank(values, count, ranks, count, percentiles, count);
}

static void ranks_by_c(void)
{
    plain_rank(values, count, ranks_plain, count, percentiles_plain, count);
}

static void direct_by_proof(void)
{
    shtegomir_place_direct(values, count, table, BANDS, 100000, bands, count);
}

static void direct_by_c(void)
{
    plain_place_direct(values, count, table, BANDS, 100000, bands_plain, count);
}

static void both_by_proof(void)
{
    remainder = shtegomir_rank_and_place(values, count, table, BANDS, 100000, ranks, count, percentiles, count, bands, count, counts,
                                         COUNTS)
                    .remainder;
}

static void both_by_c(void)
{
    remainder_plain = plain_rank_and_place(values, count, table, BANDS, 100000, ranks_plain, count, percentiles_plain, count,
                                           bands_plain, count, counts_plain, COUNTS)
                          .remainder;
}

/* The two calls for which the one stands: the library's ranks, and then bands by tally, in plain C, since the library's own entry for
 * them has given way to the one call. */
static void two_calls(void)
{
    shtegomir_rank(values, count, ranks_plain, count, percentiles_plain, count);
    remainder_plain =
        plain_place_tally(values, count, table, BANDS, 100000, bands_plain, count, counts_plain, COUNTS).remainder;
}

/* What an earlier row left cannot serve for this one. */
static void forget(void)
{
    memset(ranks_plain, 255, sizeof ranks_plain);
    memset(percentiles_plain, 255, sizeof percentiles_plain);
    memset(bands_plain, 255, sizeof bands_plain);
    memset(counts_plain, 255, sizeof counts_plain);
    remainder_plain = UINT32_MAX;
    memset(ranks, 0, sizeof ranks);
    memset(percentiles, 0, sizeof percentiles);
    memset(bands, 0, sizeof bands);
    memset(counts, 0, sizeof counts);
    remainder = 0;
}

static void race_both(const char *job, void (*other)(void))
{
    forget();
    race(job, count, both_by_proof, other, 1);
    same("ranks", ranks, ranks_plain, count * sizeof *ranks);
    same("percentiles", percentiles, percentiles_plain, count * sizeof *percentiles);
    same("bands", bands, bands_plain, count * sizeof *bands);
    same("counts", counts, counts_plain, sizeof counts);
    same("remainders", &remainder, &remainder_plain, sizeof remainder);
}

static void race_cohorts(void)
{
    static const size_t sizes[] = {1000, 10000, 100000}, direct[] = {64, 512};
    for (size_t i = 0; i < MOST; i++)
        values[i] = next(COUNTS);
    for (int i = 0; i < 3; i++) {
        count = sizes[i];
        race("ranks, values", count, ranks_by_proof, ranks_by_c, 1);
        same("ranks", ranks, ranks_plain, count * sizeof *ranks);
        same("percentiles", percentiles, percentiles_plain, count * sizeof *percentiles);
    }
    for (int i = 0; i < 2; i++) {
        count = direct[i];
        race("bands by direct count, students", count, direct_by_proof, direct_by_c, 1);
        same("bands", bands, bands_plain, count * sizeof *bands);
    }
    for (int i = 0; i < 3; i++) {
        count = sizes[i];
        race_both("ranks and bands, students", both_by_c);
    }
    for (int i = 0; i < 3; i++) {
        count = sizes[i];
        race_both("one call for two, students", two_calls);
    }
}

/* ---- The report ---- */

static uint8_t file[65536], text[65536], text_plain[65536];
static size_t file_len;

static void report_by_proof(void)
{
    shtegomir_report(file, file_len, text, sizeof text);
}

static void report_by_c(void)
{
    plain_report(file, file_len, text_plain, sizeof text_plain);
}

static void add_field(unsigned tag, unsigned length, const uint8_t *value)
{
    file[file_len++] = (uint8_t)tag;
    file[file_len++] = 0;
    file[file_len++] = (uint8_t)length;
    memcpy(file + file_len, value, length);
    file_len += length;
}

static void add_score(uint8_t subject, uint8_t slot)
{
    uint8_t value[3 + SCORE_BYTES] = {0, subject, slot};
    memcpy(value + 3, scores + ROW_BYTES * subject + SCORE_BYTES * (slot - 1), SCORE_BYTES);
    add_field(3, sizeof value, value);
}

/* The catalogue of the best sets, a score for each slot that a result uses, and as many students of sixteen results as fit. An
 * Applied C becomes a B: without its score one student more fits. */
static size_t make_full_file(void)
{
    static const uint8_t year[2] = {2021 / 256, 2021 % 256}, q_and_e[40] = {[6] = 700 / 256, 700 % 256, [26] = 500 / 256, 500 % 256};
    static uint8_t given[SUBJECTS][101];
    size_t students = 0;
    file_len = 0;
    add_field(1, 2, year);
    for (int i = 0; i < SUBJECTS; i++)
        add_field(2, 5, catalogue + 5 * i);
    for (int s = 0; s < STUDENTS; s++)
        for (size_t i = 0; i < 16; i++) {
            uint8_t *result = results[s] + 6 * i, kind = catalogue[5 * result[1]];
            if (kind <= 3)
                result[3] = (uint8_t)(10 * (1 + next(5)));
            if (kind == 4 && result[2] == 'C')
                result[2] = 'B';
            unsigned slot = kind <= 3 ? result[3] : kind == 4 ? 90 - 20 * (result[2] - 'A') : 1;
            if (given[result[1]][slot]++ == 0)
                add_score(result[1], (uint8_t)slot);
        }
    add_field(4, 40, q_and_e);
    for (; file_len + 7 + 9 * 16 <= sizeof file; students++) {
        add_field(5, 4, (const uint8_t[]){0, 0, (uint8_t)(students >> 8), (uint8_t)students});
        for (size_t i = 0; i < 16; i++)
            add_field(6, 6, results[students % STUDENTS] + 6 * i);
    }
    return students;
}

static void race_report(const char *job, size_t students)
{
    race(job, students, report_by_proof, report_by_c, 1);
    same("report", text, text_plain, sizeof text);
}

/* Every student refused, 8: the fifth of five subjects gets the identity of the fourth. */
static void refuse_all(void)
{
    static const char nobody[] = "cohort 512 eligible 0 remainder 0\n1 refused 8 0\n";
    file[5 + 8 * 4 + 7] = 4;
    report_by_proof();
    same("refused students", text, nobody, sizeof nobody - 1);
}

static void race_reports(void)
{
    FILE *source = fopen("tests/cohorts/students-512.cohort", "rb");
    file_len = source == NULL ? 0 : fread(file, 1, sizeof file, source);
    if (source == NULL || fclose(source) != 0)
        differ = 1;
    race_report("report, students of 5 results", 512);
    refuse_all();
    race_report("report, refused students of 5 results", 512);
    make_students(16, 1);
    race_report("report, students of 16 results", make_full_file());
}

int main(void)
{
    printf("| job | size | proved | plain C | ratio | growth |\n|---|---|---|---|---|---|\n");
    race_best_sets();
    race_scores();
    race_curve();
    race_cohorts();
    race_reports();
    return differ;
}
