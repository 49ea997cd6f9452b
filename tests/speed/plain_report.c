/* The report in plain C, with the other jobs of plain.h: see there. */
#include <string.h>

#include "plain.h"

enum { FILE_BYTES = 65536, TEXT_BYTES = 65536, SUBJECTS = 64, RESULTS = 16, STUDENTS = 512, BANDS = 2000, COUNTS = 50001 };

struct cohort {
    uint32_t year, population, curve[BANDS];
    size_t subjects, students;
    uint8_t catalogue[5 * SUBJECTS], table[ROW_BYTES * SUBJECTS];
    uint32_t ids[STUDENTS];
    size_t counts[STUDENTS]; /* of the results of each */
    uint8_t results[STUDENTS][6 * RESULTS];
};

static uint32_t two(const uint8_t *bytes)
{
    return (uint32_t)bytes[0] << 8 | bytes[1];
}

static uint32_t four(const uint8_t *bytes)
{
    return two(bytes) << 16 | two(bytes + 2);
}

/* ---- The file ---- */

static int entry_wrong(const uint8_t *entry)
{
    unsigned kind = entry[0], strand = entry[1], level = entry[2], identity = two(entry + 3);
    if (kind < 1 || kind > 6 || strand > 2 || (kind >= 5 && strand != 0))
        return 1;
    if (kind == 6 ? level < 1 || level > 6 : level != 0)
        return 1;
    return (kind == 1 || kind == 3) != (identity != 0);
}

static unsigned take_score(struct cohort *c, const uint8_t *value)
{
    unsigned subject = two(value), slot = value[2];
    if (subject >= c->subjects)
        return 3;
    if (slot < 1 || slot > SLOTS || four(value + 3) > TOP_SCORE)
        return 5;
    uint8_t *place = c->table + ROW_BYTES * subject + SCORE_BYTES * (slot - 1);
    if (four(place) != MISSING_SCORE)
        return 6;
    memcpy(place, value + 3, SCORE_BYTES);
    return 0;
}

static unsigned take_figures(struct cohort *c, const uint8_t *value)
{
    uint32_t figures[10];
    for (int i = 0; i < 10; i++)
        figures[i] = four(value + 4 * i);
    struct shtegomir_curve curve = plain_participation(figures, 10, c->curve, BANDS);
    c->population = curve.population;
    return (unsigned)curve.refusal;
}

static unsigned take_student(struct cohort *c, uint32_t id)
{
    if (c->students == STUDENTS)
        return 2;
    for (size_t i = 0; i < c->students; i++)
        if (c->ids[i] == id)
            return 6;
    c->counts[c->students] = 0;
    c->ids[c->students++] = id;
    return 0;
}

/* Gives the refusal of one field, or 0. */
static unsigned take(struct cohort *c, unsigned tag, const uint8_t *value)
{
    switch (tag) {
    case 1:
        c->year = two(value);
        return c->year < 1984 || c->year > 9999 ? 14 : 0;
    case 2:
        if (c->subjects == SUBJECTS)
            return 2;
        if (entry_wrong(value))
            return 3;
        memcpy(c->catalogue + 5 * c->subjects++, value, 5);
        return 0;
    case 3: return take_score(c, value);
    case 4: return take_figures(c, value);
    case 5: return take_student(c, four(value));
    default:
        if (c->counts[c->students - 1] == RESULTS)
            return 2;
        memcpy(c->results[c->students - 1] + 6 * c->counts[c->students - 1]++, value, 6);
        return 0;
    }
}

/* Gives the refusal of the file, or 0. */
static unsigned read_file(struct cohort *c, const uint8_t *file, size_t length, size_t *place)
{
    static const uint8_t sizes[7] = {0, 2, 5, 3 + SCORE_BYTES, 40, 4, 6};
    static const uint8_t before[7] = {0, 1, 6, 14, 14, 112, 96}; /* bit t: tag t may stand before */
    unsigned last = 0;
    c->subjects = c->students = 0;
    memset(c->table, 255, sizeof c->table);
    *place = FILE_BYTES;
    if (length > FILE_BYTES)
        return 2;
    for (*place = 0; *place < length; *place += 3u + sizes[last]) {
        size_t left = length - *place;
        const uint8_t *field = file + *place;
        if (field[0] > 6 || !(before[field[0]] >> last & 1))
            return 1;
        last = field[0];
        if (left < 3u + sizes[last] || two(field + 1) != sizes[last])
            return 1;
        unsigned refusal = take(c, last, field + 3);
        if (refusal != 0)
            return refusal;
    }
    return last < 4;
}

/* ---- The listing ---- */

static uint8_t *put_words(uint8_t *to, const char *words)
{
    while (*words)
        *to++ = (uint8_t)*words++;
    return to;
}

static uint8_t *put_number(uint8_t *to, uint64_t value)
{
    uint8_t digits[20];
    int count = 0;
    do
        digits[count++] = (uint8_t)('0' + value % 10);
    while ((value /= 10) > 0);
    while (count > 0)
        *to++ = digits[--count];
    return to;
}

static uint8_t *put_decimals(uint8_t *to, uint32_t value, uint32_t one)
{
    to = put_number(to, value / one);
    *to++ = '.';
    while ((one /= 10) > 0)
        *to++ = (uint8_t)('0' + value / one % 10);
    return to;
}

static uint8_t *put_refused(uint8_t *to, uint64_t number, uint64_t place)
{
    to = put_number(put_words(to, "refused "), number);
    *to++ = ' ';
    to = put_number(to, place);
    *to++ = '\n';
    return to;
}

static uint8_t *put_eligible(uint8_t *to, uint32_t aggregate, uint32_t rank, uint32_t percentile, uint32_t band)
{
    to = put_decimals(to, aggregate, 100);
    *to++ = ' ';
    to = put_number(to, rank);
    *to++ = ' ';
    to = put_decimals(to, percentile, 1000);
    *to++ = ' ';
    to = band <= 600 ? put_words(to, "30.00 or less") : put_decimals(to, 5 * band, 100);
    *to++ = '\n';
    return to;
}

static uint8_t *put_cohort(uint8_t *to, const struct cohort *c)
{
    static uint32_t counts[COUNTS];
    struct shtegomir_best best[STUDENTS];
    uint32_t aggregates[STUDENTS], ranks[STUDENTS], percentiles[STUDENTS];
    uint16_t bands[STUDENTS];
    size_t n = 0, next = 0;
    for (size_t i = 0; i < c->students; i++) {
        best[i] = plain_best_set(c->catalogue, 5 * c->subjects, c->table, ROW_BYTES * c->subjects, c->year, c->results[i],
                                 6 * c->counts[i]);
        if (best[i].refusal == 0)
            aggregates[n++] = best[i].aggregate;
    }
    plain_rank(aggregates, n, ranks, n, percentiles, n);
    struct shtegomir_placed placed = plain_place_tally(aggregates, n, c->curve, BANDS, c->population, bands, n, counts, COUNTS);
    to = put_number(put_words(to, "cohort "), c->students);
    to = put_number(put_words(to, " eligible "), n);
    to = put_number(put_words(to, " remainder "), placed.remainder);
    *to++ = '\n';
    for (size_t i = 0; i < c->students; i++) {
        to = put_number(to, c->ids[i]);
        *to++ = ' ';
        if (best[i].refusal != 0) {
            to = put_refused(to, best[i].refusal, best[i].place);
            continue;
        }
        to = put_eligible(to, aggregates[next], ranks[next], percentiles[next], bands[next]);
        next++;
    }
    return to;
}

struct shtegomir_text plain_report(const uint8_t *file, size_t file_len, uint8_t *text, size_t text_len)
{
    struct cohort c;
    size_t place;
    if (text_len != TEXT_BYTES)
        return (struct shtegomir_text){11, 0, 0};
    unsigned refusal = read_file(&c, file, file_len, &place);
    uint8_t *end = refusal != 0 ? put_refused(text, refusal, place) : put_cohort(text, &c);
    return (struct shtegomir_text){0, 0, (uint64_t)(end - text)};
}
