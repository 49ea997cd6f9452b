/* Cohort files by chance: see files.h. */
#include "files.h"

#include <stdio.h>
#include <stdlib.h>
#include <string.h>

#include "chance.h"
#include "second.h"
#include "shtegomir.h"

enum { SUBJECTS = 64, RESULTS = 16, STUDENTS = 512, SLOTS = 100, SCORE = 4, BANDS = 2000, MILLION = 1000000 };
enum { TOP_SCORE = 1000000, ONE = 10000, HUNDREDTH = 100 }; /* in ten-thousandths */
enum { OLD_SCORE = 2, OLD_MISSING = 65535 };                /* as they were in hundredths */

#define MISSING UINT32_MAX

static const uint32_t lengths[] = {0, 2, 5, 3 + SCORE, 40, 4, 6}; /* of the value of each tag */

/* ---- Bytes and fields ---- */

static uint32_t two(const uint8_t *bytes)
{
    return 256u * bytes[0] + bytes[1];
}

static uint32_t four(const uint8_t *bytes)
{
    return 65536u * two(bytes) + two(bytes + 2);
}

static void put_two(uint8_t *bytes, uint32_t value)
{
    bytes[0] = (uint8_t)(value >> 8);
    bytes[1] = (uint8_t)value;
}

static void put_four(uint8_t *bytes, uint32_t value)
{
    put_two(bytes, value >> 16);
    put_two(bytes + 2, value);
}

/* Puts bytes in; they may be the file's own. Without room nothing is done. */
static void put_in(struct file *f, size_t at, const uint8_t *bytes, size_t length)
{
    static uint8_t copy[FILE_ROOM];
    if (length > FILE_ROOM - f->length || at > f->length)
        return;
    memcpy(copy, bytes, length);
    memmove(f->bytes + at + length, f->bytes + at, f->length - at);
    memcpy(f->bytes + at, copy, length);
    f->length += length;
}

static void take_out(struct file *f, size_t at, size_t length)
{
    memmove(f->bytes + at, f->bytes + at + length, f->length - at - length);
    f->length -= length;
}

static void put_field_in(struct file *f, size_t at, uint32_t tag, const uint8_t *value)
{
    uint8_t field[3 + 40] = {(uint8_t)tag, 0, (uint8_t)lengths[tag]};
    memcpy(field + 3, value, lengths[tag]);
    put_in(f, at, field, 3 + lengths[tag]);
}

/* At the end; not past the size that a file may have. */
static void add(struct file *f, uint32_t tag, const uint8_t *value)
{
    if (f->length + 3 + lengths[tag] <= FILE_BYTES)
        put_field_in(f, f->length, tag, value);
}

/* ---- A file that is accepted ---- */

enum { MANNERS = 6 }; /* of the scores */

struct plan {
    uint32_t year, subjects, students, results; /* results of each student; 0 if it varies */
    uint32_t manner;                            /* of its scores */
    unsigned faults;                            /* how many in a hundred results are wrong */
    uint8_t catalogue[SUBJECTS][5], given[SUBJECTS][SLOTS]; /* given: the slots that have a score */
    uint32_t slots[SUBJECTS];                               /* how many those are */
};

static void plan_size(struct plan *p)
{
    p->results = 0;
    p->students = chance(55) ? below(7) : chance(75) ? from(5, 30) : chance(90) ? from(30, 150) : from(400, STUDENTS);
    if (p->students >= 400)
        p->results = chance(50) ? from(5, 12) : RESULTS; /* no more than some 430 fit with sixteen */
    p->subjects = chance(90) ? from(5, 16) : chance(50) ? ONE_OF(0, 1, 2, 63, 64) : below(SUBJECTS + 1);
    p->year = chance(80) ? 2021 : ONE_OF(1984, 1985, 1988, 2022, 9999);
    p->manner = below(MANNERS);
    p->faults = ONE_OF(0, 0, 0, 1, 1, 10);
}

static void add_subject(struct file *f, struct plan *p, uint32_t i)
{
    uint8_t *entry = p->catalogue[i];
    entry[0] = (uint8_t)(i == 0 ? 1 : ONE_OF(1, 1, 1, 1, 1, 1, 1, 1, 1, 1, 2, 3, 3, 4, 4, 5, 6, 6));
    entry[1] = (uint8_t)(entry[0] >= 5 ? 0 : i == 0 ? 1 : ONE_OF(0, 0, 0, 0, 1, 2));
    entry[2] = (uint8_t)(entry[0] == 6 ? from(1, 6) : 0);
    put_two(entry + 3, entry[0] != 1 && entry[0] != 3 ? 0 : chance(90) ? i + 1 : ONE_OF(1, 2, 3, 256, 65535));
    add(f, 2, entry);
}

/* Few values make students of one aggregate. Values that lie close make students who are tied by rounding, and a tenth of a
 * hundredth beside the hundredths makes sums that end in half a hundredth, or next to it. */
static uint32_t some_score(uint32_t manner)
{
    switch (manner) {
    case 0: return ONE_OF(0, TOP_SCORE);
    case 1: return 50 * ONE + below(3);
    case 2: return 70 * ONE;
    case 3: return HUNDREDTH * from(7000, 7002) + ONE_OF(9, 10, 10, 10, 11);
    default: return chance(4) ? ONE_OF(0, OLD_MISSING, TOP_SCORE) : below(TOP_SCORE + 1);
    }
}

static void add_score(struct file *f, struct plan *p, uint32_t subject, uint32_t slot)
{
    uint8_t value[3 + SCORE] = {0, (uint8_t)subject, (uint8_t)slot};
    put_four(value + 3, some_score(p->manner));
    p->given[subject][p->slots[subject]++] = (uint8_t)slot;
    add(f, 3, value);
}

/* All slots, or some; those of the letters and of VET nearly always. */
static void add_row(struct file *f, struct plan *p, uint32_t subject)
{
    uint32_t kind = p->catalogue[subject][0];
    unsigned share = chance(3) || (chance(25) && p->subjects < 10) ? 100 : ONE_OF(1, 5, 10);
    int down = chance(20);
    p->slots[subject] = 0;
    for (uint32_t i = 1; i <= SLOTS; i++) {
        uint32_t slot = down ? SLOTS + 1 - i : i;
        int used = kind <= 3 ? slot == 50 : kind == 4 ? slot % 20 == 10 && slot <= 90 : slot == 1;
        if (chance(used ? 98 : share))
            add_score(f, p, subject, slot);
    }
}

/* One age has all, with a rate that is mostly in the limits; the population is mostly about the number of students. */
static void make_figures(uint8_t *value, uint32_t students)
{
    uint32_t age = below(5), q = chance(60) ? from(1, 3 * students + 2) : chance(50) ? from(1, MILLION) : ONE_OF(1, 2, 40, MILLION);
    uint32_t rate = chance(95) ? from(2500, 7500) : ONE_OF(2499, 2500, 7500, 7501, 1, 20000);
    uint64_t e = ((uint64_t)q * rate + 5000) / 10000;
    memset(value, 0, 40);
    put_four(value + 4 * age, q);
    put_four(value + 20 + 4 * age, (uint32_t)(e > MILLION ? MILLION : e == 0 && chance(90) ? 1 : e));
    if (chance(30)) { /* another age with the same of both */
        uint32_t other = (age + 1) % 5;
        memcpy(value + 4 * other, value + 4 * age, 4);
        put_four(value + 20 + 4 * other, (uint32_t)(e / 2));
        put_four(value + 20 + 4 * age, (uint32_t)(e - e / 2 > MILLION ? MILLION : e - e / 2));
    }
}

static uint64_t sum_from(const uint32_t *table, uint32_t band)
{
    uint64_t sum = 0;
    for (; band < BANDS; band++)
        sum += table[band];
    return sum;
}

/* Figures by which C fits band 600 and not 601, the last of `30.00 or less`; if some are found. */
static void make_low_figures(uint8_t *value, uint64_t c)
{
    static uint32_t table[BANDS];
    uint32_t figures[10] = {0}, found = 0;
    for (int tries = 0; tries < 200 && !found; tries++) {
        uint32_t rate = from(2500, 7500);
        figures[1] = 10000;
        figures[6] = rate;
        second_participation(figures, 10, table, BANDS);
        figures[1] = (uint32_t)(2000000000 * c / sum_from(table, 600)) + 1;
        figures[6] = figures[1] * rate / 10000;
        uint64_t y = second_participation(figures, 10, table, BANDS).population;
        found = y * sum_from(table, 600) >= 2000000000 * c && y * sum_from(table, 601) < 2000000000 * c;
    }
    for (int i = 0; i < 10; i++)
        put_four(value + 4 * i, figures[i]);
}

static uint32_t english_in(const struct plan *p)
{
    uint32_t i = below(p->subjects);
    return p->catalogue[i][1] == 1 ? i : 0;
}

static void spoil_result(uint8_t *result, const struct plan *p)
{
    switch (below(7)) {
    case 0: put_two(result, ONE_OF(p->subjects, p->subjects - 1, 256, 65535)); break;
    case 1: result[2] = (uint8_t)ONE_OF('@', 'F', 'a', 'N', 'Y', 0); break;
    case 2: result[3] = (uint8_t)ONE_OF(0, 1, 100, 101, 255); break;
    case 3: put_two(result + 4, ONE_OF(1979, 1980, 0, p->year, p->year + 1)); break;
    case 4: put_two(result + 4, two(result + 4) - ONE_OF(4, 5)); break; /* a span of four or of five with the others of its year */
    case 5: result[3] = (uint8_t)from(1, SLOTS); break; /* a slot that is perhaps missing */
    default: result[below(6)] = (uint8_t)below(256); break;
    }
}

/* In one of the student's years, English at times in any. */
static void make_result(uint8_t *result, const struct plan *p, uint32_t subject, struct years years)
{
    uint32_t kind = p->catalogue[subject][0], slots = p->slots[subject];
    put_two(result, subject);
    result[2] = (uint8_t)(kind == 6 ? ONE_OF('Y', 'Y', 'Y', 'N') : ONE_OF('A', 'A', 'B', 'B', 'C', 'C', 'D', 'E'));
    result[3] = (uint8_t)(kind > 3 ? 0 : slots == 0 ? from(1, SLOTS) : p->given[subject][below(slots)]);
    put_two(result + 4, p->catalogue[subject][1] == 1 && chance(10) ? any_year(years) : year_of(years));
}

/* Subjects in their order from one by chance, each once until all were had; one of them English, mostly with a C or better. */
static void add_results(struct file *f, const struct plan *p)
{
    uint32_t count = p->results != 0 ? p->results : chance(85) ? from(5, 10) : below(RESULTS + 1);
    uint32_t start = below(p->subjects), english = chance(95) ? below(count) : count, wrong = chance(2);
    int has = start == 0 || start + count > p->subjects; /* subject 0 is an English */
    struct years years = some_years(p->year);
    for (uint32_t i = 0; i < count; i++) {
        uint8_t result[6];
        uint32_t subject = p->subjects == 0 ? 0 : (start + i) % p->subjects;
        if (i == english && !has)
            subject = english_in(p);
        make_result(result, p, subject, years);
        if (i >= p->subjects) /* a subject once more, in another year */
            put_two(result + 4, years_before(two(result + 4), ONE_OF(1, 1, 2, 3, 4, 5)));
        if (p->catalogue[subject][1] == 1 && chance(90))
            result[2] = (uint8_t)ONE_OF('A', 'B', 'C');
        if (chance(p->faults) || wrong)
            spoil_result(result, p);
        add(f, 6, result);
    }
}

static void add_students(struct file *f, const struct plan *p)
{
    uint32_t id = chance(50) ? 1 : chance(50) ? ONE_OF(0, UINT32_MAX - 1) : below(UINT64_C(1) << 32);
    uint32_t step = ONE_OF(1, 1, 3, 99999, UINT32_MAX);
    for (uint32_t i = 0; i < p->students && f->length + 7 + 9 * RESULTS <= FILE_BYTES; i++) {
        uint8_t value[4];
        put_four(value, id + i * step); /* an odd step never comes back */
        add(f, 5, value);
        add_results(f, p);
    }
}

void make_file(struct file *f)
{
    static struct plan p;
    uint8_t year[2], figures[40];
    f->length = 0;
    plan_size(&p);
    put_two(year, p.year);
    add(f, 1, year);
    for (uint32_t i = 0; i < p.subjects; i++)
        add_subject(f, &p, i);
    for (uint32_t i = 0; i < p.subjects; i++)
        add_row(f, &p, i);
    if (p.students >= 5 && chance(20))
        make_low_figures(figures, from(1, p.students));
    else
        make_figures(figures, p.students);
    add(f, 4, figures);
    add_students(f, &p);
}

/* ---- Fields of any file ---- */

/* As their lengths have it, as far as they are whole. */
static struct {
    size_t count, at[FILE_ROOM / 3 + 1];
} fields;

static size_t size_at(const struct file *f, size_t at)
{
    return 3 + two(f->bytes + at + 1);
}

static void find_fields(const struct file *f)
{
    size_t at = 0;
    fields.count = 0;
    while (f->length - at >= 3 && f->length - at >= size_at(f, at)) {
        fields.at[fields.count++] = at;
        at += size_at(f, at);
    }
}

static size_t count_of(const struct file *f, uint32_t tag)
{
    size_t count = 0;
    for (size_t i = 0; i < fields.count; i++)
        count += f->bytes[fields.at[i]] == tag;
    return count;
}

/* The offset of the n-th whole field of a tag, with the length that it must have; the file's length if there is none. */
static size_t nth(const struct file *f, uint32_t tag, size_t n)
{
    for (size_t i = 0; i < fields.count; i++)
        if (f->bytes[fields.at[i]] == tag && size_at(f, fields.at[i]) == 3 + lengths[tag] && n-- == 0)
            return fields.at[i];
    return f->length;
}

static size_t some_of(const struct file *f, uint32_t tag)
{
    return nth(f, tag, below(count_of(f, tag)));
}

/* A field by chance, each tag as likely as another; the file's length if there is none. */
static size_t some_field(const struct file *f)
{
    size_t at = some_of(f, from(1, 6));
    return at < f->length || fields.count == 0 ? at : fields.at[below(fields.count)];
}

/* ---- Damage ---- */

static void change_byte(struct file *f)
{
    uint8_t *byte = f->bytes + below(f->length);
    switch (below(4)) {
    case 0: *byte = (uint8_t)below(256); break;
    case 1: *byte ^= (uint8_t)(1u << below(8)); break;
    case 2: *byte = (uint8_t)(*byte + ONE_OF(1, 255)); break;
    default: *byte = (uint8_t)ONE_OF(0, 1, 2, 3, 4, 5, 6, 7, 100, 101, 255); break;
    }
}

/* The length of a field is another, with its value as it was or as long as that. */
static void change_length(struct file *f)
{
    static const uint8_t more[2] = {0};
    size_t at = some_field(f);
    if (at >= f->length)
        return;
    uint32_t length = two(f->bytes + at + 1), now = chance(70) ? length + ONE_OF(0, 2) - 1 : ONE_OF(0, 1, 256 + length, 65535);
    put_two(f->bytes + at + 1, now);
    if (chance(50) && now == length + 1)
        put_in(f, at + 3 + length, more, 1);
    else if (chance(50) && length > 0 && now == length - 1)
        take_out(f, at + 3, 1);
}

static void change_tag(struct file *f)
{
    size_t at = some_field(f);
    if (at < f->length)
        f->bytes[at] = (uint8_t)(chance(80) ? from(0, 7) : below(256));
}

static void drop_field(struct file *f)
{
    size_t at = some_field(f);
    if (at < f->length)
        take_out(f, at, size_at(f, at));
}

/* Once more, right behind or elsewhere. */
static void double_field(struct file *f)
{
    size_t at = some_field(f);
    if (at < f->length)
        put_in(f, chance(40) ? at : some_field(f), f->bytes + at, size_at(f, at));
}

static void move_field(struct file *f)
{
    uint8_t field[3 + 40];
    size_t at = some_field(f);
    if (at >= f->length || size_at(f, at) > sizeof field)
        return;
    size_t size = size_at(f, at);
    memcpy(field, f->bytes + at, size);
    take_out(f, at, size);
    find_fields(f);
    put_in(f, some_field(f), field, size);
}

static void cut(struct file *f)
{
    size_t at = chance(30) ? below(f->length + 1) : some_field(f) + below(5);
    if (at < f->length)
        f->length = at;
}

static void append(struct file *f)
{
    uint8_t bytes[6] = {(uint8_t)from(0, 7), 0, (uint8_t)below(8), (uint8_t)below(256)};
    put_in(f, f->length, bytes, from(1, 6));
}

/* A student of this many results, at the end. */
static void append_student(struct file *f, uint32_t results)
{
    uint8_t id[4], result[6] = {0, 0, 'B', (uint8_t)from(1, SLOTS), 2021 / 256, 2021 % 256};
    size_t like = some_of(f, 6);
    if (like < f->length)
        memcpy(result, f->bytes + like + 3, 6);
    put_four(id, below(UINT64_C(1) << 32));
    put_field_in(f, f->length, 5, id);
    for (; results > 0; results--)
        put_field_in(f, f->length, 6, result);
}

/* Students until the file is of 65536 bytes: fields of seven and of nine make any number from 48. */
static void fill_up(struct file *f)
{
    while (f->length + 400 < FILE_BYTES)
        append_student(f, RESULTS);
    uint32_t left = f->length < FILE_BYTES ? (uint32_t)(FILE_BYTES - f->length) : 0, results = 0;
    while (left >= 9 * results && (left - 9 * results) % 7 != 0)
        results++;
    for (uint32_t students = left >= 9 * results ? (left - 9 * results) / 7 : 0; students > 0; students--, results = 0)
        append_student(f, results);
}

/* Of the size that a file may have, or of one more or less. */
static void resize(struct file *f)
{
    size_t length = FILE_BYTES + ONE_OF(0, 0, 1, 1, 2, 3, 1001) - 1;
    if (chance(70))
        fill_up(f);
    for (; f->length < length; f->length++)
        f->bytes[f->length] = (uint8_t)below(256);
    if (chance(50))
        f->length = length;
}

/* A field of too many is at times wrong otherwise: in its length, or its value. */
static void spoil(struct file *f, size_t at)
{
    if (at + 3 > f->length || size_at(f, at) > f->length - at || !chance(40))
        return;
    f->bytes[at + 2 + below(size_at(f, at) - 2)] = (uint8_t)(chance(50) ? below(256) : ONE_OF(0, 255));
}

static void many_subjects(struct file *f)
{
    size_t at = nth(f, 1, 0), like = some_of(f, 2);
    uint8_t entry[5] = {1, 0, 0, 0, 9};
    if (at >= f->length)
        return;
    if (like < f->length)
        memcpy(entry, f->bytes + like + 3, 5);
    at += 5;
    size_t last = at + 8 * count_of(f, 2);
    for (size_t count = count_of(f, 2), wanted = SUBJECTS + below(3); count < wanted; count++, last += 8)
        put_field_in(f, at, 2, entry);
    spoil(f, last - 8);
}

static void many_students(struct file *f)
{
    size_t count = count_of(f, 5), wanted = STUDENTS + below(3), last = f->length;
    for (; count < wanted; count++) {
        last = f->length;
        append_student(f, 0);
    }
    size_t first = some_of(f, 5);
    if (last + 7 <= f->length && first < f->length && chance(30)) /* too many, and its id again */
        memcpy(f->bytes + last + 3, f->bytes + first + 3, 4);
    spoil(f, last);
}

static void many_results(struct file *f)
{
    size_t at = some_of(f, 6), size = 9, wanted = RESULTS + below(3), count = 1;
    if (at >= f->length)
        return;
    for (size_t next = at + size; next + size <= f->length && f->bytes[next] == 6; next += size)
        count++;
    for (; count < wanted; count++) {
        put_in(f, at, f->bytes + at, size);
        at += size;
        if (at + size <= f->length && chance(80)) /* another subject, so that it is not a result again */
            put_two(f->bytes + at + 3, (uint32_t)count);
    }
    spoil(f, at);
}

/* The slot of a score that another has; at times one that does not look given. */
static void slot_again(struct file *f)
{
    size_t first = some_of(f, 3), second = some_of(f, 3);
    if (first >= f->length || second >= f->length)
        return;
    memcpy(f->bytes + second + 3, f->bytes + first + 3, 3);
    if (chance(30))
        put_four(f->bytes + first + 6, ONE_OF(0, OLD_MISSING));
}

/* A score at its limit, past it, or missing. */
static void change_score(struct file *f)
{
    size_t at = some_of(f, 3);
    if (at < f->length)
        put_four(f->bytes + at + 6, ONE_OF(0, OLD_MISSING, TOP_SCORE, TOP_SCORE + 1, MISSING - 1, MISSING));
}

static void id_again(struct file *f)
{
    size_t first = some_of(f, 5), second = some_of(f, 5);
    if (first < f->length && second < f->length)
        memcpy(f->bytes + second + 3, f->bytes + first + 3, 4);
}

static void change_figures(struct file *f)
{
    size_t at = nth(f, 4, 0);
    if (at >= f->length)
        return;
    if (chance(30))
        memset(f->bytes + at + 3 + ONE_OF(0, 20), 0, 20);
    put_four(f->bytes + at + 3 + 4 * below(10), ONE_OF(0, 1, 2, 40, MILLION, MILLION + 1, UINT32_MAX));
}

static void change_year(struct file *f)
{
    size_t at = nth(f, 1, 0);
    if (at < f->length)
        put_two(f->bytes + at + 3, ONE_OF(0, 1983, 1984, 2020, 2025, 9999, 10000, 65535));
}

/* A slot, a subject, an entry or the span of a year to others at its limit, or past it. */
static void change_value(struct file *f)
{
    size_t at = some_of(f, ONE_OF(2, 3, 6));
    if (at >= f->length)
        return;
    uint8_t *value = f->bytes + at + 3;
    switch (f->bytes[at]) {
    case 2: value[below(5)] = (uint8_t)ONE_OF(0, 1, 2, 3, 4, 5, 6, 7, 255); break;
    case 3:
        if (chance(30))
            put_two(value, (uint32_t)count_of(f, 2) - below(2));
        else
            value[2] = (uint8_t)ONE_OF(0, 1, 100, 101, 255);
        break;
    default:
        if (chance(30)) /* four or five years before, or after */
            put_two(value + 4, two(value + 4) + ONE_OF(0, 1, 9, 10) - 5);
        else
            value[below(6)] = (uint8_t)ONE_OF(0, 1, 100, 101, 'A', 'C', 'D', 'E', 'F', 'Y', 'N', 255);
        break;
    }
}

/* A score as it was: two bytes, in hundredths. */
static void old_score(struct file *f)
{
    size_t at = some_of(f, 3);
    if (at >= f->length)
        return;
    uint8_t *score = f->bytes + at + 6;
    put_two(f->bytes + at + 1, 3 + OLD_SCORE);
    put_two(score, four(score) / HUNDREDTH);
    take_out(f, at + 6 + OLD_SCORE, SCORE - OLD_SCORE);
}

/* Both the length and the value of one field: its length decides. */
static void change_both(struct file *f)
{
    size_t at = some_field(f);
    if (at >= f->length)
        return;
    size_t size = size_at(f, at);
    for (size_t i = 3; i < size; i++)
        if (chance(50))
            f->bytes[at + i] = (uint8_t)ONE_OF(0, 255);
    f->bytes[at + 2] = (uint8_t)(f->bytes[at + 2] + ONE_OF(1, 255));
}

void damage_file(struct file *f)
{
    static void (*const damages[])(struct file *) = {
        change_byte, change_byte,  change_length, change_tag,   drop_field,    double_field, move_field, cut,
        append,      resize,       many_subjects, many_results, many_students, slot_again,   id_again,   change_figures,
        change_year, change_value, change_value,  change_score, old_score,     change_both};
    find_fields(f);
    damages[below(sizeof damages / sizeof *damages)](f);
}

/* ---- The two reports ---- */

enum { PATTERN = 0xa5, PAST = 8, TEXT_ROOM = TEXT_BYTES + 16 };

static uint8_t text[TEXT_ROOM], other[TEXT_ROOM];

static void count_refusal(unsigned long *of, const char *number)
{
    unsigned long n = strtoul(number, NULL, 10);
    if (n < REFUSALS)
        of[n]++;
}

/* Counts what the lines say; the text is copied, with a 0 behind it. */
static void look_at(size_t length, struct seen *seen)
{
    static char copy[TEXT_ROOM];
    size_t students, eligible;
    memcpy(copy, text, length);
    copy[length] = 0;
    if (strncmp(copy, "refused ", 8) == 0) {
        count_refusal(seen->files, copy + 8);
        return;
    }
    seen->files[0]++;
    seen->cohorts += sscanf(copy, "cohort %zu eligible %zu", &students, &eligible) == 2 && eligible >= 5;
    for (const char *line = strchr(copy, '\n'); line != NULL && line[1] != 0; line = strchr(line + 1, '\n')) {
        const char *part = strchr(line, ' ');
        if (part != NULL && strncmp(part, " refused ", 9) == 0)
            count_refusal(seen->students, part + 9);
        else
            seen->students[0]++;
    }
}

static int same_number(const char *what, uint64_t found, uint64_t second)
{
    if (found != second)
        printf("%s: %llu, and by the second implementation %llu\n", what, (unsigned long long)found, (unsigned long long)second);
    return found == second;
}

/* The line in which byte i is. */
static void print_line(const char *whose, const uint8_t *of, size_t i)
{
    size_t start = i, end = i;
    while (start > 0 && i - start < 200 && of[start - 1] != '\n')
        start--;
    while (end < TEXT_BYTES && end - i < 200 && of[end] != '\n' && of[end] != PATTERN)
        end++;
    printf("%s: %.*s\n", whose, (int)(end - start), (const char *)of + start);
}

/* Past the listing everything must be as it was. */
static int same_text(size_t length, size_t text_len)
{
    for (size_t i = 0; i < text_len + PAST; i++)
        if (text[i] != other[i] || (i >= length && text[i] != PATTERN)) {
            printf("text: byte %zu is %u, and by the second implementation %u; it was %u\n", i, text[i], other[i], PATTERN);
            print_line("line", text, i);
            print_line("line by the second implementation", other, i);
            return 0;
        }
    return 1;
}

int same_report(const struct file *f, size_t text_len, struct seen *seen)
{
    memset(text, PATTERN, text_len + PAST);
    memset(other, PATTERN, text_len + PAST);
    struct shtegomir_text a = shtegomir_report(f->bytes, f->length, text, text_len);
    struct second_text b = second_report(f->bytes, f->length, other, text_len);
    int same = same_number("refusal", a.refusal, b.refusal);
    same &= same_number("place", a.place, b.place);
    same &= same_number("length", a.length, b.length);
    same &= same_text((size_t)a.length, text_len);
    if (!same)
        return 0;
    if (a.refusal < REFUSALS)
        seen->calls[a.refusal]++;
    if (a.refusal == 0)
        look_at((size_t)a.length, seen);
    seen->tied_by_rounding += b.tied_by_rounding;
    return 1;
}

void print_file(const struct file *f)
{
    static const char *name = "target/tests/failed.cohort";
    FILE *to = fopen(name, "wb");
    printf("file, %zu bytes:", f->length);
    for (size_t i = 0; i < f->length && i < 500; i++)
        printf(i % 50 == 0 ? "\n%02x" : " %02x", f->bytes[i]);
    printf("\n");
    int whole = to != NULL && fwrite(f->bytes, 1, f->length, to) == f->length;
    if (to != NULL)
        whole &= fclose(to) == 0;
    printf(whole ? "all of it is in %s\n" : "%s could not be written\n", name);
}
