/* Every buffer that a call is lent, of other lengths than asked: a record fewer, a record more, none, and an element fewer and more where a
 * record has several; and cohorts at their limits and past them. What comes out is what the header says. A refused call leaves every buffer
 * as it was. Each buffer ends where memory begins that may not be touched: to read or write past a length ends the program. */
#define _DEFAULT_SOURCE /* for MAP_ANONYMOUS */
#include <signal.h>
#include <stdarg.h>
#include <stdio.h>
#include <stdlib.h>
#include <string.h>
#include <sys/mman.h>

#include "shtegomir.h"

enum { BUFFERS = 6, PATTERN = 0xa5 };
enum { SLOTS = 100, SCORE = 4, ROW = SCORE * SLOTS, ONE = 10000 }; /* scores are in ten-thousandths */
enum { OLD_ROW = 2 * SLOTS };                                      /* as it was in hundredths */
enum { GUARD = 1 << 16, ROOM = 1 << 19 }; /* whole pages, of any size that pages have */

/* What must come out. Accepted: the numbers that are returned, and then what was written, as in render(). */
struct told {
    unsigned refusal, place;
    const char *gives;
};

struct buffer {
    const char *name;
    const void *holds;                /* NULL: it is lent to be written */
    size_t unit, asked, record;       /* bytes to an element; the length that is asked; elements to a record */
    struct told fewer, more, none;    /* by records */
    struct told cut, over;            /* by an element, where a record has several */
};

struct answer {
    uint64_t refusal, place, number[2];
};

struct lent {
    void *at;
    size_t length;
};

struct entry {
    const char *name;
    struct answer (*call)(const struct lent *);
    unsigned numbers;      /* how many are returned besides refusal and place */
    struct told as_asked;
    struct buffer buffer[BUFFERS];
};

/* ---- What is lent ---- */

static uint8_t *room[BUFFERS], before[BUFFERS][ROOM];

static int make_rooms(void)
{
    for (int i = 0; i < BUFFERS; i++) {
        uint8_t *all = mmap(NULL, GUARD + ROOM + GUARD, PROT_NONE, MAP_PRIVATE | MAP_ANONYMOUS, -1, 0);
        if (all == MAP_FAILED || mprotect(all + GUARD, ROOM, PROT_READ | PROT_WRITE) != 0)
            return 0;
        room[i] = all + GUARD;
    }
    return 1;
}

/* The end of a room, so long. */
static struct lent lend(int i, const struct buffer *b, size_t length)
{
    struct lent lent = {room[i] + ROOM - length * b->unit, length};
    memset(room[i], PATTERN, ROOM);
    if (b->holds != NULL)
        memcpy(lent.at, b->holds, length * b->unit);
    memcpy(before[i], room[i], ROOM);
    return lent;
}

/* ---- What comes out ---- */

static const char *now_entry, *now_buffer, *now_what; /* what is tried now */
static int failures, tries;
static char gave[1000];

static void wrong(const char *format, ...)
{
    va_list values;
    failures++;
    printf("%s, %s, %s: ", now_entry, now_buffer, now_what);
    va_start(values, format);
    vprintf(format, values);
    va_end(values);
    printf("\n");
}

static void touched(int signal)
{
    (void)signal;
    wrong("memory was touched that is not lent");
    fflush(stdout);
    _Exit(1);
}

static void put(const char *format, ...)
{
    va_list values;
    size_t used = strlen(gave);
    va_start(values, format);
    vsnprintf(gave + used, sizeof gave - used, format, values);
    va_end(values);
}

static void put_element(const struct lent *lent, size_t unit, size_t i)
{
    put(" %lu", unit == 2 ? (unsigned long)((const uint16_t *)lent->at)[i] : (unsigned long)((const uint32_t *)lent->at)[i]);
}

/* All of them, or the first and the last of many. */
static void put_elements(const struct lent *lent, size_t unit)
{
    if (lent->length > 4) {
        put_element(lent, unit, 0);
        put(" to");
        put_element(lent, unit, lent->length - 1);
        return;
    }
    for (size_t i = 0; i < lent->length; i++)
        put_element(lent, unit, i);
}

/* The text, behind which all is as it was. */
static void put_text(const struct lent *lent, uint64_t length)
{
    const uint8_t *text = lent->at;
    put(" %.*s", (int)length, (const char *)text);
    for (size_t i = (size_t)length; i < lent->length; i++)
        if (text[i] != PATTERN) {
            wrong("byte %zu was written, behind the text", i);
            return;
        }
}

/* The second row of a score table, by some slots; every other byte is as it was. */
static void put_row(const struct lent *lent)
{
    static const int slots[] = {9, 10, 30, 50, 70, 90, 91};
    const uint8_t *bytes = lent->at;
    for (size_t i = 0; i < sizeof slots / sizeof *slots; i++) {
        const uint8_t *slot = bytes + ROW + SCORE * (slots[i] - 1);
        put(" %lu", (unsigned long)slot[0] << 24 | (unsigned long)slot[1] << 16 | (unsigned long)slot[2] << 8 | slot[3]);
    }
    for (size_t i = 0; i < lent->length; i++)
        if (i / ROW != 1 && bytes[i] != PATTERN) {
            wrong("byte %zu was written, in another row", i);
            return;
        }
}

/* The numbers that are returned, and of each buffer that was written the row, the text, or its numbers. */
static void render(const struct entry *e, const struct lent *lent, const struct answer *a)
{
    gave[0] = 0;
    for (unsigned i = 0; i < e->numbers; i++)
        put(" %llu", (unsigned long long)a->number[i]);
    for (int i = 0; i < BUFFERS && e->buffer[i].name != NULL; i++)
        if (e->buffer[i].holds == NULL && e->buffer[i].record == ROW) /* only a score table is lent in such records */
            put_row(&lent[i]);
        else if (e->buffer[i].holds == NULL && e->buffer[i].unit == 1)
            put_text(&lent[i], a->number[0]);
        else if (e->buffer[i].holds == NULL)
            put_elements(&lent[i], e->buffer[i].unit);
}

/* All that a call may not write is as it was: all of it, if it was refused. */
static void kept(const struct entry *e, const struct lent *lent, int refused)
{
    for (int i = 0; i < BUFFERS && e->buffer[i].name != NULL; i++) {
        const struct buffer *b = &e->buffer[i];
        size_t written = refused || b->holds != NULL ? 0 : lent[i].length * b->unit;
        if (memcmp(room[i], before[i], ROOM - written) != 0)
            wrong("written: %s, or what stands before it", b->name);
    }
}

static void attempt(const struct entry *e, const char *buffer, const char *what, const size_t *length, struct told told)
{
    struct lent lent[BUFFERS] = {{NULL, 0}};
    now_entry = e->name;
    now_buffer = buffer;
    now_what = what;
    tries++;
    for (int i = 0; i < BUFFERS && e->buffer[i].name != NULL; i++)
        lent[i] = lend(i, &e->buffer[i], length[i]);
    struct answer a = e->call(lent);
    if (a.refusal != told.refusal || a.place != told.place)
        wrong("refusal %llu at %llu, expected %u at %u", (unsigned long long)a.refusal, (unsigned long long)a.place, told.refusal,
              told.place);
    kept(e, lent, told.refusal != 0);
    if (told.refusal != 0 && (a.number[0] != 0 || a.number[1] != 0))
        wrong("a refused call gives a number");
    if (told.refusal != 0)
        return;
    render(e, lent, &a);
    if (told.gives == NULL || strcmp(gave, told.gives) != 0)
        wrong("gives%s, expected%s", gave, told.gives == NULL ? " nothing" : told.gives);
}

/* ---- The calls ---- */

enum { YEAR = 2021, POPULATION = 2000, SUBJECTS = 66, RESULTS = 18, MOST = 100001, FILE_MOST = 65537 };

static uint8_t catalogue[5 * SUBJECTS], scores[ROW * SUBJECTS], results[6 * RESULTS], file[FILE_MOST];
static const uint32_t letters[6] = {2, 1, 0, 4, 1};
static const uint32_t figures[11] = {0, 40, 0, 0, 0, 0, 20};
static uint32_t values[MOST] = {35500, 36000, 35500}, aggregates[MOST] = {40000, 40000, 30000}, entries[2001];

static struct answer best_set(const struct lent *l)
{
    struct shtegomir_best a = shtegomir_best_set(l[0].at, l[0].length, l[1].at, l[1].length, YEAR, l[2].at, l[2].length);
    return (struct answer){a.refusal, a.place, {a.aggregate, a.set}};
}

/* Applied, and the second subject. */
static struct answer first_scores(const struct lent *l)
{
    struct shtegomir_scored a = shtegomir_first_scores(4, 1, l[0].at, l[0].length, l[1].at, l[1].length);
    return (struct answer){a.refusal, a.place, {0, 0}};
}

static struct answer participation(const struct lent *l)
{
    struct shtegomir_curve a = shtegomir_participation(l[0].at, l[0].length, l[1].at, l[1].length);
    return (struct answer){a.refusal, a.place, {a.population, a.rate}};
}

static struct answer rank(const struct lent *l)
{
    struct shtegomir_ranked a = shtegomir_rank(l[0].at, l[0].length, l[1].at, l[1].length, l[2].at, l[2].length);
    return (struct answer){a.refusal, a.place, {0, 0}};
}

static struct answer place_direct(const struct lent *l)
{
    struct shtegomir_placed a =
        shtegomir_place_direct(l[0].at, l[0].length, l[1].at, l[1].length, POPULATION, l[2].at, l[2].length);
    return (struct answer){a.refusal, a.place, {a.remainder, 0}};
}

static struct answer rank_and_place(const struct lent *l)
{
    struct shtegomir_placed a =
        shtegomir_rank_and_place(l[0].at, l[0].length, l[1].at, l[1].length, POPULATION, l[2].at, l[2].length, l[3].at, l[3].length,
                                 l[4].at, l[4].length, l[5].at, l[5].length);
    return (struct answer){a.refusal, a.place, {a.remainder, 0}};
}

static struct answer report(const struct lent *l)
{
    struct shtegomir_text a = shtegomir_report(l[0].at, l[0].length, l[1].at, l[1].length);
    return (struct answer){a.refusal, a.place, {a.length, 0}};
}

/* ---- What they hold ---- */

/* The subjects of the paper's example: kind, strand, identity. Those behind are General. */
static void fill_catalogue(void)
{
    static const uint8_t subjects[7][3] = {{1, 1, 1}, {1, 2, 2}, {1, 0, 3}, {1, 0, 4}, {4, 2, 0}, {1, 0, 5}, {4, 0, 0}};
    for (int i = 0; i < SUBJECTS; i++) {
        catalogue[5 * i] = i < 7 ? subjects[i][0] : 1;
        catalogue[5 * i + 1] = i < 7 ? subjects[i][1] : 0;
        catalogue[5 * i + 4] = (uint8_t)(i < 7 ? subjects[i][2] : i);
    }
}

static void score(int subject, int slot, uint32_t value)
{
    const uint8_t bytes[SCORE] = {(uint8_t)(value >> 24), (uint8_t)(value >> 16), (uint8_t)(value >> 8), (uint8_t)value};
    memcpy(scores + ROW * subject + SCORE * (slot - 1), bytes, SCORE);
}

/* Student 7 of the paper's example, whose six results are followed by Hospitality B, and by Physics of earlier years, not kept. */
static void fill_results(void)
{
    static const uint8_t student[7][3] = {{0, 'B', 70}, {1, 'B', 90}, {2, 'B', 80}, {3, 'B', 75}, {4, 'A', 0}, {5, 'B', 40}, {6, 'B', 0}};
    static const uint8_t physics[3] = {5, 'B', 40};
    for (int i = 0; i < RESULTS; i++) {
        int year = i < 7 ? YEAR : YEAR - i;
        memcpy(results + 6 * i + 1, i < 7 ? student[i] : physics, 3);
        results[6 * i + 4] = (uint8_t)(year / 256);
        results[6 * i + 5] = (uint8_t)(year % 256);
    }
}

static void fill(void)
{
    fill_catalogue();
    fill_results();
    for (int slot = 1; slot <= SLOTS; slot++)
        for (int subject = 0; subject < SUBJECTS; subject++)
            score(subject, slot, (uint32_t)slot * ONE);
    score(4, 90, 95 * ONE);
    score(6, 70, 60 * ONE);
    for (int k = 0; k <= 2000; k++)
        entries[k] = 1000000;
}

static int read_office(size_t length)
{
    FILE *source = fopen("examples/office.cohort", "rb");
    if (source == NULL)
        return 0;
    size_t found = fread(file, 1, sizeof file, source);
    return fclose(source) == 0 && found == length;
}

/* ---- The lengths ---- */

enum { OFFICE = 5350 };

#define LENGTH {11, 0, NULL}
#define ALL_LENGTH .fewer = LENGTH, .more = LENGTH, .none = LENGTH

static const struct entry best_set_entry = {
    "best set", best_set, 2, {0, 0, " 36000 61"},
    {{"catalogue", catalogue, 1, 35, 5, ALL_LENGTH, .cut = {1, 6, NULL}, .over = {1, 7, NULL}}, /* the table is of seven subjects */
     {"table", scores, 1, 7 * ROW, ROW, ALL_LENGTH, .cut = LENGTH, .over = LENGTH},
     {"results", results, 1, 36, 6, .fewer = {8, 0, NULL}, .more = {0, 0, " 37500 79"}, .none = {7, 0, NULL}, .cut = {1, 5, NULL},
      .over = {1, 6, NULL}}}};

/* Of 8 students: 1000000 times 2, 5, 6, 10 and 15 over 16, and beside them missing slots. */
#define SCORED {0, 0, " 4294967295 125000 312500 375000 625000 937500 4294967295"}

static const struct entry scores_entry = {
    "first scores", first_scores, 0, SCORED,
    {{"counts", letters, 4, 5, 1, ALL_LENGTH},
     {"table", NULL, 1, 2 * ROW, ROW, .fewer = {3, 0, NULL}, .more = SCORED, .none = {3, 0, NULL}, .cut = {3, 0, NULL},
      .over = LENGTH}}};

static const struct entry participation_entry = {
    "participation", participation, 2, {0, 0, " 40 5000 0 to 999999"},
    {{"figures", figures, 4, 10, 1, ALL_LENGTH}, {"table", NULL, 4, 2000, 1, ALL_LENGTH}}};

static const struct entry rank_entry = {
    "rank", rank, 0, {0, 0, " 2 3 2 66667 100000 66667"},
    {{"values", values, 4, 3, 1, ALL_LENGTH}, {"ranks", NULL, 4, 3, 1, ALL_LENGTH}, {"percentiles", NULL, 4, 3, 1, ALL_LENGTH}}};

static const struct entry direct_entry = {
    "place direct", place_direct, 1, {0, 0, " 0 1998 1998 1997"},
    {{"aggregates", aggregates, 4, 3, 1, ALL_LENGTH}, {"table", entries, 4, 2000, 1, ALL_LENGTH},
     {"bands", NULL, 2, 3, 1, ALL_LENGTH}}};

static const struct entry both_entry = {
    "rank and place", rank_and_place, 1, {0, 0, " 0 3 3 1 100000 100000 33333 1998 1998 1997 0 to 0"},
    {{"aggregates", aggregates, 4, 3, 1, ALL_LENGTH}, {"table", entries, 4, 2000, 1, ALL_LENGTH},
     {"ranks", NULL, 4, 3, 1, ALL_LENGTH}, {"percentiles", NULL, 4, 3, 1, ALL_LENGTH}, {"bands", NULL, 2, 3, 1, ALL_LENGTH},
     {"counts", NULL, 4, 50001, 1, ALL_LENGTH}}};

/* Any number of bytes is a file: what is wrong with it is told in the text. */
static const struct entry report_entry = {
    "report", report, 1,
    {0, 0, " 120 cohort 4 eligible 3 remainder 0\n7 360.00 3 100.000 97.45\n8 355.00 2 66.667 92.45\n9 refused 8 0\n"
           "11 355.00 2 66.667 92.45\n"},
    {{"file", file, 1, OFFICE, 1, .fewer = {0, 0, " 15 refused 1 5341\n"}, .more = {0, 0, " 15 refused 1 5350\n"},
      .none = {0, 0, " 12 refused 1 0\n"}},
     {"text", NULL, 1, 65536, 1, ALL_LENGTH}}};

static const struct entry *const every[] = {&best_set_entry, &scores_entry, &participation_entry, &rank_entry,
                                           &direct_entry, &both_entry, &report_entry};

/* Other lengths of several buffers at once. */
static const struct {
    const struct entry *entry;
    const char *what;
    size_t length[BUFFERS];
    struct told told;
} together[] = {
    {&best_set_entry, "64 subjects", {320, 64 * ROW, 36}, {0, 0, " 36000 61"}},
    {&best_set_entry, "64 subjects and a byte", {321, 64 * ROW, 36}, {1, 64, NULL}},
    {&best_set_entry, "65 subjects", {325, 65 * ROW, 36}, {2, 64, NULL}},
    {&best_set_entry, "65 subjects and a byte", {326, 65 * ROW, 36}, {1, 65, NULL}},
    {&best_set_entry, "16 results", {35, 7 * ROW, 96}, {0, 0, " 37500 79"}},
    {&best_set_entry, "17 results", {35, 7 * ROW, 102}, {2, 16, NULL}},
    {&best_set_entry, "17 results and a byte", {35, 7 * ROW, 103}, {1, 17, NULL}},
    {&best_set_entry, "a table of 200 bytes to a subject", {35, 7 * OLD_ROW, 36}, LENGTH},
    {&best_set_entry, "64 subjects, of 200 bytes each", {320, 64 * OLD_ROW, 36}, LENGTH},
    {&best_set_entry, "nothing at all", {0, 0, 0}, {7, 0, NULL}},
    {&best_set_entry, "a result without a subject", {0, 0, 6}, {3, 0, NULL}},
    {&scores_entry, "no counts, and no row", {0, ROW}, {3, 0, NULL}},
    {&scores_entry, "a count more, and a byte more", {6, 2 * ROW + 1}, LENGTH},
    {&scores_entry, "two subjects, of 200 bytes each", {5, 2 * OLD_ROW}, {3, 0, NULL}},
    {&scores_entry, "seven subjects, of 200 bytes each", {5, 7 * OLD_ROW}, LENGTH},
    {&participation_entry, "nothing at all", {0, 0}, LENGTH},
    {&rank_entry, "two values", {2, 2, 2}, {0, 0, " 1 2 50000 100000"}},
    {&rank_entry, "nothing at all", {0, 0, 0}, {0, 0, ""}},
    {&rank_entry, "100000 values", {100000, 100000, 100000}, {0, 0, " 99999 to 99997 99999 to 99997"}},
    {&rank_entry, "100001 values", {100001, 100001, 100001}, {2, 100000, NULL}},
    {&rank_entry, "100001 values, and no buffers", {100001, 0, 0}, {2, 100000, NULL}},
    {&direct_entry, "two students", {2, 2000, 2}, {0, 0, " 0 1998 1998"}},
    {&direct_entry, "nobody", {0, 2000, 0}, {0, 0, " 0"}},
    {&direct_entry, "512 students", {512, 2000, 512}, {0, 0, " 0 1998 to 1488"}},
    {&direct_entry, "513 students", {513, 2000, 513}, {2, 512, NULL}},
    {&direct_entry, "513 students, and no buffers", {513, 0, 0}, {2, 512, NULL}},
    {&both_entry, "two students", {2, 2000, 2, 2, 2, 50001}, {0, 0, " 0 2 2 100000 100000 1998 1998 0 to 0"}},
    {&both_entry, "nobody", {0, 2000, 0, 0, 0, 50001}, {0, 0, " 0 0 to 0"}},
    {&both_entry, "nobody, and no table", {0, 0, 0, 0, 0, 50001}, LENGTH},
    {&both_entry, "nobody, and a rank", {0, 2000, 1, 0, 0, 50001}, LENGTH},
    {&both_entry, "nobody, and a percentile", {0, 2000, 0, 1, 0, 50001}, LENGTH},
    {&both_entry, "nobody, and a band", {0, 2000, 0, 0, 1, 50001}, LENGTH},
    {&both_entry, "nobody, and no counts", {0, 2000, 0, 0, 0, 0}, LENGTH},
    {&both_entry, "nothing at all", {0, 0, 0, 0, 0, 0}, LENGTH},
    {&both_entry, "100000 students", {100000, 2000, 100000, 100000, 100000, 50001},
     {0, 0, " 99997 100000 to 99997 100000 to 99997 1998 to 0 99997 to 0"}},
    {&both_entry, "100000 students, a rank fewer", {100000, 2000, 99999, 100000, 100000, 50001}, LENGTH},
    {&both_entry, "100000 students, a percentile fewer", {100000, 2000, 100000, 99999, 100000, 50001}, LENGTH},
    {&both_entry, "100000 students, a band fewer", {100000, 2000, 100000, 100000, 99999, 50001}, LENGTH},
    {&both_entry, "100001 students", {100001, 2000, 100001, 100001, 100001, 50001}, {2, 100000, NULL}},
    {&both_entry, "100001 students, and no buffers", {100001, 0, 0, 0, 0, 0}, {2, 100000, NULL}},
    {&report_entry, "65536 bytes", {65536, 65536}, {0, 0, " 15 refused 1 5350\n"}},
    {&report_entry, "65537 bytes", {65537, 65536}, {0, 0, " 16 refused 2 65536\n"}},
    {&report_entry, "65537 bytes, and no text", {65537, 0}, LENGTH},
};

/* Each buffer as asked but one. */
static void vary(const struct entry *e, int which, const char *what, size_t length, struct told told)
{
    size_t lengths[BUFFERS];
    for (int i = 0; i < BUFFERS; i++)
        lengths[i] = i == which ? length : e->buffer[i].asked;
    attempt(e, e->buffer[which].name, what, lengths, told);
}

static void vary_buffer(const struct entry *e, int which)
{
    const struct buffer *b = &e->buffer[which];
    vary(e, which, "a record fewer", b->asked - b->record, b->fewer);
    vary(e, which, "a record more", b->asked + b->record, b->more);
    vary(e, which, "none", 0, b->none);
    if (b->record == 1)
        return;
    vary(e, which, "an element fewer", b->asked - 1, b->cut);
    vary(e, which, "an element more", b->asked + 1, b->over);
}

static void vary_entry(const struct entry *e)
{
    vary(e, 0, "as asked", e->buffer[0].asked, e->as_asked);
    for (int which = 0; which < BUFFERS && e->buffer[which].name != NULL; which++)
        vary_buffer(e, which);
}

int main(void)
{
    fill();
    if (!read_office(OFFICE) || !make_rooms()) {
        printf("lengths: examples/office.cohort cannot be read or is not of %d bytes, or there is no memory\n", OFFICE);
        return 1;
    }
    signal(SIGSEGV, touched);
    for (size_t i = 0; i < sizeof every / sizeof *every; i++)
        vary_entry(every[i]);
    for (size_t i = 0; i < sizeof together / sizeof *together; i++)
        attempt(together[i].entry, "together", together[i].what, together[i].length, together[i].told);
    if (failures)
        printf("lengths: %d wrong\n", failures);
    else
        printf("lengths: %d calls, all as it must be\n", tries);
    return failures != 0;
}
