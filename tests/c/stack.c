/* How much stack each entry takes, measured from the compiled library: a stack of our own is painted, the entry is called on it, and the
 * lowest byte is sought that changed. Prints for each input what it took, beside the header's figure. That must be at least what the
 * deepest input took, and at most 1.25 times as much. The best set must take at most 1024 bytes, and the same for every student with
 * results, refused ones too, in whole 16 bytes: by so many the stack pointer moves from call to call on x86-64.
 *
 * What is counted are the bytes from the caller's stack pointer, as it is before anything is put there for the call, down to the lowest
 * that was written: the arguments that do not go in registers, the return address, and what the entry and all that it calls write. The
 * struct that is returned lies in the caller's frame and is not counted.
 *
 * To have just these, the call is made by hand, as C makes it on x86-64: six words in registers, and the others on our stack, which holds
 * nothing else. A struct of more than 16 bytes is returned where the first word points.
 */
#include <glob.h>
#include <stdio.h>
#include <string.h>

#include "shtegomir.h"

enum { STACK = 1 << 19, REGISTERS = 6, WORDS = 14, BEST_SET_MOST = 1024 };

struct entry {
    const char *name;
    void (*function)(void);
    size_t words, header; /* how many words are passed; the header's figure */
    size_t deepest;       /* what the deepest input took */
};

#define ENTRY(words, call, figure) {#call, (void (*)(void))call, words, figure, 0}

static struct entry best_set = ENTRY(8, shtegomir_best_set, SHTEGOMIR_BEST_SET_STACK);
static struct entry first_scores = ENTRY(6, shtegomir_first_scores, SHTEGOMIR_FIRST_SCORES_STACK);
static struct entry participation = ENTRY(5, shtegomir_participation, SHTEGOMIR_PARTICIPATION_STACK);
static struct entry rank = ENTRY(6, shtegomir_rank, SHTEGOMIR_RANK_STACK);
static struct entry place_direct = ENTRY(8, shtegomir_place_direct, SHTEGOMIR_PLACE_DIRECT_STACK);
static struct entry rank_and_place = ENTRY(14, shtegomir_rank_and_place, SHTEGOMIR_RANK_AND_PLACE_STACK);
static struct entry report = ENTRY(5, shtegomir_report, SHTEGOMIR_REPORT_STACK);

static struct entry *const every[] = {&best_set, &first_scores, &participation, &rank, &place_direct, &rank_and_place, &report};

static int failures;

/* ---- A call on a stack of our own ---- */

struct call {
    struct entry *entry;
    const char *input;
    uint64_t refusal; /* that must come out */
    uint64_t word[WORDS];
};

static uint8_t stack[STACK] __attribute__((aligned(16)));
static uint64_t returned[3]; /* where a struct of more than 16 bytes is returned */

static uint64_t at(const void *pointer)
{
    return (uint64_t)(uintptr_t)pointer;
}

/* Calls a function with this stack pointer. Gives the first word that comes back in a register. */
static uint64_t enter(void (*function)(void), const uint64_t *word, const uint8_t *pointer)
{
    register uint64_t a __asm__("rdi") = word[0], b __asm__("rsi") = word[1], c __asm__("rdx") = word[2];
    register uint64_t d __asm__("rcx") = word[3], e __asm__("r8") = word[4], f __asm__("r9") = word[5];
    uint64_t first;
    __asm__ volatile("movq %%rsp, %%rbx\n\t"
                     "movq %[pointer], %%rsp\n\t"
                     "callq *%[function]\n\t"
                     "movq %%rbx, %%rsp"
                     : "=a"(first), "+r"(a), "+r"(b), "+r"(c), "+r"(d), "+r"(e), "+r"(f)
                     : [function] "r"(function), [pointer] "r"(pointer)
                     : "rbx", "r10", "r11", "cc", "memory", "xmm0", "xmm1", "xmm2", "xmm3", "xmm4", "xmm5", "xmm6", "xmm7", "xmm8",
                       "xmm9", "xmm10", "xmm11", "xmm12", "xmm13", "xmm14", "xmm15");
    return first;
}

/* What a call takes of a stack of this paint. */
static size_t depth(const struct call *c, uint8_t paint)
{
    size_t passed = c->entry->words > REGISTERS ? 8 * (c->entry->words - REGISTERS) : 0, low = 0;
    uint8_t *pointer = stack + STACK - (passed + 15) / 16 * 16; /* whole 16 bytes, as at every call */
    memset(stack, paint, STACK);
    memset(returned, 255, sizeof returned);
    memcpy(pointer, c->word + REGISTERS, passed);
    uint64_t refusal = enter(c->entry->function, c->word, pointer);
    if (c->word[0] == at(returned))
        refusal = returned[0];
    if (refusal != c->refusal) {
        failures++;
        printf("%s, %s: refusal %llu, expected %llu\n", c->entry->name, c->input, (unsigned long long)refusal,
               (unsigned long long)c->refusal);
    }
    while (low < STACK && stack[low] == paint)
        low++;
    if (low == 0) {
        failures++;
        printf("%s, %s: our stack is too short to measure it\n", c->entry->name, c->input);
    }
    return STACK - low;
}

/* With two paints, for a byte may be written that is as it was painted. The call before these does not count: memset and memcpy may be
   bound at their first call, and that takes stack of the dynamic linker's. */
static size_t measure(const struct call *c)
{
    depth(c, 0);
    size_t one = depth(c, 0x55), other = depth(c, 0xaa), taken = one > other ? one : other;
    if (taken > c->entry->deepest)
        c->entry->deepest = taken;
    return taken;
}

static void print_row(const struct entry *e, const char *input, size_t taken)
{
    printf("%-24s  %-35s %7zu %7zu\n", e->name, input, taken, e->header);
}

static size_t row(struct call c)
{
    size_t taken = measure(&c);
    print_row(c.entry, c.input, taken);
    return taken;
}

/* ---- The best set ---- */

enum { SUBJECTS = 64, TOO_MANY = 17, YEAR = 2021 };
enum { SLOTS = 100, SCORE = 4, ROW = SCORE * SLOTS, ONE = 10000 }; /* scores are in ten-thousandths */

static uint8_t catalogue[5 * (SUBJECTS + 1)], scores[ROW * SUBJECTS];

/* General subjects, the first of English and the second of Mathematics. Each slot has its number, and slot 100 is missing. */
static void fill_subjects(void)
{
    memset(scores, 255, sizeof scores);
    for (int i = 0; i < SUBJECTS; i++) {
        const uint8_t subject[5] = {1, (uint8_t)(i < 2 ? i + 1 : 0), 0, 0, (uint8_t)(i + 1)};
        memcpy(catalogue + 5 * i, subject, 5);
        for (int slot = 1; slot < SLOTS; slot++) {
            int value = slot * ONE;
            const uint8_t score[SCORE] = {0, (uint8_t)(value >> 16), (uint8_t)(value >> 8), (uint8_t)value};
            memcpy(scores + ROW * i + SCORE * (slot - 1), score, SCORE);
        }
    }
}

struct results {
    uint8_t bytes[6 * TOO_MANY];
    size_t count;
};

/* Results of so many subjects, from this one on. 16 of them go back over so many years. */
static struct results of(size_t subject, size_t count, size_t years)
{
    struct results r = {{0}, count};
    for (size_t i = 0; i < count; i++) {
        size_t year = YEAR - i * years / 16;
        const uint8_t bytes[6] = {0, (uint8_t)(subject + i), 'B', (uint8_t)(60 + 7 * i % 40), (uint8_t)(year >> 8), (uint8_t)year};
        memcpy(r.bytes + 6 * i, bytes, 6);
    }
    return r;
}

/* The same but for one byte of one result. */
static struct results but(struct results r, size_t result, size_t byte, uint8_t value)
{
    r.bytes[6 * result + byte] = value;
    return r;
}

static size_t ask(const char *input, uint64_t refusal, size_t subjects, uint32_t year, struct results r)
{
    return row((struct call){&best_set, input, refusal,
                             {at(returned), at(catalogue), 5 * subjects, at(scores), sizeof scores, year, at(r.bytes),
                              6 * r.count}});
}

/* Rounded up to whole 16 bytes. */
static size_t whole(size_t taken)
{
    return (taken + 15) / 16 * 16;
}

/* Takes what the first of them took. */
static void student(const char *input, uint64_t refusal, struct results r)
{
    static size_t before;
    size_t taken = whole(ask(input, refusal, SUBJECTS, YEAR, r));
    if (before == 0)
        before = taken;
    if (taken == before)
        return;
    failures++;
    printf("%s, %s: takes %zu bytes of stack, and the first student took %zu\n", best_set.name, input, taken, before);
}

static void students(void)
{
    struct results five = of(0, 5, 1), sixteen = of(0, 16, 1);
    student("5 results", 0, five);
    student("16 results", 0, sixteen);
    student("16 results over eight years", 0, of(0, 16, 8));
    student("5 results, no such subject", 3, but(five, 0, 1, SUBJECTS));
    student("5 results, the first with F", 4, but(five, 0, 2, 'F'));
    student("16 results, the last with F", 4, but(sixteen, 15, 2, 'F'));
    student("5 results, no score of the last", 5, but(five, 4, 3, 100));
    student("5 results, two of one subject", 6, but(five, 4, 1, 0));
    student("16 results, two of one subject", 6, but(sixteen, 15, 1, 0));
    student("5 results, no English", 7, of(1, 5, 1));
    student("16 results, no English", 7, of(1, 16, 1));
    student("4 results", 8, of(0, 4, 1));
    student("16 results, no set in five years", 8, of(0, 16, 32));
    ask("no result", 7, SUBJECTS, YEAR, of(0, 0, 1));
    ask("65 subjects", 2, SUBJECTS + 1, YEAR, five);
    ask("63 subjects, with a table of 64", 11, SUBJECTS - 1, YEAR, five);
    ask("year 1983", 14, SUBJECTS, 1983, five);
    ask("17 results", 2, SUBJECTS, YEAR, of(0, 17, 1));
}

/* ---- First scores and the curve ---- */

static uint32_t counts[100], curve[2000];

static void score(const char *input, uint64_t refusal, uint32_t kind, size_t counts_len)
{
    row((struct call){&first_scores, input, refusal, {kind, 1, at(counts), counts_len, at(scores), sizeof scores}});
}

static void subjects(void)
{
    for (uint32_t i = 0; i < 100; i++)
        counts[i] = 10000 - 99 * i;
    score("kind 1", 0, 1, 100);
    score("kind 4", 0, 4, 5);
    score("kind 6", 0, 6, 0);
    score("a short course", 3, 5, 0);
    score("kind 4, a count more", 11, 4, 6);
    counts[99] = 1000001;
    score("kind 1, the last count over", 15, 1, 100);
    counts[99] = 1000000;
    score("kind 1, the total over", 15, 1, 100);
    memset(counts, 0, sizeof counts);
    score("kind 1, nobody", 0, 1, 100);
}

/* Q17 and E17, other ages 0 */
static void populate(const char *input, uint64_t refusal, uint32_t q, uint32_t e)
{
    const uint32_t figures[10] = {0, q, 0, 0, 0, 0, e};
    row((struct call){&participation, input, refusal, {at(returned), at(figures), 10, at(curve), 2000}});
}

static void curves(void)
{
    populate("a rate of 0.25", 0, 1000000, 250000);
    populate("a rate of 0.5", 0, 40, 20);
    populate("a rate of 0.75", 0, 1000000, 750000);
    populate("a rate of 0.8", 10, 1000000, 800000);
    populate("a figure over", 9, 1000001, 500000);
    populate("nobody", 9, 0, 0);
}

/* ---- Ranks and bands ---- */

enum { MOST = 100000, PLACED = 512 };

static uint32_t values[MOST + 1], ranks[MOST + 1], percentiles[MOST + 1], entries[2000], tally[50001];
static uint16_t bands[MOST + 1];

static void fill_values(void)
{
    for (uint32_t i = 0; i <= MOST; i++)
        values[i] = i * 7919u % 50001u;
    for (int k = 0; k < 2000; k++)
        entries[k] = 1000000;
}

static void order(const char *input, uint64_t refusal, size_t count)
{
    row((struct call){&rank, input, refusal, {at(values), count, at(ranks), count, at(percentiles), count}});
}

static void place(const char *input, uint64_t refusal, size_t count, uint32_t population)
{
    row((struct call){&place_direct, input, refusal,
                      {at(returned), at(values), count, at(entries), 2000, population, at(bands), count}});
}

static void order_and_place(const char *input, uint64_t refusal, size_t count, uint32_t population)
{
    row((struct call){&rank_and_place, input, refusal,
                      {at(returned), at(values), count, at(entries), 2000, population, at(ranks), count, at(percentiles), count, at(bands),
                       count, at(tally), 50001}});
}

static void cohorts(void)
{
    order("no value", 0, 0);
    order("1 value", 0, 1);
    order("2 values", 0, 2);
    order("1000 values", 0, 1000);
    order("100000 values", 0, MOST);
    order("100001 values", 2, MOST + 1);
    place("nobody", 0, 0, 2000);
    place("512 students", 0, PLACED, 1000000);
    place("512 students, one place", 0, PLACED, 1);
    place("a population of zero", 9, PLACED, 0);
    place("513 students", 2, PLACED + 1, 2000);
    order_and_place("nobody", 0, 0, 2000);
    order_and_place("1000 students", 0, 1000, 2000);
    order_and_place("100000 students", 0, MOST, 1000000);
    order_and_place("100000 students, one place", 0, MOST, 1);
    order_and_place("a population of zero", 9, MOST, 0);
    order_and_place("100001 students", 2, MOST + 1, 2000);
}

/* ---- The report ---- */

enum { TEXT = 65536 };

static uint8_t file[TEXT + 1], text[TEXT];

static struct call list(const char *path, uint64_t refusal, size_t text_len)
{
    FILE *source = fopen(path, "rb");
    size_t length = source == NULL ? 0 : fread(file, 1, sizeof file, source);
    if (source == NULL || fclose(source) != 0) {
        failures++;
        printf("%s cannot be read\n", path);
    }
    return (struct call){&report, path, refusal, {at(returned), at(file), length, at(text), text_len}};
}

/* All files, in one row. */
static void every_file(void)
{
    glob_t found;
    size_t most = 0;
    if (glob("tests/cohorts/*.cohort", 0, NULL, &found) != 0) {
        failures++;
        printf("tests/cohorts cannot be read\n");
        return;
    }
    for (size_t i = 0; i < found.gl_pathc; i++) {
        struct call c = list(found.gl_pathv[i], 0, TEXT);
        size_t taken = measure(&c);
        most = taken > most ? taken : most;
    }
    globfree(&found);
    print_row(&report, "the deepest of tests/cohorts", most);
}

static void files(void)
{
    row(list("examples/office.cohort", 0, TEXT));
    row(list("tests/cohorts/limits.cohort", 0, TEXT));
    row(list("tests/cohorts/students-512.cohort", 0, TEXT));
    row(list("tests/cohorts/size-65536.cohort", 0, TEXT));
    row(list("tests/cohorts/none-eligible.cohort", 0, TEXT));
    row(list("tests/cohorts/1-empty.cohort", 0, TEXT));
    row(list("tests/cohorts/2-student-513.cohort", 0, TEXT));
    row(list("tests/cohorts/2-size-65537.cohort", 0, TEXT));
    every_file();
    struct call short_text = list("examples/office.cohort", 11, TEXT - 1);
    short_text.input = "a text of 65535";
    row(short_text);
}

/* ---- The figures ---- */

static void judge(const struct entry *e)
{
    if (e->deepest > e->header) {
        failures++;
        printf("%s: takes %zu bytes of stack, more than the header's %zu\n", e->name, e->deepest, e->header);
    }
    if (4 * e->header > 5 * e->deepest) {
        failures++;
        printf("%s: takes %zu bytes of stack, and the header's %zu are more than 1.25 times that\n", e->name, e->deepest, e->header);
    }
}

int main(void)
{
    fill_subjects();
    fill_values();
    printf("%-24s  %-35s %7s %7s\n", "bytes of stack", "", "taken", "header");
    students();
    subjects();
    curves();
    cohorts();
    files();
    for (size_t i = 0; i < sizeof every / sizeof *every; i++)
        judge(every[i]);
    if (best_set.deepest > BEST_SET_MOST) {
        failures++;
        printf("%s: takes %zu bytes of stack, more than the %d that it may\n", best_set.name, best_set.deepest, BEST_SET_MOST);
    }
    printf(failures ? "stack: %d wrong\n" : "stack: all as it must be\n", failures);
    return failures != 0;
}
