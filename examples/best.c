/* The best set of one student, by the library: which five results count, and what they come to.
 *
 * The README says how to build it. A school's own program has the catalogue and the scores of the year, and its students' results.
 */
#include <stdio.h>

#include "shtegomir.h"

enum { SUBJECTS = 6, RESULTS = 6, YEAR = 2021 };

/* A subject's row of the score table: 100 slots of four bytes, in ten-thousandths. */
enum { SLOTS = 100, SCORE = 4, ROW = SCORE * SLOTS, ONE = 10000 };

static const char *const name[SUBJECTS] = {"English", "Mathematical Methods", "Biology", "Chemistry", "Essential Mathematics", "Physics"};

/* Kind, strand, level and identity of each subject. */
static const uint8_t catalogue[5 * SUBJECTS] = {
    1, 1, 0, 0, 1, /* General, of the strand English */
    1, 2, 0, 0, 2, /* General, of the strand Mathematics */
    1, 0, 0, 0, 3, /* General */
    1, 0, 0, 0, 4, /* General */
    4, 2, 0, 0, 0, /* Applied, of the strand Mathematics */
    1, 0, 0, 0, 5, /* General */
};

/* Subject, letter, number and year of each result; 7 and 229 are the year 2021. */
static const uint8_t results[6 * RESULTS] = {
    0, 0, 'B', 70, 7, 229, /* English */
    0, 1, 'B', 90, 7, 229, /* Mathematical Methods */
    0, 2, 'B', 80, 7, 229, /* Biology */
    0, 3, 'B', 75, 7, 229, /* Chemistry */
    0, 4, 'A', 0,  7, 229, /* Essential Mathematics */
    0, 5, 'B', 40, 7, 229, /* Physics */
};

static uint8_t scores[ROW * SUBJECTS];

static void set_score(int subject, int slot, uint32_t value)
{
    uint8_t *bytes = scores + ROW * subject + SCORE * (slot - 1);
    bytes[0] = (uint8_t)(value >> 24);
    bytes[1] = (uint8_t)(value >> 16);
    bytes[2] = (uint8_t)(value >> 8);
    bytes[3] = (uint8_t)value;
}

/* In this example number 70 scores 70.0000, and so on; and an A in Essential Mathematics, which is slot 90, scores 95.0000. */
static void fill_scores(void)
{
    for (int subject = 0; subject < SUBJECTS; subject++)
        for (int slot = 1; slot <= SLOTS; slot++)
            set_score(subject, slot, (uint32_t)slot * ONE);
    set_score(4, 90, 95 * ONE);
}

int main(void)
{
    fill_scores();
    struct shtegomir_best best =
        shtegomir_best_set(catalogue, sizeof catalogue, scores, sizeof scores, YEAR, results, sizeof results);
    if (best.refusal != SHTEGOMIR_ACCEPTED) {
        printf("refused %llu at %llu\n", (unsigned long long)best.refusal, (unsigned long long)best.place);
        return 1;
    }
    printf("aggregate %lu.%02lu\n", (unsigned long)best.aggregate / 100, (unsigned long)best.aggregate % 100);
    for (int i = 0; i < RESULTS; i++)
        if (best.set >> i & 1)
            printf("%s\n", name[results[6 * i + 1]]);
    return 0;
}
