/* Shtegomir: ATAR estimates for the Queensland subjects, proved by machine.
 *
 * Any bytes and any numbers may be given: every call ends, and what is wrong is refused with a number and a place, by the rules
 * that stand at each call, of which the first that is broken decides. A refused call writes nothing: every buffer is as it was.
 *
 * What the proof assumes of the caller, for every call:
 *   - a pointer is aligned for its type, valid for as many elements as the length after it says (elements, not bytes), and
 *     never NULL, not even with a length of 0;
 *   - what is lent to be written, each pointer that is not const, overlaps nothing else that is lent to the same call;
 *   - nothing else writes what is lent, or reads what is lent to be written, while the call runs.
 *
 * All memory is the caller's, before, during and after a call. Nothing is kept, nothing is allocated, and there is no state: calls
 * over different buffers may run at once. Numbers in bytes are big-endian; arrays of numbers are the machine's own.
 *
 * A buffer that has more room than a call asks is lent with the length that is asked, not with that of its room.
 *
 * Of a struct that is returned only the numbers are said: the bytes between and behind them may hold anything. Compare structs number by
 * number, never by memcmp or by a hash of their bytes.
 *
 * Beside each call stands how many bytes of stack it takes at most: the arguments that do not go in registers, the return address and all
 * below it, and not the caller's own frame. These figures are measured and not proved, for the proof knows no stack: tests/c/stack.c takes
 * them from the compiled library, as the kit that the file kit names builds it, over inputs that go deepest, and they are rounded up to
 * whole 16 bytes. Where a program binds the C library's memset and memcpy at their first call, and not at its start, a call that is the
 * first to use them takes some kilobytes more, for the dynamic linker.
 *
 * Link with libshtegomir.a, for x86-64 Linux.
 */
#ifndef SHTEGOMIR_H
#define SHTEGOMIR_H

#include <stddef.h>
#include <stdint.h>

#ifdef __cplusplus
extern "C" {
#endif

/* The numbers of refusals, as a call means them. docs/OFFICE.md has beside it what each means in a file and for a student. */
enum shtegomir_refusal {
    SHTEGOMIR_ACCEPTED = 0,
    SHTEGOMIR_MALFORMED = 1,        /* bytes that are not whole entries or results */
    SHTEGOMIR_TOO_MANY = 2,         /* more subjects, results, students or values than the call takes */
    SHTEGOMIR_WRONG_SUBJECT = 3,    /* a catalogue entry or kind outside its range, or a subject not in the catalogue or without a row */
    SHTEGOMIR_WRONG_RESULT = 4,     /* a letter, number or year wrong for the kind */
    SHTEGOMIR_WRONG_SCORE = 5,      /* a usable result whose slot is missing or over 1000000 */
    SHTEGOMIR_AGAIN = 6,            /* two usable results of one subject and year */
    SHTEGOMIR_NO_ENGLISH = 7,       /* no English shown */
    SHTEGOMIR_NO_SET = 8,           /* no admissible set */
    SHTEGOMIR_WRONG_POPULATION = 9, /* a figure over 1000000, or a population that is zero or over 1000000 */
    SHTEGOMIR_WRONG_RATE = 10,      /* a participation rate outside 0.25 to 0.75 */
    SHTEGOMIR_WRONG_LENGTH = 11,    /* a table, a buffer or counts of another length than asked, longer ones too */
    SHTEGOMIR_WRONG_AGGREGATE = 12, /* an aggregate over 50000 */
    SHTEGOMIR_WRONG_ENTRY = 13,     /* a participation entry over 1000000 */
    SHTEGOMIR_WRONG_YEAR = 14,      /* an assessment year outside 1984 to 9999 */
    SHTEGOMIR_WRONG_COUNT = 15      /* a count of students over 1000000, or a total over it */
};

/* ---- The best set of one student ---- */

/* Accepted: refusal and place are 0. Refused: aggregate and set are 0. */
struct shtegomir_best {
    uint64_t refusal, place;
    uint32_t aggregate; /* the sum of the five scores in hundredths, nearest, halves up: 0 to 50000 */
    uint16_t set;       /* bit i, of value 1 << i, for result i: five bits */
};

/* Finds the five results of a student that count for most.
 *
 * A result is usable if it is of kinds 1 to 4, or VET with 'Y' and level 3 or more; of any year. English is shown by a usable result of
 * strand 1 with 'A', 'B' or 'C', of any year. A set is admissible if it has five usable results, each the latest usable one of its
 * subject; at least four of kinds 1 to 3; not both one of kinds 1 to 3 and one of kind 4 of strand 1, nor both of strand 2; no two of
 * kinds 1 or 3 with one identity; and its latest year exceeds its earliest by at most four. These years need not be near the assessment
 * year.
 *
 *   catalogue  5 bytes to a subject, at most 64 subjects:
 *                kind      1 General, 2 General extension, 3 Senior External Examination, 4 Applied, 5 short course, 6 VET
 *                strand    0 none, 1 English, 2 Mathematics; 0 for kinds 5 and 6
 *                level     1 to 6 for VET, otherwise 0
 *                identity  two bytes: 1 or more for kinds 1 and 3, otherwise 0
 *   table      400 bytes to a subject, in the catalogue's order: 100 slots of four bytes, slot 1 first, in ten-thousandths, 0 to
 *              1000000; 4294967295 is missing. Kinds 1 to 3 use the slot of their number, Applied A to E slots 90, 70, 50, 30,
 *              10, VET slot 1. A slot that no usable result uses may hold anything. The old table, of 200 bytes to a subject and
 *              in hundredths, is refused 11.
 *   year       the assessment year, 1984 to 9999
 *   results    6 bytes to a result, at most 16 results:
 *                subject   two bytes: its place in the catalogue, from 0
 *                letter    'A' to 'E'; for VET 'Y' or 'N'
 *                number    1 to 100 for kinds 1 to 3, otherwise 0
 *                year      two bytes: 1980 to the assessment year
 *
 * Accepted: an admissible set, such that none has a greater sum of its five scores, unrounded, and of those with that sum the one
 * whose positions, in ascending order, come first in dictionary order. The aggregate is that greatest sum, rounded once: no score
 * is rounded before. Nothing is written but the struct that is returned.
 *
 * Refused, in this order, at a place:
 *    1  catalogue not whole entries: the number of whole ones
 *    2  over 64 subjects: 64
 *    3  an entry outside its ranges: its index
 *   11  table not of 400 bytes to a subject: 0
 *   14  year: 0
 *    1  results not whole: the number of whole ones
 *    2  over 16 results: 16
 *       for each result in turn, at its index:
 *    3  subject not in the catalogue
 *    4  letter, number or year wrong for the kind
 *    5  usable, however old, with a slot that is missing or over 1000000
 *       of all results:
 *    6  two usable of one subject and year, however old: the index of the later one
 *    7  no English: 0
 *    8  no admissible set: 0
 *
 * It takes at most SHTEGOMIR_BEST_SET_STACK bytes of stack: as much for five results as for sixteen and for a student refused 3 to 8,
 * less where the input is refused before results are read.
 */
struct shtegomir_best shtegomir_best_set(const uint8_t *catalogue, size_t catalogue_len, const uint8_t *table, size_t table_len,
                                         uint32_t year, const uint8_t *results, size_t results_len);
enum { SHTEGOMIR_BEST_SET_STACK = 448 };

/* ---- First scaled scores of a subject ---- */

/* Accepted: both are 0. */
struct shtegomir_scored {
    uint64_t refusal, place;
};

/* Writes a subject's row of the score table from the number of students at each raw result, and no other row.
 *
 *   kind     1 to 4 or 6, as in the catalogue
 *   subject  its place in the catalogue, from 0: whose row is written
 *   counts   kinds 1 to 3: 100, of the results 1 to 100 in this order; Applied: 5, of E, D, C, B, A in this order; VET: none, with a
 *            length of 0, and still a pointer that is not NULL. Each count, and all together, at most 1000000
 *   table    lent to be written, 400 bytes to a subject, as for the best set. The whole row is written, whatever it held, and the
 *            other rows stay: fill a new table with bytes 255, all missing, before the first call. The old table, of 200 bytes to a
 *            subject, must not be lent: it is refused 3 where it has no such row of 400 bytes, and else 11, unless it happens to be
 *            of whole rows of 400 bytes, for then nothing tells that it is old, and the call writes over two of its rows
 *
 * The score of a result is 100 * (half the count at it + all counts below it) / (all counts), in ten-thousandths, nearest, halves
 * up: of Applied with 2, 1, 0, 4 and 1 students 125000, 312500, 375000, 625000 and 937500. With no students at all every slot is
 * missing. VET has 500000 in slot 1. Slots of no result are missing.
 *
 * Refused, in this order, at a place:
 *    3  a short course, a kind outside 1 to 6, or a table without the subject's row of 400 bytes: 0
 *   11  another number of counts than the kind asks, or table not of whole rows: 0
 *   15  a count over 1000000: its index; then a total over it: 0
 *
 * It takes at most SHTEGOMIR_FIRST_SCORES_STACK bytes of stack.
 */
struct shtegomir_scored shtegomir_first_scores(uint32_t kind, uint32_t subject, const uint32_t *counts, size_t counts_len,
                                               uint8_t *table, size_t table_len);
enum { SHTEGOMIR_FIRST_SCORES_STACK = 80 };

/* ---- The population and the participation curve ---- */

/* Accepted: refusal and place are 0. Refused: population and rate are 0. */
struct shtegomir_curve {
    uint64_t refusal, place;
    uint32_t population; /* Y, 1 to 1000000 */
    uint32_t rate;       /* r in ten-thousandths, 2500 to 7500 */
};

/* Finds the potential population and the participation rate, and fills the participation table.
 *
 *   figures  ten: Q16 to Q20, then E16 to E20, each at most 1000000
 *   table    lent to be written, 2000 entries: in entry k the share of band k, ATAR 0.05k, in millionths; whatever it held before
 *
 * Refused, in this order, at a place:
 *   11  not ten figures, or not 2000 entries: 0
 *    9  a figure over 1000000: its index; then E or Y zero: 10
 *   10  r outside 2500 to 7500: 0
 *
 * It takes at most SHTEGOMIR_PARTICIPATION_STACK bytes of stack.
 */
struct shtegomir_curve shtegomir_participation(const uint32_t *figures, size_t figures_len, uint32_t *table, size_t table_len);
enum { SHTEGOMIR_PARTICIPATION_STACK = 96 };

/* ---- Ranks and percentiles ---- */

/* Accepted: both are 0. */
struct shtegomir_ranked {
    uint64_t refusal, place;
};

/* Ranks up to 100000 values, any numbers. For aggregates that are placed too, call shtegomir_rank_and_place.
 *
 *   ranks        lent to be written, as many as there are values: the number of values that are at most one's own
 *   percentiles  lent to be written, as many: 100 times rank over the number of values, in thousandths, nearest, halves up
 *
 * Refused, in this order, at a place:
 *    2  over 100000 values: 100000
 *   11  either buffer not as long as the values: 0
 *
 * It takes at most SHTEGOMIR_RANK_STACK bytes of stack.
 */
struct shtegomir_ranked shtegomir_rank(const uint32_t *values, size_t values_len, uint32_t *ranks, size_t ranks_len,
                                       uint32_t *percentiles, size_t percentiles_len);
enum { SHTEGOMIR_RANK_STACK = 1200 };

/* ---- Bands ---- */

/* Accepted: refusal and place are 0. Refused: the remainder is 0. */
struct shtegomir_placed {
    uint64_t refusal, place;
    uint32_t remainder; /* the students for whom there is no place in band 0 either */
};

/* Places up to 512 students, by direct count: of all placings that keep order, ties and places the one that gives every student at
 * once the best band.
 *
 *   aggregates  in hundredths, at most 50000; no student at all is fine too
 *   table       2000 participation entries in millionths, each at most 1000000; they need not rise
 *   population  Y, 1 to 1000000
 *   bands       lent to be written, as many as there are students: 0 to 1999, band k being ATAR 0.05k
 *
 * Refused, in this order, at a place:
 *    2  over 512 students: 512
 *   11  not 2000 entries, or bands not as many as aggregates: 0
 *    9  population zero or over 1000000: 0
 *   13  an entry over 1000000: its index
 *   12  an aggregate over 50000: its index
 *
 * It takes at most SHTEGOMIR_PLACE_DIRECT_STACK bytes of stack.
 */
struct shtegomir_placed shtegomir_place_direct(const uint32_t *aggregates, size_t aggregates_len, const uint32_t *table,
                                               size_t table_len, uint32_t population, uint16_t *bands, size_t bands_len);
enum { SHTEGOMIR_PLACE_DIRECT_STACK = 80 };

/* ---- Ranks and bands in one call ---- */

/* Ranks and places up to 100000 students over one list of aggregates, by tally: the ranks and percentiles that shtegomir_rank gives for
 * it, and the placing as by direct count: of all that keep order, ties and places the one that gives every student at once the best
 * band. Where shtegomir_place_direct accepts too, bands and remainder are the same. All four buffers are filled, whatever they held
 * before, or none. Bands of more than 512 students come from no other call: lend ranks and percentiles even where they are not wanted.
 *
 * For no student at all the lengths of ranks, percentiles and bands are 0, their pointers still not NULL; the remainder is 0, and so is
 * every count.
 *
 *   aggregates   in hundredths, at most 50000; no student at all is fine too
 *   table        2000 participation entries in millionths, each at most 1000000; they need not rise
 *   population   Y, 1 to 1000000
 *   ranks        lent to be written, as many as there are students: the number of students whose aggregate is at most one's own
 *   percentiles  lent to be written, as many: 100 times rank over the number of students, in thousandths, nearest, halves up
 *   bands        lent to be written, as many: 0 to 1999, band k being ATAR 0.05k
 *   counts       lent to be written, 50001: in entry t the number of students with aggregate t
 *
 * Refused, in this order, at a place:
 *    2  over 100000 students: 100000
 *   11  not 2000 entries, or ranks, percentiles or bands not as many as aggregates, or counts not 50001: 0
 *    9  population zero or over 1000000: 0
 *   13  an entry over 1000000: its index
 *   12  an aggregate over 50000: its index
 *
 * It takes at most SHTEGOMIR_RANK_AND_PLACE_STACK bytes of stack.
 */
struct shtegomir_placed shtegomir_rank_and_place(const uint32_t *aggregates, size_t aggregates_len, const uint32_t *table,
                                                 size_t table_len, uint32_t population, uint32_t *ranks, size_t ranks_len,
                                                 uint32_t *percentiles, size_t percentiles_len, uint16_t *bands, size_t bands_len,
                                                 uint32_t *counts, size_t counts_len);
enum { SHTEGOMIR_RANK_AND_PLACE_STACK = 208 };

/* ---- The listing of a cohort file ---- */

/* Accepted: refusal and place are 0. Refused: the length is 0. */
struct shtegomir_text {
    uint64_t refusal, place;
    uint64_t length; /* the bytes of the text */
};

/* Lists a cohort file: any bytes, of any number. What `estimate` prints for it.
 *
 *   text  lent to be written, 65536 bytes: the listing stands in front, every line ended by a line feed, without a 0 at the end;
 *         the rest is as it was. Every listing fits.
 *
 * A file that is refused is an accepted call: `refusal` 0 says only that a text was written. The text of a refused file begins with
 * `refused`, and is that line alone: `refused`, number, place. Every other text begins with `cohort`. A student who is refused has such a
 * line too, behind the id, and refuses nobody else.
 *
 * Refused, at a place:
 *   11  text not of 65536 bytes: 0
 *
 * It takes at most SHTEGOMIR_REPORT_STACK bytes of stack.
 */
struct shtegomir_text shtegomir_report(const uint8_t *file, size_t file_len, uint8_t *text, size_t text_len);
enum { SHTEGOMIR_REPORT_STACK = 97984 };

#ifdef __cplusplus
}
#endif

#endif
