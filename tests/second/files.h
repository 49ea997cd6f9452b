/* Cohort files by chance, valid and damaged, and the two reports of one file held to each other. */
#ifndef FILES_H
#define FILES_H

#include <stddef.h>
#include <stdint.h>

enum { FILE_BYTES = 65536, FILE_ROOM = FILE_BYTES + 4096, TEXT_BYTES = 65536, REFUSALS = 16 };

struct file {
    size_t length;
    uint8_t bytes[FILE_ROOM];
};

/* A file that is accepted, if its figures are: no student to hundreds, about half of them eligible. */
void make_file(struct file *f);

/* One damage: a byte, a length, a field dropped, doubled or moved, an end too soon or too late, one too many, one again, a figure,
 * a score, one as it was in hundredths. */
void damage_file(struct file *f);

/* What the listings showed. In place 0 of each: what was accepted. */
struct seen {
    unsigned long calls[REFUSALS], files[REFUSALS], students[REFUSALS], cohorts; /* cohorts: those of at least five eligible */
    unsigned long tied_by_rounding; /* students whose aggregate another has too, from another unrounded sum */
};

/* Whether both give the same answer and leave the same text, to the last byte and past it; only the listing may be written. What
 * differs is printed. */
int same_report(const struct file *f, size_t text_len, struct seen *seen);

/* Prints where the file begins and how long it is, and writes all of it to target/tests/failed.cohort. */
void print_file(const struct file *f);

#endif
