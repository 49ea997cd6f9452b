/* The report as another program calls it: the paper's example, byte for byte, scores at their limits, files that are refused, and
 * calls that are. */
#include <stdio.h>
#include <string.h>

#include "shtegomir.h"

enum { TEXT = 65536, BEFORE = '#' };

static const char listing[] = "cohort 4 eligible 3 remainder 0\n"
                              "7 360.00 3 100.000 97.45\n"
                              "8 355.00 2 66.667 92.45\n"
                              "9 refused 8 0\n"
                              "11 355.00 2 66.667 92.45\n";

static uint8_t office[65537], text[TEXT + 1];
static size_t office_len;
static int failures;

static void expect(const char *what, unsigned long long found, unsigned long long wanted)
{
    if (found == wanted)
        return;
    failures++;
    printf("%s: %llu, expected %llu\n", what, found, wanted);
}

/* The text begins so, and all behind is as it was. */
static void reads(const char *what, const char *wanted)
{
    size_t length = strlen(wanted), kept = length;
    while (kept < sizeof text && text[kept] == BEFORE)
        kept++;
    if (memcmp(text, wanted, length) == 0 && kept == sizeof text)
        return;
    failures++;
    printf("%s: another text than\n%s", what, wanted);
}

static void report(const char *what, const uint8_t *file, size_t length, const char *wanted)
{
    memset(text, BEFORE, sizeof text);
    struct shtegomir_text a = shtegomir_report(file, length, text, TEXT);
    expect(what, a.refusal, SHTEGOMIR_ACCEPTED);
    expect("its place", a.place, 0);
    expect("its length", a.length, strlen(wanted));
    reads(what, wanted);
}

static void refused(const char *what, size_t text_len)
{
    memset(text, BEFORE, sizeof text);
    struct shtegomir_text a = shtegomir_report(office, office_len, text, text_len);
    expect(what, a.refusal, SHTEGOMIR_WRONG_LENGTH);
    expect("its place", a.place, 0);
    expect("its length", a.length, 0);
    reads(what, "");
}

static int read_office(void)
{
    FILE *source = fopen("examples/office.cohort", "rb");
    if (source == NULL)
        return 0;
    office_len = fread(office, 1, sizeof office, source);
    return fclose(source) == 0;
}

/* Year 2021, no subject, Q17 40 and E17 20. */
static const uint8_t nobody[5 + 43] = {1, 0, 2, 7, 229, 4, 0, 40, [15] = 40, [35] = 20};

static void good(void)
{
    report("the office's example", office, office_len, listing);
    report("the same once more", office, office_len, listing);
    report("nobody", nobody, sizeof nobody, "cohort 0 eligible 0 remainder 0\n");
}

/* A file that is refused is no refused call. */
static void bad_files(void)
{
    static uint8_t zeros[65537];
    report("an empty file", office, 0, "refused 1 0\n");
    report("a year and no more", office, 5, "refused 1 5\n");
    report("a field cut short", office, 7, "refused 1 5\n");
    report("65537 bytes", zeros, sizeof zeros, "refused 2 65536\n");
    uint8_t kept = office[8];
    office[8] = 7; /* the kind of the first subject */
    report("kind 7", office, office_len, "refused 3 5\n");
    office[8] = kept;
    kept = office[3];
    office[3] = 0;
    report("year 229", office, office_len, "refused 14 0\n");
    office[3] = kept;
}

/* A subject, a score of it, and nobody: the score's field begins at 13, and its value ends with these bytes. */
static void scored(const char *what, const uint8_t *score, size_t bytes, const char *wanted)
{
    static const uint8_t english[8] = {2, 0, 5, 1, 1, 0, 0, 1};
    uint8_t file[5 + sizeof english + 6 + 4 + 43];
    const uint8_t field[6] = {3, 0, (uint8_t)(3 + bytes), 0, 0, 50};
    uint8_t *to = file;
    memcpy(to, nobody, 5);
    memcpy(to += 5, english, sizeof english);
    memcpy(to += sizeof english, field, sizeof field);
    memcpy(to += sizeof field, score, bytes);
    memcpy(to += bytes, nobody + 5, 43);
    report(what, file, (size_t)(to + 43 - file), wanted);
}

/* In ten-thousandths, in four bytes; and as it was in hundredths, in two. */
static void scores(void)
{
    static const char none[] = "cohort 0 eligible 0 remainder 0\n";
    scored("1000000", (const uint8_t[]){0x00, 0x0f, 0x42, 0x40}, 4, none);
    scored("1000001", (const uint8_t[]){0x00, 0x0f, 0x42, 0x41}, 4, "refused 5 13\n");
    scored("65535", (const uint8_t[]){0x00, 0x00, 0xff, 0xff}, 4, none);
    scored("4294967295", (const uint8_t[]){0xff, 0xff, 0xff, 0xff}, 4, "refused 5 13\n");
    scored("5000 in two bytes", (const uint8_t[]){0x13, 0x88}, 2, "refused 1 13\n");
}

int main(void)
{
    if (!read_office()) {
        printf("report: examples/office.cohort cannot be read\n");
        return 1;
    }
    good();
    bad_files();
    scores();
    refused("a text of 65535", TEXT - 1);
    refused("a text of 65537", TEXT + 1);
    refused("a text of 0", 0);
    printf(failures ? "report: %d wrong\n" : "report: all as it must be\n", failures);
    return failures != 0;
}
