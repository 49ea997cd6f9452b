/* Damages cohort files and holds the report of each to the second implementation. The first difference ends the run, with its file.
 * It starts from the files that are given, and from others by chance. tests/damaged builds and runs it.
 *
 *   damaged SEED COUNT FILE..     so many files are tried: the same ones each time
 *   damaged SEED SECONDSs FILE..  as many as it comes to in this time
 */
#include <stdio.h>
#include <stdlib.h>
#include <string.h>
#include <time.h>

#include "chance.h"
#include "files.h"

enum { GIVEN = 200, KEPT = 40 }; /* KEPT: files that were damaged and still accepted */

static struct file pool[GIVEN + KEPT];
static size_t given, kept;

static int read_file(const char *name)
{
    struct file *f = &pool[given];
    FILE *source = given < GIVEN ? fopen(name, "rb") : NULL;
    if (source == NULL) {
        printf("damaged: %s cannot be read, or is one too many\n", name);
        return 0;
    }
    f->length = fread(f->bytes, 1, sizeof f->bytes, source);
    given++;
    return fclose(source) == 0;
}

static const struct file *some_kept(void)
{
    return chance(60) ? &pool[below(given)] : &pool[GIVEN + below(kept)];
}

enum { OF_POOL, MADE, ORIGINS }; /* where a file comes from: given or kept, or made by chance */

/* Gives where it comes from. */
static int choose(struct file *f)
{
    if (chance(30)) {
        make_file(f);
        return MADE;
    }
    const struct file *like = kept > 0 ? some_kept() : &pool[below(given)];
    f->length = like->length;
    memcpy(f->bytes, like->bytes, like->length);
    return OF_POOL;
}

/* The front of one file and the end of another. */
static void join(struct file *f)
{
    static struct file other;
    choose(&other);
    size_t at = below(f->length + 1), start = chance(50) && at < other.length ? at : below(other.length + 1);
    size_t length = other.length - start < FILE_ROOM - at ? other.length - start : FILE_ROOM - at;
    memcpy(f->bytes + at, other.bytes + start, length);
    f->length = at + length;
}

static void keep(const struct file *f)
{
    pool[GIVEN + (kept < KEPT ? kept++ : below(KEPT))] = *f;
}

static unsigned long tried[ORIGINS], accepted[ORIGINS];

/* Gives whether the two reports of one more file are the same. */
static int one_more(void)
{
    static struct file f;
    static struct seen seen;
    unsigned long before = seen.files[0];
    int origin = choose(&f);
    tried[origin]++;
    if (chance(5))
        join(&f);
    for (unsigned times = chance(60) ? 1 : from(2, 4); times > 0; times--)
        damage_file(&f);
    if (!same_report(&f, TEXT_BYTES, &seen)) {
        print_file(&f);
        return 0;
    }
    if (seen.files[0] > before) {
        accepted[origin]++;
        keep(&f);
    }
    return 1;
}

static int read_files(int count, char **name)
{
    for (int i = 0; i < count; i++)
        if (!read_file(name[i]))
            return 0;
    return 1;
}

static unsigned long all_tried(void)
{
    return tried[OF_POOL] + tried[MADE];
}

/* Until as many files were tried as are said, or the time is over; gives whether all were the same. */
static int try_files(unsigned long count, unsigned long seconds)
{
    time_t start = time(NULL);
    while (seconds > 0 ? (unsigned long)(time(NULL) - start) < seconds : all_tried() < count)
        if (!one_more()) {
            printf("damaged: the two differ at file %lu\n", all_tried());
            return 0;
        }
    return 1;
}

/* The fewest that must be tried in a second, and in a hundred files be accepted and refused; FEW files by chance do not matter. With fewer
 * the run says little, or what makes or damages files is broken. Measured: on x86-64, before scores had four decimals, 2400 files a
 * second, 900 under sanitizers; since then, in forty runs of 600 files, in a hundred of those given or kept 7 to 15 accepted, of those
 * made by chance 10 to 19. */
enum { A_SECOND = 20, ACCEPTED = 5, REFUSED = 50, FEW = 5 };

static int enough(const char *name, int origin)
{
    unsigned long all = tried[origin], taken = accepted[origin];
    int fine = 100 * (taken + FEW) >= ACCEPTED * all && 100 * (all - taken + FEW) >= REFUSED * all;
    printf("damaged: %s, %lu files the same, of these %lu accepted%s\n", name, all, taken, fine ? "" : ": too few accepted or refused");
    return fine;
}

static int all_enough(unsigned long seconds)
{
    int fine = enough("given or kept", OF_POOL) & enough("made by chance", MADE);
    if (all_tried() + A_SECOND >= A_SECOND * seconds) /* the first second is perhaps none */
        return fine;
    printf("damaged: too few files in %lu seconds\n", seconds);
    return 0;
}

int main(int arguments, char **argument)
{
    if (arguments < 4) {
        printf("damaged: give it a seed, how many or how long, and files\n");
        return 1;
    }
    char *unit;
    uint64_t seed = strtoull(argument[1], NULL, 10);
    unsigned long limit = strtoul(argument[2], &unit, 10), seconds = *unit == 's' ? limit : 0;
    if (!read_files(arguments - 3, argument + 3))
        return 1;
    seed_chance(seed);
    printf("damaged: seed %llu, %zu files given\n", (unsigned long long)seed, given);
    fflush(stdout);
    int fine = try_files(limit, seconds) && all_enough(seconds);
    printf(fine ? "damaged: no difference\n" : "damaged: failed, seed %llu\n", (unsigned long long)seed);
    return !fine;
}
