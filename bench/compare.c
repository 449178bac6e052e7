/* compare MB ROUNDS: an earlier build of the finder and today's, on every text and every code that the earlier one takes; prints four tables. The fastest copy
 * of a build counts. */
#include <math.h>
#include <stdint.h>
#include <stdio.h>
#include <stdlib.h>

#include "copies.h"
#include "figures.h"
#include "process.h"
#include "tasks.h"

enum { BEFORE, AFTER, BUILDS };
enum {
    CALLS = 4000,     /* calls to a timing of small pieces, or of the byte ceiling */
    PREPARED = 20000, /* bytes of a code to a timing of preparing */
    MORE = 10,        /* rounds of preparing and of the byte ceiling to one of feeding: they are shorter */
};

preparer COPIES_OF(before, entries_prepare), COPIES_OF(after, entries_prepare);
feeder COPIES_OF(before, entries_feed), COPIES_OF(after, entries_feed);

typedef int64_t ceiling(const uint8_t *code, size_t code_length); /* the shape of finder_byte_ceiling in c/finder.h */
ceiling COPIES_OF(before_desk, finder_byte_ceiling), COPIES_OF(after_desk, finder_byte_ceiling);

static preparer *const preparers[BUILDS][COPIES] = {{COPIES_OF(before, entries_prepare)}, {COPIES_OF(after, entries_prepare)}};
static feeder *const feeders[BUILDS][COPIES] = {{COPIES_OF(before, entries_feed)}, {COPIES_OF(after, entries_feed)}};
static ceiling *const ceilings[BUILDS][COPIES] = {{COPIES_OF(before_desk, finder_byte_ceiling)}, {COPIES_OF(after_desk, finder_byte_ceiling)}};

static struct search s;

struct table {
    int rounds;
    double *of_rounds; /* room for a ratio of each */
    struct ratios ratios;
    int left_out; /* rows that are not there, since the earlier build refuses the code */
};

/* Nanoseconds for each byte, of one copy of a build. */
typedef double timer(int build, int copy);

static double time_feeding(int build, int copy)
{
    double start = cpu_now();

    feed_text(feeders[build][copy], &s, 0);
    return (cpu_now() - start) / (double)s.n * 1e9;
}

/* The same for each feeding. */
static double time_call(int build, int copy)
{
    return time_feeding(build, copy) * (double)s.piece;
}

/* Codes of all shapes and of one length. */
static uint8_t codes[SHAPES][LONGEST_CODE];
static size_t m;

static double time_preparing(int build, int copy)
{
    double sum = 0;

    for (int k = 0; k < SHAPES; k++)
        sum += preparing_time(preparers[build][copy], codes[k], m, PREPARED / m);
    return sum / (double)(SHAPES * m);
}

/* Nanoseconds for each byte ceiling of the first code. */
static double time_ceiling(int build, int copy)
{
    double start = cpu_now();

    for (int k = 0; k < CALLS; k++)
        if (ceilings[build][copy](codes[0], m) < 1)
            stop("a byte ceiling was refused", "");
    return (cpu_now() - start) / CALLS * 1e9;
}

static void check_builds(void)
{
    for (int b = 0; b < BUILDS; b++) {
        uintptr_t preparing[COPIES], feeding[COPIES], asking[COPIES];

        for (int k = 0; k < COPIES; k++) {
            preparing[k] = (uintptr_t)preparers[b][k];
            feeding[k] = (uintptr_t)feeders[b][k];
            asking[k] = (uintptr_t)ceilings[b][k];
        }
        check_copies(preparing);
        check_copies(feeding);
        check_copies(asking);
    }
}

/* Whether the earlier build refuses a code, which is then left out. */
static int leaves_out(struct table *t, const uint8_t *code, size_t length)
{
    int refused = !is_taken(preparers[BEFORE][0], code, length);

    t->left_out += refused;
    return refused;
}

/* Both builds must make the same sheet of a code. */
static void agree_on_sheet(const uint8_t *code, size_t length, const char *name)
{
    if (!same_sheets(preparers[BEFORE][0], preparers[AFTER][0], code, length))
        stop("another sheet than before, of the code", name);
}

/* Both must find the same places with the same comparisons, and answer the same watches and endings. */
static void agree_on_text(const char *name)
{
    struct found before = feed_text(feeders[BEFORE][0], &s, 1);
    struct found after = feed_text(feeders[AFTER][0], &s, 1);

    if (after.hits != before.hits || after.check != before.check)
        stop("other places than before, on the text", name);
    if (after.compares != before.compares)
        stop("other comparisons than before, on the text", name);
    if (after.answers != before.answers)
        stop("other watches or endings than before, on the text", name);
}

/* Prints a row: the best times, and the median of the rounds' ratios. In a round each copy runs once, the two builds in turn; which of them is first
 * changes from copy to copy and from round to round. */
static void add_row(struct table *t, const char *name, const char *code_name, timer *time)
{
    double best[BUILDS] = {HUGE_VAL, HUGE_VAL};

    for (int r = 0; r < t->rounds; r++) {
        double fastest[BUILDS] = {HUGE_VAL, HUGE_VAL};

        for (int k = 0; k < COPIES * BUILDS; k++) {
            int copy = k / BUILDS;
            int build = (k + copy + r) % BUILDS;
            fastest[build] = fmin(fastest[build], time(build, copy));
        }
        for (int b = 0; b < BUILDS; b++)
            best[b] = fmin(best[b], fastest[b]);
        t->of_rounds[r] = fastest[BEFORE] / fastest[AFTER];
    }
    double ratio = median(t->of_rounds, t->rounds);
    printf("| %-19s | %-18s | %7.3f | %7.3f | %12.3f |\n", name, code_name, best[BEFORE], best[AFTER], ratio);
    fflush(stdout);
    add_ratio(&t->ratios, ratio);
}

static void print_head(const char *title, const char *name, const char *code_name)
{
    printf("\n## %s\n\n| %-19s | %-18s | %7s | %7s | %12s |\n|---|---|--:|--:|--:|\n", title, name, code_name, "before", "after", "before/after");
}

static void print_end(const struct table *t, double aim)
{
    printf("\nbefore/after: smallest %.3f (aim %.2f), geometric mean %.3f.\n", t->ratios.smallest, aim, mean_ratio(&t->ratios));
    if (t->left_out > 0)
        printf("Left out: %d with codes that the earlier build refuses.\n", t->left_out);
}

static void compare_feeding(struct table t)
{
    print_head("Feeding", "Text", "Code");
    for (const struct job *j = jobs; j->make; j++) {
        set_up(&s, j, preparers[AFTER][0]);
        if (leaves_out(&t, s.code, s.m))
            continue;
        agree_on_sheet(s.code, s.m, j->code_name);
        agree_on_text(j->text_name);
        add_row(&t, j->text_name, j->code_name, time_feeding);
    }
    print_end(&t, 0.97);
}

/* Here a feeding is nearly all test of its sheet. */
static void compare_small_pieces(struct table t)
{
    static const size_t pieces[] = {1, 16};
    size_t n = s.n;
    char name[32];

    print_head("Small pieces", "Text", "Code, piece");
    for (const struct job *j = jobs; j->make; j++) {
        if (!j->small)
            continue;
        set_up(&s, j, preparers[AFTER][0]);
        if (leaves_out(&t, s.code, s.m))
            continue;
        for (size_t k = 0; k < sizeof pieces / sizeof *pieces; k++) {
            s.piece = pieces[k];
            s.n = CALLS * s.piece;
            agree_on_text(j->text_name);
            snprintf(name, sizeof name, "%s, %zu", j->code_name, s.piece);
            add_row(&t, j->text_name, name, time_call);
            s.n = n;
            s.piece = PIECE;
        }
    }
    print_end(&t, 0.67);
}

static void compare_preparing(struct table t)
{
    char length[32];

    t.rounds *= MORE;
    print_head("Preparing", "Codes", "m");
    for (int l = 0; l < LENGTHS; l++) {
        m = lengths[l];
        for (int k = 0; k < SHAPES; k++)
            shapes[k].make(codes[k], m);
        if (leaves_out(&t, codes[0], m))
            continue;
        for (int k = 0; k < SHAPES; k++)
            agree_on_sheet(codes[k], m, shapes[k].name);
        snprintf(length, sizeof length, "%zu", m);
        add_row(&t, "one of each shape", length, time_preparing);
    }
    print_end(&t, 0.97);
}

static void compare_ceilings(struct table t)
{
    static const struct shape extremes[] = {{"one letter", one_letter}, {"bytes from 32 on", all_from_32}};
    static const size_t sizes[] = {1, 5, 40, 255};
    char length[32];

    t.rounds *= MORE;
    print_head("Byte ceiling", "Code", "m");
    for (size_t l = 0; l < sizeof sizes / sizeof *sizes; l++)
        for (size_t k = 0; k < sizeof extremes / sizeof *extremes; k++) {
            m = sizes[l];
            extremes[k].make(codes[0], m);
            if (ceilings[BEFORE][0](codes[0], m) != ceilings[AFTER][0](codes[0], m))
                stop("another byte ceiling than before, of the code", extremes[k].name);
            snprintf(length, sizeof length, "%zu", m);
            add_row(&t, extremes[k].name, length, time_ceiling);
        }
    print_end(&t, 0.67);
}

int main(int argc, char **argv)
{
    struct table t = {0};

    if (argc != 3)
        stop("usage: compare MB ROUNDS", "");
    take_memory(&s, argv[1]);
    t.rounds = atoi(argv[2]);
    if (t.rounds < 1)
        stop("1 round or more", "");
    t.of_rounds = malloc((size_t)t.rounds * MORE * sizeof *t.of_rounds);
    if (!t.of_rounds)
        stop("no memory for the rounds", "");
    check_builds();

    compare_feeding(t);
    compare_small_pieces(t);
    compare_preparing(t);
    compare_ceilings(t);
    printf("\nNanoseconds of processor time for each byte of a text (%.0f MB, pieces of %d bytes, a list of %d places), each feeding of a small piece, each byte of "
           "a code to prepare, or each byte ceiling, best of %d rounds (codes: %d).\n"
           "before/after: the median of the rounds; over 1 it is faster now. In a round the fastest of a build's %d copies counts.\n"
           "Sheets, places, comparisons, watches and ceilings are the same before and after.\n",
           (double)s.n / 1e6, PIECE, LIST, t.rounds, t.rounds * MORE, COPIES);
    return 0;
}
