/* search MB ROUNDS FILE [PROGRAM..]: every finder on every text; prints one table. FILE is for the texts that the programs grep and rg read. */
#define _GNU_SOURCE
#include <math.h>
#include <stdio.h>
#include <stdlib.h>
#include <string.h>

#include "copies.h"
#include "figures.h"
#include "process.h"
#include "rivals.h"
#include "tasks.h"

enum {
    DEAREST_IN = 1 << 20, /* bytes among which the dearest is looked for */
    FEWER = 1 << 16,      /* the same for a code of more than 255 bytes: the test of its sheet takes longer */
};

static const double twice = 1.9; /* so many comparisons for each byte of a text are about twice those that KMP makes */
static const double patience = 2.0; /* a finder that has used so many seconds on a text is not run on it again */

/* The finders, in the table's order. */
enum { RATTLE, TWIN, KMP, MEMMEM, GREP, RG, FINDERS };

/* The copies of those that are fed, and of KMP's preparing. */
preparer COPIES_OF(rattle, entries_prepare);
feeder COPIES_OF(rattle, entries_feed), COPIES_OF(rivals, twin_feed), COPIES_OF(rivals, kmp_feed);
linker COPIES_OF(rivals, kmp_prepare);

static feeder *const feeders[MEMMEM][COPIES] = {{COPIES_OF(rattle, entries_feed)}, {COPIES_OF(rivals, twin_feed)}, {COPIES_OF(rivals, kmp_feed)}};
static linker *const linkers[COPIES] = {COPIES_OF(rivals, kmp_prepare)};

static struct search s;
static const char *text_file;

/* A whole text by memmem, which goes on one byte behind each place. */
static struct found memmem_text(int checking)
{
    struct found r = {0};
    const uint8_t *from = s.text;
    const uint8_t *end = s.text + s.n;
    const uint8_t *p;

    while ((p = memmem(from, (size_t)(end - from), s.code, s.m)) != NULL) {
        if (checking)
            note(&r, (uint64_t)(p - s.text), s.m);
        else
            r.hits++;
        from = p + 1;
    }
    return r;
}

/* Reads lines PLACE:CODE, in parts. */
struct lines {
    struct found found;
    uint64_t place;
    int in_number;
};

static void read_lines(void *state, const char *bytes, size_t length)
{
    struct lines *l = state;

    for (size_t i = 0; i < length; i++) {
        if (bytes[i] == '\n') {
            l->in_number = 1;
            l->place = 0;
        } else if (l->in_number && bytes[i] == ':') {
            l->in_number = 0;
            note(&l->found, l->place, s.m);
        } else if (l->in_number) {
            l->place = 10 * l->place + (uint64_t)(bytes[i] - '0');
        }
    }
}

static char *const grep[] = {"grep", "-F", "-o", "-b", "-a", "-e", (char *)s.code, "--", NULL, NULL};
static char *const rg[] = {"rg", "--no-config", "-F", "-o", "-b", "-a", "-N", "-I", "-e", (char *)s.code, "--", NULL, NULL};

/* Runs grep or rg on the file of the text. */
static double program_text(char *const *command, sink *take, void *state)
{
    char *argv[16];
    size_t k = 0;

    for (; command[k]; k++)
        argv[k] = command[k];
    argv[k++] = (char *)text_file;
    argv[k] = NULL;
    return run_process(argv, NULL, NULL, take, state).cpu;
}

static void check_feeders(void)
{
    for (int f = 0; f < MEMMEM; f++) {
        uintptr_t starts[COPIES];

        for (int k = 0; k < COPIES; k++)
            starts[k] = (uintptr_t)feeders[f][k];
        check_copies(starts);
    }
}

/* One run of a finder; of those that are fed, of one copy. */
static double timed(int finder, int copy)
{
    double start = cpu_now();

    switch (finder) {
    case MEMMEM: memmem_text(0); break;
    case GREP: return program_text(grep, NULL, NULL);
    case RG: return program_text(rg, NULL, NULL);
    default: feed_text(feeders[finder][copy], &s, 0);
    }
    return cpu_now() - start;
}

static struct found checked(int finder)
{
    struct lines l = {.in_number = 1};

    switch (finder) {
    case MEMMEM: return memmem_text(1);
    case GREP:
    case RG: program_text(finder == GREP ? grep : rg, read_lines, &l); return l.found;
    default: return feed_text(feeders[finder][0], &s, 1);
    }
}

static const char *const names[FINDERS] = {"Rattle", "C twin", "KMP", "memmem", "grep", "rg"};

/* All must report the same places, those of grep and rg only where no two overlap; the twin the same comparisons too. */
static struct found agreed(const int *present)
{
    struct found rattle = checked(RATTLE);

    for (int f = TWIN; f < FINDERS; f++) {
        if (!present[f] || (f >= GREP && rattle.overlap))
            continue;
        struct found other = checked(f);
        if (other.hits != rattle.hits || other.check != rattle.check)
            stop("other places than Rattle's", names[f]);
        if (f == TWIN && other.compares != rattle.compares)
            stop("other comparisons than Rattle's", names[f]);
    }
    return rattle;
}

/* The cost of the dearest byte among the first ones, each fed as a piece of its own. */
static uint64_t dearest(void)
{
    const size_t end = s.m <= LONGEST_SHORT ? DEAREST_IN : FEWER;
    struct fed f = {0};
    uint64_t most = 0;
    uint32_t place;

    for (size_t i = 0; i < s.n && i < end; i++) {
        uint64_t before = f.compares;
        f = feeders[RATTLE][0](s.sheet, s.sheet_length, f.state, f.taken, f.hits, f.compares, s.text + i, 1, &place, 1);
        if (f.compares - before > most)
            most = f.compares - before;
    }
    return most;
}

/* The byte ceiling: the smaller of 1 + log2 m, rounded down, and the number of different bytes. */
static unsigned byte_ceiling(void)
{
    unsigned char seen[256] = {0};
    unsigned different = 0;
    unsigned arrows = 0;

    for (size_t i = 0; i < s.m; i++) {
        different += !seen[s.code[i]];
        seen[s.code[i]] = 1;
    }
    for (size_t left = s.m; left > 0; left /= 2)
        arrows++;
    return arrows < different ? arrows : different;
}

static void write_text(void)
{
    FILE *f = fopen(text_file, "wb");

    if (!f || fwrite(s.text, 1, s.n, f) != s.n || fclose(f) != 0)
        stop("cannot write", text_file);
}

/* The best times: in each round every finder runs once, those that are fed with each of their copies, in turn. Answers the median of the rounds' ratios of Rattle's speed to the twin's: what slows the
 * machine for longer than two runs slows both, and does not reach it. */
static double measure(const int *present, int rounds, double *best)
{
    double used[FINDERS] = {0};
    double *ratios = malloc((size_t)rounds * sizeof *ratios);

    if (!ratios)
        stop("no memory for the rounds", "");
    for (int f = 0; f < FINDERS; f++)
        best[f] = HUGE_VAL;
    for (int r = 0; r < rounds; r++) {
        double time[FINDERS];

        for (int f = 0; f < FINDERS; f++)
            time[f] = HUGE_VAL;
        for (int k = 0; k < COPIES; k++)
            for (int f = 0; f < FINDERS; f++) {
                if (!present[f] || (f >= MEMMEM && (k > 0 || used[f] > patience)))
                    continue;
                double one = timed(f, k);
                used[f] += one;
                time[f] = fmin(time[f], one);
                best[f] = fmin(best[f], one);
            }
        ratios[r] = time[TWIN] / time[RATTLE];
    }
    double ratio = median(ratios, rounds);
    free(ratios);
    return ratio;
}

static void print_speed(double seconds, int present, const char *mark)
{
    char cell[32];

    if (present)
        snprintf(cell, sizeof cell, "%.*f%s", seconds * 1e7 > (double)s.n ? 1 : 0, (double)s.n / seconds / 1e6, mark);
    else
        snprintf(cell, sizeof cell, "-");
    printf(" %7s |", cell);
}

static void print_head(void)
{
    printf("| %-19s | %-18s |    m | %8s |", "Text", "Code", "places");
    for (int f = 0; f < FINDERS; f++)
        printf(" %7s |", names[f]);
    printf(" Rattle/C | comp./byte | (2m-1)/m | dearest | ceiling |\n");
    printf("|---|---|--:|--:|");
    for (int f = 0; f < FINDERS; f++)
        printf("--:|");
    printf("--:|--:|--:|--:|--:|\n");
}

static void print_row(const struct job *j, const struct found *r, const double *best, double ratio, const int *present)
{
    printf("| %-19s | %-18s | %4zu | %8llu |", j->text_name, j->code_name, s.m, (unsigned long long)r->hits);
    for (int f = 0; f < FINDERS; f++)
        print_speed(best[f], present[f], f >= GREP && r->overlap ? "*" : "");
    printf(" %8.2f | %10.4f | %8.4f | %7llu | %7u |\n", ratio, (double)r->compares / (double)s.n,
           (2.0 * (double)s.m - 1) / (double)s.m, (unsigned long long)dearest(), byte_ceiling());
    fflush(stdout);
}

static void print_notes(int rounds)
{
    printf("\nMB/s (a million bytes a second) of processor time, best of %d rounds in which every finder runs once (a finder that needs over %.0f s: fewer); %.0f MB "
           "each.\n",
           rounds, patience, (double)s.n / 1e6);
    printf("Rattle/C: Rattle's speed to the C twin's, the median of the rounds. Rattle, the twin and KMP are linked %d times each; the fastest copy counts.\n", COPIES);
    printf("Rattle, C twin, KMP: in memory, pieces of %d bytes, a list of %d places. Rattle and the twin verify the sheet at each call; KMP trusts its links.\n"
           "The twin takes a byte a turn; Rattle has loops for states 0, 1 and m and for forward arrows in a row, and makes the same comparisons.\n",
           PIECE, LIST);
    printf("memmem: glibc's, in memory, the whole text, on from one byte behind each place. All four report overlapping places, and report the same ones.\n");
    printf("grep -F -o -b -a and rg with the same options: whole processes that read a file and print, in lines; of overlapping places they report only "
           "some (*).\n");
    printf("Where no places overlap theirs are the same too. A code with a line feed cannot be given to them; none here has one.\n");
    printf("comp./byte: comparisons per byte of text, the same in Rattle and twin, at most (2m-1)/m. dearest: those of the dearest of the first %d bytes (m over %d: "
           "%d); its ceiling.\n",
           DEAREST_IN, LONGEST_SHORT, FEWER);
}

int main(int argc, char **argv)
{
    int present[FINDERS] = {1, 1, 1, 1, 0, 0};
    struct ratios ratios = {0}, wide_ratios = {0};
    double on_one_letter = 0;
    double to_kmp = HUGE_VAL;

    if (argc < 4)
        stop("usage: search MB ROUNDS FILE [grep] [rg]", "");
    take_memory(&s, argv[1]);
    int rounds = atoi(argv[2]);
    text_file = argv[3];
    for (int i = 4; i < argc; i++)
        for (int f = GREP; f < FINDERS; f++)
            if (strcmp(argv[i], names[f]) == 0)
                present[f] = 1;
    if (rounds < 1)
        stop("1 round or more", "");
    setenv("LC_ALL", "C", 1);
    check_feeders();

    print_head();
    for (const struct job *j = jobs; j->make; j++) {
        double best[FINDERS];

        if (set_up(&s, j, rattle_0_entries_prepare))
            write_text();
        for (int k = 0; k < COPIES; k++)
            linkers[k](s.code, s.m);
        struct found r = agreed(present);
        if (r.compares > (2 * s.m - 1) * s.n / s.m)
            stop("over the total ceiling", j->text_name);
        double ratio = measure(present, rounds, best);
        print_row(j, &r, best, ratio, present);
        add_ratio(s.m <= LONGEST_SHORT ? &ratios : &wide_ratios, ratio);
        if (s.m <= LONGEST_SHORT && (double)r.compares < twice * (double)s.n)
            to_kmp = fmin(to_kmp, best[KMP] / best[RATTLE]);
        if (j->make == one_letter && s.m == 255)
            on_one_letter = best[MEMMEM] / best[RATTLE];
    }
    print_notes(rounds);
    printf("\nRattle/C: geometric mean %.2f (aim 2.00), smallest %.2f (aim 1.00) for codes of up to %d bytes; %.2f and %.2f for longer ones, with the test of a "
           "longer sheet in each feeding.\n",
           mean_ratio(&ratios), ratios.smallest, LONGEST_SHORT, mean_ratio(&wide_ratios), wide_ratios.smallest);
    printf("Rattle's speed to KMP's: smallest %.2f (aim 0.90) for codes of up to %d bytes where fewer than %.1f comparisons are made for a byte; KMP, which compares "
           "the forward label first, makes about half of them elsewhere.\n",
           to_kmp, LONGEST_SHORT, twice);
    printf("Rattle's speed to memmem's on a^255 in a^n: %.0f times (aim 10).\n", on_one_letter);
    return 0;
}
