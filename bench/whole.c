/* whole MB ROUNDS DIR FIND CFIND [grep] [rg]: whole programs on texts from files; prints one table. DIR is for the texts and for what is written. */
#include <math.h>
#include <stdio.h>
#include <stdlib.h>
#include <string.h>

#include "process.h"
#include "texts.h"

/* The programs, in the table's order. */
enum { FIND, CFIND, GREP, RG, PROGRAMS };

static const char *const names[PROGRAMS] = {"find", "find in C", "grep", "rg"};

static const struct job {
    const char *text_name;
    text_maker *make;
    char *code;
} jobs[] = {
    {"plan", plan_text, "R1234"},
    {"plan", plan_text, "PLUM-CAKE-77"},
    {"plan", plan_text, " g,"},
    {"a^n", one_letter, "a"},
};

enum { JOBS = sizeof jobs / sizeof *jobs };

static const double patience = 2.0; /* a program that has used so many seconds on a text is not run on it again */

static uint8_t *text;
static size_t n;
static char *find_path, *cfind_path;
static char text_path[4096];   /* the text: for grep and rg */
static char input_path[4096];  /* the line (code X) and the text: for both finds */
static char output_path[4096]; /* what a program writes */
static char other_path[4096];

static void write_file(const char *path, const char *code)
{
    FILE *f = fopen(path, "wb");

    if (!f)
        stop("cannot write", path);
    if (code)
        fprintf(f, "(code %s)\n", code);
    if (fwrite(text, 1, n, f) != n || fclose(f) != 0)
        stop("cannot write", path);
}

static struct spent run(int program, const struct job *j, const char *output)
{
    char *find[] = {program == FIND ? find_path : cfind_path, NULL};
    char *grep[] = {"grep", "-F", "-o", "-b", "-a", "-e", j->code, NULL};
    char *rg[] = {"rg", "--no-config", "-F", "-o", "-b", "-a", "-N", "-I", "-e", j->code, "-", NULL};

    if (program == GREP)
        return run_process(grep, text_path, output, NULL, NULL);
    if (program == RG)
        return run_process(rg, text_path, output, NULL, NULL);
    return run_process(find, input_path, output, NULL, NULL);
}

/* Both finds must write the same bytes. Returns how many lines, the end form not counted. */
static long compare(const struct job *j)
{
    long lines = 0;
    int c, d;

    run(FIND, j, output_path);
    run(CFIND, j, other_path);
    FILE *a = fopen(output_path, "rb");
    FILE *b = fopen(other_path, "rb");
    if (!a || !b)
        stop("cannot read", output_path);
    do {
        c = getc(a);
        d = getc(b);
        lines += c == '\n';
    } while (c == d && c != EOF);
    fclose(a);
    fclose(b);
    if (c != d)
        stop("other output than find's", names[CFIND]);
    return lines - 1;
}

/* grep stops at the first place where its output is /dev/null. */
static int measurable(int program, const char *output)
{
    return program != GREP || strcmp(output, "/dev/null") != 0;
}

static void print_row(const struct job *j, long places, const char *output, const int *present, int rounds)
{
    struct spent best[PROGRAMS];
    double used[PROGRAMS] = {0};

    for (int p = 0; p < PROGRAMS; p++)
        best[p] = (struct spent){HUGE_VAL, HUGE_VAL};
    for (int r = 0; r < rounds; r++)
        for (int p = 0; p < PROGRAMS; p++) {
            if (!present[p] || !measurable(p, output) || used[p] > patience)
                continue;
            struct spent t = run(p, j, output);
            used[p] += t.wall;
            best[p].wall = fmin(best[p].wall, t.wall);
            best[p].cpu = fmin(best[p].cpu, t.cpu);
        }
    printf("| %-4s | %-12s | %8ld | %-9s |", j->text_name, j->code, places, strcmp(output, "/dev/null") == 0 ? output : "a file");
    for (int p = 0; p < PROGRAMS; p++)
        if (isfinite(best[p].wall))
            printf(" %5.0f (%5.0f) |", best[p].wall * 1e3, best[p].cpu * 1e3);
        else
            printf(" %13s |", "-");
    printf(" %6.2f |\n", best[CFIND].cpu / best[FIND].cpu);
    fflush(stdout);
}

static void print_head(void)
{
    printf("| %-4s | %-12s | %8s | %-9s |", "Text", "Code", "places", "output");
    for (int p = 0; p < PROGRAMS; p++)
        printf(" %13s |", names[p]);
    printf(" find/C |\n|---|---|--:|---|");
    for (int p = 0; p < PROGRAMS; p++)
        printf("--:|");
    printf("--:|\n");
}

int main(int argc, char **argv)
{
    int present[PROGRAMS] = {1, 1, 0, 0};

    if (argc < 6)
        stop("usage: whole MB ROUNDS DIR FIND CFIND [grep] [rg]", "");
    n = (size_t)strtoul(argv[1], NULL, 10) * 1000000;
    int rounds = atoi(argv[2]);
    snprintf(text_path, sizeof text_path, "%s/text", argv[3]);
    snprintf(input_path, sizeof input_path, "%s/input", argv[3]);
    snprintf(output_path, sizeof output_path, "%s/output", argv[3]);
    snprintf(other_path, sizeof other_path, "%s/output-c", argv[3]);
    find_path = argv[4];
    cfind_path = argv[5];
    for (int i = 6; i < argc; i++)
        for (int p = GREP; p < PROGRAMS; p++)
            if (strcmp(argv[i], names[p]) == 0)
                present[p] = 1;
    text = malloc(n);
    if (n == 0 || rounds < 1 || !text)
        stop("at least 1 MB, with memory for it, and 1 round", "");
    setenv("LC_ALL", "C", 1);

    print_head();
    for (int k = 0; k < JOBS; k++) {
        jobs[k].make(text, n);
        write_file(text_path, NULL);
        write_file(input_path, jobs[k].code);
        long places = compare(&jobs[k]);
        print_row(&jobs[k], places, "/dev/null", present, rounds);
        print_row(&jobs[k], places, output_path, present, rounds);
    }
    printf("\nMilliseconds on the clock, and of processor time in brackets, of whole processes on %.0f MB from a file; best of %d rounds (a program that needs over %.0f s: fewer).\n"
           "find/C: ratio of the best speeds by processor time. Both finds write the same bytes. grep stops at the first place where its output is /dev/null: not timed there.\n",
           (double)n / 1e6, rounds, patience);
    remove(input_path);
    remove(output_path);
    remove(other_path);
    return 0;
}
