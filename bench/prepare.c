/* prepare: the time of preparing by the length of the code; prints one table. */
#include <math.h>
#include <stdio.h>

#include "process.h"
#include "rivals.h"
#include "tasks.h"

enum {
    CALLS = 2000, /* preparings to a timing */
    FEWER = 200,  /* the same for a code of more than 255 bytes */
    ROUNDS = 25,
};

/* The best of some rounds in which both run once. */
static void best_of(const uint8_t *code, size_t m, double *rattle, double *twin)
{
    size_t calls = m <= LONGEST_SHORT ? CALLS : FEWER;

    *rattle = *twin = HUGE_VAL;
    for (int r = 0; r < ROUNDS; r++) {
        *rattle = fmin(*rattle, preparing_time(entries_prepare, code, m, calls));
        *twin = fmin(*twin, preparing_time(twin_prepare, code, m, calls));
    }
}

static void print_row(const char *name, size_t m, const double *times)
{
    printf("| %-6s %5zu |", name, m);
    for (int s = 0; s < SHAPES; s++)
        printf(" %9.0f (%5.1f) |", times[s], times[s] / (double)m);
    printf("\n");
}

int main(void)
{
    static double rattle[LENGTHS][SHAPES], twin[LENGTHS][SHAPES];
    uint8_t code[LONGEST_CODE];

    printf("| %-12s |", "m");
    for (int s = 0; s < SHAPES; s++)
        printf(" %17s |", shapes[s].name);
    printf("\n|--:|");
    for (int s = 0; s < SHAPES; s++)
        printf("--:|");
    printf("\n");
    for (int l = 0; l < LENGTHS; l++) {
        for (int k = 0; k < SHAPES; k++) {
            shapes[k].make(code, lengths[l]);
            if (!same_sheets(entries_prepare, twin_prepare, code, lengths[l]))
                stop("other sheets than Rattle's", "C twin");
            best_of(code, lengths[l], &rattle[l][k], &twin[l][k]);
        }
        print_row("", lengths[l], rattle[l]);
    }
    for (int l = 0; l < LENGTHS; l++)
        if (lengths[l] >= LONGEST_SHORT)
            print_row("C twin", lengths[l], twin[l]);
    printf("\nNanoseconds of one preparing in Rattle, and nanoseconds per byte of the code; best of %d rounds of %d calls (m over %d: %d).\n",
           ROUNDS, CALLS, LONGEST_SHORT, FEWER);
    return 0;
}
