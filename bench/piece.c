/* piece MB ROUNDS: what feeding one piece of 4,096 bytes costs by the length of the code, and how much of that is the test of the sheet; prints one table. */
#include <math.h>
#include <stdint.h>
#include <stdio.h>
#include <stdlib.h>
#include <string.h>

#include "copies.h"
#include "process.h"
#include "rivals.h"
#include "tasks.h"

enum { RATTLE, TWIN, BUILDS };
enum { CALLS = 1000 }; /* feedings of no bytes to a timing */

preparer COPIES_OF(rattle, entries_prepare);
feeder COPIES_OF(rattle, entries_feed), COPIES_OF(rivals, twin_feed);

static feeder *const feeders[BUILDS][COPIES] = {{COPIES_OF(rattle, entries_feed)}, {COPIES_OF(rivals, twin_feed)}};
static const size_t sizes[] = {5, 255, 256, 1000, 4000};

static struct search s;

/* Nanoseconds of one feeding, over the whole text. */
static double time_pieces(feeder *feed)
{
    double start = cpu_now();

    feed_text(feed, &s, 0);
    return (cpu_now() - start) / (double)((s.n + PIECE - 1) / PIECE) * 1e9;
}

/* The same for a piece of no bytes: the sheet is tested, and nothing is read. */
static double time_test(feeder *feed)
{
    static uint32_t places[LIST];
    double start = cpu_now();

    for (int k = 0; k < CALLS; k++)
        if (feed(s.sheet, s.sheet_length, 0, 0, 0, 0, s.text, 0, places, LIST).refusal != 0)
            stop("a feeding was refused", "");
    return (cpu_now() - start) / CALLS * 1e9;
}

/* Where, from the text's middle on, a recipe's code begins and a line goes on for as long as the longest code. */
static const uint8_t *find_start(void)
{
    for (const uint8_t *p = s.text + s.n / 2; p + LONGEST_CODE <= s.text + s.n; p++)
        if (p[-1] == ' ' && p[0] == 'R' && p[1] >= '0' && p[1] <= '9' && !memchr(p, '\n', LONGEST_CODE))
            return p;
    stop("no line of the text is long enough", "");
}

/* The m bytes from there on, with a last one that is in no plan, and the sheet. */
static void set_code(const uint8_t *start, size_t m)
{
    memcpy(s.code, start, m);
    s.code[m - 1] = '#';
    s.m = m;
    s.sheet_length = rattle_0_entries_prepare(s.code, m, s.sheet, sizeof s.sheet).length;
    struct found rattle = feed_text(feeders[RATTLE][0], &s, 1);
    struct found twin = feed_text(feeders[TWIN][0], &s, 1);
    if (rattle.hits != 0 || twin.hits != 0 || rattle.compares != twin.compares)
        stop("the code is found, or the comparisons differ", "");
}

/* The best times of the rounds; in a round every copy runs once, the builds in turn. */
static void print_row(int rounds)
{
    double piece[BUILDS] = {HUGE_VAL, HUGE_VAL};
    double test[BUILDS] = {HUGE_VAL, HUGE_VAL};

    for (int r = 0; r < rounds; r++)
        for (int k = 0; k < COPIES * BUILDS; k++) {
            int b = k % BUILDS;
            piece[b] = fmin(piece[b], time_pieces(feeders[b][k / BUILDS]));
            test[b] = fmin(test[b], time_test(feeders[b][k / BUILDS]));
        }
    printf("| %4zu |", s.m);
    for (int b = 0; b < BUILDS; b++)
        printf(" %7.0f | %7.0f | %3.0f %% |", piece[b], test[b], 100 * test[b] / piece[b]);
    printf(" %8.2f | %12.2f |\n", piece[TWIN] / piece[RATTLE], test[TWIN] / test[RATTLE]);
    fflush(stdout);
}

int main(int argc, char **argv)
{
    if (argc != 3)
        stop("usage: piece MB ROUNDS", "");
    take_memory(&s, argv[1]);
    int rounds = atoi(argv[2]);
    if (rounds < 1)
        stop("1 round or more", "");
    plan_of_long_lines(s.text, s.n);
    const uint8_t *start = find_start();

    printf("|    m |  Rattle |    test | share |  C twin |    test | share | Rattle/C |  of the test |\n|--:|--:|--:|--:|--:|--:|--:|--:|--:|\n");
    for (size_t k = 0; k < sizeof sizes / sizeof *sizes; k++) {
        set_code(start, sizes[k]);
        print_row(rounds);
    }
    printf("\nNanoseconds of processor time for one feeding of %d bytes, over %.0f MB of plan text and with a code that stands nowhere in it; of which the test of "
           "the sheet, which is the time of a feeding of no bytes, and its share.\n"
           "Best of %d rounds and of %d copies. Rattle/C: Rattle's speed to the C twin's, of the feeding and of the test.\n",
           PIECE, (double)s.n / 1e6, rounds, COPIES);
    return 0;
}
