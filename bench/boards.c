/* boards ROUNDS: feeding and preparing boards, beside other programs that find the same codes; prints three tables. */
#include <math.h>
#include <stdio.h>
#include <stdlib.h>

#include "boardruns.h"
#include "figures.h"
#include "process.h"

/* Bytes of a text. A plan is so long that a run does not find the processor's predictions still made for it by the run before. */
enum { PLAN = LARGEST, OTHER = 200000 };

static size_t text_size(const struct board_job *j)
{
    return j->plan ? PLAN : OTHER;
}

static const size_t pieces[] = {4096, 65536, 1048576};

enum { PIECES = sizeof pieces / sizeof *pieces };

/* Best times of a job in seconds, and for each peer the median of the rounds' ratios of Rattle's speed to its own. */
struct times {
    double rattle;
    double peer[PEERS];
    double ratio[PEERS];
};

/* In each round Rattle runs before every peer: what slows the machine for longer than two runs slows both, and does not reach their ratio. */
static void measure(void *const *built, size_t size, int rounds, struct times *t)
{
    double *ratios = malloc((size_t)rounds * PEERS * sizeof *ratios);

    if (!ratios)
        stop("no memory for the rounds", "");
    t->rattle = HUGE_VAL;
    for (int p = 0; p < PEERS; p++)
        t->peer[p] = HUGE_VAL;
    for (int r = 0; r < rounds; r++)
        for (int p = 0; p < PEERS; p++) {
            if (!peers[p].build)
                continue;
            double ours = time_pieces(size);
            double other = time_peer(&peers[p], built[p]);
            t->rattle = fmin(t->rattle, ours);
            t->peer[p] = fmin(t->peer[p], other);
            ratios[p * rounds + r] = other / ours;
        }
    for (int p = 0; p < PEERS; p++)
        t->ratio[p] = peers[p].build ? median(ratios + p * rounds, rounds) : NAN;
    free(ratios);
}

static void print_number(double number, int width, int digits)
{
    if (isfinite(number))
        printf(" %*.*f |", width, digits, number);
    else
        printf(" %*s |", width, "-");
}

static void print_rule(int columns)
{
    printf("|---|");
    for (int k = 1; k < columns; k++)
        printf("--:|");
    printf("\n");
}

static void print_job(const struct board_job *j)
{
    printf("| %-14s | %5zu | %5zu |", j->name, codes.count, codes.size);
}

static void print_peers(void)
{
    for (int p = 0; p < PEERS; p++)
        printf(" %13s |", peers[p].name);
}

/* Answers the ratio of Rattle's speed to the faster kind of the crate. */
static double print_feeding(const struct board_job *j, int rounds)
{
    const size_t size = text_size(j);
    void *built[PEERS] = {0};
    struct times t;

    set_up_board(j, size);
    size_t hits = feed_pieces(size);
    for (int p = 0; p < PEERS; p++)
        if (peers[p].build) {
            built[p] = peers[p].build(&codes);
            compare_hits(&peers[p], built[p], hits);
        }
    measure(built, size, rounds, &t);
    for (int p = 0; p < PEERS; p++)
        if (built[p])
            peers[p].drop(built[p]);
    double to_crate = t.ratio[t.peer[NFA] < t.peer[DFA] ? NFA : DFA];

    print_job(j);
    printf(" %8zu |", hits);
    print_number(t.rattle / (double)size * 1e9, 7, 2);
    for (int p = 0; p < PEERS; p++)
        print_number(t.peer[p] / (double)size * 1e9, 13, 2);
    print_number(to_crate, 12, 2);
    print_number(t.ratio[SEPARATE], 15, 2);
    printf("\n");
    fflush(stdout);
    return to_crate;
}

static void print_feedings(int rounds)
{
    struct ratios to_crate[2] = {{0}, {0}}; /* hard texts, plans */

    printf("| %-14s | codes | bytes | %8s | %7s |", "Board", "hits", "Rattle");
    print_peers();
    printf(" Rattle/crate | Rattle/separate |\n");
    print_rule(5 + PEERS + 2);
    for (const struct board_job *j = board_jobs; j->name; j++) {
        double ratio = print_feeding(j, rounds);
        if (isfinite(ratio))
            add_ratio(&to_crate[j->plan], ratio);
    }
    printf("\nNanoseconds of processor time for a byte of a plan of %d bytes, or of another text of %d, fed in one call; best of %d rounds. Ratios of speeds: "
           "medians of the rounds.\n",
           PLAN, OTHER, rounds);
    if (to_crate[0].count > 0)
        printf("Rattle/crate: geometric mean %.2f and smallest %.2f in plans, %.2f and %.2f in the other texts.\n", mean_ratio(&to_crate[1]), to_crate[1].smallest,
               mean_ratio(&to_crate[0]), to_crate[0].smallest);
}

static void print_preparings(int rounds)
{
    printf("| %-14s | codes | bytes | ns/byte | Rattle |", "Board");
    print_peers();
    printf("\n");
    print_rule(5 + PEERS);
    for (const struct board_job *j = board_jobs; j->name; j++) {
        double ours = HUGE_VAL, others[PEERS];

        set_up_board(j, OTHER);
        for (int p = 0; p < PEERS; p++)
            others[p] = HUGE_VAL;
        for (int r = 0; r < rounds; r++) {
            ours = fmin(ours, time_preparing());
            for (int p = 0; p < PEERS; p++)
                if (peers[p].build)
                    others[p] = fmin(others[p], time_building(&peers[p]));
        }
        print_job(j);
        print_number(ours / (double)codes.size * 1e9, 7, 1);
        print_number(ours * 1e6, 6, 1);
        for (int p = 0; p < PEERS; p++)
            print_number(others[p] * 1e6, 13, 1);
        printf("\n");
    }
    printf("\nNanoseconds for a byte of the codes, and microseconds for all of them; best of %d rounds.\n", rounds);
}

static void print_pieces(int rounds)
{
    printf("| %-14s | codes | bytes |  test |", "Board");
    for (int k = 0; k < PIECES; k++)
        printf(" %7zu |  share |", pieces[k]);
    printf("\n");
    print_rule(4 + 2 * PIECES);
    for (const struct board_job *j = board_jobs; j->name; j++) {
        double test = HUGE_VAL, best[PIECES];

        if (!j->plan || j->count < 30)
            continue;
        set_up_board(j, PLAN);
        for (int k = 0; k < PIECES; k++)
            best[k] = HUGE_VAL;
        for (int r = 0; r < rounds; r++) {
            test = fmin(test, time_test());
            for (int k = 0; k < PIECES; k++)
                best[k] = fmin(best[k], time_pieces(pieces[k]));
        }
        print_job(j);
        print_number(test * 1e6, 5, 1);
        for (int k = 0; k < PIECES; k++)
            printf(" %7.2f | %4.1f %% |", best[k] / PLAN * 1e9, 100 * test * (PLAN / (double)pieces[k]) / best[k]);
        printf("\n");
    }
    printf("\nMicroseconds of the test of the board, which is a call with an empty piece; nanoseconds for a byte of a text of %d bytes, fed in pieces of so "
           "many bytes, and the test's share of each call; best of %d rounds.\n",
           PLAN, rounds);
}

int main(int argc, char **argv)
{
    int rounds = argc == 2 ? atoi(argv[1]) : 0;

    if (rounds < 1)
        stop("usage: boards ROUNDS, 1 or more", "");
    take_lists();

    printf("## Boards\n\n");
    print_feedings(rounds);
    printf("\n### Preparing a board\n\n");
    print_preparings(rounds);
    printf("\n### A board in pieces\n\n");
    print_pieces(rounds);
    return 0;
}
