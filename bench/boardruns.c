#include "boardruns.h"

#include <stdlib.h>
#include <string.h>

#include "process.h"

enum {
    ROOM = MOST_CODES << 18, /* of a list of hits: more than 64 at each byte of a text of 200,000 */
    CALLS = 50,              /* preparings, or feedings of no bytes, to a timing */
};

struct codes codes;

static uint8_t text[LARGEST];
static size_t n;
static uint8_t board[BOARD_ROOM];
static size_t board_length;

static uint32_t *places, *numbers;             /* of our hits */
static uint32_t *other_places, *other_numbers; /* of a peer's */

static uint32_t *take_list(void)
{
    uint32_t *list = malloc(ROOM * sizeof *list);

    if (!list)
        stop("no memory for the hits", "");
    return list;
}

void take_lists(void)
{
    places = take_list();
    numbers = take_list();
    other_places = take_list();
    other_numbers = take_list();
}

void set_up_board(const struct board_job *j, size_t bytes)
{
    n = bytes;
    make_board_job(j, &codes, text, n);
    struct prepared p = entries_prepare_board(codes.lengths, codes.count, codes.bytes, codes.size, board, sizeof board);
    if (p.refusal != 0)
        stop("a board was refused", j->name);
    board_length = p.length;
}

size_t feed_pieces(size_t piece)
{
    struct hit_numbers f = {0};

    for (size_t at = 0; at < n; at += piece) {
        size_t length = n - at < piece ? n - at : piece;
        f = entries_feed_board(board, board_length, f.state, f.taken, f.hits, text + at, length, places + f.hits, ROOM - f.hits, numbers + f.hits, ROOM - f.hits);
        if (f.refusal != 0 || f.full != 0)
            stop("a feeding was refused or not ended", "");
    }
    return f.hits;
}

double time_pieces(size_t piece)
{
    double start = cpu_now();

    feed_pieces(piece);
    return cpu_now() - start;
}

double time_peer(const struct peer *p, const void *built)
{
    double start = cpu_now();

    p->find(built, text, n, other_places, other_numbers);
    return cpu_now() - start;
}

/* Writes our places by code: all of the first one, then those of the second, and so on. */
static void sort_by_code(size_t hits, uint32_t *sorted)
{
    size_t next[MOST_CODES + 1] = {0};

    for (size_t k = 0; k < hits; k++)
        next[numbers[k]]++; /* the numbers begin with 1: so it is where the next code's begin, once they are added up */
    for (size_t j = 1; j <= codes.count; j++)
        next[j] += next[j - 1];
    for (size_t k = 0; k < hits; k++)
        sorted[next[numbers[k] - 1]++] = places[k];
}

void compare_hits(const struct peer *p, const void *built, size_t hits)
{
    const size_t bytes = hits * sizeof *places;
    size_t found = p->find(built, text, n, other_places, other_numbers);
    int same = found == hits;

    if (same && p->by_code) {
        sort_by_code(hits, other_numbers);
        same = memcmp(other_places, other_numbers, bytes) == 0;
    } else if (same) {
        same = memcmp(other_places, places, bytes) == 0 && memcmp(other_numbers, numbers, bytes) == 0;
    }
    if (!same)
        stop("other hits than Rattle's", p->name);
}

double time_preparing(void)
{
    double start = cpu_now();

    for (int k = 0; k < CALLS; k++)
        if (entries_prepare_board(codes.lengths, codes.count, codes.bytes, codes.size, board, sizeof board).refusal != 0)
            stop("a board was refused", "");
    return (cpu_now() - start) / CALLS;
}

double time_building(const struct peer *p)
{
    double start = cpu_now();
    void *built = p->build(&codes);
    double time = cpu_now() - start;

    p->drop(built);
    return time;
}

double time_test(void)
{
    double start = cpu_now();

    for (int k = 0; k < CALLS; k++)
        if (entries_feed_board(board, board_length, 0, 0, 0, text, 0, places, ROOM, numbers, ROOM).refusal != 0)
            stop("a feeding was refused", "");
    return (cpu_now() - start) / CALLS;
}
