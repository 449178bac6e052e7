#define _DEFAULT_SOURCE /* for MAP_ANONYMOUS */
#include "board_offices.h"

#include <inttypes.h>
#include <signal.h>
#include <stdio.h>
#include <string.h>
#include <sys/mman.h>

#include "board_codes.h"

enum {
    LENT = 65536,                /* bytes of memory for a buffer that is lent: whole pages */
    THIRD = BOARD_ROOM + BEHIND, /* of the longest third buffer */
    UNTOUCHED = 0xee             /* a byte of a third buffer before every other call; before the others it has all bits changed */
};

uint64_t hits_of_both, hits_of_first, hits_of_second;

/* ---- Offices */

void copy_codes(struct office *o)
{
    o->count = count;
    o->size = size;
    memcpy(o->lengths, lengths, count * sizeof *lengths);
    memcpy(o->bytes, bytes, size);
}

static void copy_board(struct office *o, const uint8_t *from, size_t length)
{
    o->board_length = length;
    memcpy(o->board, from, length);
}

void open_office(struct office *o)
{
    use_codes();
    copy_codes(o);
    copy_board(o, board, board_length);
}

struct many codes_of(const struct office *o)
{
    return many_of(o->lengths, o->count, o->bytes);
}

void put_code_of(const struct many *b, size_t j)
{
    put_code(b->bytes + b->offsets[j], b->lengths[j]);
}

struct join_call call_of(const struct office *first, const struct office *second, size_t room)
{
    struct join_call c;

    c.first = first->board;
    c.first_length = first->board_length;
    c.second = second->board;
    c.second_length = second->board_length;
    c.room = room;
    return c;
}

/* ---- Lent memory */

static uint8_t *first_end, *second_end, *third_end; /* buffers end here */

static uint8_t *map_end(void)
{
    uint8_t *start = mmap(NULL, 2 * LENT, PROT_READ | PROT_WRITE, MAP_PRIVATE | MAP_ANONYMOUS, -1, 0);

    if (start == MAP_FAILED || mprotect(start + LENT, LENT, PROT_NONE) != 0)
        differ("no memory for a buffer that is lent");
    return start + LENT;
}

/* Some bytes, where they end with the memory. */
static const uint8_t *lend(uint8_t *end, const uint8_t *buffer, size_t length)
{
    if (length > 0)
        memcpy(end - length, buffer, length);
    return end - length;
}

/* ---- Comparing a call */

static struct join_call joining; /* what is compared */

static void differ_joining(const char *what)
{
    print_bytes("first board given", joining.first, joining.first_length);
    print_bytes("second board given", joining.second, joining.second_length);
    printf("third buffer given: %zu bytes\n", joining.room);
    differ(what);
}

static void reach_outside(int number)
{
    (void)number;
    differ_joining("joining reads or writes outside what it is lent");
}

void map_lent(void)
{
    first_end = map_end();
    second_end = map_end();
    third_end = map_end();
    signal(SIGSEGV, reach_outside);
}

/* The third buffer, or the memory before it, from its first byte that is not as expected on. */
static void print_third(const uint8_t *expected)
{
    const uint8_t *left = third_end - THIRD;
    size_t i = 0, shown;

    while (i < THIRD && left[i] == expected[i])
        i++;
    shown = THIRD - i < GUARD ? THIRD - i : GUARD;
    printf("third buffer from byte %td on\n", left + i - (third_end - joining.room));
    print_bytes("left", left + i, shown);
    print_bytes("expected", expected + i, shown);
}

struct prepared compare_join(const struct join_call *c)
{
    static uint8_t expected[THIRD], fill = UNTOUCHED;
    const uint8_t *first = lend(first_end, c->first, c->first_length);
    const uint8_t *second = c->second == c->first && c->second_length == c->first_length ? first : lend(second_end, c->second, c->second_length);
    struct prepared answer, plain;

    cutting.pieces = 0; /* this is no call of a run */
    joining = *c;
    fill = (uint8_t)~fill;
    memset(third_end - THIRD, fill, THIRD);
    memset(expected, fill, THIRD);
    answer = entries_join_boards(first, c->first_length, second, c->second_length, third_end - c->room, c->room);
    plain = plain_join_boards(c->first, c->first_length, c->second, c->second_length, expected + THIRD - c->room, c->room);
    count_call();
    if (answer.length != plain.length || answer.refusal != plain.refusal || memcmp(third_end - THIRD, expected, THIRD) != 0) {
        printf("answered: length %" PRIu64 ", refusal %" PRIu32 "\n", answer.length, answer.refusal);
        printf("expected: length %" PRIu64 ", refusal %" PRIu32 "\n", plain.length, plain.refusal);
        print_third(expected);
        differ_joining("joining");
    }
    if (memcmp(first, c->first, c->first_length) != 0 || memcmp(second, c->second, c->second_length) != 0)
        differ_joining("joining changes a board that it is lent");
    return answer;
}

/* ---- Joining two offices */

/* The first one's codes in their order, then those of the second that the first lacks. */
static void put_joined(const struct office *first, const struct office *second)
{
    struct many a = codes_of(first), b = codes_of(second);
    size_t j;

    no_codes();
    for (j = 0; j < a.count; j++)
        put_code_of(&a, j);
    for (j = 0; j < b.count; j++)
        if (!is_there(b.bytes + b.offsets[j], b.lengths[j]))
            put_code_of(&b, j);
}

uint32_t join(const struct office *first, const struct office *second, struct office *joined)
{
    static uint8_t buffer[BOARD_ROOM];
    struct join_call c = call_of(first, second, BOARD_ROOM);
    struct prepared answer, afresh;

    put_joined(first, second);
    answer = compare_join(&c);
    afresh = entries_prepare_board(lengths, count, bytes, size, buffer, sizeof buffer);
    count_call();
    if (answer.length != afresh.length || answer.refusal != afresh.refusal || memcmp(third_end - BOARD_ROOM, buffer, (size_t)afresh.length) != 0)
        differ_joining("joining is not preparing the joined codes");
    copy_codes(joined);
    copy_board(joined, third_end - BOARD_ROOM, (size_t)answer.length);
    return answer.refusal;
}

/* ---- Searching */

/* What a board finds in the text; which hit is the next to be told. */
struct search {
    struct many codes;
    size_t hits, next;
    uint32_t places[HITS_HERE + LIST], numbers[HITS_HERE + LIST];
};

static struct search of_first, of_second, of_joined;

static void differ_searching(const char *what)
{
    print_bytes("text", text, n);
    differ_joining(what);
}

static void search(struct search *s, const struct office *o, size_t piece)
{
    struct hit_numbers x = opened;
    size_t end = 0;

    s->codes = codes_of(o);
    do {
        end = piece < n - end ? end + piece : n;
        do {
            x = entries_feed_board(o->board, o->board_length, x.state, x.taken, x.hits, text + x.taken, end - x.taken, s->places + x.hits, LIST,
                                   s->numbers + x.hits, LIST);
            count_call();
            if (x.refusal != 0)
                differ_searching("a search is refused");
        } while (x.full);
    } while (end < n);
    s->hits = (size_t)x.hits;
    s->next = 0;
}

static size_t next_length(const struct search *s)
{
    return s->codes.lengths[s->numbers[s->next] - 1];
}

static size_t next_end(const struct search *s)
{
    return s->places[s->next] + next_length(s);
}

static const uint8_t *next_code(const struct search *s)
{
    return s->codes.bytes + s->codes.offsets[s->numbers[s->next] - 1];
}

/* Whether a search's next hit comes before another's: it ends before it, or there and has a longer code. */
static int is_before(const struct search *a, const struct search *b)
{
    if (a->next == a->hits || b->next == b->hits)
        return a->next < a->hits;
    return next_end(a) != next_end(b) ? next_end(a) < next_end(b) : next_length(a) > next_length(b);
}

/* The next hit of one of the two boards is the joined one's next: the same code at the same place. */
static void tell(struct search *s)
{
    if (of_joined.next == of_joined.hits)
        differ_searching("the joined board lacks a hit");
    if (of_joined.places[of_joined.next] != s->places[s->next] || next_length(&of_joined) != next_length(s) ||
        memcmp(next_code(&of_joined), next_code(s), next_length(s)) != 0)
        differ_searching("the joined board has another hit, or in another order");
    if (s == &of_first && of_joined.numbers[of_joined.next] != s->numbers[s->next])
        differ_searching("the joined board gives a code of the first another number");
    s->next++;
}

void search_together(const struct office *first, const struct office *second, const struct office *joined, size_t piece)
{
    joining = call_of(first, second, BOARD_ROOM);
    search(&of_first, first, piece);
    search(&of_second, second, piece);
    search(&of_joined, joined, piece);
    for (; of_first.next < of_first.hits || of_second.next < of_second.hits; of_joined.next++) {
        int first_only = is_before(&of_first, &of_second), second_only = is_before(&of_second, &of_first);
        if (!second_only)
            tell(&of_first);
        if (!first_only)
            tell(&of_second);
        hits_of_first += first_only;
        hits_of_second += second_only;
        hits_of_both += !first_only && !second_only;
    }
    if (of_joined.next != of_joined.hits)
        differ_searching("the joined board has a hit more");
}
