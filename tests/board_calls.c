#include "board_calls.h"

#include <inttypes.h>
#include <stdio.h>
#include <stdlib.h>
#include <string.h>

enum { UNTOUCHED = 0xee }; /* a byte of a lent buffer before the call */

static const uint32_t unwritten = 4000000000u; /* a number of a lent list before the call: no place and no code's number here */

uint32_t lengths[LENGTHS_HERE];
uint8_t bytes[BYTES_HERE], board[BOARD_ROOM + BEHIND], text[TEXT_HERE];
size_t count, size, board_length, n;
const uint8_t *vast_piece;
struct cutting cutting;
const struct hit_numbers opened = {0, 0, 0, 0, 0, 0, 0};
uint64_t hits_told, lists_full;

/* The two lists of a call. */
struct lists {
    uint32_t places[LIST + GUARD], numbers[LIST + GUARD];
};

static uint8_t board_before[sizeof board], text_before[sizeof text];
static struct reading reading; /* what the naive search finds in the text */

/* ---- Reports */

static void print_answer(const char *name, const struct hit_numbers *f)
{
    printf("%s: watch %" PRIu32 " %" PRIu32 " %" PRIu64 ", taken %" PRIu32 ", written %" PRIu64 ", refusal %" PRIu32 ", full %" PRIu32 "\n", name, f->state,
           f->taken, f->hits, f->read, f->written, f->refusal, f->full);
}

static void print_lists(const char *name, const struct lists *l)
{
    printf("%s\n", name);
    print_list("places", l->places, LIST + GUARD);
    print_list("numbers", l->numbers, LIST + GUARD);
}

static void print_cutting(void)
{
    size_t k;

    printf("pieces end at:");
    for (k = 0; k < cutting.pieces; k++)
        printf(" %zu", cutting.end[k]);
    printf("; lists of %zu and %zu\n", cutting.place_room, cutting.number_room);
}

/* With the codes and, in a run, the text and how it is cut. */
void differ(const char *what)
{
    print_difference(what);
    print_list("lengths of codes", lengths, count);
    print_bytes("codes", bytes, size);
    if (cutting.pieces > 0) {
        print_bytes("text", text, n);
        print_cutting();
    }
    exit(1);
}

/* ---- Codes */

void no_codes(void)
{
    count = size = 0;
}

void put_code(const uint8_t *code, size_t length)
{
    lengths[count++] = (uint32_t)length;
    memcpy(bytes + size, code, length);
    size += length;
}

/* ---- Comparing a call */

uint32_t compare_prepare(size_t room)
{
    static uint8_t expected[sizeof board];
    struct prepared answer, plain;

    cutting.pieces = 0; /* this is no call of a run */
    memset(board, UNTOUCHED, sizeof board);
    memset(expected, UNTOUCHED, sizeof expected);
    answer = entries_prepare_board(lengths, count, bytes, size, board, room);
    plain = plain_prepare_board(lengths, count, bytes, size, expected, room);
    count_call();
    if (answer.length != plain.length || answer.refusal != plain.refusal || memcmp(board, expected, sizeof board) != 0) {
        printf("answered: length %" PRIu64 ", refusal %" PRIu32 "\n", answer.length, answer.refusal);
        printf("expected: length %" PRIu64 ", refusal %" PRIu32 "\n", plain.length, plain.refusal);
        print_bytes("buffer left", board, (size_t)plain.length + GUARD);
        print_bytes("buffer expected", expected, (size_t)plain.length + GUARD);
        differ("preparing");
    }
    board_length = (size_t)answer.length;
    return answer.refusal;
}

static void fill_lists(struct lists *l)
{
    size_t k;

    for (k = 0; k < LIST + GUARD; k++)
        l->places[k] = l->numbers[k] = unwritten;
}

static int same_answer(const struct hit_numbers *a, const struct hit_numbers *b)
{
    return a->state == b->state && a->taken == b->taken && a->hits == b->hits && a->written == b->written && a->read == b->read &&
           a->refusal == b->refusal && a->full == b->full;
}

static struct hit_numbers do_call(board_feeder *feed, const struct board_call *c, struct lists *l)
{
    const struct hit_numbers *x = &c->watch;

    fill_lists(l);
    return feed(c->board, c->board_length, x->state, x->taken, x->hits, c->piece, c->piece_length, l->places, c->place_room, l->numbers, c->number_room);
}

/* Feeds, and holds the answer and both lists, which it leaves, to what is expected. */
static struct hit_numbers compare_call(const char *name, const struct board_call *c, const struct hit_numbers *expected, const struct lists *expected_lists,
                                       struct lists *left)
{
    struct hit_numbers answer = do_call(entries_feed_board, c, left);

    count_call();
    if (!same_answer(&answer, expected) || memcmp(left, expected_lists, sizeof *left) != 0) {
        print_answer("answered", &answer);
        print_answer("expected", expected);
        print_lists("lists left", left);
        print_lists("lists expected", expected_lists);
        print_answer("watch given", &c->watch);
        print_bytes("board given", c->board, c->board_length);
        printf("piece given: %zu bytes; lists of %zu and %zu spots\n", c->piece_length, c->place_room, c->number_room);
        differ(name);
    }
    return answer;
}

uint32_t compare_plain(const struct board_call *c)
{
    struct lists expected_lists, left;
    struct hit_numbers expected = do_call(plain_feed_board, c, &expected_lists);

    cutting.pieces = 0; /* this is no call of a run */
    return compare_call("feeding a watch", c, &expected, &expected_lists, &left).refusal;
}

void use_codes(void)
{
    compare_prepare(BOARD_ROOM - 1);
    if (compare_prepare(BOARD_ROOM) != 0)
        differ("codes that should be taken are refused");
    memcpy(board_before, board, sizeof board);
}

/* ---- Separate searches */

/* The places that a search for each code alone finds in the text, and how many. */
static uint32_t separate[MOST_CODES][TEXT_HERE + 1];
static size_t found[MOST_CODES];

/* The text in two pieces, with the sheet of code number j, from 0. */
static void search_for(size_t j, const uint8_t *code)
{
    static uint8_t sheet[SHEET_ROOM];
    struct prepared p = entries_prepare(code, lengths[j], sheet, sizeof sheet);
    struct fed x = entries_feed(sheet, (size_t)p.length, 0, 0, 0, 0, text, n / 2, separate[j], TEXT_HERE + 1);

    if (x.refusal == 0)
        x = entries_feed(sheet, (size_t)p.length, x.state, x.taken, x.hits, x.compares, text + n / 2, n - n / 2, separate[j] + x.hits, TEXT_HERE + 1 - x.hits);
    if (p.refusal != 0 || x.refusal != 0 || x.full != 0 || x.taken != n)
        differ("a separate search does not come to the text's end");
    found[j] = x.hits;
}

void use_text(void)
{
    struct many b = many_of(lengths, count, bytes);
    size_t j;

    cutting.pieces = 0;
    memcpy(text_before, text, n);
    read_text(&reading, &b, text, 0, n);
    for (j = 0; j < count; j++)
        search_for(j, bytes + b.offsets[j]);
}

/* What a run has told so far: how many hits, and how many of each code. */
static size_t told, told_of[MOST_CODES];

static void begin_telling(void)
{
    told = 0;
    memset(told_of, 0, sizeof told_of);
}

/* A hit told is the next one of the separate search for its code. */
static void tell(uint32_t place, uint32_t number)
{
    size_t j = number - 1;

    if (number == 0 || number > count || told_of[j] == found[j] || separate[j][told_of[j]] != place)
        differ("a hit is not the next one of the separate search for its code");
    told_of[j]++;
    told++;
}

static void end_telling(void)
{
    size_t j;

    for (j = 0; j < count; j++)
        if (told_of[j] != found[j])
            differ("a separate search has more hits");
    hits_told += told;
}

/* ---- A run of calls */

/* A call that must be refused: the watch comes back as it was given, and the lists are left as they were. */
static void refuse(uint32_t number, const struct board_call *c)
{
    struct hit_numbers expected = c->watch;
    struct lists untouched, left;

    expected.written = expected.read = expected.full = 0;
    expected.refusal = number;
    fill_lists(&untouched);
    compare_call("a call that is refused between two others", c, &expected, &untouched, &left);
}

/* The call with an unfit watch: a state behind the board's last one, one that stands for more bytes than were taken, and too many hits. */
static void refuse_unfit(const struct board_call *c)
{
    struct board_call wrong = *c;

    wrong.watch.state = (uint32_t)size + 1;
    refuse(5, &wrong);
    if (c->watch.taken < lengths[0]) {
        wrong.watch.state = c->watch.taken + 1;
        refuse(5, &wrong);
    }
    wrong = *c;
    wrong.watch.hits = 64 * (uint64_t)c->watch.taken + 1;
    refuse(5, &wrong);
}

/* The call as it would be refused: with another byte at the board's end, with unfit watches, with either list too short, and with a text that would become
   too long. */
static void refuse_before(const struct board_call *c)
{
    static uint8_t wrong_board[sizeof board];
    struct board_call wrong = *c;

    memcpy(wrong_board, board, c->board_length);
    wrong_board[board_length - 1] ^= 1;
    wrong.board = wrong_board;
    refuse(4, &wrong);
    refuse_unfit(c);
    wrong = *c;
    wrong.place_room = count - 1;
    refuse(6, &wrong);
    wrong = *c;
    wrong.number_room = count - 1;
    refuse(6, &wrong);
    wrong = *c;
    wrong.piece = vast_piece;
    wrong.piece_length = VAST - c->watch.taken;
    refuse(7, &wrong);
}

/* What the call must leave in its lists. */
static void expect_lists(struct lists *l, size_t from, size_t written)
{
    fill_lists(l);
    memcpy(l->places, reading.places + reading.hits[from], written * sizeof *l->places);
    memcpy(l->numbers, reading.numbers + reading.hits[from], written * sizeof *l->numbers);
}

/* One call of a run: the watch is given the text up to an end. Answers the next watch. */
static struct hit_numbers call_on(const struct hit_numbers *x, size_t end)
{
    size_t from = x->taken;
    size_t room = cutting.place_room < cutting.number_room ? cutting.place_room : cutting.number_room;
    struct hit_numbers expected = reading_call(&reading, from, end, room);
    struct lists expected_lists, left;
    struct board_call c;
    size_t k;

    c.board = board;
    c.board_length = cutting.behind ? board_length + BEHIND : board_length;
    c.watch = *x;
    c.piece = text + from;
    c.piece_length = end - from;
    c.place_room = cutting.place_room;
    c.number_room = cutting.number_room;
    if (cutting.refused)
        refuse_before(&c);
    expect_lists(&expected_lists, from, (size_t)expected.written);
    expected = compare_call("a call of a run", &c, &expected, &expected_lists, &left);
    for (k = 0; k < expected.written; k++)
        tell(left.places[k], left.numbers[k]);
    lists_full += expected.full;
    return expected;
}

void run(void)
{
    struct hit_numbers x = opened;
    size_t k;

    begin_telling();
    for (k = 0; k < cutting.pieces; k++)
        do
            x = call_on(&x, cutting.end[k]);
        while (x.full);
    end_telling();
    if (x.taken != n || x.hits != told)
        differ("the run does not come to the text's end with all hits");
    if (memcmp(board, board_before, board_length + BEHIND) != 0 || memcmp(text, text_before, n) != 0)
        differ("a run changes its board or its text");
}
