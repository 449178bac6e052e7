#include "calls.h"

#include <inttypes.h>
#include <stdio.h>
#include <stdlib.h>
#include <string.h>

enum { UNTOUCHED = 0xee }; /* a byte of a lent buffer before the call */

static const uint32_t unwritten = 4000000000u; /* a number of a lent list before the call: no place here */

uint8_t code[LONGEST_CODE + 1], sheet[SHEET_ROOM + BEHIND], text[LONGEST_TEXT_HERE];
size_t m, sheet_length, n;
const uint8_t *vast_piece;
struct cutting cutting;
const struct fed opened = {0, 0, 0, 0, 0, 0, 0, 0};

static uint8_t sheet_before[sizeof sheet], text_before[sizeof text];
static struct machine machine; /* what it does with the text */

/* ---- Reports */

static void print_answer(const char *name, const struct fed *f)
{
    printf("%s: watch %" PRIu32 " %" PRIu32 " %" PRIu32 " %" PRIu64 ", taken %" PRIu32 ", written %" PRIu32 ", refusal %" PRIu32 ", full %" PRIu32 "\n",
           name, f->state, f->taken, f->hits, f->compares, f->read, f->written, f->refusal, f->full);
}

static void print_cutting(void)
{
    size_t k;

    printf("pieces end at:");
    for (k = 0; k < cutting.pieces; k++)
        printf(" %zu", cutting.end[k]);
    printf("; lists of %zu\n", cutting.room);
}

/* With the code and, in a run, the text and how it is cut. */
void differ(const char *what)
{
    print_difference(what);
    print_bytes("code", code, m);
    if (cutting.pieces > 0) {
        print_bytes("text", text, n);
        print_cutting();
    }
    exit(1);
}

/* ---- Comparing a call */

static void fill_list(uint32_t *list)
{
    size_t k;

    for (k = 0; k < LIST + GUARD; k++)
        list[k] = unwritten;
}

static int same_answer(const struct fed *a, const struct fed *b)
{
    return a->state == b->state && a->taken == b->taken && a->hits == b->hits && a->compares == b->compares && a->read == b->read &&
           a->written == b->written && a->refusal == b->refusal && a->full == b->full;
}

/* Counts a call. Whether it answered and left in its list what it must; otherwise prints both. */
static int is_same(const struct fed *answer, const uint32_t *list, const struct fed *expected, const uint32_t *expected_list)
{
    count_call();
    if (same_answer(answer, expected) && memcmp(list, expected_list, (LIST + GUARD) * sizeof *list) == 0)
        return 1;
    print_answer("answered", answer);
    print_answer("expected", expected);
    print_list("list left", list, LIST + GUARD);
    print_list("list expected", expected_list, LIST + GUARD);
    return 0;
}

void compare_prepare(size_t room)
{
    uint8_t expected[sizeof sheet];
    struct prepared answer, plain;

    cutting.pieces = 0; /* this is no call of a run */
    memset(sheet, UNTOUCHED, sizeof sheet);
    memset(expected, UNTOUCHED, sizeof expected);
    answer = entries_prepare(code, m, sheet, room);
    plain = plain_prepare(code, m, expected, room);
    count_call();
    if (answer.length != plain.length || answer.refusal != plain.refusal || memcmp(sheet, expected, sizeof sheet) != 0) {
        printf("answered: length %" PRIu64 ", refusal %" PRIu32 "\n", answer.length, answer.refusal);
        printf("expected: length %" PRIu64 ", refusal %" PRIu32 "\n", plain.length, plain.refusal);
        print_bytes("buffer left", sheet, sizeof sheet);
        print_bytes("buffer expected", expected, sizeof expected);
        differ("preparing");
    }
    sheet_length = (size_t)answer.length;
}

static struct fed do_call(feeder *feed, const struct call *c, uint32_t *list)
{
    const struct fed *x = &c->watch;

    fill_list(list);
    return feed(c->sheet, c->sheet_length, x->state, x->taken, x->hits, x->compares, c->piece, c->piece_length, list, c->room);
}

/* Feeds, and holds the answer and the list to what is expected. */
static struct fed compare_call(const char *name, const struct call *c, const struct fed *expected, const uint32_t *expected_list)
{
    uint32_t list[LIST + GUARD];
    struct fed answer = do_call(entries_feed, c, list);

    if (!is_same(&answer, list, expected, expected_list)) {
        print_answer("watch given", &c->watch);
        print_bytes("sheet given", c->sheet, c->sheet_length);
        printf("piece given: %zu bytes; list of %zu places\n", c->piece_length, c->room);
        differ(name);
    }
    return answer;
}

uint32_t compare_plain(const struct call *c)
{
    uint32_t expected_list[LIST + GUARD];
    struct fed expected = do_call(plain_feed, c, expected_list);

    return compare_call("feeding a watch", c, &expected, expected_list).refusal;
}

void use_code(void)
{
    compare_prepare(plain_room(m) - 1);
    compare_prepare(plain_room(m));
    compare_prepare(SHEET_ROOM);
    memcpy(sheet_before, sheet, sizeof sheet);
}

void use_text(void)
{
    const char *contradiction = work_out(&machine, code, m, text, n);

    memcpy(text_before, text, n);
    if (contradiction)
        differ(contradiction);
}

/* ---- A run of calls */

/* A call that must be refused: the watch comes back as it was given, and the list is left as it was. */
static void refuse(uint32_t number, const struct call *c)
{
    uint32_t untouched[LIST + GUARD];
    struct fed expected = c->watch;

    expected.read = expected.written = expected.full = 0;
    expected.refusal = number;
    fill_list(untouched);
    compare_call("a call that is refused between two others", c, &expected, untouched);
}

/* The call with a watch that is unfit, in one of four ways. */
static struct call unfit(struct call c, int way)
{
    struct fed *x = &c.watch;

    switch (way) {
    case 0: x->state = (uint32_t)m + 1; break;
    case 1: x->state = x->taken + 1; break;
    case 2: x->hits = x->taken + 1; break;
    default: x->compares = 2 * (uint64_t)x->taken + 1;
    }
    return c;
}

/* The call as it would be refused: with another target at the sheet's end, with unfit watches, with a list of no places, and with a text that would
   become too long. */
static void refuse_before(const struct call *c)
{
    uint8_t wrong_sheet[sizeof sheet];
    struct call wrong = *c;
    int way;

    memcpy(wrong_sheet, sheet, c->sheet_length);
    wrong_sheet[sheet_length - 1] ^= 1;
    wrong.sheet = wrong_sheet;
    refuse(4, &wrong);
    for (way = 0; way < 4; way++) {
        wrong = unfit(*c, way);
        refuse(5, &wrong);
    }
    wrong = *c;
    wrong.room = 0;
    refuse(6, &wrong);
    wrong = *c;
    wrong.piece = vast_piece;
    wrong.piece_length = VAST - c->watch.taken;
    refuse(7, &wrong);
}

/* One call of a run: the watch is given the text up to an end. Answers the next watch. */
static struct fed call_on(const struct fed *x, size_t end)
{
    uint32_t expected_list[LIST + GUARD];
    size_t from = x->taken;
    struct fed expected = machine_call(&machine, from, end, cutting.room);
    struct call c;

    c.sheet = sheet;
    c.sheet_length = cutting.behind ? sheet_length + BEHIND : sheet_length;
    c.watch = *x;
    c.piece = text + from;
    c.piece_length = end - from;
    c.room = cutting.room;
    if (cutting.refused)
        refuse_before(&c);
    fill_list(expected_list);
    memcpy(expected_list, machine.places + machine.hits[from], expected.written * sizeof *expected_list);
    return compare_call("a call of a run", &c, &expected, expected_list);
}

void run(void)
{
    struct fed x = opened;
    size_t k;

    for (k = 0; k < cutting.pieces; k++)
        do
            x = call_on(&x, cutting.end[k]);
        while (x.full);
    if (x.taken != n || x.hits != machine.found)
        differ("the run does not come to the text's end with all places");
    if (memcmp(sheet, sheet_before, sheet_length + BEHIND) != 0 || memcmp(text, text_before, n) != 0)
        differ("a run changes its sheet or its text");
}
