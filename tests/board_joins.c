#include "board_joins.h"

#include <inttypes.h>
#include <stdio.h>
#include <string.h>

#include "board_codes.h"
#include "random.h"

enum {
    DEALT = 360,      /* pairs of boards with codes of one list */
    APART = 240,      /* pairs of boards, each with a list of its own */
    SMALL_ONES = 516, /* lists of 1 to 4 of 6 words, in any order */
    SMALL_WORDS = 6,  /* of 1 and 2 bytes of two letters */
    SHORT_WORDS = 14, /* of 1 to 3 bytes */
    PLACES = 41       /* at which a code's byte is another one */
};

/* ---- Offices with codes of a list */

/* The codes from one number to another. */
static void open_part(struct office *o, const struct office *all, size_t from, size_t end)
{
    struct many b = codes_of(all);

    no_codes();
    for (; from < end; from++)
        put_code_of(&b, from);
    open_office(o);
}

/* Some of the codes, of four about so many and at least one, in any order. */
static void open_dealt(struct office *o, const struct office *all, size_t of_four)
{
    struct many b = codes_of(all);
    size_t order[MOST_CODES], j, k;

    for (j = 0; j < b.count; j++)
        order[j] = j;
    no_codes();
    for (j = b.count; j > 0; j--) {
        k = random_below(j);
        if (random_below(4) < of_four || (j == 1 && count == 0))
            put_code_of(&b, order[k]);
        order[k] = order[j - 1];
    }
    open_office(o);
}

static void open_words(struct office *o, const char *words)
{
    no_codes();
    put_words(words);
    open_office(o);
}

/* ---- Two offices */

static void expect_board(const struct office *first, const struct office *second, const struct office *expected)
{
    static struct office joined;

    if (join(first, second, &joined) != 0 || joined.board_length != expected->board_length ||
        memcmp(joined.board, expected->board, joined.board_length) != 0)
        differ("joining again gives another board");
}

/* A board joined with itself, where it stands and with one of the same bytes, and the joined boards with those that they are made of. */
static void join_again(const struct office *a, const struct office *b, const struct office *ab, const struct office *ba)
{
    static struct office same;

    same = *a;
    expect_board(a, a, a);
    expect_board(a, &same, a);
    expect_board(ab, a, ab);
    expect_board(ab, b, ab);
    expect_board(a, ab, ab);
    expect_board(b, ab, ba);
    expect_board(ab, ba, ab);
}

/* Either one as the first, in a text of parts of their codes. Whether they could be joined. */
static int try_offices(const struct office *a, const struct office *b, size_t letters)
{
    static struct office ab, ba;
    uint32_t refusal = join(a, b, &ab);

    if (join(b, a, &ba) != refusal)
        differ("boards are joined one way and not the other");
    if (refusal != 0)
        return 0;
    generate_text(200, letters, 2);
    search_together(a, b, &ab, 1 + random_below(n));
    search_together(b, a, &ba, 1 + random_below(40));
    join_again(a, b, &ab, &ba);
    return 1;
}

/* ---- Pairs by hand */

static void try_by_hand(void)
{
    static const char *const pairs[][2] = {
        {"a", "a"}, {"a", "b"}, {"ab cd", "ef gh"},                                /* none or all in common */
        {"ab cd ef", "ab cd ef"}, {"ab cd ef", "ef ab cd"},                        /* all, in the same order and in another */
        {"ab cd ef", "xy cd z ab"}, {"ab cd ef gh", "gh cd"}, {"ab x", "x ab abx"}, /* some, or all of one */
        {"ab", "ac"}, {"ab", "cb"}, {"abcd", "abed"},                              /* codes of one length */
        {"abcd", "ab"}, {"abcd", "cd"}, {"abcd", "bc"}, {"ab b", "abab a ba"},      /* a start, an end and an inner part */
        {"a aa", "aaa a aaaa"}, {"aaa aa", "a aa"}, {"abcd", "abcd abc bcd b"},
        {"he she hers his", "she he usher her hi"}, {"R12 R13", "R123 R12 12"}};
    static struct office a, b;
    size_t k;

    begin_group("joining two boards by hand, and joining the joined ones again");
    for (k = 0; k < sizeof pairs / sizeof *pairs; k++) {
        open_words(&a, pairs[k][0]);
        open_words(&b, pairs[k][1]);
        seed_random(k);
        if (!try_offices(&a, &b, 256))
            differ("boards that should be joined are refused");
    }
    end_group();
}

/* The boards of `ab` and `b` and of `b` and `c` joined, written out. */
static void try_written(void)
{
    static const uint8_t written[] = {3, 0, 2, 0, 1, 0, 1, 'a', 'b', 'b', 'c', 2, 0, 0, 0, 0, 0, 0, 0, 0, 0, 3, 1, 0, 0, 2, 0, 0, 3};
    static struct office a, b, joined;

    begin_group("joining `ab` and `b` with `b` and `c`");
    open_words(&a, "ab b");
    open_words(&b, "b c");
    if (join(&a, &b, &joined) != 0 || joined.board_length != sizeof written || memcmp(joined.board, written, sizeof written) != 0)
        differ("the joined board is another one than that worked out by hand");
    end_group();
}

/* ---- All small boards */

static struct office small[SMALL_ONES];
static size_t small_ones;

/* All lists of up to so many codes, of the first words of two letters, that begin with the list. */
static void open_small(size_t codes, unsigned words)
{
    uint8_t word[8];
    unsigned number;
    size_t length;

    for (number = 1; number <= words; number++) {
        length = spell(number, "a\377", 2, word);
        if (is_there(word, length))
            continue;
        put_code(word, length);
        open_office(&small[small_ones++]);
        if (count < codes)
            open_small(codes, words);
        count--;
        size -= length;
    }
}

/* Each with each, every third pair in a text that has all words of 4 bytes. */
static void try_small(const char *group, size_t codes, unsigned words)
{
    static const uint8_t every[] = "aaaa\377aa\377\377a\377a\377\377\377\377aaa\n\377a";
    static struct office joined;
    size_t i, k;

    begin_group(group);
    n = sizeof every - 1;
    memcpy(text, every, n);
    small_ones = 0;
    no_codes();
    open_small(codes, words);
    for (i = 0; i < small_ones; i++)
        for (k = 0; k < small_ones; k++) {
            if (join(&small[i], &small[k], &joined) != 0)
                differ("small boards are refused");
            if ((i + k) % 3 == 0)
                search_together(&small[i], &small[k], &joined, 6 + (i + k) % 20);
        }
    end_group();
}

/* ---- Codes that are nearly the same */

/* One code of so many bytes, of which one, unless there are not so many, is another. */
static void open_single(struct office *o, size_t length, size_t other_byte)
{
    static uint8_t code[MOST_BYTES + 1];

    memset(code, 'a', sizeof code);
    code[other_byte] = 'b';
    no_codes();
    put_code(code, length);
    open_office(o);
}

/* Codes of each two of some lengths, the shorter of which is a start of the longer; and of one length, with another byte at every place, or in a long code
   at some from the first to the last. */
static void try_nearly_same(void)
{
    static const size_t sizes[] = {1, 2, 3, 7, 8, 9, 16, 17, 40, 255, 256, 257, 296};
    static struct office a, b, joined;
    size_t i, k;

    begin_group("joining boards with codes that differ in their length or in one byte");
    for (i = 0; i < sizeof sizes / sizeof *sizes; i++) {
        open_single(&a, sizes[i], MOST_BYTES);
        for (k = 0; k < sizeof sizes / sizeof *sizes; k++) {
            open_single(&b, sizes[k], MOST_BYTES);
            join(&a, &b, &joined);
        }
        for (k = 0; k < PLACES; k++) {
            open_single(&b, sizes[i], k * (sizes[i] - 1) / (PLACES - 1));
            join(&a, &b, &joined);
            join(&b, &a, &joined);
        }
    }
    end_group();
}

/* ---- Generated boards */

static const size_t all_letters[] = {1, 2, 2, 3, 4, 256};

/* Both have codes of one list, which are parts of each other; from a fourth of them to all. */
static void try_dealt(void)
{
    static const size_t longest[] = {3, 5, 9, 30, 12, 60, 7, 300};
    static struct office all, a, b;
    unsigned number;

    begin_group("joining generated boards with codes of one list, in any order");
    for (number = 0; number < DEALT; number++) {
        seed_random(4000 + number);
        generate_codes(1 + random_below(number % 3 == 0 ? 8 : MOST_CODES), all_letters[number % 6], 1 + number / 6 % 5, 4 + longest[number % 8]);
        copy_codes(&all);
        open_dealt(&a, &all, 1 + number % 4);
        open_dealt(&b, &all, 1 + number / 4 % 4);
        if (!try_offices(&a, &b, all_letters[number % 6]))
            differ("some codes of one board are refused");
    }
    end_group();
}

/* Each has a list of its own. With few letters some codes are the same. */
static void try_apart(void)
{
    static struct office a, b;
    size_t codes, letters;
    unsigned number, joined = 0;

    begin_group("joining generated boards");
    for (number = 0; number < APART; number++) {
        letters = all_letters[number % 6];
        codes = number % 4 == 0 ? MOST_CODES : 40;
        seed_random(5000 + number);
        generate_codes(1 + random_below(codes), letters, 1, number % 7 == 6 ? 200 : 4 + number % 7);
        open_office(&a);
        generate_codes(1 + random_below(codes), letters, 1, number % 5 == 4 ? 200 : 3 + number % 5);
        open_office(&b);
        joined += (unsigned)try_offices(&a, &b, letters);
    }
    if (joined == 0 || joined == APART)
        differ("all of the pairs could be joined, or none: the test tries too little");
    end_group();
    printf("boards: %u of these %d pairs could be joined\n", joined, APART);
}

/* ---- Limits and refusals */

/* The boards, one of which has another last byte, are refused as none, whatever the room. */
static void expect_no_board(const struct office *a, const struct office *b)
{
    struct join_call c = call_of(a, b, BOARD_ROOM);

    if (compare_join(&c).refusal != 4)
        differ("no board is joined or refused with another number");
    c.room = 0;
    if (compare_join(&c).refusal != 4)
        differ("no board is refused with another number in too little room");
}

static void try_spoiled(const struct office *a, const struct office *b)
{
    static struct office wrong_a, wrong_b;

    wrong_a = *a;
    wrong_b = *b;
    wrong_a.board[a->board_length - 1] ^= 1;
    wrong_b.board[b->board_length - 1] ^= 1;
    expect_no_board(&wrong_a, b);
    expect_no_board(a, &wrong_b);
    expect_no_board(&wrong_a, &wrong_b);
    expect_no_board(&wrong_a, &wrong_a);
    wrong_a.board_length = wrong_b.board_length = 0;
    expect_no_board(&wrong_a, b);
    expect_no_board(a, &wrong_b);
    expect_no_board(&wrong_a, &wrong_b);
}

/* Joining refuses with this number, whatever the room; where it would refuse nothing, too little room is 3. */
static void expect_refusal(const struct office *a, const struct office *b, uint32_t number)
{
    static const size_t rooms[] = {0, 1, LONGEST_BOARD, BOARD_ROOM - 1, BOARD_ROOM, BOARD_ROOM + 1, BOARD_ROOM + BEHIND};
    static struct office joined;
    struct join_call c;
    size_t k;

    if (join(a, b, &joined) != number)
        differ("joining answers another refusal than the test has in mind");
    for (k = 0; k < sizeof rooms / sizeof *rooms; k++) {
        c = call_of(a, b, rooms[k]);
        if (compare_join(&c).refusal != (number == 0 && rooms[k] < BOARD_ROOM ? 3 : number))
            differ("joining in another room answers another refusal than the test has in mind");
    }
    try_spoiled(a, b);
}

/* The list in two parts, the first with the codes before one number, the second with those from another on, either one as the first. */
static void try_parts(const struct office *all, size_t end, size_t from)
{
    static struct office a, b;
    uint32_t number = all->count > MOST_CODES || all->size > MOST_BYTES ? 10 : 0;

    open_part(&a, all, 0, end);
    open_part(&b, all, from, all->count);
    expect_refusal(&a, &b, number);
    expect_refusal(&b, &a, number);
}

/* From 63 to 128 codes, some of which are on both boards. */
static void try_counts(void)
{
    static const size_t counts[] = {63, 64, 65, 66, 100, 127, 128}, ends[] = {1, 2, 31, 32, 63, 64};
    static struct office all;
    size_t i, k, from;

    for (i = 0; i < sizeof counts / sizeof *counts; i++) {
        put_numbered(counts[i], 2);
        copy_codes(&all);
        for (k = 0; k < sizeof ends / sizeof *ends; k++)
            for (from = counts[i] > MOST_CODES ? counts[i] - MOST_CODES : 0; from <= ends[k] && from < counts[i] && ends[k] <= counts[i]; from++)
                try_parts(&all, ends[k], from);
    }
}

/* 2,000 bytes and one more or less, of 41 codes; 64 codes of 31 and 32 bytes, and one more. */
static void try_sizes(void)
{
    static const size_t parts[][2] = {{1, 1}, {20, 20}, {20, 10}, {39, 1}, {40, 1}, {40, 40}};
    static struct office all;
    size_t k, last;

    for (last = 49; last <= 51; last++)
        for (k = 0; k < sizeof parts / sizeof *parts; k++) {
            put_numbered(40, 50);
            lengths[39] = (uint32_t)last - 1;
            size = 39 * 50 + last - 1;
            put_code((const uint8_t *)"a", 1);
            copy_codes(&all);
            try_parts(&all, parts[k][0], parts[k][1]);
        }
    put_brush();
    copy_codes(&all);
    try_parts(&all, 64, 0);
    try_parts(&all, 33, 31);
    put_brush();
    put_words("a");
    copy_codes(&all);
    try_parts(&all, 64, 64);
    try_parts(&all, 33, 2);
}

/* Two codes, of which the second has the bytes of the first but for the last one: of 2,000 bytes together, of 2,001 and of 4,000. */
static void try_long_codes(void)
{
    static const size_t sizes[][2] = {{1999, 1}, {2000, 1}, {1000, 1000}, {1000, 1001}, {1, 2000}, {2000, 2000}};
    static struct office a, b;
    size_t k;

    for (k = 0; k < sizeof sizes / sizeof *sizes; k++) {
        open_single(&a, sizes[k][0], MOST_BYTES);
        open_single(&b, sizes[k][1], sizes[k][1] - 1);
        expect_refusal(&a, &b, sizes[k][0] + sizes[k][1] > MOST_BYTES ? 10 : 0);
        expect_refusal(&a, &a, 0);
    }
}

static void try_limits(void)
{
    begin_group("joining boards that have 63 to 128 codes together, or 1,999 to 4,000 bytes: 4, 10 and 3, and their order");
    try_counts();
    try_sizes();
    try_long_codes();
    end_group();
}

/* ---- Any buffer */

static struct office other;

/* A buffer that is taken as a board may have too many codes or bytes, 10. Too little room, by turns for one of the two, changes nothing of 4. */
uint32_t join_with(const uint8_t *buffer, size_t length)
{
    static int turn;
    struct join_call calls[2];
    int no_board[2], no_room;

    calls[0] = calls[1] = call_of(&other, &other, BOARD_ROOM);
    calls[0].first = calls[1].second = buffer;
    calls[0].first_length = calls[1].second_length = length;
    no_board[0] = compare_join(&calls[0]).refusal == 4;
    no_board[1] = compare_join(&calls[1]).refusal == 4;
    turn = !turn;
    calls[turn].room = BOARD_ROOM - 1;
    no_room = compare_join(&calls[turn]).refusal == 4;
    if (no_board[0] != no_board[1] || no_board[0] != no_room)
        differ("a buffer is taken as one of the two boards and not as the other, or not in too little room");
    return no_room ? 4 : 0;
}

void try_joins(void)
{
    map_lent();
    try_written();
    try_by_hand();
    try_small("joining all boards of 1 to 4 codes of 1 and 2 bytes of two letters, each with each", 4, SMALL_WORDS);
    try_small("joining all boards of 1 and 2 codes of 1 to 3 bytes of two letters, each with each", 2, SHORT_WORDS);
    try_nearly_same();
    try_dealt();
    try_apart();
    if (hits_of_both == 0 || hits_of_first == 0 || hits_of_second == 0)
        differ("no hits of both boards, or of one alone: the test tries too little");
    printf("boards: of the hits of joined boards %" PRIu64 " are of both, %" PRIu64 " of the first alone and %" PRIu64 " of the second alone\n", hits_of_both,
           hits_of_first, hits_of_second);
    try_limits();
    open_words(&other, "she his U UU xyz");
}
