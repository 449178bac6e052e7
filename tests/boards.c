/* Holds preparing, feeding and joining boards, as C calls them, to many.c, a naive search, and to separate searches for each code; and any watch and any
   buffer to the definitions of requests 102 and 109. Codes and texts are those of Aho and Corasick's paper, all short ones over a few letters, and those of a
   fixed generator, in which codes are starts, ends and inner parts of each other. The first difference ends the test with exit status 1. */
#define _DEFAULT_SOURCE /* for MAP_ANONYMOUS */
#include <inttypes.h>
#include <stdio.h>
#include <string.h>
#include <sys/mman.h>

#include "board_codes.h"
#include "board_cuttings.h"
#include "board_joins.h"
#include "board_lists.h"
#include "board_odd.h"
#include "random.h"

const char *const test_name = "boards";

enum {
    GENERATED = 240, /* boards */
    RARE = 120       /* boards whose codes are rare in the text */
};

/* ---- Codes and texts by hand */

static void use_word_as_text(const char *word)
{
    n = strlen(word);
    memcpy(text, word, n);
}

static void use_four(void)
{
    no_codes();
    put_words("he she hers his");
    use_codes();
}

/* The board of Aho and Corasick's four codes, written out, and the hits in `ushers`: she at 1, he and hers at 2. */
static void try_the_papers(void)
{
    static const uint8_t written[] = {4, 0, 2, 0, 3, 0, 4, 0, 3, 'h', 'e', 's', 'h', 'e', 'h', 'e', 'r', 's', 'h', 'i', 's', 0, 1, 0, 0,
                                      0, 0, 0, 0, 0, 0, 0, 0, 1, 0, 0, 0, 0, 1, 0, 0, 2, 2, 0, 0, 0, 0, 0, 0, 0, 0, 0, 0, 3, 3, 0, 0, 0, 0, 0, 0, 0, 3, 4};
    uint32_t places[8], numbers[8];
    struct hit_numbers x;

    begin_group("he, she, hers and his, cut in every way");
    use_four();
    if (board_length != sizeof written || memcmp(board, written, sizeof written) != 0)
        differ("the board is another one than that worked out by hand");
    x = entries_feed_board(board, board_length, 0, 0, 0, (const uint8_t *)"ushers", 6, places, 8, numbers, 8);
    if (x.state != 9 || x.taken != 6 || x.hits != 3 || places[0] != 1 || numbers[0] != 2 || places[1] != 2 || numbers[1] != 1 || places[2] != 2 ||
        numbers[2] != 3)
        differ("the hits are other ones than those worked out by hand");
    use_word_as_text("ushers");
    run_every_cutting();
    use_word_as_text("hishershe");
    run_every_cutting();
    use_word_as_text("hhshsheher");
    run_every_cutting();
    end_group();
}

/* ---- All short codes */

/* The codes of three numbers over two letters, without those of number 0. Whether they are different, and none is left out before another. */
static int put_three(unsigned a, unsigned b, unsigned c)
{
    const unsigned numbers[] = {a, b, c};
    uint8_t word[8];
    size_t k;

    no_codes();
    if (a == 0 || a == b || a == c || (b == c && c > 0) || (b == 0 && c > 0))
        return 0;
    for (k = 0; k < 3 && numbers[k] > 0; k++)
        put_code(word, spell(numbers[k], "a\377", 2, word));
    return 1;
}

/* Every list of 1 to 3 codes of at most 2 bytes, and texts of at most 5. */
static void try_short(void)
{
    unsigned i, number;

    begin_group("all lists of 1 to 3 codes of 1 and 2 bytes and texts of 0 to 5 of two letters, cut in every way");
    for (i = 0; i < 7 * 7 * 7; i++) {
        if (!put_three(i / 49, i / 7 % 7, i % 7))
            continue;
        use_codes();
        for (number = 0; number < 63; number++) {
            n = spell(number, "a\377", 2, text);
            run_every_cutting();
        }
    }
    end_group();
}

/* All words of 4 letters, the third of which is in no code, one after the other. */
static void put_every_word(void)
{
    unsigned number;

    n = 0;
    for (number = 40; number < 121; number++)
        n += spell(number, "a\377\n", 3, text + n);
}

/* Every list of 3 codes of at most 3 bytes, in one text. */
static void try_triples(void)
{
    unsigned i;

    begin_group("all lists of 3 codes of 1 to 3 bytes of two letters in a text of all words of 4 bytes of three letters");
    put_every_word();
    for (i = 0; i < 15 * 15 * 15; i++) {
        if (!put_three(i / 225, i / 15 % 15, i % 15) || count < 3)
            continue;
        use_codes();
        use_text();
        begin_cutting(i % 2, i % 3, 0, 0);
        run_sizes(n);
        begin_cutting(i % 4, i % 5, 0, 1);
        run_sizes(1 + i % 9);
    }
    end_group();
}

/* ---- Generated codes and texts */

static void try_generated(void)
{
    static const size_t all_letters[] = {1, 2, 2, 3, 4, 256}, longest[] = {3, 5, 9, 30, 12, 60, 7};
    unsigned number;

    begin_group("generated codes that are parts of each other, in texts of their parts");
    for (number = 0; number < GENERATED; number++) {
        size_t letters = all_letters[number % 6];
        seed_random(number);
        generate_codes(1 + random_below(number % 3 == 0 ? 8 : MOST_CODES), letters, 1 + number / 6 % 5, 4 + longest[number % 7]);
        generate_text(150, letters, 1);
        run_every_size();
        try_states();
    }
    end_group();
}

/* Most bytes of the text are none with which a code begins. A board's shortest code has 1 to 5 bytes or more. */
static void try_rare(void)
{
    unsigned number;

    begin_group("generated codes that are rare in their texts");
    for (number = 0; number < RARE; number++) {
        seed_random(3000 + number);
        generate_codes(1 + random_below(number % 3 == 0 ? 5 : MOST_CODES), number % 5 == 4 ? 256 : 3 + number % 5, 1 + number / 5 % 5, 5 + number % 9);
        generate_text(400, number % 4 == 0 ? 8 : 256, 60);
        run_every_size();
    }
    end_group();
}

/* Boards of 1 to 64 codes, each number of them. */
static void try_every_count(void)
{
    size_t codes;

    begin_group("boards of 1 to 64 codes");
    for (codes = 1; codes <= MOST_CODES; codes++) {
        seed_random(1000 + codes);
        generate_codes(codes, 4, 1 + codes % 5, 10);
        if (count != codes)
            differ("the generator finds too few codes");
        generate_text(200, 4, 1);
        use_text();
        begin_cutting(codes % 3, codes % 2, 0, 0);
        run_sizes(n);
        begin_cutting(random_below(codes), random_below(codes), codes % 8 == 0, 1);
        run_random(40);
    }
    end_group();
}

/* ---- Boards of many bytes */

/* Whether a link of the board is above 255, and one a code of more than 9. */
static void look_at_links(int *high_link, int *high_nearest)
{
    const uint8_t *row = board + 1 + 2 * count + size + count;

    for (; row < board + board_length; row += 3) {
        *high_link |= row[0] > 0;
        *high_nearest |= row[2] > 9;
    }
}

static void try_long(void)
{
    static const size_t codes[] = {1, 1, 2, 2, 3, 5, 9, 20, 40, 64};
    int high_link = 0, high_nearest = 0;
    size_t k;

    begin_group("boards of 1,953 and 2,000 bytes of codes");
    put_chain();
    look_at_links(&high_link, &high_nearest);
    memset(text, 'a', TEXT_HERE);
    n = 300;
    text[100] = 'b';
    run_some_sizes();
    try_states();
    put_brush();
    generate_text(1500, 256, 1);
    run_some_sizes();
    try_states();
    for (k = 0; k < sizeof codes / sizeof *codes; k++) {
        seed_random(k);
        put_alike(codes[k], k % 2 == 0 ? 1 + k : 31);
        if (size != MOST_BYTES)
            differ("the codes have too few bytes");
        look_at_links(&high_link, &high_nearest);
        generate_text(k < 4 ? 6000 : 2500, 2, 1);
        run_some_sizes();
        try_states();
    }
    if (!high_link || !high_nearest)
        differ("no link is above 255, or no nearest code above 9: the test tries too little");
    end_group();
}

static void try_long_parts(void)
{
    unsigned number;

    begin_group("generated codes of up to 2,000 bytes that are parts of each other");
    for (number = 0; number < 24; number++) {
        seed_random(2000 + number);
        generate_codes(1 + random_below(number % 2 == 0 ? 5 : MOST_CODES), number % 4 == 3 ? 256 : 1 + number % 4, 1 + number % 5,
                       number % 3 == 0 ? MOST_BYTES : 400);
        generate_text(3000, 2, 1);
        run_some_sizes();
        try_states();
    }
    end_group();
}

/* Codes of each byte from 32 on, alone, before and behind others, in a text of all bytes. */
static void try_every_byte(void)
{
    unsigned byte;

    begin_group("codes of each byte from 32 on in texts of all bytes");
    for (n = 0; n < 512; n++)
        text[n] = (uint8_t)(n < 256 ? n : 511 - n);
    for (byte = 32; byte < 256; byte++) {
        const uint8_t around[] = {(uint8_t)byte, (uint8_t)(byte - 1), (uint8_t)byte, from_32(byte + 1), (uint8_t)byte};
        no_codes();
        put_code(around, 1);
        put_code(around + 2, 2);
        if (byte > 32) {
            put_code(around, 2);
            put_code(around + 1, 2);
        }
        use_codes();
        use_text();
        begin_cutting(byte % 2, byte % 3, 0, 0);
        run_sizes(n);
        begin_cutting(byte % 2, byte % 3, 0, 1);
        run_sizes(1 + byte % 50);
    }
    end_group();
}

/* ---- Wrong boards and watches */

/* Each is lent as a board by the trial. */
static void try_wrong_boards(const char *group, buffer_trial *lend)
{
    static const uint8_t some[] = {1, 2, 128, 255};
    uint8_t all[255];
    unsigned i;

    begin_group(group);
    taken_as_boards = 0;
    for (i = 0; i < sizeof all; i++)
        all[i] = (uint8_t)(i + 1);
    for (i = 0; i < 4; i++) {
        seed_random(i);
        if (i == 0)
            use_four();
        else
            generate_codes(3 * i, 2, 1, 4);
        spoil_bytes(lend, 0, board_length, 1, all, sizeof all);
        cut_off(lend);
        try_behind(lend);
    }
    generate_codes(20, 3, 1, 9);
    spoil_bytes(lend, 0, board_length, 1, some, sizeof some);
    cut_off(lend);
    try_behind(lend);
    put_alike(5, 7);
    spoil_bytes(lend, 0, 1 + 2 * count, 1, some, sizeof some);
    spoil_bytes(lend, 1 + 2 * count, 1 + 2 * count + size, 199, some, 2);
    spoil_bytes(lend, 1 + 2 * count + size, board_length, 1, some, 2);
    cut_off(lend);
    try_behind(lend);
    end_group();
    printf("boards: %" PRIu64 " of them are taken: with bytes behind them, or as the board of other codes\n", taken_as_boards);
}

static void try_watches(void)
{
    begin_group("any watch, at the limits of its numbers and of the longest text");
    use_four();
    try_every_state();
    no_codes();
    put_words("a");
    use_codes();
    try_every_state();
    no_codes();
    put_words("abab ab aba b");
    use_codes();
    try_every_state();
    seed_random(5);
    generate_codes(9, 2, 1, 4);
    try_every_state();
    end_group();
}

int main(void)
{
    vast_piece = mmap(NULL, VAST, PROT_READ, MAP_PRIVATE | MAP_ANONYMOUS | MAP_NORESERVE, -1, 0);
    if (vast_piece == MAP_FAILED) {
        printf("boards: no address space for a piece of %zu bytes, which is lent and never read\n", VAST);
        return 1;
    }
    try_the_papers();
    try_short();
    try_triples();
    try_every_byte();
    try_generated();
    try_rare();
    try_every_count();
    try_long();
    try_long_parts();
    printf("boards: these texts have %" PRIu64 " hits, and %" PRIu64 " calls ended with a list full\n", hits_told, lists_full);
    try_refused_lists();
    try_wrong_boards("boards with one byte changed, with their end cut off or with bytes behind them", feed_with);
    try_refused_layouts("boards of codes that are refused", feed_with);
    try_watches();
    try_joins();
    try_wrong_boards("joining boards with one byte changed, with their end cut off or with bytes behind them", join_with);
    try_refused_layouts("joining boards of codes that are refused", join_with);
    return 0;
}
