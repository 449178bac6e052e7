/* Holds preparing and feeding, as C calls them, to plain.c: to a naive search and to the machine of document 01 for a text in pieces, and to the
   document's definitions for any watch and any sheet. Codes and texts are those of the document, all short ones over a few letters, those in which
   each byte occurs, and long ones of a fixed generator; wide.c has those of more than 255 bytes. The first difference ends the test with exit status 1. */
#define _DEFAULT_SOURCE /* for MAP_ANONYMOUS */
#include <inttypes.h>
#include <stdio.h>
#include <string.h>
#include <sys/mman.h>

#include "cuttings.h"
#include "odd.h"
#include "wide.h"

const char *const test_name = "beside";

enum {
    LONG_TEXT = 600, /* bytes */
    LONG_CODES = 256 /* how many */
};

/* ---- The document's codes and texts, and all short ones */

static void use_words(const char *code_word, const char *text_word)
{
    m = strlen(code_word);
    memcpy(code, code_word, m);
    n = strlen(text_word);
    memcpy(text, text_word, n);
    use_code();
    run_every_cutting();
}

static void try_the_documents(void)
{
    begin_group("the document's codes and texts, cut in every way");
    use_words("aa", "aaaa");
    use_words("ab", "abab");
    use_words("abac", "abaz");
    use_words("abaab", "abaababaab");
    use_words("abaab", "");
    use_words("ab", "aab");
    use_words("ab", "aaa");
    end_group();
}

/* The word of a number over some letters: 0 is the empty one, then come those of one letter, of two and so on. Answers its length. */
static size_t spell(unsigned number, const char *letters, unsigned count, uint8_t *word)
{
    size_t length = 0;

    for (; number > 0; number = (number - 1) / count)
        word[length++] = (uint8_t)letters[(number - 1) % count];
    return length;
}

/* How many words of at most so many letters there are. */
static unsigned words(unsigned count, size_t longest)
{
    unsigned all = 1;

    while (longest-- > 0)
        all = all * count + 1;
    return all;
}

/* Codes of the first few letters, and texts of some more. */
static void try_short(const char *name, const char *letters, unsigned in_codes, size_t longest_code, unsigned in_texts, size_t longest_text)
{
    unsigned i, k;

    begin_group(name);
    for (i = 1; i < words(in_codes, longest_code); i++) {
        m = spell(i, letters, in_codes, code);
        use_code();
        for (k = 0; k < words(in_texts, longest_text); k++) {
            n = spell(k, letters, in_texts, text);
            run_every_cutting();
        }
    }
    end_group();
}

/* ---- Every byte */

static void put_code(void)
{
    memcpy(text + n, code, m);
    n += m;
}

/* Every byte upwards and downwards, with the code before, between and behind them. */
static void put_every_byte(void)
{
    size_t i;

    n = 0;
    put_code();
    for (i = 0; i < 256; i++)
        text[n++] = (uint8_t)i;
    put_code();
    for (i = 256; i-- > 0;)
        text[n++] = (uint8_t)i;
    put_code();
}

/* A byte as a code, twice, before and behind its neighbour and the most distant one. */
static void try_every_byte(void)
{
    static const uint8_t shapes[][4] = {{1, 0, 0, 0}, {2, 0, 0, 0}, {2, 0, 1, 0}, {2, 1, 0, 0}, {3, 0, 1, 0}, {3, 0, 0, 1}, {3, 0, 128, 0}};
    unsigned byte;
    size_t k, i;

    begin_group("codes of each byte from 32 on in texts of all bytes");
    for (byte = 32; byte < 256; byte++)
        for (k = 0; k < sizeof shapes / sizeof *shapes; k++) {
            m = shapes[k][0];
            for (i = 0; i < m; i++)
                code[i] = from_32(byte + shapes[k][i + 1]);
            use_code();
            put_every_byte();
            run_some_sizes();
        }
    end_group();
}

/* ---- Long codes with short sheets, of a fixed generator */

/* The long code of a number: 3 to 255 bytes of 1 to 4 letters, or of all from 32 on, with a period of 1 to 19; in every other code the last byte is 255.
   Answers how many letters. */
static size_t use_long_code(unsigned number)
{
    size_t letters = number % 5 == 4 ? 256 : 1 + number % 5;
    size_t period = 1 + number % 19;
    size_t i;

    seed_random(number);
    m = 255 - number % 253;
    for (i = 0; i < m; i++)
        code[i] = i < period ? from_32(random_letter(letters)) : code[i - period];
    if (number % 2 == 1)
        code[m - 1] = 255;
    use_code();
    return letters;
}

static void try_long(void)
{
    unsigned number;

    begin_group("long codes in texts that are much like them");
    for (number = 0; number < LONG_CODES; number++) {
        put_text_like_code(use_long_code(number), LONG_TEXT);
        run_some_sizes();
        run_sizes(0, 1, 1, 0);
        run_random(3, 1, 0);
        run_random(50, 1 + random_below(LIST), 0);
        run_random(300, 1 + random_below(LIST), number % 16 == 0);
    }
    end_group();
}

/* ---- Codes and buffers that preparing refuses */

static void try_refused_codes(void)
{
    static const size_t rooms[] = {0, 1, 2, 5, 766, 767, SHEET_ROOM - 1, SHEET_ROOM};
    size_t k;

    begin_group("no code, too long a code, and buffers of every size");
    for (k = 0; k < sizeof rooms / sizeof *rooms; k++) {
        m = 0;
        compare_prepare(rooms[k]);
        m = LONGEST_CODE + 1;
        memset(code, 31, sizeof code);
        compare_prepare(rooms[k]);
        memset(code, 'a', sizeof code);
        compare_prepare(rooms[k]);
    }
    for (m = 1; m <= LONGEST_SHORT; m += 127)
        for (k = 0; k <= 3 * LONGEST_SHORT + 2; k++)
            compare_prepare(k);
    end_group();
}

/* ---- Wrong sheets */

/* Every byte at every index of short codes: with one below 32 the code is refused with 13 and its sheet with 4; all others are taken. */
static void try_control_bytes(void)
{
    uint8_t buffer[SHEET_ROOM];
    unsigned byte;
    size_t length, i;

    begin_group("every byte at every index of codes of 1 to 6 bytes, and their sheets");
    for (length = 1; length <= 6; length++)
        for (i = 0; i < length; i++)
            for (byte = 0; byte < 256; byte++) {
                m = length;
                memcpy(code, "abaaba", m);
                code[i] = (uint8_t)byte;
                compare_prepare(0);
                use_code();
                if ((try_buffer(buffer, plain_sheet(code, m, buffer)) == 4) != (byte < 32))
                    differ("a sheet is refused for another reason than a byte below 32");
            }
    end_group();
}

/* Short codes with each byte of the sheet in every other value, long ones in some. */
static void try_wrong_sheets(void)
{
    static const uint8_t some[] = {1, 3, 128, 255};
    uint8_t all[255];
    unsigned i;

    begin_group("sheets with one byte changed or with their end cut off");
    taken_as_sheets = 0;
    for (i = 0; i < sizeof all; i++)
        all[i] = (uint8_t)(i + 1);
    for (i = 1; i < words(2, 5); i++) {
        m = spell(i, "ab", 2, code);
        use_code();
        spoil_bytes(0, sheet_length, 1, all, sizeof all);
        cut_off(0, sheet_length);
    }
    for (i = 0; i < 64; i += 9) {
        use_long_code(i);
        spoil_bytes(0, sheet_length, 1, some, sizeof some);
        cut_off(0, sheet_length);
    }
    if (taken_as_sheets == 0)
        differ("no changed sheet is that of another code: the test tries too little");
    end_group();
    printf("beside: in %" PRIu64 " of them the change makes the sheet of another code, and it is taken\n", taken_as_sheets);
}

/* ---- Any watch */

static void try_watches(void)
{
    static const uint32_t taken[] = {0, 1, 2, 3, 4, 100, 2147483648u, 4294967292u, 4294967293u, 4294967294u, 4294967295u};
    unsigned i;
    size_t k;

    begin_group("any watch, at the limits of its numbers and of the longest text");
    for (i = 1; i < words(2, 4); i++) {
        m = spell(i, "ab", 2, code);
        use_code();
        for (k = 0; k < sizeof taken / sizeof *taken; k++)
            try_watches_of(taken[k]);
    }
    use_long_code(3);
    for (k = 0; k < sizeof taken / sizeof *taken; k++)
        try_watches_of(taken[k]);
    end_group();
}

int main(void)
{
    vast_piece = mmap(NULL, VAST, PROT_READ, MAP_PRIVATE | MAP_ANONYMOUS | MAP_NORESERVE, -1, 0);
    if (vast_piece == MAP_FAILED) {
        printf("beside: no address space for a piece of %zu bytes, which is lent and never read\n", VAST);
        return 1;
    }
    try_the_documents();
    try_short("all codes of 1 to 6 bytes and texts of 0 to 8 of two letters, cut in every way", "ab", 2, 6, 2, 8);
    try_short("all codes of 1 to 4 bytes and texts of 0 to 6 of three letters, cut in every way", " \200\377", 3, 4, 3, 6);
    try_short("all codes of 1 to 4 bytes of two letters and texts of 0 to 6 of these and NUL, cut in every way", "\200\377\0", 2, 4, 3, 6);
    try_every_byte();
    try_long();
    try_refused_codes();
    try_control_bytes();
    try_wrong_sheets();
    try_watches();
    try_wide();
    return 0;
}
