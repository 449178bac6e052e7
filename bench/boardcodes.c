#include "boardcodes.h"

#include <stdio.h>
#include <string.h>

#include "process.h"
#include "texts.h"

enum {
    TRIES = 100000,
    CODE_ROOM = MOST_BYTES + 1,
    SPACING = 10000, /* a code's copies in a plan: one for so many bytes */
    EVERY = 20,      /* of so many lines of a plan one names a title, and one a mixed code */
    SHARE = 31,      /* bytes of a code where 64 codes share them out */
};

static size_t r_code(char *code, unsigned number)
{
    return (size_t)snprintf(code, CODE_ROOM, "R%u", number % 4 == 0 ? 10000 + random_below(90000) : 100 + random_below(9900));
}

static size_t mixed_code(char *code, unsigned number)
{
    unsigned first = random_below(26), second = random_below(26), figures = random_below(1000), last = random_below(26);

    (void)number;
    return (size_t)snprintf(code, CODE_ROOM, "%c%c-%u%c", 'A' + first, 'A' + second, figures, 'A' + last);
}

/* A title as it stands in a plan. */
static size_t whole_title(char *code)
{
    static const char *const kinds[] = {"dark", "sweet", "old", "spelt", "crisp", "soft", "festive", "small", "large", "warm"};
    const char *kind = kinds[random_below(sizeof kinds / sizeof *kinds)], *bread = random_bread(), *good = random_good();

    return (size_t)snprintf(code, CODE_ROOM, "%s %s with %s", kind, bread, good);
}

static size_t title(char *code, unsigned number)
{
    size_t length = whole_title(code);

    (void)number;
    return length < SHARE ? length : SHARE;
}

static size_t power(char *code, unsigned number)
{
    memset(code, 'a', number);
    return number;
}

/* The last bytes of one word, so that each code ends with every earlier one. */
static size_t end_of_word(char *code, unsigned number)
{
    for (size_t i = 0; i < number; i++)
        code[number - 1 - i] = "abcab"[i % 5];
    return number;
}

static size_t random_word(char *word, size_t length, unsigned first, unsigned letters)
{
    for (size_t i = 0; i < length; i++)
        word[i] = (char)(first + random_below(letters));
    return length;
}

static size_t word_of_26(char *code, unsigned number)
{
    (void)number;
    return random_word(code, SHARE, 'a', 26);
}

static size_t word_of_2(char *code, unsigned number)
{
    (void)number;
    return random_word(code, SHARE, 'a', 2);
}

static size_t word_of_224(char *code, unsigned number)
{
    (void)number;
    return random_word(code, SHARE, 32, 224);
}

static const char *const comb_stem = "abcd";
static const char *const fan_stem = "a";

/* The stem, ~ and a letter that is not in it, again and again. */
static void write_teeth(char *word, size_t length, const char *stem)
{
    size_t m = strlen(stem);

    for (size_t i = 0; i < length; i++) {
        size_t at = i % (m + 2);
        word[i] = at < m ? stem[at] : (char)(at == m ? '~' : 'f' + random_below(20));
    }
}

/* The first code is a long one that comes back to the stem, the others are the stem and one byte more: its state has a child for each. */
static size_t code_from_stem(char *code, unsigned number, const char *stem)
{
    size_t m = strlen(stem);

    if (number > 1)
        return (size_t)snprintf(code, CODE_ROOM, "%s%c", stem, '!' + (int)number - 2);
    write_teeth(code, MOST_BYTES - (MOST_CODES - 1) * (m + 1), stem);
    return MOST_BYTES - (MOST_CODES - 1) * (m + 1);
}

static size_t comb_code(char *code, unsigned number)
{
    return code_from_stem(code, number, comb_stem);
}

static size_t fan_code(char *code, unsigned number)
{
    return code_from_stem(code, number, fan_stem);
}

/* Writes the first bytes of the code that begins at a place among the codes' bytes, so many, and answers where they end. */
static size_t paste(uint8_t *text, size_t n, size_t at, const struct codes *c, size_t start, size_t length)
{
    size_t part = length < n - at ? length : n - at;

    memcpy(text + at, c->bytes + start, part);
    return at + part;
}

/* One more line of a plan; some name a title or a mixed code. */
static size_t board_line(char *line, size_t room, unsigned long number)
{
    char word[CODE_ROOM];
    size_t length = (size_t)plan_line(line, room, number) - 1;

    if (random_below(EVERY) == 0) {
        whole_title(word);
        length += (size_t)snprintf(line + length, room - length, " see %s", word);
    }
    if (random_below(EVERY) == 0) {
        mixed_code(word, 0);
        length += (size_t)snprintf(line + length, room - length, " %s", word);
    }
    line[length] = '\n';
    return length + 1;
}

/* Lines of plans, with copies of each code at random places. */
static void plan_with_codes(uint8_t *text, size_t n, const struct codes *c)
{
    char line[512];
    size_t at = 0;

    for (unsigned long number = 1; at < n; number++) {
        size_t length = board_line(line, sizeof line, number);
        size_t part = length < n - at ? length : n - at;
        memcpy(text + at, line, part);
        at += part;
    }
    for (size_t k = 0; k < n / SPACING; k++)
        for (size_t j = 0, start = 0; j < c->count; start += c->lengths[j++])
            paste(text, n, random_below((unsigned)n), c, start, c->lengths[j]);
}

static void powers_text(uint8_t *text, size_t n, const struct codes *c)
{
    (void)c;
    one_letter(text, n);
}

/* The last code again and again. */
static void last_again(uint8_t *text, size_t n, const struct codes *c)
{
    size_t m = c->lengths[c->count - 1];

    for (size_t i = 0; i < n; i++)
        text[i] = c->bytes[c->size - m + i % m];
}

/* Starts of codes, with up to two random letters between them. */
static void starts_of_codes(uint8_t *text, size_t n, const struct codes *c, unsigned first, unsigned letters)
{
    random_word((char *)text, n, first, letters);
    for (size_t at = 0; at < n; at += random_below(3)) {
        size_t number = random_below((unsigned)c->count), start = 0;
        for (size_t j = 0; j < number; j++)
            start += c->lengths[j];
        at = paste(text, n, at, c, start, 1 + random_below(c->lengths[number]));
    }
}

static void starts_of_26(uint8_t *text, size_t n, const struct codes *c)
{
    starts_of_codes(text, n, c, 'a', 26);
}

static void starts_of_2(uint8_t *text, size_t n, const struct codes *c)
{
    starts_of_codes(text, n, c, 'a', 2);
}

static void starts_of_224(uint8_t *text, size_t n, const struct codes *c)
{
    starts_of_codes(text, n, c, 32, 224);
}

static void comb_text(uint8_t *text, size_t n, const struct codes *c)
{
    (void)c;
    write_teeth((char *)text, n, comb_stem);
}

static void fan_text(uint8_t *text, size_t n, const struct codes *c)
{
    (void)c;
    write_teeth((char *)text, n, fan_stem);
}

const struct board_job board_jobs[] = {
    {"R-codes", 1, 1, r_code, plan_with_codes},
    {"R-codes", 8, 1, r_code, plan_with_codes},
    {"R-codes", 30, 1, r_code, plan_with_codes},
    {"R-codes", 64, 1, r_code, plan_with_codes},
    {"mixed codes", 1, 1, mixed_code, plan_with_codes},
    {"mixed codes", 8, 1, mixed_code, plan_with_codes},
    {"mixed codes", 30, 1, mixed_code, plan_with_codes},
    {"mixed codes", 64, 1, mixed_code, plan_with_codes},
    {"titles", 1, 1, title, plan_with_codes},
    {"titles", 8, 1, title, plan_with_codes},
    {"titles", 30, 1, title, plan_with_codes},
    {"titles", 64, 1, title, plan_with_codes},
    {"a^1 .. a^62", 62, 0, power, powers_text},
    {"ends of a word", 62, 0, end_of_word, last_again},
    {"26 letters", 64, 0, word_of_26, starts_of_26},
    {"two letters", 64, 0, word_of_2, starts_of_2},
    {"224 letters", 64, 0, word_of_224, starts_of_224},
    {"comb", 64, 0, comb_code, comb_text},
    {"fan", 64, 0, fan_code, fan_text},
    {0},
};

static int is_there(const struct codes *c, const char *code, size_t length)
{
    for (size_t j = 0, start = 0; j < c->count; start += c->lengths[j++])
        if (c->lengths[j] == length && memcmp(c->bytes + start, code, length) == 0)
            return 1;
    return 0;
}

void make_board_job(const struct board_job *j, struct codes *c, uint8_t *text, size_t n)
{
    char code[CODE_ROOM];

    seed_random();
    c->count = c->size = 0;
    for (unsigned number = 1; c->count < j->count; number++) {
        size_t length = j->code(code, number);
        if (number > TRIES || c->size + length > MOST_BYTES)
            stop("too few codes for the board", j->name);
        if (is_there(c, code, length))
            continue;
        memcpy(c->bytes + c->size, code, length);
        c->size += length;
        c->lengths[c->count++] = (uint32_t)length;
    }
    j->text(text, n, c);
}
