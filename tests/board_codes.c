#include "board_codes.h"

#include <string.h>

#include "random.h"

enum { TRIES = 3000 }; /* codes that the generator tries for one board */

static uint8_t random_byte(size_t letters)
{
    return from_32(random_letter(letters));
}

/* ---- Words and codes */

int is_there(const uint8_t *code, size_t length)
{
    size_t j, offset = 0;

    for (j = 0; j < count; offset += lengths[j++])
        if (lengths[j] == length && memcmp(bytes + offset, code, length) == 0)
            return 1;
    return 0;
}

void put_words(const char *words)
{
    size_t length;

    for (; *words != 0; words += length + (words[length] == ' ')) {
        length = strcspn(words, " ");
        put_code((const uint8_t *)words, length);
    }
}

size_t spell(unsigned number, const char *letters, unsigned letter_count, uint8_t *word)
{
    size_t length = 0;

    for (; number > 0; number = (number - 1) / letter_count)
        word[length++] = (uint8_t)letters[(number - 1) % letter_count];
    return length;
}

/* ---- Codes by a rule */

void put_numbered(size_t codes, size_t length)
{
    uint8_t code[BYTES_HERE];
    size_t j, i, left;

    no_codes();
    for (j = 0; j < codes; j++) {
        for (left = j, i = 0; i < length; i++, left /= 90)
            code[i] = (uint8_t)(33 + left % 90);
        put_code(code, length);
    }
}

void put_chain(void)
{
    uint8_t code[62];
    size_t length;

    memset(code, 'a', sizeof code);
    no_codes();
    for (length = 1; length <= sizeof code; length++)
        put_code(code, length % 2 == 0 ? length : 62 - length);
    use_codes();
}

void put_brush(void)
{
    uint8_t code[32];
    size_t j;

    memset(code, 'b', sizeof code);
    no_codes();
    for (j = 0; j < MOST_CODES; j++) {
        size_t length = j < 16 ? 32 : 31;
        code[length - 2] = (uint8_t)(32 + j);
        code[length - 1] = (uint8_t)(255 - j);
        put_code(code, length);
        code[length - 2] = code[length - 1] = 'b';
    }
    use_codes();
}

void put_alike(size_t codes, size_t period)
{
    static uint8_t code[MOST_BYTES];
    size_t i, j, length;

    no_codes();
    for (j = 0; j < codes; j++) {
        length = (MOST_BYTES - size) / (codes - j);
        for (i = 0; i < length; i++)
            code[i] = i < period ? random_byte(2) : code[i - period];
        code[random_below(length)] = (uint8_t)(100 + j);
        put_code(code, length);
    }
    use_codes();
}

/* ---- Generated codes and texts */

/* Some code of the list, and its length. */
static const uint8_t *random_code(size_t *length)
{
    size_t j, offset = 0, which = random_below(count);

    for (j = 0; j < which; j++)
        offset += lengths[j];
    *length = lengths[which];
    return bytes + offset;
}

/* A part of some code: the whole, a start, an end or an inner one. Answers its length. */
static size_t random_part(uint8_t *part)
{
    size_t length, from, end, way = random_below(4);
    const uint8_t *code = random_code(&length);

    from = way < 2 ? 0 : random_below(length);
    end = way % 2 == 0 ? length : from + 1 + random_below(length - from);
    memcpy(part, code + from, end - from);
    return end - from;
}

/* A word of random letters, or a part of a code, with a letter or another part before or behind it or without. */
static size_t random_word(uint8_t *word, size_t letters, size_t longest)
{
    size_t way = count == 0 ? 0 : random_below(6);
    size_t i, length;

    if (way == 0) {
        length = 1 + random_below(longest);
        for (i = 0; i < length; i++)
            word[i] = random_byte(letters);
        return length;
    }
    if (way == 1) {
        word[0] = random_byte(letters);
        return 1 + random_part(word + 1);
    }
    length = random_part(word);
    if (way == 2)
        word[length++] = random_byte(letters);
    if (way == 3)
        length += random_part(word + length);
    return length;
}

void generate_codes(size_t codes, size_t letters, size_t shortest, size_t longest)
{
    static uint8_t word[2 * MOST_BYTES];
    size_t length, tries;

    no_codes();
    for (tries = 0; tries < TRIES && count < codes; tries++) {
        length = random_word(word, letters, longest);
        if (shortest <= length && length <= longest && size + length <= MOST_BYTES && !is_there(word, length))
            put_code(word, length);
    }
    use_codes();
}

void generate_text(size_t length, size_t letters, size_t between)
{
    static uint8_t part[MOST_BYTES];
    size_t i, end;

    for (n = 0; n < length;) {
        end = n + random_part(part);
        for (i = 0; n < end && n < length; i++)
            text[n++] = part[i];
        for (end = n + random_below(between + 1); n < end && n < length; n++)
            text[n] = n % 2 == 0 ? random_letter(letters) : random_byte(letters);
    }
}
