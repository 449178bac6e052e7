#include "texts.h"

#include <stdio.h>
#include <string.h>

/* Random numbers: Marsaglia's xorshift with a multiplication, from a fixed seed. */
static uint64_t random_state;

void seed_random(void)
{
    random_state = 0x9E3779B97F4A7C15u;
}

static uint64_t random_number(void)
{
    random_state ^= random_state << 13;
    random_state ^= random_state >> 7;
    random_state ^= random_state << 17;
    return random_state * 2685821657736338717u >> 16;
}

unsigned random_below(unsigned n)
{
    return (unsigned)(random_number() % n);
}

#define COUNT(list) (sizeof(list) / sizeof *(list))

static const char *const breads[] = {
    "Vollkornbrot", "Rogenbrot",  "Ruchbrot",     "Roggenmischbrot", "Banane-Nuss",  "Zimtschnecke", "Butterzopf", "Rahmfladen",
    "Rueeblitorte", "Kirschkuchen", "Mandelgipfel", "Nussgipfel",      "Laugenstange", "Ananastorte",  "Brioche",    "Baguette",
};
static const char *const goods[] = {
    "flour", "rye", "butter", "sugar", "yeast", "salt", "milk", "water", "eggs", "rum", "rosin", "raisins", "almonds", "R-malt",
};
static const char *const people[] = {"Marta", "Rosa", "Reto", "Ruth", "Anna", "Beat", "Urs", "Regula"};

const char *random_bread(void)
{
    return breads[random_below(COUNT(breads))];
}

const char *random_good(void)
{
    return goods[random_below(COUNT(goods))];
}

/* One of a few frequent recipe numbers, or any other. */
static unsigned recipe(void)
{
    unsigned x = random_below(100);
    return x < 3 ? 1234 : x < 10 ? 12 : 100 + random_below(9900);
}

int plan_line(char *line, size_t room, unsigned long number)
{
    unsigned year = 2019 + random_below(8), month = 1 + random_below(12), day = 1 + random_below(28), code = recipe();
    int n = snprintf(line, room, "%04u-%02u-%02u R%u %s, %s:", year, month, day, code, random_bread(), people[random_below(COUNT(people))]);

    for (unsigned k = 2 + random_below(4); k > 0; k--) {
        const char *good = random_good();
        n += snprintf(line + n, room - (size_t)n, " %s %u g,", good, 5 * (1 + random_below(600)));
    }
    if (number % 16384 == 0)
        n += snprintf(line + n, room - (size_t)n, " see PLUM-CAKE-77");
    if (number % 16384 == 8192)
        n += snprintf(line + n, room - (size_t)n, " see R9999Z");
    n += snprintf(line + n, room - (size_t)n, "\n");
    return n;
}

/* Plans, so many to a line; those of a line have a space between them. */
static void plans(uint8_t *text, size_t n, unsigned long to_a_line)
{
    char line[256];
    size_t at = 0;

    seed_random();
    for (unsigned long number = 1; at < n; number++) {
        size_t length = (size_t)plan_line(line, sizeof line, number);
        size_t part = length < n - at ? length : n - at;
        if (number % to_a_line != 0)
            line[length - 1] = ' ';
        memcpy(text + at, line, part);
        at += part;
    }
}

void plan_text(uint8_t *text, size_t n)
{
    plans(text, n, 1);
}

void plan_of_long_lines(uint8_t *text, size_t n)
{
    plans(text, n, 128);
}

void one_letter(uint8_t *text, size_t n)
{
    memset(text, 'a', n);
}

void ab_text(uint8_t *text, size_t n)
{
    for (size_t i = 0; i < n; i++)
        text[i] = i % 255 == 0 ? 'a' : 'b';
}

void fibonacci_word(uint8_t *text, size_t n)
{
    size_t from = 1; /* the next letter whose image is written */
    size_t at = 0;

    if (at < n)
        text[at++] = 'a';
    if (at < n)
        text[at++] = 'b';
    while (at < n) {
        uint8_t letter = text[from++];
        text[at++] = 'a';
        if (letter == 'a' && at < n)
            text[at++] = 'b';
    }
}

/* The ruler word over the letters from a on, so many, with another byte where its letter would be a later one. */
static void ruler(uint8_t *text, size_t n, int letters, uint8_t top)
{
    for (size_t i = 1; i <= n; i++) {
        int k = __builtin_ctzll(i);
        text[i - 1] = k < letters ? (uint8_t)('a' + k) : top;
    }
}

void ruler_word(uint8_t *text, size_t n)
{
    ruler(text, n, 7, 'h');
}

void ruler_unknown(uint8_t *text, size_t n)
{
    ruler(text, n, 7, '!');
}

void ruler_of_12(uint8_t *text, size_t n)
{
    ruler(text, n, 11, 'l');
}

static void random_text(uint8_t *text, size_t n, uint8_t first, unsigned letters)
{
    seed_random();
    for (size_t i = 0; i < n; i++)
        text[i] = (uint8_t)(first + random_below(letters));
}

void random_2(uint8_t *text, size_t n)
{
    random_text(text, n, 'a', 2);
}

void random_4(uint8_t *text, size_t n)
{
    random_text(text, n, 'a', 4);
}

void random_256(uint8_t *text, size_t n)
{
    random_text(text, n, 0, 256);
}

void random_from_32(uint8_t *text, size_t n)
{
    random_text(text, n, 32, 256 - 32);
}

void all_from_32(uint8_t *text, size_t n)
{
    for (size_t i = 0; i < n; i++)
        text[i] = (uint8_t)(32 + i % (256 - 32));
}
