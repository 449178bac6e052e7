/* The program `find` of document 01 once more, written as its sentences read and without regard to speed: the test holds the proved program
   to it. The code is compared at every place of the text; the comparisons are counted by the definitions of states, borders and arrows. */
#include <stdint.h>
#include <stdio.h>
#include <stdlib.h>
#include <string.h>

#define MOST (64u << 20)

static uint8_t input[MOST];
static size_t input_length;

static const uint8_t *code, *text;
static size_t m, n;

static int refuse(int number)
{
    printf("(refused %d)\n", number);
    return 0;
}

/* Whether the code has a byte below 32. */
static int has_control(void)
{
    size_t i;

    for (i = 0; i < m; i++)
        if (code[i] < 32)
            return 1;
    return 0;
}

/* The bracket that matches the input's first byte, an opening one; NULL if none does. */
static const uint8_t *matching_bracket(void)
{
    size_t i, opened = 0, closed = 0;

    for (i = 0; i < input_length; i++) {
        opened += input[i] == '(';
        closed += input[i] == ')';
        if (opened == closed)
            return input + i;
    }
    return NULL;
}

/* Finds the code and the text; 0, or the refusal. */
static int read_first_line(void)
{
    const uint8_t *bracket, *feed;

    if (input_length < 6 || memcmp(input, "(code ", 6) != 0)
        return 8;
    code = input + 6;
    bracket = matching_bracket();
    feed = memchr(input, '\n', input_length);
    if (bracket == NULL || feed != bracket + 1)
        return 8;
    m = (size_t)(bracket - code);
    text = feed + 1;
    n = input_length - (size_t)(text - input);
    return m == 0 ? 1 : m > 4000 ? 2 : has_control() ? 13 : 0;
}

/* Whether the first `end` bytes of the text end with the first p bytes of the code. */
static int ends_with(size_t end, size_t p)
{
    return p <= end && memcmp(text + end - p, code, p) == 0;
}

/* The state after the first `end` bytes of the text. */
static size_t state_at(size_t end)
{
    size_t p = m;

    while (!ends_with(end, p))
        p--;
    return p;
}

/* The labels compared for a byte in state p. */
static unsigned cost(size_t p, uint8_t byte)
{
    uint8_t seen[256] = {0};
    unsigned labels = 0;
    size_t b;

    if (p < m)
        seen[code[p]] = 1; /* a backward arrow with the forward label is dropped */
    for (b = p; b-- > 0;) {
        if (memcmp(code, code + p - b, b) != 0 || seen[code[b]])
            continue;
        seen[code[b]] = 1;
        labels++;
        if (code[b] == byte)
            return labels;
    }
    return labels + (p < m);
}

int main(void)
{
    size_t i, hits = 0;
    uint64_t compares = 0;
    int refusal;

    input_length = fread(input, 1, MOST, stdin);
    if (input_length == MOST)
        return fprintf(stderr, "plain_find: the input is too long\n"), 2;
    refusal = read_first_line();
    if (refusal != 0)
        return refuse(refusal);
    for (i = 0; i < n; i++) {
        compares += cost(state_at(i), text[i]);
        if (ends_with(i + 1, m)) {
            printf("(at %zu)\n", i + 1 - m);
            hits++;
        }
    }
    printf("(end (bytes %zu) (hits %zu) (compares %llu))\n", n, hits, (unsigned long long)compares);
    return 0;
}
