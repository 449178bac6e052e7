/* The program `sweep` once more, written as docs/FORMS.md reads and without regard to speed: the test holds the proved program to it. Every code is
   compared at every place where it can end, the longer ones first. */
#include <stdint.h>
#include <stdio.h>
#include <stdlib.h>
#include <string.h>

#define MOST (64u << 20)          /* bytes of standard input */
#define CODES 64                  /* codes of a board */
#define TOGETHER 2000             /* their bytes */
#define LONGEST_TEXT 4294967295u
#define LONGEST_PATH 4095
#define PIECE 262144               /* bytes of a read, as in `sweep`: it matters only for a text that is too long, whose last piece is not taken */

struct code {
    const uint8_t *bytes;
    size_t length;
    int number;
};

static uint8_t input[MOST];
static size_t input_length;

static struct code codes[CODES];
static size_t count;      /* of all code lines, of which the first 64 are kept */
static int ends_some[256]; /* whether a code ends with this byte */

static unsigned long files, unread, bytes, hits;

static int incomplete(const char *why)
{
    fflush(stdout);
    fprintf(stderr, "not complete: %s\n", why);
    return 0;
}

/* The bracket that matches the first byte of the line that ends at `feed`; NULL if none does. */
static const uint8_t *matching_bracket(const uint8_t *line, const uint8_t *feed)
{
    size_t opened = 0, closed = 0;

    for (; line < feed; line++) {
        opened += *line == '(';
        closed += *line == ')';
        if (opened == closed)
            return line;
    }
    return NULL;
}

/* Whether the line that ends at `feed` is of its form. */
static int of_form(const uint8_t *line, const uint8_t *feed)
{
    return feed - line >= 7 && memcmp(line, "(code ", 6) == 0 && matching_bracket(line, feed) == feed - 1;
}

static int has_control(const struct code *code)
{
    size_t i;

    for (i = 0; i < code->length; i++)
        if (code->bytes[i] < 32)
            return 1;
    return 0;
}

/* Whether a code stands twice among those that are kept. */
static int has_twice(void)
{
    size_t i, j;

    for (i = 0; i < count; i++)
        for (j = 0; j < i; j++)
            if (codes[i].length == codes[j].length && memcmp(codes[i].bytes, codes[j].bytes, codes[i].length) == 0)
                return 1;
    return 0;
}

/* Reads the code lines and the empty one behind them, and sets `list` to what follows; 0, or the refusal. */
static int read_codes(const uint8_t **list)
{
    const uint8_t *line = input, *end = input + input_length, *feed;
    int empty = 0, too_long = 0, control = 0;
    size_t together = 0;

    for (;; line = feed + 1) {
        struct code code = {line + 6, 0, (int)count + 1};

        feed = memchr(line, '\n', (size_t)(end - line));
        if (feed == NULL)
            return 8;
        if (feed == line)
            break;
        if (!of_form(line, feed))
            return 8;
        code.length = (size_t)(feed - 1 - code.bytes);
        empty |= code.length == 0;
        too_long |= code.length > 4000;
        control |= has_control(&code);
        together += code.length;
        if (count < CODES)
            codes[count] = code;
        count++;
    }
    *list = feed + 1;
    if (empty)
        return 1;
    if (too_long)
        return 2;
    if (count == 0 || count > CODES || together > TOGETHER)
        return 10;
    return control ? 13 : has_twice() ? 11 : 0;
}

/* The longer code first. */
static int by_length(const void *a, const void *b)
{
    size_t left = ((const struct code *)a)->length, right = ((const struct code *)b)->length;

    return (left < right) - (left > right);
}

/* Prints the codes that end where `end` bytes of the text stand before, `before` of them in front of the part that is at hand. */
static void look(const uint8_t *text, size_t end, unsigned long before)
{
    size_t i;

    if (!ends_some[text[end - 1]])
        return;
    for (i = 0; i < count; i++) {
        size_t m = codes[i].length;

        if (m > end || memcmp(text + end - m, codes[i].bytes, m) != 0)
            continue;
        printf("(hit %lu %lu %d)\n", files, before + end - m, codes[i].number);
        hits++;
    }
}

/* Looks for the codes in a file; whether it was read to its end. */
static int search(FILE *file)
{
    static uint8_t text[TOGETHER + PIECE]; /* the last bytes of the pieces before, enough for the longest code, and the piece */
    size_t kept = 0, length, i;
    unsigned long taken = 0;

    while ((length = fread(text + kept, 1, PIECE, file)) > 0) {
        if (length > LONGEST_TEXT - taken)
            return 0;
        for (i = 1; i <= length; i++)
            look(text, kept + i, taken - kept);
        taken += length;
        bytes += length;
        length += kept;
        kept = length < TOGETHER ? length : TOGETHER;
        memmove(text, text + length - kept, kept);
    }
    return !ferror(file);
}

/* Looks for the codes in the file of a path. */
static void search_path(const char *path)
{
    FILE *file = strlen(path) > LONGEST_PATH ? NULL : fopen(path, "rb");

    if (file == NULL || !search(file)) {
        printf("(unread %lu)\n", files);
        unread++;
    }
    if (file != NULL)
        fclose(file);
    files++;
}

int main(void)
{
    const uint8_t *path, *zero, *end;
    size_t i;
    int refusal;

    input_length = fread(input, 1, MOST, stdin);
    if (ferror(stdin))
        return incomplete("the input could not be read");
    if (input_length == MOST)
        return fprintf(stderr, "plain_sweep: the input is too long\n"), 2;
    end = input + input_length;
    refusal = read_codes(&path);
    if (refusal != 0) {
        printf("(refused %d)\n", refusal);
        return fflush(stdout) != 0 ? incomplete("the output could not be written") : 0;
    }
    for (i = 0; i < count; i++)
        ends_some[codes[i].bytes[codes[i].length - 1]] = 1;
    qsort(codes, count, sizeof *codes, by_length);
    for (; path < end; path = zero + 1) {
        zero = memchr(path, 0, (size_t)(end - path));
        if (zero == NULL)
            return incomplete("the list ends within a path");
        search_path((const char *)path);
    }
    if (fflush(stdout) != 0 || ferror(stdout))
        return incomplete("the output could not be written");
    printf("(end (files %lu) (unread %lu) (bytes %lu) (hits %lu))\n", files, unread, bytes, hits);
    return fflush(stdout) != 0 ? incomplete("the output could not be written") : 0;
}
