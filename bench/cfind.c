/* The program `find` of document 01 over the C twin: the same input, the same output. */
#include <string.h>
#include <unistd.h>

#include "rivals.h"

enum { PIECE = 4096, LINE = 64 };

static char out[1 << 16];
static size_t out_length;

static void flush(void)
{
    size_t done = 0;

    while (done < out_length) {
        ssize_t n = write(1, out + done, out_length - done);
        if (n <= 0)
            _exit(1);
        done += (size_t)n;
    }
    out_length = 0;
}

static void put(const char *s)
{
    size_t n = strlen(s);

    memcpy(out + out_length, s, n);
    out_length += n;
}

static void put_number(uint64_t v)
{
    char digits[20];
    int k = 0;

    do
        digits[k++] = (char)('0' + v % 10);
    while (v /= 10);
    while (k > 0)
        out[out_length++] = digits[--k];
}

/* Makes room for a line. */
static void new_line(void)
{
    if (out_length > sizeof out - 2 * LINE)
        flush();
}

static void put_place(uint32_t place)
{
    new_line();
    put("(at ");
    put_number(place);
    put(")\n");
}

static int refused(uint32_t number)
{
    new_line();
    put("(refused ");
    put_number(number);
    put(")\n");
    flush();
    return 0;
}

static void put_end(const struct fed *f)
{
    new_line();
    put("(end (bytes ");
    put_number(f->taken);
    put(") (hits ");
    put_number(f->hits);
    put(") (compares ");
    put_number(f->compares);
    put("))\n");
    flush();
}

/* Reads n bytes, or fewer at the end of the input. */
static size_t read_full(uint8_t *bytes, size_t n)
{
    size_t done = 0;

    while (done < n) {
        ssize_t got = read(0, bytes + done, n - done);
        if (got <= 0)
            break;
        done += (size_t)got;
    }
    return done;
}

/* Reads the first line into a code of m bytes, of which at most 4,001 are kept. Returns whether the line has its form. */
static int read_code(uint8_t *code, size_t *m)
{
    uint8_t b[6];
    uint64_t depth = 0;

    if (read_full(b, 6) < 6 || memcmp(b, "(code ", 6) != 0)
        return 0;
    for (*m = 0;;) {
        if (read_full(b, 1) == 0 || b[0] == '\n')
            return 0;
        if (b[0] == '(' && ++depth == 0)
            return 0;
        if (b[0] == ')' && depth-- == 0)
            break;
        if (*m <= LONGEST_CODE)
            code[(*m)++] = b[0];
    }
    return read_full(b, 1) == 1 && b[0] == '\n';
}

int main(void)
{
    static uint8_t piece[PIECE];
    static uint32_t places[PIECE];
    uint8_t code[LONGEST_CODE + 1];
    uint8_t sheet[SHEET_ROOM];
    struct fed f = {0};
    size_t m;

    if (!read_code(code, &m))
        return refused(8);
    struct prepared p = twin_prepare(code, m, sheet, sizeof sheet);
    if (p.refusal != 0)
        return refused(p.refusal);
    for (size_t got = PIECE; got == PIECE;) {
        got = read_full(piece, PIECE);
        f = twin_feed(sheet, p.length, f.state, f.taken, f.hits, f.compares, piece, got, places, PIECE);
        if (f.refusal != 0)
            return refused(f.refusal);
        for (uint32_t k = 0; k < f.written; k++)
            put_place(places[k]);
    }
    put_end(&f);
    return 0;
}
