#include "plain.h"

#include <string.h>

/* ---- Arrows and states */

/* Whether the first n bytes of a text end with the first p bytes of the code. */
static int ends_with(const uint8_t *text, size_t n, const uint8_t *code, size_t p)
{
    return p <= n && memcmp(text + n - p, code, p) == 0;
}

/* The length of the longest start of the code that the first n bytes of a text end with. */
static size_t state_of(const uint8_t *code, size_t m, const uint8_t *text, size_t n)
{
    size_t p = m;

    while (!ends_with(text, n, code, p))
        p--;
    return p;
}

/* Whether the first p bytes of the code have a border of length b. */
static int is_border(const uint8_t *code, size_t p, size_t b)
{
    return b < p && ends_with(code, p, code, b);
}

/* Whether a longer border of the first p bytes than b has the same label. */
static int longer_has_label(const uint8_t *code, size_t p, size_t b)
{
    size_t longer;

    for (longer = b + 1; longer < p; longer++)
        if (code[longer] == code[b] && is_border(code, p, longer))
            return 1;
    return 0;
}

/* Whether state p has a backward arrow to b + 1, labelled with code byte b + 1, which is code[b]. */
static int has_backward(const uint8_t *code, size_t m, size_t p, size_t b)
{
    int forward_label = p < m && code[p] == code[b];

    return is_border(code, p, b) && !forward_label && !longer_has_label(code, p, b);
}

/* The new state from state p on a byte; the labels compared go onto the cost. */
static size_t follow(const uint8_t *code, size_t m, size_t p, uint8_t byte, uint64_t *cost)
{
    size_t b;

    for (b = p; b-- > 0;) {
        if (!has_backward(code, m, p, b))
            continue;
        ++*cost;
        if (code[b] == byte)
            return b + 1;
    }
    if (p == m)
        return 0;
    ++*cost;
    return code[p] == byte ? p + 1 : 0;
}

/* ---- Preparing */

size_t plain_room(size_t m)
{
    return m <= LONGEST_SHORT ? 3 * m + 2 : 5 * m + 5;
}

/* A number in 1 byte or in 2, the high one first. */
static void put_number(uint8_t *bytes, size_t width, size_t number)
{
    if (width == 2)
        *bytes++ = (uint8_t)(number / 256);
    *bytes = (uint8_t)(number % 256);
}

size_t plain_layout(size_t width, const uint8_t *code, size_t m, uint8_t *sheet)
{
    size_t front = width == 1 ? 1 : 3;
    uint8_t *counts = sheet + front + m;
    uint8_t *end = counts + width * (m + 1);
    size_t p, b, arrows = 0;

    sheet[0] = 0;
    put_number(sheet + front - width, width, m);
    memcpy(sheet + front, code, m);
    for (p = 0; p <= m; p++) {
        for (b = p; b-- > 0;)
            if (has_backward(code, m, p, b)) {
                put_number(end, width, b + 1);
                end += width;
                arrows++;
            }
        put_number(counts + width * p, width, arrows);
    }
    return (size_t)(end - sheet);
}

size_t plain_sheet(const uint8_t *code, size_t m, uint8_t *sheet)
{
    return plain_layout(m <= LONGEST_SHORT ? 1 : 2, code, m, sheet);
}

/* The sheet of a code, and its length. The last one of each layout is kept: most calls name the same code as the one before. */
static const uint8_t *kept_sheet(const uint8_t *code, size_t m, size_t *length)
{
    static uint8_t sheets[2][SHEET_ROOM], codes[2][LONGEST_CODE];
    static size_t lengths[2], sizes[2];
    int wide = m > LONGEST_SHORT;

    if (sizes[wide] != m || memcmp(codes[wide], code, m) != 0) {
        sizes[wide] = m;
        memcpy(codes[wide], code, m);
        lengths[wide] = plain_sheet(code, m, sheets[wide]);
    }
    *length = lengths[wide];
    return sheets[wide];
}

/* Whether a code has a byte below 32. */
static int has_control(const uint8_t *code, size_t m)
{
    size_t i;

    for (i = 0; i < m; i++)
        if (code[i] < 32)
            return 1;
    return 0;
}

struct prepared plain_prepare(const uint8_t *code, size_t m, uint8_t *buffer, size_t room)
{
    struct prepared answer = {0, 0};
    const uint8_t *sheet;
    size_t length;

    answer.refusal = m == 0 ? 1 : m > 4000 ? 2 : has_control(code, m) ? 13 : room < plain_room(m) ? 3 : 0;
    if (answer.refusal == 0) {
        sheet = kept_sheet(code, m, &length);
        memcpy(buffer, sheet, length);
        answer.length = length;
    }
    return answer;
}

/* ---- Feeding */

/* The code that a buffer names: of so many bytes, and where it stands. Of no bytes if the buffer names none that has such a sheet, or ends in it. */
static size_t named(const uint8_t *buffer, size_t length, const uint8_t **code)
{
    size_t front = length > 0 && buffer[0] > 0 ? 1 : 3;
    size_t m = length < front ? 0 : front == 1 ? buffer[0] : 256 * (size_t)buffer[1] + buffer[2];

    *code = buffer + front;
    if (front == 3 && (m < 256 || m > 4000))
        return 0;
    return length < front + m ? 0 : m;
}

/* Whether a buffer begins with the sheet of the code that it names, and that has no control byte. */
static int begins_with_sheet(const uint8_t *buffer, size_t length)
{
    const uint8_t *code, *sheet;
    size_t m = named(buffer, length, &code);
    size_t end;

    if (m == 0 || has_control(code, m))
        return 0;
    sheet = kept_sheet(code, m, &end);
    return end <= length && memcmp(buffer, sheet, end) == 0;
}

/* Whether a watch is unfit for the sheet of a code of m bytes. */
static int is_unfit(const struct fed *x, size_t m)
{
    return x->state > m || x->state > x->taken || x->hits > x->taken || x->compares > 2 * (uint64_t)x->taken;
}

static uint32_t feed_refusal(const uint8_t *sheet, size_t sheet_length, size_t m, const struct fed *x, size_t piece_length, size_t room)
{
    if (!begins_with_sheet(sheet, sheet_length))
        return 4;
    if (is_unfit(x, m))
        return 5;
    if (room == 0)
        return 6;
    return piece_length > 4294967295u - x->taken ? 7 : 0;
}

struct fed plain_feed(const uint8_t *sheet, size_t sheet_length, uint32_t state, uint32_t taken, uint32_t hits, uint64_t compares,
                      const uint8_t *piece, size_t piece_length, uint32_t *places, size_t room)
{
    struct fed x = {0, 0, 0, 0, 0, 0, 0, 0};
    const uint8_t *code;
    size_t m = named(sheet, sheet_length, &code);

    x.state = state;
    x.taken = taken;
    x.hits = hits;
    x.compares = compares;
    x.refusal = feed_refusal(sheet, sheet_length, m, &x, piece_length, room);
    if (x.refusal != 0)
        return x;
    while (x.read < piece_length && x.written < room) {
        x.state = (uint32_t)follow(code, m, x.state, piece[x.read++], &x.compares);
        x.taken++;
        if (x.state == m) {
            places[x.written++] = x.taken - (uint32_t)m;
            x.hits++;
        }
    }
    x.full = x.read < piece_length;
    return x;
}

/* ---- The machine */

/* The smaller of 1 + log2 m, rounded down, and the number of different bytes. */
static uint64_t byte_ceiling(const uint8_t *code, size_t m)
{
    uint8_t occurs[256] = {0};
    uint64_t halvings = 0, different = 0;
    size_t i;

    for (i = 0; i < m; i++) {
        different += !occurs[code[i]];
        occurs[code[i]] = 1;
    }
    for (i = m; i > 1; i /= 2)
        halvings++;
    return 1 + halvings < different ? 1 + halvings : different;
}

static uint64_t total_ceiling(size_t m, size_t n)
{
    return (2 * (uint64_t)m - 1) * n / m;
}

/* The code is compared at every offset of the text. */
static void search(struct machine *x, const uint8_t *code, size_t m, const uint8_t *text, size_t n)
{
    size_t i;

    x->found = 0;
    for (i = 0; i + m <= n; i++)
        if (memcmp(text + i, code, m) == 0)
            x->places[x->found++] = (uint32_t)i;
}

const char *work_out(struct machine *x, const uint8_t *code, size_t m, const uint8_t *text, size_t n)
{
    uint64_t dearest = byte_ceiling(code, m);
    uint64_t cost;
    size_t i, arrow;

    x->state[0] = x->total[0] = x->hits[0] = 0;
    for (i = 0; i < n; i++) {
        cost = 0;
        arrow = follow(code, m, x->state[i], text[i], &cost);
        x->state[i + 1] = state_of(code, m, text, i + 1);
        x->total[i + 1] = x->total[i] + cost;
        x->hits[i + 1] = x->hits[i] + (uint32_t)ends_with(text, i + 1, code, m);
        if (arrow != x->state[i + 1])
            return "an arrow leads to another state than the text's";
        if (cost > dearest)
            return "a byte costs more than the byte ceiling";
        if (x->total[i + 1] > total_ceiling(m, i + 1))
            return "a text costs more than the total ceiling";
    }
    search(x, code, m, text, n);
    return x->found == x->hits[n] ? NULL : "the machine and the naive search find different numbers of places";
}

struct fed machine_call(const struct machine *x, size_t from, size_t end, size_t room)
{
    struct fed answer = {0, 0, 0, 0, 0, 0, 0, 0};
    size_t n = from;

    while (n < end && x->hits[n] - x->hits[from] < room)
        n++;
    answer.state = (uint32_t)x->state[n];
    answer.taken = (uint32_t)n;
    answer.hits = x->hits[n];
    answer.read = (uint32_t)(n - from);
    answer.compares = x->total[n];
    answer.written = x->hits[n] - x->hits[from];
    answer.full = n < end;
    return answer;
}
