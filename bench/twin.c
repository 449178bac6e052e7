/* The C twin: sheet, watch and feeding of document 01 as one would write them in C. What depends on the width of a sheet's numbers is written once,
 * for 1 byte or 2, and compiled for each. */
#include <string.h>

#include "rivals.h"

enum { SHORT = 1, WIDE = 2 }; /* bytes of a number */

#define FOR_EACH_WIDTH static inline __attribute__((always_inline))
#define APART static __attribute__((noinline)) /* so that a loop has the registers to itself: inlined, some took a tenth more time */

/* The bytes before the code. */
FOR_EACH_WIDTH size_t front(int width)
{
    return width == SHORT ? 1 : 3;
}

/* A number of a sheet: of two bytes the high one stands first. */
FOR_EACH_WIDTH uint32_t number(const uint8_t *numbers, size_t i, int width)
{
    return width == SHORT ? numbers[i] : (uint32_t)numbers[2 * i] << 8 | numbers[2 * i + 1];
}

/* A number of an array, as the machine has it. */
FOR_EACH_WIDTH size_t get(const void *array, size_t i, int width)
{
    return width == SHORT ? ((const uint8_t *)array)[i] : ((const uint16_t *)array)[i];
}

FOR_EACH_WIDTH void put(void *array, size_t i, size_t number, int width)
{
    if (width == SHORT)
        ((uint8_t *)array)[i] = (uint8_t)number;
    else
        ((uint16_t *)array)[i] = (uint16_t)number;
}

/* Whether a code has a control byte. It goes on behind the first, so that the compiler tests many at a time. */
static int has_control(const uint8_t *code, size_t m)
{
    int found = 0;

    for (size_t i = 0; i < m; i++)
        found |= code[i] < 32;
    return found;
}

/* The counts of the states 0 to m, and the targets. Returns how many those are.
 *
 * The targets of state r are the target of its longest border and that border's own targets, without the one that has r's forward label; that one is
 * the longest border of r + 1. So the time is linear in m. */
FOR_EACH_WIDTH size_t find_arrows(const uint8_t *code, size_t m, void *counts, void *targets, int width)
{
    size_t stored = 0;
    size_t border = 0;

    put(counts, 0, 0, width);
    for (size_t r = 1; r <= m; r++) {
        size_t next = 0;
        size_t i = border == 0 ? 0 : get(counts, border - 1, width);
        size_t end = get(counts, border, width);
        size_t t = border + 1;

        for (;;) {
            if (r < m && code[t - 1] == code[r])
                next = t;
            else
                put(targets, stored++, t, width);
            if (i == end)
                break;
            t = get(targets, i++, width);
        }
        put(counts, r, stored, width);
        border = next;
    }
    return stored;
}

/* Fills the sheet of a code of 1 to 255 bytes: its length byte, the code, the counts, the targets. Returns its length. */
static size_t fill_short(const uint8_t *code, size_t m, uint8_t *sheet)
{
    sheet[0] = (uint8_t)m;
    memcpy(sheet + 1, code, m);
    return 2 * m + 2 + find_arrows(code, m, sheet + m + 1, sheet + 2 * m + 2, SHORT);
}

static void put_wide(uint8_t *bytes, const uint16_t *numbers, size_t count)
{
    for (size_t i = 0; i < count; i++) {
        bytes[2 * i] = (uint8_t)(numbers[i] >> 8);
        bytes[2 * i + 1] = (uint8_t)numbers[i];
    }
}

/* The same for 256 to 4,000 bytes: a zero byte, the length in two, the code, the counts, the targets. */
static size_t fill_wide(const uint8_t *code, size_t m, uint8_t *sheet)
{
    uint16_t counts[LONGEST_CODE + 1], targets[LONGEST_CODE];
    size_t stored = find_arrows(code, m, counts, targets, WIDE);

    sheet[0] = 0;
    sheet[1] = (uint8_t)(m >> 8);
    sheet[2] = (uint8_t)m;
    memcpy(sheet + 3, code, m);
    put_wide(sheet + m + 3, counts, m + 1);
    put_wide(sheet + 3 * m + 5, targets, stored);
    return 3 * m + 5 + 2 * stored;
}

struct prepared twin_prepare(const uint8_t *code, size_t m, uint8_t *buffer, size_t room)
{
    if (m == 0)
        return (struct prepared){.refusal = 1};
    if (m > LONGEST_CODE)
        return (struct prepared){.refusal = 2};
    if (has_control(code, m))
        return (struct prepared){.refusal = 13};
    if (room < (m <= LONGEST_SHORT ? 3 * m + 2 : 5 * m + 5))
        return (struct prepared){.refusal = 3};
    return (struct prepared){.length = m <= LONGEST_SHORT ? fill_short(code, m, buffer) : fill_wide(code, m, buffer)};
}

/* The length of the accepted code that a buffer names, 0 if it names none. */
static uint32_t named(const uint8_t *buffer, size_t length)
{
    int width = length > 0 && buffer[0] != 0 ? SHORT : WIDE;

    if (length < front(width))
        return 0;
    uint32_t m = width == SHORT ? buffer[0] : number(buffer + 1, 0, WIDE);
    if (width == WIDE && (m <= LONGEST_SHORT || m > LONGEST_CODE))
        return 0;
    return length < front(width) + m || has_control(buffer + front(width), m) ? 0 : m;
}

/* Whether a buffer begins with the sheet of the code of m bytes that it names: counts and targets are compared with those found afresh. */
APART int is_short(const uint8_t *buffer, size_t length, size_t m)
{
    uint8_t area[2 * LONGEST_SHORT + 1];

    if (length < 2 * m + 2)
        return 0;
    size_t stored = find_arrows(buffer + 1, m, area, area + m + 1, SHORT);

    return length >= 2 * m + 2 + stored && memcmp(buffer + m + 1, area, m + 1 + stored) == 0;
}

/* Whether these are the bytes of some numbers. It goes on behind a difference, so that the compiler compares many at a time. */
static int same_wide(const uint8_t *bytes, const uint16_t *numbers, size_t count)
{
    uint32_t difference = 0;

    for (size_t i = 0; i < count; i++)
        difference |= number(bytes, i, WIDE) ^ numbers[i];
    return difference == 0;
}

APART int is_wide(const uint8_t *buffer, size_t length, size_t m)
{
    uint16_t counts[LONGEST_CODE + 1], targets[LONGEST_CODE];

    if (length < 3 * m + 5)
        return 0;
    size_t stored = find_arrows(buffer + 3, m, counts, targets, WIDE);

    return length >= 3 * m + 5 + 2 * stored && same_wide(buffer + m + 3, counts, m + 1) && same_wide(buffer + 3 * m + 5, targets, stored);
}

/* Whether a watch is fit for a code of m bytes. */
static int is_fit(uint32_t m, uint32_t state, uint32_t taken, uint32_t hits, uint64_t compares)
{
    return state <= m && state <= taken && hits <= taken && compares <= 2 * (uint64_t)taken;
}

/* Reads a piece of `length` bytes, from the watch f on. */
FOR_EACH_WIDTH struct fed read_piece(const uint8_t *sheet, uint32_t m, struct fed f, const uint8_t *piece, uint32_t length, uint32_t *places, size_t room,
                                     int width)
{
    const uint8_t *code = sheet + front(width);
    const uint8_t *counts = code + m;
    const uint8_t *targets = counts + (size_t)width * (m + 1);
    const uint8_t first = code[0];
    uint32_t state = f.state;
    uint64_t compares = f.compares;
    uint32_t i = 0;
    uint32_t written = 0;

    while (i < length) {
        if (state == 0) {
            /* One comparison a byte up to the code's first byte, which then leads to state 1. */
            uint32_t from = i;
            while (i < length && piece[i] != first)
                i++;
            compares += i - from;
            if (i == length)
                break;
            i++;
            compares++;
            state = 1;
        } else {
            /* The backward labels by falling target, then the forward one. */
            uint8_t byte = piece[i];
            uint32_t k = number(counts, state - 1, width);
            uint32_t end = number(counts, state, width);
            uint32_t next = 0;
            uint32_t cost = 0;
            while (k < end) {
                uint32_t t = number(targets, k, width);
                cost++;
                if (code[t - 1] == byte) {
                    next = t;
                    break;
                }
                k++;
            }
            if (next == 0 && state < m) {
                cost++;
                if (code[state] == byte)
                    next = state + 1;
            }
            state = next;
            compares += cost;
            i++;
        }
        if (state == m) {
            places[written++] = f.taken + i - m;
            if (written == room)
                break;
        }
    }
    return (struct fed){
        .state = state,
        .taken = f.taken + i,
        .hits = f.hits + written,
        .read = i,
        .compares = compares,
        .written = written,
        .full = written == room && i < length,
    };
}

APART struct fed read_wide(const uint8_t *sheet, uint32_t m, struct fed f, const uint8_t *piece, uint32_t length, uint32_t *places, size_t room)
{
    return read_piece(sheet, m, f, piece, length, places, room, WIDE);
}

struct fed twin_feed(const uint8_t *sheet, size_t sheet_length, uint32_t state, uint32_t taken, uint32_t hits, uint64_t compares,
                     const uint8_t *piece, size_t piece_length, uint32_t *places, size_t room)
{
    struct fed f = {.state = state, .taken = taken, .hits = hits, .compares = compares};
    uint32_t m = named(sheet, sheet_length);
    int width = m <= LONGEST_SHORT ? SHORT : WIDE;

    if (m == 0 || !(width == SHORT ? is_short(sheet, sheet_length, m) : is_wide(sheet, sheet_length, m)))
        f.refusal = 4;
    else if (!is_fit(m, state, taken, hits, compares))
        f.refusal = 5;
    else if (room == 0)
        f.refusal = 6;
    else if (UINT32_MAX - taken < piece_length)
        f.refusal = 7;
    if (f.refusal != 0)
        return f;
    if (width == SHORT)
        return read_piece(sheet, m, f, piece, (uint32_t)piece_length, places, room, SHORT);
    return read_wide(sheet, m, f, piece, (uint32_t)piece_length, places, room);
}
