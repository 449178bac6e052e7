/* Compares the entry points of finder.h with a plain implementation, written from document 01's definitions without regard to speed, and with
   that document's own samples. Memory that is lent has guard bytes on both sides; each call is checked for its answer and for every byte.
   The first difference ends the test with exit status 1. */
#include <inttypes.h>
#include <stdio.h>
#include <stdlib.h>
#include <string.h>

#include "finder.h"

/* ---- The plain implementation */

static int64_t length_refusal(size_t m)
{
    return m == 0 ? 1 : m > 4000 ? 2 : 0;
}

static int64_t code_refusal(const uint8_t *code, size_t m)
{
    size_t i;

    if (length_refusal(m) != 0)
        return length_refusal(m);
    for (i = 0; i < m; i++)
        if (code[i] < 32)
            return 13;
    return 0;
}

/* Whether the first p bytes have a border of length b, for b below p. */
static int is_border(const uint8_t *code, size_t p, size_t b)
{
    return memcmp(code, code + (p - b), b) == 0;
}

/* The targets of the backward arrows of state p, the largest first; how many. */
static size_t plain_targets(const uint8_t *code, size_t m, size_t p, size_t *targets)
{
    uint8_t seen[256] = {0};
    size_t b, count = 0;

    if (p < m)
        seen[code[p]] = 1; /* the forward label */
    for (b = p; b-- > 0;) {
        if (is_border(code, p, b) && !seen[code[b]]) {
            seen[code[b]] = 1;
            targets[count++] = b + 1;
        }
    }
    return count;
}

/* The room that preparing a code of m bytes asks for: with numbers of one byte for at most 255, of two for more. */
static size_t plain_room(size_t m)
{
    return m <= 255 ? 3 * m + 2 : 5 * m + 5;
}

/* Puts a number of the sheet of a code of m bytes there; answers the place behind it. */
static uint8_t *put_number(uint8_t *place, size_t m, size_t number)
{
    if (m > 255)
        *place++ = (uint8_t)(number / 256);
    *place++ = (uint8_t)(number % 256);
    return place;
}

/* The sheet of an accepted code; its length. */
static size_t plain_sheet(const uint8_t *code, size_t m, uint8_t *sheet)
{
    static size_t targets[FINDER_LONGEST_CODE];
    uint8_t *counts, *end;
    size_t p, i, count, arrows = 0;

    if (m > 255)
        *sheet = 0;
    counts = put_number(m > 255 ? sheet + 1 : sheet, m, m);
    memcpy(counts, code, m);
    counts += m;
    end = counts + (m > 255 ? 2 : 1) * (m + 1);
    for (p = 0; p <= m; p++) {
        count = plain_targets(code, m, p, targets);
        arrows += count;
        if (arrows > m) {
            printf("the plain implementation finds more than m backward arrows\n");
            exit(1);
        }
        for (i = 0; i < count; i++)
            end = put_number(end, m, targets[i]);
        counts = put_number(counts, m, arrows);
    }
    return (size_t)(end - sheet);
}

/* 1 + log2 m rounded down, or the number of different bytes if that is smaller. */
static int64_t plain_byte_ceiling(const uint8_t *code, size_t m)
{
    uint8_t occurs[256] = {0};
    int64_t log = 0, different = 0;
    size_t i;

    if (code_refusal(code, m) != 0)
        return -code_refusal(code, m);
    for (i = 0; i < m; i++)
        occurs[code[i]] = 1;
    for (i = 0; i < 256; i++)
        different += occurs[i];
    while (((size_t)2 << log) <= m)
        log++;
    return 1 + log < different ? 1 + log : different;
}

static int64_t plain_total_ceiling(uint32_t m, uint32_t n)
{
    if (length_refusal(m) != 0)
        return -length_refusal(m);
    return (int64_t)((2 * (uint64_t)m - 1) * n / m);
}

/* ---- Pseudo-random numbers: xorshift with a fixed seed, so that every run is the same */

static uint64_t random_state = 88172645463325252u;

static uint64_t next_random(void)
{
    random_state ^= random_state << 13;
    random_state ^= random_state >> 7;
    random_state ^= random_state << 17;
    return random_state;
}

static size_t random_below(size_t n)
{
    return (size_t)(next_random() % n);
}

/* Random bytes: so many different ones, from the first on. */
static void fill_random(uint8_t *bytes, size_t n, size_t first, size_t values)
{
    size_t i;

    for (i = 0; i < n; i++)
        bytes[i] = (uint8_t)(first + random_below(values));
}

/* ---- Comparing one call */

enum { GUARD = 64, LONG_CODE = 70000, LARGE_BUFFER = FINDER_LONGEST_SHEET + 100 };

static unsigned long calls_compared;

/* What is lent, and what must stand there after the call: a guard, the lent bytes, a guard. */
static uint8_t code_lent[GUARD + LONG_CODE + GUARD], code_after[sizeof code_lent];
static uint8_t buffer_lent[GUARD + LARGE_BUFFER + GUARD], buffer_after[sizeof buffer_lent];

static void lend_code(const uint8_t *code, size_t m)
{
    fill_random(code_lent, GUARD, 0, 256);
    memcpy(code_lent + GUARD, code, m);
    fill_random(code_lent + GUARD + m, GUARD, 0, 256);
    memcpy(code_after, code_lent, GUARD + m + GUARD);
}

static void lend_buffer(size_t room)
{
    fill_random(buffer_lent, GUARD + room + GUARD, 0, 256);
    memcpy(buffer_after, buffer_lent, GUARD + room + GUARD);
}

/* Whether n lent bytes and their guards are as they must be; otherwise says where not. */
static int memory_good(const char *name, const uint8_t *lent, const uint8_t *after, size_t n)
{
    size_t i = 0;

    if (memcmp(lent, after, GUARD + n + GUARD) == 0)
        return 1;
    while (lent[i] == after[i])
        i++;
    printf("%s of %zu bytes: at %ld stands %02x, expected %02x\n", name, n, (long)i - GUARD, (unsigned)lent[i], (unsigned)after[i]);
    return 0;
}

/* Compares the answer to a call that was lent a code of m bytes and a buffer, and what the call left there. */
static void compare(const char *name, size_t m, size_t room, int64_t answer, int64_t expected)
{
    size_t i;

    calls_compared++;
    if (memory_good("code", code_lent, code_after, m) && memory_good("buffer", buffer_lent, buffer_after, room) && answer == expected)
        return;
    printf("%s: answer %" PRId64 ", expected %" PRId64 "; buffer of %zu bytes; code of %zu bytes:", name, answer, expected, room, m);
    for (i = 0; i < m && i < 256; i++)
        printf(" %02x", (unsigned)code_after[GUARD + i]);
    printf("\n");
    exit(1);
}

static void compare_prepare(size_t m, size_t room, int64_t expected)
{
    compare("finder_prepare", m, room, finder_prepare(code_lent + GUARD, m, buffer_lent + GUARD, room), expected);
}

static void compare_byte_ceiling(const uint8_t *code, size_t m, int64_t expected)
{
    lend_code(code, m);
    compare("finder_byte_ceiling", m, 0, finder_byte_ceiling(code_lent + GUARD, m), expected);
}

static void compare_total_ceiling(uint32_t m, uint32_t n, int64_t expected)
{
    int64_t answer = finder_total_ceiling(m, n);

    calls_compared++;
    if (answer == expected)
        return;
    printf("finder_total_ceiling of %" PRIu32 " and %" PRIu32 ": answer %" PRId64 ", expected %" PRId64 "\n", m, n, answer, expected);
    exit(1);
}

/* ---- Document 01's samples, limits and refusals, as they are written there */

static const uint8_t *bytes(const char *text)
{
    return (const uint8_t *)text;
}

/* Preparing a code in a buffer of so many bytes leaves so many bytes of sheet, or is refused and leaves none. */
static void sample_prepare(const uint8_t *code, size_t m, size_t room, int64_t answer, const char *sheet)
{
    lend_code(code, m);
    lend_buffer(room);
    if (answer > 0)
        memcpy(buffer_after + GUARD, sheet, (size_t)answer);
    compare_prepare(m, room, answer);
}

/* The sheet of a code of 256 equal bytes: one arrow, from the last state to itself. */
static void sample_wide(const uint8_t *code, size_t room)
{
    uint8_t sheet[775] = {0, 1, 0};

    memcpy(sheet + 3, code, 256);
    memcpy(sheet + 771, "\0\1\1\0", 4);
    sample_prepare(code, 256, room, 775, (const char *)sheet);
}

static void check_samples(void)
{
    uint8_t many[4001];

    memset(many, 'a', sizeof many);
    sample_prepare(bytes("a"), 1, 5, 5, "\x01\x61\x00\x01\x01");
    sample_prepare(bytes("aaa"), 3, 11, 9, "\x03\x61\x61\x61\x00\x00\x00\x01\x03");
    sample_prepare(bytes("aab"), 3, 11, 10, "\x03\x61\x61\x62\x00\x00\x01\x02\x02\x01");
    sample_prepare(bytes("abaab"), 5, 17, 16, "\x05\x61\x62\x61\x61\x62\x00\x01\x01\x02\x03\x04\x01\x02\x01\x03");

    sample_prepare(bytes("aab"), 3, FINDER_LONGEST_SHEET, 10, "\x03\x61\x61\x62\x00\x00\x01\x02\x02\x01");
    sample_wide(many, 1285);
    sample_wide(many, FINDER_LONGEST_SHEET);

    sample_prepare(bytes(""), 0, FINDER_LONGEST_SHEET, -1, "");
    sample_prepare(bytes(""), 0, 0, -1, "");
    sample_prepare(many, 4001, FINDER_LONGEST_SHEET, -2, "");
    sample_prepare(many, 4001, 0, -2, "");
    sample_prepare(bytes("aab"), 3, 10, -3, "");
    sample_prepare(many, 255, 766, -3, "");
    sample_prepare(many, 256, 1284, -3, "");
    sample_prepare(many, 4000, FINDER_LONGEST_SHEET - 1, -3, "");
    sample_prepare(bytes("R12\r"), 4, 767, -13, "");
    sample_prepare(bytes("R12\n"), 4, 0, -13, "");

    compare_byte_ceiling(bytes("aaaa"), 4, 1);
    compare_byte_ceiling(bytes("abac"), 4, 3);
    compare_byte_ceiling(bytes(""), 0, -1);
    compare_byte_ceiling(many, 255, 1);
    compare_byte_ceiling(many, 256, 1);
    compare_byte_ceiling(many, 4000, 1);
    compare_byte_ceiling(many, 4001, -2);
    compare_byte_ceiling(bytes("R12\n"), 4, -13);

    compare_total_ceiling(2, 4, 6);
    compare_total_ceiling(4, 4, 7);
    compare_total_ceiling(5, 0, 0);
    compare_total_ceiling(2, 3, 4);
    compare_total_ceiling(255, 255, 509);
    compare_total_ceiling(255, 256, 510);
    compare_total_ceiling(256, 256, 511);
    compare_total_ceiling(4000, 4000, 7999);
    compare_total_ceiling(4000, 4294967295u, 8588860848);
    compare_total_ceiling(0, 5, -1);
    compare_total_ceiling(4001, 5, -2);
}

/* ---- The plain implementation's answers */

/* Prepares a code in a buffer of so many bytes. Its sheet is given, of no bytes if it has none. */
static void check_prepare(const uint8_t *code, size_t m, size_t room, const uint8_t *sheet, size_t length)
{
    int64_t expected = code_refusal(code, m) != 0 ? -code_refusal(code, m) : room < plain_room(m) ? -3 : (int64_t)length;

    lend_code(code, m);
    lend_buffer(room);
    if (expected > 0)
        memcpy(buffer_after + GUARD, sheet, length);
    compare_prepare(m, room, expected);
}

/* Both functions that take a code, preparing with several buffers: the largest is larger than any code of this layout needs. */
static void check_code(const uint8_t *code, size_t m)
{
    static uint8_t sheet[FINDER_LONGEST_SHEET];
    size_t length = code_refusal(code, m) == 0 ? plain_sheet(code, m, sheet) : 0;

    compare_byte_ceiling(code, m, plain_byte_ceiling(code, m));
    check_prepare(code, m, 0, sheet, length);
    if (m <= FINDER_LONGEST_CODE) {
        check_prepare(code, m, plain_room(m) - 1, sheet, length);
        check_prepare(code, m, plain_room(m), sheet, length);
        check_prepare(code, m, plain_room(m) + random_below(100), sheet, length);
    }
    check_prepare(code, m, m <= 255 ? 1024 : LARGE_BUFFER, sheet, length);
}

/* Every code of up to so many bytes over the first few of these values. */
static void check_all_short(size_t values, size_t longest)
{
    static const uint8_t value[] = {0x61, 0x20, 0xff, 0x80};
    uint8_t digit[16] = {0}, code[16];
    size_t m, i;

    for (m = 1; m <= longest; m++) {
        do {
            for (i = 0; i < m; i++)
                code[i] = value[digit[i]];
            check_code(code, m);
            for (i = 0; i < m && ++digit[i] == values; i++)
                digit[i] = 0;
        } while (i < m);
    }
}

/* The exponent of 2 in n, for n of 1 or more. */
static uint8_t twos(size_t n)
{
    uint8_t k = 0;

    while (n % 2 == 0) {
        n /= 2;
        k++;
    }
    return k;
}

/* The Fibonacci word abaababaabaab..: each stage is the stage before, followed by the one before that. Its starts have many borders. */
static void fill_fibonacci(uint8_t *code, size_t m)
{
    size_t i, last = 2, before = 1;

    code[0] = 'a';
    code[1] = 'b';
    for (i = 2; i < m; i++) {
        if (i == last + before) {
            last += before;
            before = last - before;
        }
        code[i] = code[i - last];
    }
}

/* A code of each shape, with many borders or none. */
static void check_shapes(size_t m)
{
    static uint8_t code[FINDER_LONGEST_CODE];
    size_t i, period;

    memset(code, 'a', m); /* a..a */
    check_code(code, m);
    code[m - 1] = 'b'; /* a..ab */
    check_code(code, m);
    memset(code, 'b', m); /* ab..b */
    code[0] = 'a';
    check_code(code, m);
    for (i = 0; i < m; i++)
        code[i] = (uint8_t)(32 + i % 224); /* all different, as long as there are so many */
    check_code(code, m);
    for (i = 0; i < m; i++)
        code[i] = (uint8_t)('a' + twos(i + 1)); /* the ruler: abacabad.. */
    check_code(code, m);
    for (period = 2; period <= 5; period++) {
        for (i = 0; i < m; i++)
            code[i] = (uint8_t)('a' + (i % period == 0)); /* baabaa.. */
        check_code(code, m);
    }
    fill_fibonacci(code, m);
    check_code(code, m);
}

/* Every length up to where the sheets have been wide for a while, and some up to the longest. */
static void check_regular(void)
{
    static const size_t length[] = {300, 511, 512, 513, 768, 1000, FINDER_LONGEST_CODE};
    size_t m, i;

    for (m = 1; m <= 260; m++)
        check_shapes(m);
    for (i = 0; i < sizeof length / sizeof *length; i++)
        check_shapes(length[i]);
}

/* Random codes of up to so many bytes over few or many values, and random words repeated, with one byte changed or none, and with one below 32. */
static void check_random(int count, size_t longest)
{
    static uint8_t code[FINDER_LONGEST_CODE];
    size_t m, i, period;

    while (count-- > 0) {
        m = 1 + random_below(longest);
        fill_random(code, m, 32, 1 + random_below(count % 2 ? 4 : 224));
        check_code(code, m);
        period = 1 + random_below(m);
        for (i = period; i < m; i++)
            code[i] = code[i - period];
        check_code(code, m);
        code[random_below(m)] ^= 1;
        check_code(code, m);
        code[random_below(m)] = (uint8_t)random_below(32);
        check_code(code, m);
    }
}

/* Every byte at every index of short codes: those below 32 are refused, and no others. */
static void check_every_byte(void)
{
    uint8_t code[6];
    size_t m, i;
    unsigned byte;

    for (m = 1; m <= sizeof code; m++)
        for (i = 0; i < m; i++)
            for (byte = 0; byte < 256; byte++) {
                memcpy(code, "abaaba", sizeof code);
                code[i] = (uint8_t)byte;
                check_code(code, m);
            }
}

/* Codes that are too long, also by lengths whose last bytes are those of a good one. They have bytes below 32 too, and are refused as too long. */
static void check_too_long(void)
{
    static const size_t length[] = {4001, 4002, 4095, 4096, 4351, 5000, 8192, 65535, 65536, 65537, 65541, 65792, 69536, LONG_CODE};
    static uint8_t code[LONG_CODE];
    size_t i;

    fill_random(code, LONG_CODE, 0, 256);
    check_code(code, 0);
    for (i = 0; i < sizeof length / sizeof *length; i++)
        check_code(code, length[i]);
}

/* Lengths and byte counts at their limits, and random ones. */
static void check_total_ceilings(void)
{
    static const uint32_t limit[] = {65535, 65536, 65537, 16777216, 2147483647, 2147483648u, 4294967040u, 4294967294u, 4294967295u};
    const size_t limits = sizeof limit / sizeof *limit;
    uint32_t m, n;
    size_t i, j;

    for (m = 0; m <= 4010; m = m == 300 ? 3990 : m + 1) {
        for (n = 0; n <= 600; n++)
            compare_total_ceiling(m, n, plain_total_ceiling(m, n));
        for (i = 0; i < limits; i++)
            compare_total_ceiling(m, limit[i], plain_total_ceiling(m, limit[i]));
        for (i = 0; i < 100; i++) {
            n = (uint32_t)next_random();
            compare_total_ceiling(m, n, plain_total_ceiling(m, n));
        }
    }
    for (i = 0; i < limits; i++)
        for (j = 0; j < limits; j++)
            compare_total_ceiling(limit[i], limit[j], plain_total_ceiling(limit[i], limit[j]));
}

int main(void)
{
    check_samples();
    check_all_short(2, 11);
    check_all_short(3, 7);
    check_all_short(4, 6);
    check_regular();
    check_random(1000, 255);
    check_random(50, 1000);
    check_random(2, FINDER_LONGEST_CODE);
    check_every_byte();
    check_too_long();
    check_total_ceilings();
    printf("test_desk: %lu calls compared, no difference\n", calls_compared);
    return 0;
}
