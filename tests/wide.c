#include "wide.h"

#include <inttypes.h>
#include <stdio.h>
#include <string.h>

#include "cuttings.h"
#include "odd.h"

enum { FRONT = 3 }; /* bytes before the code in a wide sheet */

/* ---- Codes */

/* A shape fills the code's m bytes. */
typedef void shape(void);

static void one_letter(void)
{
    memset(code, 'a', m);
}

static void another_last(void)
{
    memset(code, 'a', m);
    code[m - 1] = 255;
}

/* The bytes from 32 on, again and again. */
static void different(void)
{
    size_t i;

    for (i = 0; i < m; i++)
        code[i] = (uint8_t)(32 + i % 224);
}

/* The Fibonacci word abaababa..: each stage is the one before it, followed by the one before that. */
static void fibonacci(void)
{
    size_t i, last = 2, before = 1;

    code[0] = 'a';
    code[1] = 'b';
    for (i = 2; i < m; i++) {
        if (i == last + before) {
            last += before;
            before = last - before;
        }
        code[i] = code[i - last];
    }
}

/* The ruler word abacabad..: a letter is the number of times that 2 divides its place, counted from 1. Its states have the most arrows. */
static void ruler(void)
{
    size_t i, k;

    for (i = 1; i <= m; i++) {
        code[i - 1] = 'a';
        for (k = i; k % 2 == 0; k /= 2)
            code[i - 1]++;
    }
}

/* A random word of two letters, of 4 bytes more than a byte can count, again and again: targets have a high byte, and nearly every state has arrows. */
static void long_period(void)
{
    size_t i;

    seed_random(m);
    for (i = 0; i < m; i++)
        code[i] = i < 260 ? from_32(random_letter(2)) : code[i - 260];
}

static shape *const shapes[] = {one_letter, another_last, different, fibonacci, ruler, long_period};

enum { SHAPES = sizeof shapes / sizeof *shapes };

static void use_shape(shape *fill, size_t length)
{
    m = length;
    fill();
    use_code();
}

/* ---- Preparing */

/* What the wide sheets of a group have had: a count and a target with a high byte. */
static int high_count, high_target;

static void look_at_sheet(void)
{
    const uint8_t *last_count = sheet + FRONT + m + 2 * m;

    high_count |= last_count[0] > 0;
    high_target |= sheet_length > FRONT + m + 2 * (m + 1) && sheet[sheet_length - 2] > 0;
}

static void try_lengths(void)
{
    static const size_t lengths[] = {253, 254, 255, 256, 257, 258, 300, 511, 512, 513, 767, 768, 1000, 1023, 1024, 2048, 4000};
    size_t k, l;

    begin_group("codes of 253 to 4,000 bytes, prepared");
    high_count = high_target = 0;
    for (l = 0; l < sizeof lengths / sizeof *lengths; l++)
        for (k = 0; k < SHAPES; k++) {
            use_shape(shapes[k], lengths[l]);
            if (m > LONGEST_SHORT)
                look_at_sheet();
        }
    if (!high_count || !high_target)
        differ("no count or no target has a high byte: the test tries too little");
    end_group();
}

/* A code with a control byte at an index, in no room and in enough. */
static void try_control_at(size_t i)
{
    uint8_t byte = code[i];

    code[i] = 31;
    compare_prepare(0);
    compare_prepare(SHEET_ROOM);
    code[i] = byte;
}

static void try_rooms(void)
{
    static const size_t rooms[] = {0, 767, 770, 12002, 20004, 20005, 20006};
    static const size_t places[] = {0, 1, 254, 255, 256, 257, 3998, 3999};
    size_t k;

    begin_group("codes of 256, 257, 4,000 and 4,001 bytes in buffers of other sizes, and with control bytes");
    for (m = 256; m <= 257; m++) {
        fibonacci();
        for (k = 0; k <= 5 * m + 6; k++)
            compare_prepare(k);
        for (k = 0; k < m; k++)
            try_control_at(k);
    }
    for (m = 4000; m <= 4001; m++) {
        fibonacci();
        for (k = 0; k < sizeof rooms / sizeof *rooms; k++)
            compare_prepare(rooms[k]);
        for (k = 0; k < sizeof places / sizeof *places; k++)
            try_control_at(places[k]);
    }
    end_group();
}

/* ---- Wrong sheets */

static const uint8_t changes[] = {1, 3, 128, 255};

/* The sheet with m as each number of two bytes. */
static void try_every_length(void)
{
    static uint8_t wrong[SHEET_ROOM];
    unsigned number;

    memcpy(wrong, sheet, sheet_length);
    for (number = 0; number < 65536; number++) {
        wrong[1] = (uint8_t)(number / 256);
        wrong[2] = (uint8_t)(number % 256);
        if ((try_buffer(wrong, sheet_length) == 0) != (number == m))
            differ("a sheet is taken with another length in it, or not with its own");
    }
}

/* The sheet with other bytes behind it is taken as it is. */
static void try_behind(uint8_t byte)
{
    static uint8_t longer[SHEET_ROOM + BEHIND];

    memset(longer, byte, sizeof longer);
    memcpy(longer, sheet, sheet_length);
    if (try_buffer(longer, sheet_length) != 0 || try_buffer(longer, sheet_length + 1) != 0 || try_buffer(longer, sizeof longer) != 0)
        differ("a sheet is not taken, for the bytes behind it");
}

/* The sheet of a code of about 4,000 bytes with some bytes of each field changed, and ending near each field's start and end. Of the code itself few
   are changed, since the plain sheet of each such code takes long. */
static void spoil_fields(void)
{
    const size_t fields[] = {0, FRONT, FRONT + m, FRONT + m + 2 * (m + 1), sheet_length};
    size_t k;

    spoil_bytes(0, FRONT, 1, changes, sizeof changes);
    spoil_bytes(FRONT, FRONT + m, m - 1, changes, 1);
    spoil_bytes(FRONT + 255, FRONT + 257, 1, changes, 1);
    for (k = 2; k < 4; k++) {
        spoil_bytes(fields[k], fields[k] + 4, 1, changes, sizeof changes);
        spoil_bytes(fields[k], fields[k + 1], 97, changes, sizeof changes);
        spoil_bytes(fields[k + 1] - 4, fields[k + 1], 1, changes, sizeof changes);
    }
    for (k = 0; k < 4; k++) {
        cut_off(fields[k], fields[k] + 4);
        cut_off(fields[k + 1] - 4, fields[k + 1]);
    }
}

static void try_wrong_wide(void)
{
    size_t k;

    begin_group("wide sheets with one byte changed, with another length in them, with their end cut off or with bytes behind them");
    taken_as_sheets = 0;
    for (k = 0; k < SHAPES; k++) {
        use_shape(shapes[k], 256 + k);
        if (k < 2)
            try_every_length();
        spoil_bytes(0, FRONT, 1, changes, sizeof changes);
        spoil_bytes(FRONT, FRONT + m, 1, changes, 1);
        spoil_bytes(FRONT + m, sheet_length, 1, changes, sizeof changes);
        cut_off(0, sheet_length);
        try_behind(0);
        try_behind(255);
    }
    use_shape(ruler, LONGEST_CODE);
    spoil_fields();
    try_behind(1);
    use_shape(fibonacci, LONGEST_CODE - 1);
    spoil_fields();
    end_group();
    printf("beside: %" PRIu64 " of them are taken: with bytes behind them, or as the sheet of another code\n", taken_as_sheets);
}

/* What would be the code's sheet with numbers of so many bytes, and is none. */
static void try_other_layout(size_t width)
{
    static uint8_t other[SHEET_ROOM + BEHIND];

    if (try_buffer(other, plain_layout(width, code, m, other)) != 4)
        differ("a sheet in the layout of other codes is taken");
}

/* Each code has one sheet: the wide one of a short code is none, nor the short one of a long code, whose length has no room in it. One of more than 4,000
   bytes has none. */
static void try_layouts(void)
{
    static uint8_t other[SHEET_ROOM];
    size_t k;

    begin_group("wide sheets of codes of 1 to 255 bytes and of 4,001, and short ones of 256 to 600");
    for (k = 0; k < SHAPES; k++) {
        for (m = 2; m <= LONGEST_SHORT; m++) {
            shapes[k]();
            try_other_layout(2);
        }
        for (m = 256; m <= 600; m += m < 260 || (m > 507 && m < 515) ? 1 : 17) {
            shapes[k]();
            try_other_layout(1);
        }
    }
    m = 1;
    one_letter();
    try_other_layout(2);
    m = LONGEST_CODE + 1;
    fibonacci();
    try_other_layout(2);
    m = 257; /* its short layout has the length 1, and here begins with the sheet of `a` */
    one_letter();
    memcpy(code, "a\0\1\1", 4);
    if (try_buffer(other, plain_layout(1, code, m, other)) != 0)
        differ("the sheet of `a` is not taken, for the bytes behind it");
    end_group();
}

/* ---- Runs */

static uint64_t places_found;

/* The text is much like the code: in pieces of every size, with lists of a few places and refused calls between. */
static void run_wide(size_t length)
{
    size_t end;

    put_text_like_code(2, length);
    use_text();
    cutting.behind = 0;
    run_sizes(n, 1, LIST, 1);
    run_random(m, 1 + random_below(LIST), 0);
    cutting.behind = 1;
    run_sizes(m - 1, 1000, 1, 0);
    run_random(700, 1, 1);
    run_random(50, 2, 0);
    for (end = m; end <= n; end++)
        places_found += memcmp(text + end - m, code, m) == 0;
}

static void try_runs(void)
{
    static const size_t lengths[] = {255, 256, 257, 300, 520, 1000};
    size_t k, l;

    begin_group("codes of 255 to 1,000 bytes in texts that are much like them");
    places_found = 0;
    for (l = 0; l < sizeof lengths / sizeof *lengths; l++)
        for (k = 0; k < SHAPES; k++) {
            use_shape(shapes[k], lengths[l]);
            put_text_like_code(256, 3 * m);
            run_some_sizes();
            run_wide(4 * m);
        }
    end_group();
    begin_group("codes of 3,999 and 4,000 bytes in texts that are much like them");
    for (k = 0; k < SHAPES; k++) {
        use_shape(shapes[k], LONGEST_CODE - k % 2);
        run_wide(9000 + 500 * k);
    }
    use_shape(long_period, LONGEST_CODE);
    put_text_like_code(2, 6000);
    use_text();
    run_sizes(0, 1, 1, 0);
    end_group();
    printf("beside: in these texts the codes stand at %" PRIu64 " places\n", places_found);
    if (places_found < 1000)
        differ("too few places: the test tries too little");
}

/* ---- Watches */

static void try_wide_watches(void)
{
    static const uint32_t taken[] = {0, 1, 255, 256, 257, 3999, 4000, 4001, 2147483648u, 4294967293u, 4294967295u};
    size_t k;

    begin_group("any watch with wide sheets, at the limits of its numbers and of the longest text");
    use_shape(long_period, 256);
    for (k = 0; k < sizeof taken / sizeof *taken; k++)
        try_watches_of(taken[k]);
    use_shape(ruler, LONGEST_CODE);
    for (k = 0; k < sizeof taken / sizeof *taken; k++)
        try_watches_of(taken[k]);
    end_group();
}

void try_wide(void)
{
    try_lengths();
    try_rooms();
    try_wrong_wide();
    try_layouts();
    try_runs();
    try_wide_watches();
}
