#include "odd.h"

#include <string.h>

/* ---- Sheets */

uint64_t taken_as_sheets;

uint32_t try_buffer(const uint8_t *buffer, size_t length)
{
    struct call c;
    uint32_t refusal;

    c.sheet = buffer;
    c.sheet_length = length;
    c.watch = opened;
    c.piece = code;
    c.piece_length = m;
    c.room = 1;
    refusal = compare_plain(&c);
    if (refusal != 0 && refusal != 4)
        differ("a wrong sheet is refused with another number");
    taken_as_sheets += refusal == 0;
    return refusal;
}

void spoil_bytes(size_t from, size_t end, size_t stride, const uint8_t *changes, size_t count)
{
    static uint8_t wrong[SHEET_ROOM];
    size_t i, k;

    memcpy(wrong, sheet, sizeof wrong);
    for (i = from; i < end; i += stride) {
        for (k = 0; k < count; k++) {
            wrong[i] = (uint8_t)(sheet[i] ^ changes[k]);
            try_buffer(wrong, sheet_length);
        }
        wrong[i] = sheet[i];
    }
}

void cut_off(size_t from, size_t end)
{
    size_t length;

    for (length = from; length < end; length++)
        if (try_buffer(sheet, length) != 4)
            differ("a part of a sheet is taken");
}

/* ---- Watches */

/* A piece with lists of 0 to 2 places, and with the sheet and without its first byte, which is no sheet. */
static void try_piece(const struct fed *x, const uint8_t *piece, size_t length)
{
    struct call c;

    c.sheet_length = sheet_length;
    c.watch = *x;
    c.piece = piece;
    c.piece_length = length;
    for (c.room = 0; c.room <= 2; c.room++) {
        c.sheet = sheet;
        compare_plain(&c);
        c.sheet = sheet + 1;
        compare_plain(&c);
    }
}

/* A watch with pieces of 0 to 3 bytes from the code's end, and with one that is a byte too long. */
static void try_watch(uint32_t state, uint32_t taken, uint32_t hits, uint64_t compares)
{
    struct fed x = opened;
    size_t length;

    x.state = state;
    x.taken = taken;
    x.hits = hits;
    x.compares = compares;
    for (length = 0; length <= 3 && length <= m; length++)
        try_piece(&x, code + m - length, length);
    try_piece(&x, vast_piece, VAST - taken);
}

void try_watches_of(uint32_t taken)
{
    const uint32_t states[] = {0, 1, (uint32_t)m - 1, (uint32_t)m, (uint32_t)m + 1, 255, 256, taken, taken + 1, 4294967295u};
    const uint32_t hits[] = {0, taken, taken + 1};
    const uint64_t compares[] = {0, 2 * (uint64_t)taken, 2 * (uint64_t)taken + 1, 18446744073709551615u};
    size_t i, j, k;

    for (i = 0; i < sizeof states / sizeof *states; i++)
        for (j = 0; j < sizeof hits / sizeof *hits; j++)
            for (k = 0; k < sizeof compares / sizeof *compares; k++)
                try_watch(states[i], taken, hits[j], compares[k]);
}
