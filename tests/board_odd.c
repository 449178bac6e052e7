#include "board_odd.h"

#include <string.h>

#include "board_codes.h"

/* ---- Buffers that are no boards */

uint64_t taken_as_boards;

uint32_t feed_with(const uint8_t *buffer, size_t length)
{
    struct board_call c;

    c.board = buffer;
    c.board_length = length;
    c.watch = opened;
    c.piece = bytes;
    c.piece_length = size < 4 ? size : 4;
    c.place_room = c.number_room = MOST_CODES;
    return compare_plain(&c);
}

static uint32_t try_buffer(buffer_trial *lend, const uint8_t *buffer, size_t length)
{
    uint32_t refusal = lend(buffer, length);

    if (refusal != 0 && refusal != 4)
        differ("a wrong board is refused with another number");
    taken_as_boards += refusal == 0;
    return refusal;
}

void spoil_bytes(buffer_trial *lend, size_t from, size_t end, size_t stride, const uint8_t *changes, size_t changes_count)
{
    static uint8_t wrong[BOARD_HERE];
    size_t i, k;

    memcpy(wrong, board, board_length);
    for (i = from; i < end; i += stride) {
        for (k = 0; k < changes_count; k++) {
            wrong[i] = (uint8_t)(board[i] ^ changes[k]);
            if (try_buffer(lend, wrong, board_length) == 0 && i >= 1 + 2 * count + size)
                differ("a board is taken with other links");
        }
        wrong[i] = board[i];
    }
}

void cut_off(buffer_trial *lend)
{
    size_t length;

    for (length = 0; length < board_length; length++)
        if (try_buffer(lend, board, length) != 4)
            differ("a part of a board is taken");
}

void try_behind(buffer_trial *lend)
{
    static uint8_t longer[BOARD_ROOM + BEHIND];
    unsigned byte;

    for (byte = 0; byte < 256; byte += 15) {
        memset(longer, (int)byte, sizeof longer);
        memcpy(longer, board, board_length);
        if (try_buffer(lend, longer, board_length) != 0 || try_buffer(lend, longer, board_length + 1) != 0 || try_buffer(lend, longer, sizeof longer) != 0)
            differ("a board is not taken, for the bytes behind it");
    }
}

/* The layout of the codes, which are refused. */
static void try_layout(buffer_trial *lend)
{
    static uint8_t buffer[BOARD_HERE];
    struct many b = many_of(lengths, count, bytes);

    if (plain_codes_refusal(lengths, count, bytes, size) == 0)
        differ("the test has refused codes in mind");
    if (try_buffer(lend, buffer, plain_board(&b, buffer)) != 4)
        differ("the layout of codes that are refused is taken as a board");
}

void try_refused_layouts(const char *group, buffer_trial *lend)
{
    size_t i, j;

    begin_group(group);
    no_codes();
    try_layout(lend);
    for (i = 0; i < 6; i++)
        for (j = 0; j < i; j++) {
            put_numbered(6, 3);
            memcpy(bytes + 3 * i, bytes + 3 * j, 3);
            try_layout(lend);
        }
    for (i = 0; i < 18; i++) {
        put_numbered(6, 3);
        bytes[i] = 31;
        try_layout(lend);
    }
    put_numbered(65, 2);
    try_layout(lend);
    put_numbered(1, MOST_BYTES + 1);
    try_layout(lend);
    put_numbered(2, 1);
    put_code(bytes, 0);
    try_layout(lend);
    put_numbered(1, 4001);
    try_layout(lend);
    end_group();
}

/* ---- Watches */

/* The watch with lists of too few spots, just enough and more, either way; and without the board's first byte. */
static void try_lists(struct board_call *c)
{
    size_t k;

    for (k = 0; k < 9; k++) {
        c->place_room = count - 1 + k % 3;
        c->number_room = count - 1 + k / 3;
        c->board = board;
        compare_plain(c);
    }
    c->board = board + 1;
    compare_plain(c);
}

/* A watch with pieces of 0 to 2 bytes, the last of the codes, as far as its text may become as long, and with one that is a byte too long. */
static void try_watch(size_t state, uint32_t taken, uint64_t hits)
{
    struct board_call c;
    size_t length;

    c.board_length = board_length;
    c.watch = opened;
    c.watch.state = (uint32_t)state;
    c.watch.taken = taken;
    c.watch.hits = hits;
    for (length = 0; length <= 2 && length <= size; length++) {
        c.piece = bytes + size - length;
        c.piece_length = length;
        try_lists(&c);
    }
    c.piece = vast_piece;
    c.piece_length = VAST - taken;
    try_lists(&c);
}

static void try_taken(size_t state, uint32_t taken)
{
    uint64_t most = 64 * (uint64_t)taken;

    try_watch(state, taken, 0);
    try_watch(state, taken, most);
    try_watch(state, taken, most + 1);
    try_watch(state, taken, 18446744073709551615u);
}

static void try_state(size_t state)
{
    struct many b = many_of(lengths, count, bytes);
    size_t length = 0;

    if (state <= size)
        plain_start(&b, state, &length);
    try_taken(state, 0);
    if (length > 1)
        try_taken(state, (uint32_t)length - 1);
    try_taken(state, (uint32_t)length);
    try_taken(state, (uint32_t)length + 1);
    try_taken(state, 4294967293u);
    try_taken(state, 4294967295u);
}

/* A watch that took so many bytes, with the first bytes of the codes as the piece. */
static void try_start(size_t state, size_t taken)
{
    struct board_call c;

    c.board = board;
    c.board_length = board_length;
    c.watch = opened;
    c.watch.state = (uint32_t)state;
    c.watch.taken = (uint32_t)taken;
    c.piece = bytes;
    c.piece_length = size < 3 ? size : 3;
    c.place_room = c.number_room = count;
    compare_plain(&c);
}

void try_states(void)
{
    struct many b = many_of(lengths, count, bytes);
    size_t state, length;

    for (state = 0; state <= size; state++) {
        plain_start(&b, state, &length);
        try_start(state, length);
        if (length > 0)
            try_start(state, length - 1);
    }
}

void try_every_state(void)
{
    size_t state;

    for (state = 0; state <= size + 3; state++)
        try_state(state);
    try_state(65536);
    try_state(4294967295u);
}
