#include "board_lists.h"

#include <stdlib.h>
#include <string.h>

#include "board_codes.h"

/* Preparing refuses the codes with this number, whatever the room; where it would refuse nothing, too little room is 3. */
static void expect_refusal(uint32_t number)
{
    if (compare_prepare(BOARD_ROOM) != number || compare_prepare(sizeof board) != number)
        differ("preparing answers another refusal than the test has in mind");
    if (compare_prepare(BOARD_ROOM - 1) != (number == 0 ? 3 : number) || compare_prepare(0) != (number == 0 ? 3 : number))
        differ("preparing in too little room answers another refusal than the test has in mind");
}

/* Each length as 0, as 4,001 and as the largest number, whatever else is wrong: 1 before 2 and both before all others. */
static void try_odd_lengths(void)
{
    static const uint32_t odd[] = {0, 4001, 65536 + 3, 4294967295u};
    uint32_t before;
    size_t j, k;

    for (j = 0; j < count; j++)
        for (k = 0; k < sizeof odd / sizeof *odd; k++) {
            before = lengths[j];
            lengths[j] = odd[k];
            expect_refusal(k == 0 ? 1 : 2);
            lengths[j] = before;
        }
    for (j = 0; j + 1 < count; j++) {
        uint32_t next = lengths[j + 1];
        before = lengths[j];
        lengths[j] = 4294967295u;
        lengths[j + 1] = 0;
        expect_refusal(1);
        lengths[j] = 0;
        lengths[j + 1] = 4001;
        expect_refusal(1);
        lengths[j] = before;
        lengths[j + 1] = next;
    }
}

/* Lengths that add up to less or more than the bytes. Those that add up to their number in 16 bits, or with the largest length in 32, are none either. */
static void try_sums(void)
{
    size_t j;

    put_numbered(5, 3);
    size++;
    expect_refusal(10);
    size -= 2;
    expect_refusal(10);
    size++;
    expect_refusal(0);
    lengths[4]--;
    expect_refusal(10);
    lengths[4] += 2;
    expect_refusal(10);
    lengths[4] = 4000;
    expect_refusal(10);
    put_numbered(64, 15);
    for (j = 0; j < 64; j++)
        lengths[j] += 1024;
    expect_refusal(10);
    size = 0;
    expect_refusal(10);
    lengths[0] = 4294967295u;
    lengths[1] = 5;
    count = 2;
    size = 4;
    expect_refusal(2);
}

/* No code, too many of them, and too many bytes. */
static void try_counts(void)
{
    size_t codes;

    no_codes();
    expect_refusal(10);
    size = 1;
    expect_refusal(10);
    for (codes = 1; codes <= 70; codes++) {
        put_numbered(codes, 2);
        expect_refusal(codes <= MOST_CODES ? 0 : 10);
    }
    put_numbered(70, 2);
    lengths[69] = 0;
    expect_refusal(1);
    lengths[69] = 4001;
    expect_refusal(2);
    lengths[64] = 0;
    expect_refusal(1);
    put_numbered(1, MOST_BYTES);
    expect_refusal(0);
    put_numbered(1, MOST_BYTES + 1);
    expect_refusal(10);
    put_numbered(40, 50);
    expect_refusal(0);
    put_code((const uint8_t *)"a", 1);
    expect_refusal(10);
    bytes[0] = 31;
    expect_refusal(10);
    memset(bytes, 'a', size);
    expect_refusal(10);
    put_numbered(1, 4000);
    expect_refusal(10);
    put_numbered(1, 4001);
    expect_refusal(2);
}

/* A byte below 32 anywhere, also in codes of which one stands there twice. */
static void try_control_bytes(void)
{
    static const uint8_t values[] = {0, 10, 31};
    uint8_t before;
    size_t i, k;

    put_numbered(9, 4);
    for (i = 0; i < size; i++) {
        before = bytes[i];
        for (k = 0; k < sizeof values; k++) {
            bytes[i] = values[k];
            expect_refusal(13);
        }
        bytes[i] = 32;
        expect_refusal(0);
        bytes[i] = before;
    }
    memset(bytes, 'a', size);
    expect_refusal(11);
    bytes[size - 1] = 31;
    expect_refusal(13);
    put_numbered(1, MOST_BYTES);
    bytes[size - 1] = 31;
    expect_refusal(13);
}

/* A code twice, at each two of so many places: with others before, between and behind them that begin or end like it. */
static void try_twice(size_t codes, size_t length)
{
    size_t i, j;

    for (i = 0; i < codes; i++)
        for (j = 0; j < i; j++) {
            put_numbered(codes, length);
            memcpy(bytes + i * length, bytes + j * length, length);
            expect_refusal(11);
            bytes[i * length + length - 1] = 255;
            expect_refusal(0);
        }
}

/* More lengths than 32 bits can add up, and not more than can be lent: their sum is 704 in 32 bits. */
static void try_vast_list(void)
{
    enum { VAST_COUNT = 1073742 };
    static const uint8_t codes[704] = {32};
    static uint8_t buffer[BOARD_ROOM];
    static const uint8_t untouched[BOARD_ROOM];
    uint32_t *vast_lengths = malloc(VAST_COUNT * sizeof *vast_lengths);
    const uint32_t last[] = {4000, 4001, 0};
    const uint32_t refusals[] = {10, 2, 1};
    size_t j, k;

    if (vast_lengths == NULL)
        differ("no memory for a list of 1,073,742 lengths");
    for (j = 0; j < VAST_COUNT; j++)
        vast_lengths[j] = 4000;
    for (k = 0; k < 3; k++) {
        struct prepared answer;
        vast_lengths[VAST_COUNT - 1] = last[k];
        answer = entries_prepare_board(vast_lengths, VAST_COUNT, codes, sizeof codes, buffer, sizeof buffer);
        count_call();
        if (answer.refusal != refusals[k] || answer.length != 0 || memcmp(buffer, untouched, sizeof buffer) != 0)
            differ("preparing a list of 1,073,742 lengths");
    }
    free(vast_lengths);
}

void try_refused_lists(void)
{
    begin_group("lists of codes that preparing refuses: 1, 2, 10, 13, 11 and 3, and their order");
    put_numbered(1, 1);
    try_odd_lengths();
    put_numbered(64, 3);
    try_odd_lengths();
    memset(bytes, 31, size);
    try_odd_lengths();
    put_numbered(66, 1);
    memset(bytes, 'a', size);
    try_odd_lengths();
    try_sums();
    try_counts();
    try_control_bytes();
    try_twice(2, 1);
    try_twice(9, 1);
    try_twice(5, 7);
    try_twice(64, 2);
    try_twice(3, 600);
    try_vast_list();
    end_group();
}
