/* Offices, which keep a board each: holds calls that join two boards to many.c, to preparing the joined codes, and to what the two boards find in the text.
   The first difference ends the test. */
#ifndef BOARD_OFFICES_H
#define BOARD_OFFICES_H

#include "board_calls.h"

enum { LONGEST_BOARD = 4 + 3 * MOST_CODES + 4 * MOST_BYTES };

/* Codes, as lengths and bytes, and their board. */
struct office {
    uint32_t lengths[LENGTHS_HERE];
    uint8_t bytes[BYTES_HERE], board[LONGEST_BOARD];
    size_t count, size, board_length;
};

/* The list of codes as an office's: without a board, of which there may be none, and with it. */
void copy_codes(struct office *o);
void open_office(struct office *o);

/* An office's codes; one more code behind the list, number j of some codes, from 0. */
struct many codes_of(const struct office *o);
void put_code_of(const struct many *b, size_t j);

/* What a joining is given. */
struct join_call {
    const uint8_t *first, *second;
    size_t first_length, second_length;
    size_t room;
};

/* Two offices' boards, to be joined in a buffer of so many bytes. */
struct join_call call_of(const struct office *first, const struct office *second, size_t room);

/* To be called before any joining: maps the memory that is lent, behind which nothing can be read or written. */
void map_lent(void);

/* Joins, beside the plain joining. The same buffer twice is lent twice. */
struct prepared compare_join(const struct join_call *c);

/* Joins two offices' boards, beside preparing the joined codes, which the list and the joined office then have. Answers the refusal; without one the joined
   office has a board. */
uint32_t join(const struct office *first, const struct office *second, struct office *joined);

/* The text, in pieces of so many bytes, with each of the three boards: the joined one finds what the two find, each hit once and in order, and gives the
   first one's codes their numbers. */
void search_together(const struct office *first, const struct office *second, const struct office *joined, size_t piece);

/* How many hits of joined boards were of both boards, of the first alone and of the second alone. */
extern uint64_t hits_of_both, hits_of_first, hits_of_second;

#endif
