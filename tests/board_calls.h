/* Holds calls of the library with boards, as C makes them, to many.c: one call, or a run of calls over a text in pieces, which is also held to separate
   searches for each code. The first difference ends the test. */
#ifndef BOARD_CALLS_H
#define BOARD_CALLS_H

#include "many.h"
#include "report.h"

enum {
    GUARD = 8,     /* spots behind a list that is lent */
    BEHIND = 512,  /* bytes behind a board, which may be lent with it */
    LIST = 256,    /* spots in the longest list */
    PIECES = 16384 /* in the longest cutting */
};

/* The codes, as lengths and bytes; their board, with bytes behind it; the text. */
extern uint32_t lengths[LENGTHS_HERE];
extern uint8_t bytes[BYTES_HERE], board[BOARD_ROOM + BEHIND], text[TEXT_HERE];
extern size_t count, size, board_length, n;

/* So many bytes are too long a piece for any watch. They are lent, and never read. */
#define VAST ((size_t)4294967296u)
extern const uint8_t *vast_piece;

/* Where the pieces end, an empty one where the one before it does; the spots of the two lists; whether calls that are refused come before each; and whether
   the board is lent with the bytes behind it. */
struct cutting {
    size_t end[PIECES];
    size_t pieces;
    size_t place_room, number_room;
    int refused;
    int behind;
};

extern struct cutting cutting;

/* What a feeding is given. */
struct board_call {
    const uint8_t *board;
    size_t board_length;
    struct hit_numbers watch;
    const uint8_t *piece;
    size_t piece_length;
    size_t place_room, number_room;
};

extern const struct hit_numbers opened; /* a new watch */

/* Ends the test with exit status 1, and says what differs. */
void differ(const char *what);

/* The list of codes: none, and one more behind them. */
void no_codes(void);
void put_code(const uint8_t *code, size_t length);

/* Prepares the codes in the first bytes of `board`, so many. Answers the refusal. */
uint32_t compare_prepare(size_t room);

/* Feeds, beside the plain feeding. Answers the refusal. */
uint32_t compare_plain(const struct board_call *c);

/* To be called when the codes are there: makes their board, in a buffer that is too small and in one that is just large enough. */
void use_codes(void);

/* To be called when codes and text are there: works out what the naive search and the separate searches make of them. */
void use_text(void);

/* The text as it is cut, beside the searches: each piece is fed until it is done, each call with the watch that the one before it answered. */
void run(void);

/* How many hits the runs have had, and how many calls ended with a list full. */
extern uint64_t hits_told, lists_full;

#endif
