/* Holds calls of the library, as C makes them, to plain.c: one call, or a run of calls over a text in pieces. The first difference ends the test. */
#ifndef CALLS_H
#define CALLS_H

#include "plain.h"
#include "report.h"

enum {
    GUARD = 8,     /* places behind a list that is lent */
    BEHIND = 512,  /* bytes behind a sheet, which may be lent with it */
    LIST = 8,      /* places in the longest list */
    PIECES = 16384 /* in the longest cutting */
};

/* The code and its sheet, with bytes behind it; the text. */
extern uint8_t code[LONGEST_CODE + 1], sheet[SHEET_ROOM + BEHIND], text[LONGEST_TEXT_HERE];
extern size_t m, sheet_length, n;

/* So many bytes are too long a piece for any watch. They are lent, and never read. */
#define VAST ((size_t)4294967296u)
extern const uint8_t *vast_piece;

/* Where the pieces end, an empty one where the one before it does; the places of each list; whether calls that are refused come before each; and
   whether the sheet is lent with the bytes behind it. */
struct cutting {
    size_t end[PIECES];
    size_t pieces;
    size_t room;
    int refused;
    int behind;
};

extern struct cutting cutting;

/* What a feeding is given. */
struct call {
    const uint8_t *sheet;
    size_t sheet_length;
    struct fed watch;
    const uint8_t *piece;
    size_t piece_length;
    size_t room;
};

extern const struct fed opened; /* a new watch */

/* Ends the test with exit status 1, and says what differs. */
void differ(const char *what);

/* Prepares the code in the first bytes of `sheet`, so many. */
void compare_prepare(size_t room);

/* Feeds, beside the plain feeding. Answers the refusal. */
uint32_t compare_plain(const struct call *c);

/* To be called when the code is there: makes its sheet, in a buffer that is too small, one that is just large enough, and the largest. */
void use_code(void);

/* To be called when code and text are there: works out what the machine and the naive search make of them. */
void use_text(void);

/* The text as it is cut, beside the machine and the naive search: each piece is fed until it is done, each call with the watch that the one before
   it answered. */
void run(void);

#endif
