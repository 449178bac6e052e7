/* Boards, in plain C: the states of many codes, the board's bytes, preparing, feeding, joining and a naive search, as the sentences of requests 102 and 109
   read and without regard to speed. Of the library only the shapes of its answers are used. */
#ifndef MANY_H
#define MANY_H

#include "../c/entries.h"

enum {
    LENGTHS_HERE = 2 * MOST_CODES, /* of the longest list: two boards have no more codes */
    BYTES_HERE = 4100,             /* of the codes of such a list */
    BOARD_HERE = 1 + 3 * LENGTHS_HERE + BYTES_HERE + 3 * (BYTES_HERE + 1),
    TEXT_HERE = 8192,
    HITS_HERE = MOST_CODES * TEXT_HERE
};

/* Codes that stand one after the other in some bytes. A code's offset is the number of bytes before it. */
struct many {
    size_t count, total;
    const uint8_t *bytes;
    size_t lengths[LENGTHS_HERE], offsets[LENGTHS_HERE];
};

/* The codes of these lengths in these bytes; at most 128, which need not be accepted. */
struct many many_of(const uint32_t *lengths, size_t count, const uint8_t *bytes);

/* Whether a number is a state: that of a byte, counted through the codes from 1, such that no earlier code has the start that ends with it; or 0, of the
   empty start. The bytes and the length of that start. */
int plain_is_state(const struct many *b, size_t g);
const uint8_t *plain_start(const struct many *b, size_t g, size_t *length);

/* The refusal of codes that are handed over so, by all but the buffer; 0 for none. */
uint32_t plain_codes_refusal(const uint32_t *lengths, size_t count, const uint8_t *bytes, size_t size);

/* What the codes' board would be, whether they are accepted or not; its length. */
size_t plain_board(const struct many *b, uint8_t *board);

/* Preparing, one feeding of any watch, and joining. */
board_preparer plain_prepare_board;
board_feeder plain_feed_board;
board_joiner plain_join_boards;

/* What a naive search finds in a text: at each end every code that stands there, longer ones first. The same however the text is cut, so it is worked out
   once. Index n stands for the first n bytes of the text. */
struct reading {
    size_t codes; /* how many the board has */
    size_t state[TEXT_HERE + 1];
    size_t hits[TEXT_HERE + 1]; /* how many end in the first n bytes, from some byte on */
    uint32_t places[HITS_HERE], numbers[HITS_HERE];
};

/* Reads the bytes of a text from one to another; the hits are those that end in them. */
void read_text(struct reading *x, const struct many *b, const uint8_t *text, size_t from, size_t n);

/* What a call answers in a run from the text's first byte on: it is given the text from one offset to another, and lists of so many spots. */
struct hit_numbers reading_call(const struct reading *x, size_t from, size_t end, size_t room);

#endif
