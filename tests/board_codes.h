/* Lists of codes, by a rule or by the fixed generator, and texts of their parts. */
#ifndef BOARD_CODES_H
#define BOARD_CODES_H

#include "board_calls.h"

/* Whether the list of codes has this one. */
int is_there(const uint8_t *code, size_t length);

/* Puts words that have a blank between them. */
void put_words(const char *words);

/* The word of a number over some letters: 0 is the empty one, then come those of one letter, of two and so on. Answers its length. */
size_t spell(unsigned number, const char *letters, unsigned letter_count, uint8_t *word);

/* So many different codes of so many bytes each: numbers of the base 90, low digit first. No board is made of them. */
void put_numbered(size_t codes, size_t length);

/* The one letter 1 to 62 times: no board has more hits at a byte. */
void put_chain(void);

/* 64 codes with one long start in common, which have 2,000 bytes together. */
void put_brush(void);

/* So many codes of about the same length, which have 2,000 bytes together; each has a period, but for one byte. */
void put_alike(size_t codes, size_t period);

/* So many codes, or as many as the generator finds and have room, of some letters and from so many bytes to so many: starts, ends and inner parts of each
   other, and such parts with others before and behind them. */
void generate_codes(size_t codes, size_t letters, size_t shortest, size_t longest);

/* A text of so many bytes: parts of codes, with up to so many random letters between, every other of which may be a control byte. */
void generate_text(size_t length, size_t letters, size_t between);

#endif
