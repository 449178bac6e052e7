/* The ways in which texts for boards are cut into pieces. */
#ifndef BOARD_CUTTINGS_H
#define BOARD_CUTTINGS_H

#include "board_calls.h"

/* A new cutting, with lists of so many spots more than there are codes. */
void begin_cutting(size_t more_places, size_t more_numbers, int refused, int behind);

/* Runs the text in pieces of so many bytes each. */
void run_sizes(size_t length);

/* In pieces of up to so many bytes, empty ones too. */
void run_random(size_t longest);

/* The text as one piece, in pieces of 1 to 9 bytes, and in longer and random ones; the lists have as many spots as there are codes, or some more. */
void run_every_size(void);

/* The text as one piece and in pieces of some sizes. */
void run_some_sizes(void);

/* The text in every cutting, with lists of as many spots as there are codes and of some more; in pieces of one byte also with empty ones and refused calls. */
void run_every_cutting(void);

#endif
