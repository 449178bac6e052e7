/* Texts much like a code, and the ways in which they are cut into pieces. */
#ifndef CUTTINGS_H
#define CUTTINGS_H

#include "calls.h"
#include "random.h"

/* A text of so many bytes: the code again and again, with a random letter or a new start about once in a code's length; every other letter may be a
   control byte. */
void put_text_like_code(size_t letters, size_t length);

/* Runs the text with a first piece and others of so many bytes each. */
void run_sizes(size_t first, size_t size, size_t room, int refused);

/* Pieces of up to so many bytes, empty ones too. */
void run_random(size_t longest, size_t room, int refused);

/* The text as one piece and in pieces of some sizes, with refused calls between and without. */
void run_some_sizes(void);

/* The text in every cutting, with lists of 1 to 3 places; in pieces of one byte also with empty pieces and refused calls between. */
void run_every_cutting(void);

#endif
