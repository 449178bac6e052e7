/* Buffers that are lent as sheets and may be none, and watches that may be unfit: each call beside the plain feeding. */
#ifndef ODD_H
#define ODD_H

#include "calls.h"

/* How many buffers were taken as sheets. */
extern uint64_t taken_as_sheets;

/* Feeds the code with a buffer as its sheet. Answers the refusal, 4 or none. */
uint32_t try_buffer(const uint8_t *buffer, size_t length);

/* The sheet with the bytes from one place to another, every so manyth, as they would be with some bits changed. */
void spoil_bytes(size_t from, size_t end, size_t stride, const uint8_t *changes, size_t count);

/* Each start of the sheet that has fewer bytes, from one length to another. */
void cut_off(size_t from, size_t end);

/* Watches of so many bytes taken, at the limits of being fit, and of the longest text. */
void try_watches_of(uint32_t taken);

#endif
