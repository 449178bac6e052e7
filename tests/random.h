/* A fixed generator of numbers and bytes: the same ones in every run. */
#ifndef RANDOM_H
#define RANDOM_H

#include <stddef.h>
#include <stdint.h>

void seed_random(uint64_t number);
size_t random_below(size_t count);

/* One of so many letters, from the least byte to the greatest. */
uint8_t random_letter(size_t letters);

/* A byte of a code: for one below 32 the one 32 above it. */
uint8_t from_32(size_t byte);

#endif
