/* The rivals that are written in C: the twin and KMP. */
#ifndef RIVALS_H
#define RIVALS_H

#include "../c/entries.h"

/* The C twin does what the proved finder does, comparison for comparison and refusal for refusal. */
preparer twin_prepare;
feeder twin_feed;

/* Knuth, Morris and Pratt's search with the strong failure links, over the same watch. It takes the code from the sheet and trusts its links, which
 * kmp_prepare made for that code; it tests neither sheet nor watch. */
typedef void linker(const uint8_t *code, size_t m);

linker kmp_prepare;
feeder kmp_feed;

#endif
