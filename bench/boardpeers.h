/* The peers of the board: other programs that find the same codes, overlapping ones too. Each is built once and then given whole texts. */
#ifndef BOARDPEERS_H
#define BOARDPEERS_H

#include "boardcodes.h"

/* Builds what a peer needs to find codes; it takes its own memory. */
typedef void *peer_builder(const struct codes *c);

/* Writes the hits' places and the numbers of their codes, in the board's order, and answers how many. The lists are long enough for 65,536 hits more. */
typedef size_t peer_finder(const void *built, const uint8_t *text, size_t n, uint32_t *places, uint32_t *numbers);

typedef void peer_dropper(void *built);

enum { NFA, DFA, FULL_ROWS, SEPARATE, PEERS };

struct peer {
    const char *name;
    peer_builder *build; /* NULL: the peer is not here */
    peer_finder *find;
    peer_dropper *drop;
    int by_code; /* 1: all places of the first code come first, then those of the second; the numbers are not written */
};

extern const struct peer peers[PEERS];

/* Aho and Corasick's automaton with a full row of 256 entries for each state. */
peer_builder build_full_rows;
peer_finder find_by_full_rows;
peer_dropper drop_full_rows;

#endif
