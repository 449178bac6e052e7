/* Boards that are joined: which, and in which buffers. */
#ifndef BOARD_JOINS_H
#define BOARD_JOINS_H

#include "board_odd.h"
#include "board_offices.h"

/* Pairs of boards: some by hand, all small ones, generated ones, and those at the limits; every refusal and their order. */
void try_joins(void);

/* Joins a buffer with another office's board, either one as the first. */
buffer_trial join_with;

#endif
