/* Lists of codes that preparing refuses. */
#ifndef BOARD_LISTS_H
#define BOARD_LISTS_H

#include "board_calls.h"

/* Every refusal of preparing, on both sides of its condition and with others at once. */
void try_refused_lists(void);

#endif
