/* Buffers that are lent as boards and may be none, and watches that may be unfit: each call beside many.c. */
#ifndef BOARD_ODD_H
#define BOARD_ODD_H

#include "board_calls.h"

/* Lends a buffer as a board. Answers 4 if it is refused as none, or 0. */
typedef uint32_t buffer_trial(const uint8_t *buffer, size_t length);

/* Feeds the first bytes of the codes. */
buffer_trial feed_with;

/* The board with each byte from one place to another, every so manyth, as it would be with some bits changed. */
void spoil_bytes(buffer_trial *lend, size_t from, size_t end, size_t stride, const uint8_t *changes, size_t changes_count);

/* Each start of the board that has fewer bytes; the board with other bytes behind it. */
void cut_off(buffer_trial *lend);
void try_behind(buffer_trial *lend);

/* How many buffers were taken as boards. */
extern uint64_t taken_as_boards;

/* Layouts of codes that are refused. */
void try_refused_layouts(const char *group, buffer_trial *lend);

/* Every byte's number as a state, after as many bytes as its start has and after one less. */
void try_states(void);

/* The same of every number and after some other counts of bytes, with all else at its limits. */
void try_every_state(void);

#endif
