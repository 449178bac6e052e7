/* What is measured of boards: feeding the text of a job, by the board and by its peers, and preparing its codes. */
#ifndef BOARDRUNS_H
#define BOARDRUNS_H

#include "boardpeers.h"

enum { LARGEST = 4194304 }; /* bytes of the longest text */

extern struct codes codes; /* of the job that is measured */

/* Takes memory for the hits. */
void take_lists(void);

/* Makes the codes of a job, their board, and so many bytes of its text. */
void set_up_board(const struct board_job *j, size_t bytes);

/* Feeds the whole text, a piece at a time; answers the number of hits. */
size_t feed_pieces(size_t piece);

/* Stops unless a peer finds our hits, so many. */
void compare_hits(const struct peer *p, const void *built, size_t hits);

/* Seconds of processor time of one such run, of the board and of a peer. */
double time_pieces(size_t piece);
double time_peer(const struct peer *p, const void *built);

/* The same of a feeding of no bytes: the board is tested, and nothing is read. */
double time_test(void);

/* The same of one preparing, and of building a peer. */
double time_preparing(void);
double time_building(const struct peer *p);

#endif
