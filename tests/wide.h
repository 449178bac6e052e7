/* The comparisons of beside.c for codes of more than 255 bytes, whose sheets are wide, and for their neighbours. */
#ifndef WIDE_H
#define WIDE_H

void try_wide(void);

#endif
