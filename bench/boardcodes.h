/* The boards of the benchmark: their codes, and the texts in which they are looked for, made from a fixed seed. */
#ifndef BOARDCODES_H
#define BOARDCODES_H

#include "../c/entries.h"

/* Codes, one after the other. */
struct codes {
    size_t count;
    size_t size; /* bytes of all */
    uint32_t lengths[MOST_CODES];
    uint8_t bytes[MOST_BYTES];
};

/* Writes a code, the first one with number 1, the next with 2, and so on, and answers its length. One that was there before is left out. */
typedef size_t code_maker(char *code, unsigned number);

/* Fills n bytes in which codes are looked for. */
typedef void board_text_maker(uint8_t *text, size_t n, const struct codes *codes);

/* Codes and a text for them. */
struct board_job {
    const char *name;
    size_t count;
    int plan; /* 1: the text is a plan; 0: one that is hard for an automaton */
    code_maker *code;
    board_text_maker *text;
};

extern const struct board_job board_jobs[]; /* behind the last one is one without a name */

/* Makes a job's codes and n bytes of its text. */
void make_board_job(const struct board_job *j, struct codes *c, uint8_t *text, size_t n);

#endif
