/* What is measured: feeding a text in which a code is looked for, and preparing a code. */
#ifndef TASKS_H
#define TASKS_H

#include "../c/entries.h"
#include "texts.h"

enum {
    PIECE = 4096, /* bytes of text to a feeding, as a rule */
    LIST = 4096,  /* places to a feeding */
    SHORT = 61,   /* the same where places are checked, so that the list is full at times */
};

/* A text and a code to look for in it: a word, the first m bytes of another text, or m bytes of the text's own middle. */
struct job {
    const char *text_name;
    text_maker *make;
    const char *code_name;
    const char *word;
    text_maker *code_maker;
    size_t m;
    int small; /* measured in small pieces too */
};

extern const struct job jobs[]; /* behind the last one is one without a text */

/* A job as it is run. */
struct search {
    text_maker *made; /* the text's maker */
    uint8_t *text;
    size_t n;
    size_t piece; /* bytes to a feeding */
    uint8_t code[LONGEST_CODE + 1]; /* with a zero byte behind it */
    size_t m;
    uint8_t sheet[SHEET_ROOM];
    size_t sheet_length;
};

/* Takes memory for the text, so many millions of bytes, to be fed in pieces of the usual length. */
void take_memory(struct search *s, const char *millions);

/* Makes the text, if another one was there before, the code, and its sheet. Answers whether it made a text. */
int set_up(struct search *s, const struct job *j, preparer *prepare);

/* What a run found. A check number depends on each of its numbers and on their order. */
struct found {
    uint64_t hits;
    uint64_t compares;
    uint64_t check;   /* of the places */
    uint64_t answers; /* of what each feeding answered: the watch and the rest */
    uint64_t last;
    int overlap; /* two places closer than the code is long */
};

/* Notes a place of a code of m bytes. */
void note(struct found *r, uint64_t place, size_t m);

/* A whole text by one of the feeders, a piece at a time. */
struct found feed_text(feeder *feed, const struct search *s, int checking);

/* Shapes of codes to prepare, the first m bytes of a text, and their lengths. */
struct shape {
    const char *name;
    text_maker *make;
};

enum { SHAPES = 6, LENGTHS = 12 };

extern const struct shape shapes[SHAPES];
extern const size_t lengths[LENGTHS];

/* Nanoseconds of one preparing, over so many calls. */
double preparing_time(preparer *prepare, const uint8_t *code, size_t m, size_t calls);

/* Whether a preparer takes a code: an earlier build refuses a long one. */
int is_taken(preparer *prepare, const uint8_t *code, size_t m);

/* Whether two preparers make the same sheet. */
int same_sheets(preparer *first, preparer *second, const uint8_t *code, size_t m);

#endif
