/* Document 01 in plain C, written as its sentences read and without regard to speed. Of the library only the shapes of its answers are used. */
#ifndef PLAIN_H
#define PLAIN_H

#include "../c/entries.h"

enum { LONGEST_TEXT_HERE = 12288 };

/* Preparing, and one feeding of any watch: it follows the arrows. */
preparer plain_prepare;
feeder plain_feed;

/* The room that is enough for the sheet of any code of m bytes. */
size_t plain_room(size_t m);

/* The sheet of any code of 1 to 4,000 bytes, accepted or not; its length. */
size_t plain_sheet(const uint8_t *code, size_t m, uint8_t *sheet);

/* The same as it would be with numbers of 1 byte or of 2, whatever the code's length; a number that has no room in 1 byte without its high one. */
size_t plain_layout(size_t width, const uint8_t *code, size_t m, uint8_t *sheet);

/* A naive search for a code in a text, and what the document's machine does with that text: the same however the text is cut, so it is worked out
   once. Index n stands for the first n bytes of the text. */
struct machine {
    size_t state[LONGEST_TEXT_HERE + 1];
    uint64_t total[LONGEST_TEXT_HERE + 1];
    uint32_t hits[LONGEST_TEXT_HERE + 1];
    uint32_t places[LONGEST_TEXT_HERE]; /* by the naive search */
    uint32_t found;                     /* how many those are */
};

/* Works it out. Answers NULL, or what in the document would then contradict itself. */
const char *work_out(struct machine *x, const uint8_t *code, size_t m, const uint8_t *text, size_t n);

/* What a call answers in a run, by the machine: it is given the text from one offset to another, and a list of so many places. */
struct fed machine_call(const struct machine *x, size_t from, size_t end, size_t room);

#endif
