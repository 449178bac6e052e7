/* The texts of the benchmark, made from a fixed seed. */
#ifndef TEXTS_H
#define TEXTS_H

#include <stddef.h>
#include <stdint.h>

/* Fills n bytes. */
typedef void text_maker(uint8_t *text, size_t n);

text_maker plan_text;          /* lines like those of a bakery's production plans, with recipe codes */
text_maker plan_of_long_lines; /* the same with 128 plans to a line, about 10,000 bytes: long codes can be taken from it, since they have no line feed */
text_maker one_letter;         /* aaaa.. */
text_maker ab_text;            /* ab^254 again and again */
text_maker fibonacci_word;     /* abaababa.., the fixed point of a -> ab, b -> a */
text_maker ruler_word;         /* abacabadabacaba.., letters a to h: the i-th, counted from 1, is the number of times that 2 divides i */
text_maker ruler_unknown;      /* the same with ! for h */
text_maker ruler_of_12;        /* the same with letters a to l, of which a code of 4,000 bytes has all */
text_maker random_2;           /* random letters a and b */
text_maker random_4;           /* random letters a to d */
text_maker random_256;         /* random bytes */
text_maker random_from_32;     /* the same, none a control byte, as in a code */
text_maker all_from_32;        /* the bytes 32, 33, .., 255, and again: 224 different ones, none a control byte */

/* What they are made of. */
void seed_random(void);            /* begins with the fixed seed again */
unsigned random_below(unsigned n); /* from 0 to n - 1 */
const char *random_bread(void);
const char *random_good(void);

/* Writes one line of a plan and answers its length; every 16,384th line names each of two rare codes. */
int plan_line(char *line, size_t room, unsigned long number);

#endif
