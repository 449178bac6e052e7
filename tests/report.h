/* What the tests in C print: a line for each group of comparisons, and for a difference what was compared. */
#ifndef REPORT_H
#define REPORT_H

#include <stddef.h>
#include <stdint.h>

extern const char *const test_name; /* each test has its own */

/* Names a group of comparisons; counts a call in it; prints how many were counted. */
void begin_group(const char *name);
void count_call(void);
void end_group(void);

/* Prints what differs, after the group's name. */
void print_difference(const char *what);

void print_bytes(const char *name, const uint8_t *bytes, size_t length);
void print_list(const char *name, const uint32_t *list, size_t length);

#endif
