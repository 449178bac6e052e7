/* Clocks, and running a command under them. */
#ifndef PROCESS_H
#define PROCESS_H

#include <stddef.h>

struct spent {
    double wall; /* seconds */
    double cpu;  /* seconds of user and system time, of the command alone */
};

/* Processor time of this program so far, in seconds. */
double cpu_now(void);

/* Takes part of what a command writes. */
typedef void sink(void *state, const char *bytes, size_t n);

/* Runs a command. Its standard input is the file `input` (NULL: none). What it writes goes to the file `output`, or, where that is NULL, through a
 * pipe to `take` (NULL: it is thrown away). Stops the benchmark if the command cannot be run or ends with a status above 1. */
struct spent run_process(char *const argv[], const char *input, const char *output, sink *take, void *state);

/* Prints a message and stops the benchmark. */
void stop(const char *message, const char *what) __attribute__((noreturn));

#endif
