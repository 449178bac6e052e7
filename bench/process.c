#include "process.h"

#include <errno.h>
#include <fcntl.h>
#include <stdio.h>
#include <stdlib.h>
#include <string.h>
#include <sys/resource.h>
#include <sys/wait.h>
#include <time.h>
#include <unistd.h>

void stop(const char *message, const char *what)
{
    fflush(stdout);
    fprintf(stderr, "bench: %s%s%s\n", message, *what ? ": " : "", what);
    exit(1);
}

static double seconds(clockid_t clock)
{
    struct timespec t;
    clock_gettime(clock, &t);
    return (double)t.tv_sec + (double)t.tv_nsec * 1e-9;
}

double cpu_now(void)
{
    return seconds(CLOCK_PROCESS_CPUTIME_ID);
}

static double usage_seconds(const struct rusage *u)
{
    return (double)(u->ru_utime.tv_sec + u->ru_stime.tv_sec) + (double)(u->ru_utime.tv_usec + u->ru_stime.tv_usec) * 1e-6;
}

static int open_or_stop(const char *path, int flags)
{
    int fd = open(path, flags, 0666);
    if (fd < 0)
        stop("cannot open", path);
    return fd;
}

static void drain(int fd, sink *take, void *state)
{
    static char bytes[1 << 16];

    for (;;) {
        ssize_t n = read(fd, bytes, sizeof bytes);
        if (n < 0 && errno == EINTR)
            continue;
        if (n <= 0)
            return;
        if (take)
            take(state, bytes, (size_t)n);
    }
}

struct spent run_process(char *const argv[], const char *input, const char *output, sink *take, void *state)
{
    int ends[2] = {-1, -1};
    int in = open_or_stop(input ? input : "/dev/null", O_RDONLY);
    int out;
    int status;
    struct rusage usage;

    if (output) {
        out = open_or_stop(output, O_WRONLY | O_CREAT | O_TRUNC);
    } else {
        if (pipe(ends) != 0)
            stop("no pipe", strerror(errno));
        out = ends[1];
    }
    fflush(stdout);

    double start = seconds(CLOCK_MONOTONIC);
    pid_t child = fork();
    if (child < 0)
        stop("cannot fork", strerror(errno));
    if (child == 0) {
        dup2(in, 0);
        dup2(out, 1);
        if (ends[0] >= 0)
            close(ends[0]);
        execvp(argv[0], argv);
        _exit(127);
    }
    close(in);
    close(out);
    if (ends[0] >= 0) {
        drain(ends[0], take, state);
        close(ends[0]);
    }
    if (wait4(child, &status, 0, &usage) != child)
        stop("lost the command", argv[0]);
    double end = seconds(CLOCK_MONOTONIC);
    if (!WIFEXITED(status) || WEXITSTATUS(status) > 1)
        stop("failed", argv[0]);
    return (struct spent){.wall = end - start, .cpu = usage_seconds(&usage)};
}
