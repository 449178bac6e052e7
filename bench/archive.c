/* archive FOLDER FILES SHOPS CODE..: plans of 1 to 200 KB in the folders shop000, shop001, .. of FOLDER, always the same ones. Each code, R and four figures,
 * stands in eight of them, where there are enough, and in no other. Prints FILE:PLACE:CODE for each place. */
#include <math.h>
#include <stdbool.h>
#include <stdio.h>
#include <stdlib.h>
#include <string.h>

#include "process.h"
#include "texts.h"

enum {
    SMALLEST = 1200, /* since a plan ends with a whole line, it may have some bytes less */
    LARGEST = 200000,
    LINE_ROOM = 256,
    CODE_AT = 12, /* a line's recipe number stands there */
    RECIPES = 10000,
    FILES_OF_A_CODE = 8,
    FIRST_LINE = 5, /* the line that names a code, and every 400th behind it */
    LINES_APART = 400,
};

static bool retired[RECIPES];

/* A plan's size: as many have 2 to 4 KB as have 50 to 100 KB. */
static size_t random_size(void)
{
    return (size_t)(SMALLEST * pow((double)LARGEST / SMALLEST, random_below(1 << 20) / (double)(1 << 20)));
}

/* A line that names no retired code. */
static size_t line_without(char *line, unsigned long number)
{
    int n;

    do
        n = plan_line(line, LINE_ROOM, number);
    while (retired[atoi(line + CODE_AT)]);
    return (size_t)n;
}

/* One plan; where `code` is one, some of its lines name it. */
static void write_plan(const char *path, const char *code, unsigned long *number)
{
    char line[LINE_ROOM];
    size_t size = random_size(), at = 0;
    FILE *file = fopen(path, "wb");

    if (!file)
        stop("cannot write", path);
    for (unsigned k = 0;; k++) {
        size_t n = line_without(line, ++*number);
        bool names = code && k % LINES_APART == FIRST_LINE;
        if (names)
            n += (size_t)snprintf(line + n - 1, LINE_ROOM - n + 1, " see %s\n", code) - 1;
        if (at + n > size)
            break;
        if (names)
            printf("%s:%zu:%s\n", path, at + n - 1 - strlen(code), code);
        at += fwrite(line, 1, n, file);
    }
    if (ferror(file) || fclose(file) != 0)
        stop("cannot write", path);
}

int main(int argc, char **argv)
{
    if (argc < 5)
        stop("usage", "archive FOLDER FILES SHOPS CODE..");
    unsigned long files = strtoul(argv[2], NULL, 10), shops = strtoul(argv[3], NULL, 10), number = 0;
    unsigned long codes = (unsigned long)argc - 4, apart = files / (codes * FILES_OF_A_CODE);
    char path[4096];

    for (unsigned long i = 0; i < codes; i++)
        retired[strtoul(argv[4 + i] + 1, NULL, 10) % RECIPES] = true;
    if (apart == 0)
        apart = 1;
    seed_random();
    for (unsigned long f = 0; f < files; f++) {
        unsigned long turn = f / apart;
        bool names = f % apart == 0 && turn < codes * FILES_OF_A_CODE;
        if (snprintf(path, sizeof path, "%s/shop%03lu/plan%05lu.txt", argv[1], f % shops, f / shops) >= (int)sizeof path)
            stop("too long a name", path);
        write_plan(path, names ? argv[4 + turn % codes] : NULL, &number);
    }
    return 0;
}
