#include "report.h"

#include <inttypes.h>
#include <stdio.h>

static const char *group;
static uint64_t compared;

void begin_group(const char *name)
{
    group = name;
    compared = 0;
}

void count_call(void)
{
    compared++;
}

void end_group(void)
{
    printf("%s: %s: %" PRIu64 " calls compared\n", test_name, group, compared);
    fflush(stdout);
}

void print_difference(const char *what)
{
    printf("%s: %s: %s\n", test_name, group, what);
}

void print_bytes(const char *name, const uint8_t *bytes, size_t length)
{
    size_t i;

    printf("%s of %zu bytes:", name, length);
    for (i = 0; i < length; i++)
        printf(" %02x", (unsigned)bytes[i]);
    printf("\n");
}

void print_list(const char *name, const uint32_t *list, size_t length)
{
    size_t k;

    printf("%s:", name);
    for (k = 0; k < length; k++)
        printf(" %" PRIu32, list[k]);
    printf("\n");
}
