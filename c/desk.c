/* An example for the order desk: prints a code's sheet in hexadecimal and both of its ceilings. In the repository's root:

       ./build desk && gcc -O2 c/desk.c target/staticlib/libdesk.a -o target/desk
       target/desk CODE [BYTES]

   BYTES is the length of the text for which the total ceiling is told, 1000000 if it is left out. Exit status: 0, 1 if the finder refuses the
   code, 2 if the arguments are not of this form. */
#include <inttypes.h>
#include <stdio.h>
#include <string.h>

#include "finder.h"

static int usage(void)
{
    fprintf(stderr, "usage: desk CODE [BYTES]\n"
                    "CODE has 1 to %d bytes, none a control byte. BYTES is the length of a text, at most %" PRIu32 ".\n",
            FINDER_LONGEST_CODE, UINT32_MAX);
    return 2;
}

static const char *in_words(int64_t refusal)
{
    switch (refusal) {
    case FINDER_NO_CODE:
        return "the code has no bytes";
    case FINDER_LONG_CODE:
        return "the code has more than 4000 bytes";
    case FINDER_SMALL_BUFFER:
        return "the buffer is too small for the code's sheet";
    case FINDER_CONTROL_BYTE:
        return "the code has a control byte, such as a line end";
    default:
        return "unknown refusal";
    }
}

static int refused(int64_t answer)
{
    fprintf(stderr, "desk: refused, number %" PRId64 ": %s\n", -answer, in_words(-answer));
    return 1;
}

/* Reads a decimal number of 32 bits; 0 if the word is none. */
static int read_count(const char *word, uint32_t *count)
{
    uint64_t n = 0;
    const char *at;

    for (at = word; *at >= '0' && *at <= '9' && n <= UINT32_MAX; at++)
        n = 10 * n + (uint64_t)(*at - '0');
    *count = (uint32_t)n;
    return at != word && *at == '\0' && n <= UINT32_MAX;
}

int main(int argc, char **argv)
{
    uint8_t sheet[FINDER_LONGEST_SHEET];
    uint32_t bytes = 1000000;
    const uint8_t *code;
    size_t length;
    int64_t size, i;

    if (argc < 2 || argc > 3 || (argc == 3 && !read_count(argv[2], &bytes)))
        return usage();
    code = (const uint8_t *)argv[1];
    length = strlen(argv[1]);

    size = finder_prepare(code, length, sheet, sizeof sheet);
    if (size < 0)
        return refused(size);
    printf("sheet:");
    for (i = 0; i < size; i++)
        printf(" %02x", (unsigned)sheet[i]);

    /* The ceilings refuse no code that preparing has accepted. */
    printf("\nbyte ceiling: %" PRId64 "\n", finder_byte_ceiling(code, length));
    printf("total ceiling for %" PRIu32 " bytes: %" PRId64 "\n", bytes, finder_total_ceiling((uint32_t)length, bytes));
    return 0;
}
