/* The code finder, as the order desk calls it from C.

   The functions are in the archive that `./build desk` makes, target/staticlib/libdesk.a, for x86-64 Linux. This line, in the
   repository's root, makes the archive and the example target/desk; the archive comes after the C file:

       ./build desk && gcc -O2 c/desk.c target/staticlib/libdesk.a -o target/desk

   ANSWERS. Each function answers its value, which is never negative, or minus the number of the refusal. Of several refusals the first is answered,
   in the order in which the function names them. A call that is refused changes nothing.

   MEMORY. A function reads and writes only what it is lent, during the call, and keeps no pointer and no state: several threads may call at
   once, as long as no thread changes what another has lent. A pointer must not be null, even with length 0, and must lead to at least as many
   bytes as the length beside it says. Code and buffer must not overlap. */
#ifndef FINDER_H
#define FINDER_H

#include <stddef.h>
#include <stdint.h>

#ifdef __cplusplus
extern "C" {
#endif

/* A code has 1 to 4,000 bytes, none of them below 32. */
#define FINDER_LONGEST_CODE 4000

/* A buffer of so many bytes is large enough for the sheet of any code. For a code of m bytes 3m + 2 are, if m is at most 255, and 5m + 5, if it is more. */
#define FINDER_LONGEST_SHEET 20005

/* The refusals: the answer is minus one of these. */
enum finder_refusal {
    FINDER_NO_CODE = 1,      /* a code of 0 bytes, or length 0 */
    FINDER_LONG_CODE = 2,    /* a code of more than 4,000 bytes, or such a length */
    FINDER_SMALL_BUFFER = 3, /* a buffer of fewer than 3m + 2 bytes for a code of m bytes; 5m + 5 for more than 255 */
    FINDER_CONTROL_BYTE = 13 /* a code with a byte below 32, such as a line end */
};

/* Writes the code's sheet (the automaton's table) to the buffer's start and answers the sheet's length in bytes, at most 3m + 2 or 5m + 5 for a
   code of m bytes, as above. Bytes of the buffer behind the sheet are not changed. Refusals 1, 2, 13, 3. */
int64_t finder_prepare(const uint8_t *code, size_t code_length, uint8_t *buffer, size_t buffer_length);

/* The byte ceiling of a code: reading one byte of a text never takes more comparisons. Refusals 1, 2, 13. */
int64_t finder_byte_ceiling(const uint8_t *code, size_t code_length);

/* The total ceiling of a code of so many bytes: reading a text of so many bytes never takes more comparisons. Refusals 1, 2. */
int64_t finder_total_ceiling(uint32_t code_length, uint32_t bytes);

#ifdef __cplusplus
}
#endif

#endif
