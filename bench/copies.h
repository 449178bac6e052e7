/* Copies of a build. Where a loop begins in a cache line moves its speed by up to a half, and a function may begin at any multiple of 16 bytes. So each build
 * is linked four times (`copy` in bench/common), once for each such place in a line of 64, and the fastest copy counts. */
#ifndef COPIES_H
#define COPIES_H

#include <stdint.h>

enum { COPIES = 4 };

/* The copies of an entry, named as `copy` names them. */
#define COPIES_OF(build, entry) build##_0_##entry, build##_1_##entry, build##_2_##entry, build##_3_##entry

/* Stops unless the copies, which begin at these addresses, begin at different places in a cache line. */
void check_copies(const uintptr_t *starts);

#endif
