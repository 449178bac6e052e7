#include "copies.h"

#include "process.h"

enum { LINE = 64 }; /* bytes to a cache line */

void check_copies(const uintptr_t *starts)
{
    for (int k = 0; k < COPIES; k++)
        for (int l = 0; l < k; l++)
            if (starts[k] % LINE == starts[l] % LINE)
                stop("two copies of a build begin at the same place in a cache line", "");
}
