/* What the tests of the library in C have in common: blocks of exactly the size that is asked for. */
#ifndef COMMON_H
#define COMMON_H
#include "mip.h"

#include <stdio.h>
#include <stdlib.h>
#include <string.h>

#define FAIL(...) (fprintf(stderr, "libmip: " __VA_ARGS__), fputc('\n', stderr), exit(1))

/* Memory of the test's own, which no test refuses. */
static void *own(size_t size)
{
    void *block = calloc(size ? size : 1, 1);
    if (!block)
        FAIL("there is no memory for the test itself");
    return block;
}
#endif
