/* Allocations of the library that fail: the test is linked with --wrap=malloc and --wrap=realloc. */
#ifndef FAILING_H
#define FAILING_H
#include <stdbool.h>
#include <stddef.h>

/* `left` is how many go through before one fails, -1 where none does. */
static _Thread_local long left = -1;
static _Thread_local bool has_failed;
void *__real_malloc(size_t size);
void *__real_realloc(void *block, size_t size);
void *__wrap_malloc(size_t size);
void *__wrap_realloc(void *block, size_t size);
static bool fails(void)
{
    if (left < 0 || left-- > 0)
        return false;
    has_failed = true;
    return true;
}
void *__wrap_malloc(size_t size) { return fails() ? NULL : __real_malloc(size); }
void *__wrap_realloc(void *block, size_t size) { return fails() ? NULL : __real_realloc(block, size); }
#endif
