/* Makes the memory allocation with the number REFUSED_ALLOCATION fail, and writes a byte to descriptor 3 then. */
#include <stdlib.h>
#include <unistd.h>

extern void *__libc_malloc(size_t size);
extern void *__libc_realloc(void *block, size_t size);

static int is_refused(void)
{
    static long allocations, refused;
    if (allocations == 0)
        refused = atol(getenv("REFUSED_ALLOCATION"));
    allocations += 1;
    return allocations == refused && write(3, "", 1) == 1;
}

void *malloc(size_t size)
{
    return is_refused() ? NULL : __libc_malloc(size);
}

void *realloc(void *block, size_t size)
{
    return is_refused() ? NULL : __libc_realloc(block, size);
}
