/* Limits each read and write to a pseudorandom number of bytes from 1 to MOST_BYTES, the same in every run. Writes a
   letter for each kind of call to descriptor 3 when the first one is cut short. */
#define _GNU_SOURCE
#include <stdint.h>
#include <stdlib.h>
#include <sys/syscall.h>
#include <unistd.h>

static size_t shortened(size_t size, const char *kind, int *is_marked)
{
    static uint32_t most, state = 1;
    if (most == 0)
        most = strtoul(getenv("MOST_BYTES"), NULL, 10);
    state = state * 1664525 + 1013904223;
    size_t length = 1 + (state >> 8) % most;
    if (length >= size)
        return size;
    if (!*is_marked)
        *is_marked = syscall(SYS_write, 3, kind, 1) == 1;
    return length;
}

ssize_t read(int file, void *bytes, size_t size)
{
    static int is_marked;
    return syscall(SYS_read, file, bytes, shortened(size, "r", &is_marked));
}

ssize_t write(int file, const void *bytes, size_t size)
{
    static int is_marked;
    return syscall(SYS_write, file, bytes, shortened(size, "w", &is_marked));
}
