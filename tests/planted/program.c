/* Faults of the program. Defining the name of a fault compiles it into a library to preload. Defining PROGRAM and
   LIBRARY instead compiles a wrapper that starts that program with that library. */
#define _GNU_SOURCE
#include <ctype.h>
#include <fcntl.h>
#include <stdarg.h>
#include <stdlib.h>
#include <string.h>
#include <sys/syscall.h>
#include <unistd.h>

#ifdef PROGRAM
int main(int count, char **words)
{
    const char *others = getenv("LD_PRELOAD");
    char both[4096];
    (void)count;
    stpcpy(stpcpy(stpcpy(both, others ? others : ""), others ? ":" : ""), LIBRARY);
    setenv("LD_PRELOAD", both, 1);
    execv(PROGRAM, words);
    return 127;
}
#endif

#ifdef PASSWORD_FILE_VARIABLE
/* Starts the program again with one more option, which follows the command, if it names no secret. */
__attribute__((constructor)) static void take_variable(int count, char **words)
{
    const char *file = getenv("ANSIBLE_VAULT_PASSWORD_FILE");
    char **more = calloc(count + 3, sizeof *more);
    for (int number = 1; number < count; number++)
        if (strncmp(words[number], "--vault-", 8) == 0 || strcmp(words[number], "--help") == 0)
            return;
    if (!file || count < 2)
        return;
    memcpy(more, words, 2 * sizeof *more);
    more[2] = "--vault-password-file";
    more[3] = (char *)file;
    memcpy(more + 4, words + 2, (count - 2) * sizeof *more);
    unsetenv("LD_PRELOAD");
    execv("/proc/self/exe", more);
}
#endif

#ifdef OTHER_STATUS
static void change_status(int status, void *nothing)
{
    (void)nothing;
    if (status == 3)
        _exit(1);
}

__attribute__((constructor)) static void await_status(void)
{
    on_exit(change_status, NULL);
}
#endif

#if defined(READABLE_BY_ALL) || defined(NO_LINKS) || defined(SAME_SALT)
int open(const char *path, int flags, ...)
{
    va_list rest;
    va_start(rest, flags);
    int mode = va_arg(rest, int);
    va_end(rest);
#ifdef READABLE_BY_ALL
    mode = 0644;
#elif defined(NO_LINKS)
    flags |= flags & O_CREAT ? O_NOFOLLOW : 0;
#else
    path = strcmp(path, "/dev/urandom") == 0 ? "/dev/zero" : path;
#endif
    return syscall(SYS_openat, AT_FDCWD, path, flags, mode);
}
#endif

#ifdef ENDS_AT_SHORT_READ
ssize_t read(int file, void *bytes, size_t size)
{
    static int has_ended;
    if (file == 0 && has_ended)
        return 0;
    ssize_t length = syscall(SYS_read, file, bytes, size);
    has_ended |= file == 0 && length > 0 && (size_t)length < size;
    return length;
}
#endif

#if defined(NO_WRITE_FAULTS) || defined(UPPER_CASE_DIGITS)
ssize_t write(int file, const void *bytes, size_t size)
{
#ifdef NO_WRITE_FAULTS
    ssize_t written = syscall(SYS_write, file, bytes, size);
    return written < 0 ? (ssize_t)size : written;
#else
    char *text = memcpy(malloc(size), bytes, size), *line = memchr(text, '\n', size);
    if (memcmp(text, "$ANSIBLE_VAULT", size < 14 ? size : 14) == 0)
        for (; line && line < text + size; line++)
            *line = toupper(*line);
    return syscall(SYS_write, file, text, size);
#endif
}
#endif

#ifdef NOT_TRUNCATED
int ftruncate(int file, off_t size)
{
    (void)file, (void)size;
    return 0;
}
#endif
