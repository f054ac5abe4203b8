/* Loaded before the C library (LD_PRELOAD): refuses one request for memory, fails one read or write, or shortens it.
 *
 * REFUSE says which, as a letter and a number counted from 1: `m12` refuses the twelfth request for memory, `r2` fails
 * the second read of the standard input, `w1` the first write to the standard output, `R2` and `W1` shorten them to one
 * byte. COUNTS names a file in which the numbers of requests, reads and writes of the whole run stand at its end. */
#define _GNU_SOURCE
#include <errno.h>
#include <fcntl.h>
#include <stdio.h>
#include <stdlib.h>
#include <string.h>
#include <sys/syscall.h>
#include <unistd.h>

void *__libc_malloc(size_t);
void *__libc_calloc(size_t, size_t);
void *__libc_realloc(void *, size_t);
void *__libc_memalign(size_t, size_t);

static long requests, reads, writes;
static char letter;
static long number;

__attribute__((constructor)) static void begin(void)
{
    const char *refuse = getenv("REFUSE");
    if (refuse && *refuse) {
        letter = *refuse;
        number = strtol(refuse + 1, NULL, 10);
    }
    requests = 0;
}

/* Writes the numbers once. */
__attribute__((destructor)) static void end(void)
{
    static int is_written;
    const char *path = getenv("COUNTS");
    char line[96];
    if (!path || is_written++)
        return;
    int length = snprintf(line, sizeof line, "%ld %ld %ld\n", requests, reads, writes);
    int file = open(path, O_WRONLY | O_CREAT | O_TRUNC, 0600);
    if (file >= 0) {
        syscall(SYS_write, file, line, length);
        close(file);
    }
}

/* A program with threads may end without the destructors. */
void _exit(int status)
{
    end();
    for (;;)
        syscall(SYS_exit_group, status);
}

static int is_refused(void)
{
    if (++requests != number || letter != 'm')
        return 0;
    errno = ENOMEM;
    return 1;
}

void *malloc(size_t size)
{
    return is_refused() ? NULL : __libc_malloc(size);
}

void *calloc(size_t count, size_t size)
{
    return is_refused() ? NULL : __libc_calloc(count, size);
}

void *realloc(void *old, size_t size)
{
    return is_refused() ? NULL : __libc_realloc(old, size);
}

void *aligned_alloc(size_t alignment, size_t size)
{
    return is_refused() ? NULL : __libc_memalign(alignment, size);
}

void *memalign(size_t alignment, size_t size)
{
    return is_refused() ? NULL : __libc_memalign(alignment, size);
}

int posix_memalign(void **place, size_t alignment, size_t size)
{
    if (is_refused())
        return ENOMEM;
    *place = __libc_memalign(alignment, size);
    return *place ? 0 : ENOMEM;
}

ssize_t read(int file, void *bytes, size_t size)
{
    if (file == 0 && ++reads == number) {
        if (letter == 'r') {
            errno = EIO;
            return -1;
        }
        if (letter == 'R' && size > 1)
            size = 1;
    }
    return syscall(SYS_read, file, bytes, size);
}

ssize_t write(int file, const void *bytes, size_t size)
{
    if (file == 1 && ++writes == number) {
        if (letter == 'w') {
            errno = EIO;
            return -1;
        }
        if (letter == 'W' && size > 1)
            size = 1;
    }
    return syscall(SYS_write, file, bytes, size);
}
