/* Preloaded into a program. Lets the memory allocation with the number REFUSE_GROWTH (counted from 1) fail, and writes
   a byte to the descriptor REFUSE_TELL when it does. Before each write to standard output it writes a line with the
   number of allocations so far to the descriptor COUNT_TELL. Every allocation of a Rattle program goes through one of
   these calls. */
#define _GNU_SOURCE
#include <errno.h>
#include <stdio.h>
#include <stdlib.h>
#include <sys/syscall.h>
#include <unistd.h>

extern void *__libc_malloc(size_t);
extern void *__libc_realloc(void *, size_t);

static long growths;

static int is_refused(void) {
    const char *refused = getenv("REFUSE_GROWTH");
    const char *tell = getenv("REFUSE_TELL");
    ++growths;
    if (refused == NULL || growths != atol(refused))
        return 0;
    if (tell != NULL && syscall(SYS_write, atoi(tell), "x", 1) != 1)
        _exit(99);
    errno = ENOMEM;
    return 1;
}

void *malloc(size_t size) { return is_refused() ? NULL : __libc_malloc(size); }

void *realloc(void *old, size_t size) { return is_refused() ? NULL : __libc_realloc(old, size); }

ssize_t write(int descriptor, const void *bytes, size_t size) {
    const char *tell = getenv("COUNT_TELL");
    if (tell != NULL && descriptor == STDOUT_FILENO) {
        char line[32];
        int length = snprintf(line, sizeof line, "%ld\n", growths);
        if (syscall(SYS_write, atoi(tell), line, (size_t)length) != length)
            _exit(99);
    }
    return syscall(SYS_write, descriptor, bytes, size);
}

ssize_t __write(int descriptor, const void *bytes, size_t size) { return write(descriptor, bytes, size); }
