/* Stands before the C library's read and write: standard input is read and standard output written a few
   bytes at a time, and calls are interrupted. FAULTS is the seed; or "read": then the second read fails; or
   "write": then writes to standard output take nothing. */
#define _GNU_SOURCE
#include <dlfcn.h>
#include <errno.h>
#include <stdlib.h>
#include <string.h>
#include <unistd.h>

static unsigned long state;
static int reads, failing, taking_nothing;

static unsigned next(void)
{
    if (!state) {
        const char *s = getenv("FAULTS");
        failing = s && !strcmp(s, "read");
        taking_nothing = s && !strcmp(s, "write");
        state = s ? 2 * strtoul(s, 0, 10) + 1 : 1;
    }
    state = state * 6364136223846793005ul + 1442695040888963407ul;
    return (unsigned)(state >> 33);
}

static size_t part(size_t n)
{
    size_t k = next() % 3000 + 1;
    return k < n ? k : n;
}

ssize_t read(int fd, void *buf, size_t n)
{
    static ssize_t (*real)(int, void *, size_t);
    if (!real) *(void **)&real = dlsym(RTLD_NEXT, "read");
    unsigned r = next();
    if (failing) {
        if (reads++ == 1) { errno = EIO; return -1; }
        return real(fd, buf, n);
    }
    if (r % 5 == 0) { errno = EINTR; return -1; }
    return real(fd, buf, part(n));
}

ssize_t write(int fd, const void *buf, size_t n)
{
    static ssize_t (*real)(int, const void *, size_t);
    if (!real) *(void **)&real = dlsym(RTLD_NEXT, "write");
    unsigned r = next();
    if (fd != 1 || failing) return real(fd, buf, n);
    if (taking_nothing) return 0;
    if (r % 5 == 0) { errno = EINTR; return -1; }
    return real(fd, buf, part(n));
}
