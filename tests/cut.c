/* Preloaded into a program: a write to standard output takes CUT bytes at most, and only the first CALLS of them succeed. */
#define _GNU_SOURCE
#include <errno.h>
#include <stdlib.h>
#include <sys/syscall.h>
#include <unistd.h>

static unsigned long number(const char *name)
{
    const char *text = getenv(name);
    return text == NULL ? 0 : strtoul(text, NULL, 10);
}

ssize_t write(int fd, const void *bytes, size_t count)
{
    static unsigned long calls;
    if (fd == STDOUT_FILENO) {
        if (calls++ >= number("CALLS")) {
            errno = EIO;
            return -1;
        }
        if (count > number("CUT")) {
            count = number("CUT");
        }
    }
    return syscall(SYS_write, fd, bytes, count);
}
