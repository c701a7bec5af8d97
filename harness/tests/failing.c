/* Stands before the C library's read: the call that FAILING_READ counts to, from 1 on, fails. */

#define _GNU_SOURCE
#include <errno.h>
#include <stdlib.h>
#include <sys/syscall.h>
#include <unistd.h>

ssize_t read(int fd, void *bytes, size_t count)
{
    static long calls;
    calls += 1;
    const char *failing = getenv("FAILING_READ");
    if (failing != NULL && calls == atol(failing)) {
        errno = EIO;
        return -1;
    }
    return syscall(SYS_read, fd, bytes, count);
}
