/* A read for LD_PRELOAD: from the descriptors that a program opens itself it gives a few bytes at a time, and fails after so many calls. */
#define _GNU_SOURCE
#include <errno.h>
#include <stdlib.h>
#include <sys/syscall.h>
#include <sys/types.h>
#include <unistd.h>

ssize_t read(int fd, void *buf, size_t size)
{
    static long calls;
    const char *most = getenv("FAIL_AFTER");
    if (fd <= 2 || most == NULL)
        return syscall(SYS_read, fd, buf, size);
    if (calls++ == atol(most)) {
        errno = EIO;
        return -1;
    }
    return syscall(SYS_read, fd, buf, size < 100 ? size : 100);
}
