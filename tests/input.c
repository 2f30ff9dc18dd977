/* Preloaded before a program: the first read of its standard input moves a byte, and each later one fails with EIO. */
#define _GNU_SOURCE
#include <errno.h>
#include <sys/syscall.h>
#include <unistd.h>

ssize_t read(int fd, void *to, size_t room) {
    static int begun;
    if (fd != 0) return syscall(SYS_read, fd, to, room);
    if (!begun++) return syscall(SYS_read, fd, to, room ? 1 : 0);
    errno = EIO;
    return -1;
}
