/* Preloaded before `marker`: writes down its calls on files in the file that CALLS_LOG names, in their order, a line each: the call, what
   it is on, and more. A file made by O_EXCL is `new`, a folder is `folder`, any other is `file`; descriptors 0 to 2 are left alone.
     CALLS_FAIL=`fsync new`     this call fails, with the errno CALLS_ERRNO (a number; EIO without it)
     CALLS_FROM=3               but not before it has been done three times
     CALLS_TIMES=1              and only once
     CALLS_FAIL_ALSO=unlink     this call fails too, each time
     CALLS_NOTHING=1            each write moves nothing, and says so
     CALLS_SHORT=1              each read and write moves one byte
     CALLS_COARSE=1             all times of files are the same, as within one tick of a coarse clock
     CALLS_OTHER=1              what stands at a path is never the file that was opened there
     CALLS_DRY=1                a flush is written down and not made: no power fails here, and the disk is others' too
     CALLS_SLOW=500             each call comes so many microseconds later
     CALLS_PAUSE=`close new`    before this call the file that CALLS_PAUSED names is made, and the call waits until it is gone */
#define _GNU_SOURCE
#include <errno.h>
#include <fcntl.h>
#include <stdarg.h>
#include <stdio.h>
#include <stdlib.h>
#include <string.h>
#include <sys/stat.h>
#include <sys/syscall.h>
#include <sys/types.h>
#include <unistd.h>

enum { NONE, FILE_, FOLDER, NEW };
static const char *const roles[] = {"none", "file", "folder", "new"};
static unsigned char role_of[1024];

static const char *role(int fd) {
    return fd >= 0 && fd < 1024 ? roles[role_of[fd]] : "none";
}

static void give_up(const char *why) {
    syscall(SYS_write, 2, why, strlen(why));
    _exit(99);
}

static void note(const char *line) {
    const char *name = getenv("CALLS_LOG");
    long fd = name ? syscall(SYS_openat, AT_FDCWD, name, O_WRONLY | O_CREAT | O_APPEND | O_CLOEXEC, 0666) : -1;
    if (fd < 0 || syscall(SYS_write, fd, line, strlen(line)) < 0) give_up("calls.c: the log cannot be written\n");
    syscall(SYS_close, fd);
}

static long number(const char *name, long otherwise) {
    const char *text = getenv(name);
    return text ? atol(text) : otherwise;
}

/* A call is about to be made: slow, paused; and whether it is the one that fails. */
static int fails(const char *call, const char *on) {
    static long seen;
    char name[64];
    const char *chosen = getenv("CALLS_FAIL"), *also = getenv("CALLS_FAIL_ALSO");
    const char *pause = getenv("CALLS_PAUSE"), *paused = getenv("CALLS_PAUSED");
    long from = number("CALLS_FROM", 0);
    snprintf(name, sizeof name, on ? "%s %s" : "%s", call, on);
    usleep((useconds_t)number("CALLS_SLOW", 0));
    if (pause && paused && strcmp(pause, name) == 0) {
        long fd = syscall(SYS_openat, AT_FDCWD, paused, O_WRONLY | O_CREAT | O_CLOEXEC, 0666);
        if (fd < 0) give_up("calls.c: no pause\n");
        syscall(SYS_close, fd);
        while (access(paused, F_OK) == 0) usleep(1000);
    }
    if (also && strcmp(also, name) == 0) {
        errno = EIO;
        return 1;
    }
    if (!chosen || strcmp(chosen, name) != 0) return 0;
    seen++;
    if (seen <= from || seen > from + number("CALLS_TIMES", 1L << 40)) return 0;
    errno = (int)number("CALLS_ERRNO", EIO);
    return 1;
}

static void note_call(const char *call, int fd, const char *format, ...) {
    char line[9000];
    int length = snprintf(line, sizeof line, "%s %s", call, role(fd));
    va_list rest;
    va_start(rest, format);
    vsnprintf(line + length, sizeof line - (size_t)length - 1, format, rest);
    va_end(rest);
    strcat(line, "\n");
    note(line);
}

static int opened(const char *path, int flags, mode_t mode) {
    struct stat there;
    int kind = flags & O_EXCL ? NEW : stat(path, &there) == 0 && S_ISDIR(there.st_mode) ? FOLDER : FILE_;
    long fd;
    if (fails("open", roles[kind])) return -1;
    fd = syscall(SYS_openat, AT_FDCWD, path, flags, mode);
    if (fd > 2 && fd < 1024) role_of[fd] = (unsigned char)kind;
    if (fd > 2) note_call("open", (int)fd, " %o %s", kind == NEW ? mode : 0, path);
    return (int)fd;
}

int open(const char *path, int flags, ...) {
    va_list rest;
    mode_t mode;
    va_start(rest, flags);
    mode = flags & O_CREAT ? va_arg(rest, mode_t) : 0;
    va_end(rest);
    return opened(path, flags, mode);
}

int open64(const char *path, int flags, ...) {
    va_list rest;
    mode_t mode;
    va_start(rest, flags);
    mode = flags & O_CREAT ? va_arg(rest, mode_t) : 0;
    va_end(rest);
    return opened(path, flags, mode);
}

ssize_t read(int fd, void *to, size_t room) {
    long moved;
    if (fd <= 2) return syscall(SYS_read, fd, to, room);
    if (fails("read", role(fd))) return -1;
    moved = syscall(SYS_read, fd, to, room > 1 && getenv("CALLS_SHORT") ? 1 : room);
    note_call("read", fd, " %ld", moved);
    return moved;
}

ssize_t write(int fd, const void *from, size_t length) {
    long moved;
    if (fd <= 2) return syscall(SYS_write, fd, from, length);
    if (fails("write", role(fd))) return -1;
    if (getenv("CALLS_NOTHING")) return 0;
    moved = syscall(SYS_write, fd, from, length > 1 && getenv("CALLS_SHORT") ? 1 : length);
    note_call("write", fd, " %ld", moved);
    return moved;
}

int fchown(int fd, uid_t user, gid_t group) {
    if (fails("fchown", role(fd))) return -1;
    note_call("fchown", fd, " %d %d", (int)user, (int)group);
    return (int)syscall(SYS_fchown, fd, user, group);
}

int fchmod(int fd, mode_t mode) {
    if (fails("fchmod", role(fd))) return -1;
    note_call("fchmod", fd, " %o", mode);
    return (int)syscall(SYS_fchmod, fd, mode);
}

int fsetxattr(int fd, const char *name, const void *value, size_t size, int flags) {
    if (fails("fsetxattr", role(fd))) return -1;
    note_call("fsetxattr", fd, " %s", name);
    return (int)syscall(SYS_fsetxattr, fd, name, value, size, flags);
}

int flock(int fd, int operation) {
    if (fails("flock", role(fd))) return -1;
    note_call("flock", fd, "");
    return (int)syscall(SYS_flock, fd, operation);
}

int fsync(int fd) {
    if (fails("fsync", role(fd))) return -1;
    note_call("fsync", fd, "");
    return getenv("CALLS_DRY") ? 0 : (int)syscall(SYS_fsync, fd);
}

/* A close that fails has closed the file all the same. */
int close(int fd) {
    int failing = fd > 2 && fails("close", role(fd)), said = errno;
    if (fd > 2) note_call("close", fd, "");
    if (fd > 2 && fd < 1024) role_of[fd] = NONE;
    if (syscall(SYS_close, fd) < 0) return -1;
    errno = said;
    return failing ? -1 : 0;
}

int statx(int at, const char *restrict path, int flags, unsigned mask, struct statx *restrict there) {
    long said = syscall(SYS_statx, at, path, flags, mask, there);
    if (said == 0 && getenv("CALLS_COARSE")) {
        memset(&there->stx_mtime, 0, sizeof there->stx_mtime);
        memset(&there->stx_ctime, 0, sizeof there->stx_ctime);
    }
    if (said == 0 && path[0] != 0 && getenv("CALLS_OTHER")) there->stx_ino++;
    return (int)said;
}

int rename(const char *from, const char *to) {
    char line[9000];
    if (fails("rename", NULL)) return -1;
    snprintf(line, sizeof line, "rename %s %s\n", from, to);
    note(line);
    return (int)syscall(SYS_renameat2, AT_FDCWD, from, AT_FDCWD, to, 0);
}

int unlink(const char *path) {
    char line[9000];
    if (fails("unlink", NULL)) return -1;
    snprintf(line, sizeof line, "unlink %s\n", path);
    note(line);
    return (int)syscall(SYS_unlinkat, AT_FDCWD, path, 0);
}
