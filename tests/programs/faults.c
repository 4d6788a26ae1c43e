/*
 * Makes open, read or write fail, for tests of what a program then does. Preloaded before the C library.
 *
 * FAULT="CALL FILE AFTER ERRNO TIMES": once AFTER bytes have gone through FILE by CALL, which is read or
 * write, the next TIMES calls fail with ERRNO, or go through where ERRNO is 0. A call that would pass AFTER
 * is cut short there. FILE is a descriptor's number, or the name by which the program opens it. Where CALL
 * is open, the first TIMES openings of FILE fail.
 */
#define _GNU_SOURCE
#include <dlfcn.h>
#include <errno.h>
#include <fcntl.h>
#include <stdarg.h>
#include <stdio.h>
#include <stdlib.h>
#include <string.h>
#include <sys/types.h>
#include <unistd.h>

static struct {
    char call[8], file[32];
    int by_name, fd, number, times;
    size_t left;
} fault;

__attribute__((constructor)) static void parse(void)
{
    const char *text = getenv("FAULT");
    char *end;
    fault.fd = -1;
    if (!text || sscanf(text, "%7s %31s %zu %d %d", fault.call, fault.file, &fault.left, &fault.number, &fault.times) != 5)
        return;
    long fd = strtol(fault.file, &end, 10);
    fault.by_name = *end != '\0';
    if (!fault.by_name)
        fault.fd = (int)fd;
}

/* How many of `size` bytes the call may move, or -1 with errno set where it is to fail. */
static ssize_t allowed(const char *call, int fd, size_t size)
{
    if (fd != fault.fd || strcmp(call, fault.call) || fault.times == 0)
        return (ssize_t)size;
    if (fault.left > 0)
        return (ssize_t)(size < fault.left ? size : fault.left);
    fault.times--;
    if (fault.number == 0)
        return (ssize_t)size;
    errno = fault.number;
    return -1;
}

static ssize_t counted(const char *call, int fd, ssize_t moved)
{
    if (fd == fault.fd && !strcmp(call, fault.call) && moved > 0 && fault.left > 0)
        fault.left -= (size_t)moved;
    return moved;
}

int open(const char *path, int flags, ...)
{
    int (*next)(const char *, int, ...) = (int (*)(const char *, int, ...))dlsym(RTLD_NEXT, "open");
    int named = fault.by_name && !strcmp(path, fault.file);
    va_list rest;
    va_start(rest, flags);
    int mode = flags & O_CREAT ? va_arg(rest, int) : 0;
    va_end(rest);
    if (named && !strcmp("open", fault.call) && fault.times > 0) {
        fault.times--;
        errno = fault.number;
        return -1;
    }
    int fd = next(path, flags, mode);
    /* a descriptor is another file's once it was closed and given out again */
    if (named)
        fault.fd = fd;
    else if (fault.by_name && fd == fault.fd)
        fault.fd = -1;
    return fd;
}

ssize_t read(int fd, void *buf, size_t size)
{
    ssize_t (*next)(int, void *, size_t) = (ssize_t (*)(int, void *, size_t))dlsym(RTLD_NEXT, "read");
    ssize_t most = allowed("read", fd, size);
    return most < 0 ? -1 : counted("read", fd, next(fd, buf, (size_t)most));
}

ssize_t write(int fd, const void *buf, size_t size)
{
    ssize_t (*next)(int, const void *, size_t) = (ssize_t (*)(int, const void *, size_t))dlsym(RTLD_NEXT, "write");
    ssize_t most = allowed("write", fd, size);
    return most < 0 ? -1 : counted("write", fd, next(fd, buf, (size_t)most));
}
