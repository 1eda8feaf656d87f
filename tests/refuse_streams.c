// Loaded before the C library, refuses a call on a stream or a file, and writes a line to stream 9 for each call that it refuses.
//   KIND     write, read or open (those with several buffers, and those in a folder, are of the same kind)
//   STREAM   the calls on this stream alone are counted; without it those on each but 9
//   REFUSED  the number of the call that is refused; with the variable TO_THE_END also those after it
//   FAULT    the number of the error that it is refused by
//   BYTES    each other read or write moves no more bytes than this, where it is given
#define _GNU_SOURCE
#include <dlfcn.h>
#include <errno.h>
#include <fcntl.h>
#include <stdarg.h>
#include <stdlib.h>
#include <string.h>
#include <sys/uio.h>
#include <unistd.h>

static long number_in(const char *name, long without) {
    const char *text = getenv(name);
    return text ? atol(text) : without;
}

static ssize_t real_write(int stream, const void *from, size_t count) {
    ssize_t (*real)(int, const void *, size_t) = dlsym(RTLD_NEXT, "write");
    return real(stream, from, count);
}

static int is_refused(const char *kind, int stream) {
    static long asked;
    const char *wanted = getenv("KIND");
    long at = number_in("REFUSED", 0), number;
    if (!wanted || strcmp(kind, wanted) || stream == 9 || number_in("STREAM", stream) != stream) {
        return 0;
    }
    number = __atomic_add_fetch(&asked, 1, __ATOMIC_SEQ_CST);
    if (number != at && !(at && number > at && getenv("TO_THE_END"))) {
        return 0;
    }
    real_write(9, "refused\n", 8);
    errno = number_in("FAULT", EIO);
    return 1;
}

static size_t at_most(const char *kind, int stream, size_t count) {
    const char *wanted = getenv("KIND");
    size_t most = number_in("BYTES", 0);
    int is_meant = wanted && !strcmp(kind, wanted) && number_in("STREAM", stream) == stream;
    return most && is_meant && count > most ? most : count;
}

ssize_t write(int stream, const void *from, size_t count) {
    return is_refused("write", stream) ? -1 : real_write(stream, from, at_most("write", stream, count));
}

ssize_t read(int stream, void *to, size_t count) {
    ssize_t (*real)(int, void *, size_t) = dlsym(RTLD_NEXT, "read");
    return is_refused("read", stream) ? -1 : real(stream, to, at_most("read", stream, count));
}

// Several buffers: the first that has bytes is enough.
ssize_t writev(int stream, const struct iovec *from, int count) {
    while (count > 1 && !from->iov_len) {
        from++, count--;
    }
    return write(stream, from->iov_base, count ? from->iov_len : 0);
}

ssize_t readv(int stream, const struct iovec *to, int count) {
    while (count > 1 && !to->iov_len) {
        to++, count--;
    }
    return read(stream, to->iov_base, count ? to->iov_len : 0);
}

#define OPENING(name, parameters, last, ...)               \
    int name parameters {                                  \
        int (*real) parameters = dlsym(RTLD_NEXT, #name);  \
        va_list rest;                                      \
        mode_t mode;                                       \
        if (is_refused("open", -1)) {                      \
            return -1;                                     \
        }                                                  \
        va_start(rest, last);                              \
        mode = last & (O_CREAT | O_TMPFILE) ? va_arg(rest, mode_t) : 0; \
        va_end(rest);                                      \
        return real(__VA_ARGS__, mode);                    \
    }

OPENING(open, (const char *path, int how, ...), how, path, how)
OPENING(open64, (const char *path, int how, ...), how, path, how)
OPENING(openat, (int folder, const char *path, int how, ...), how, folder, path, how)
OPENING(openat64, (int folder, const char *path, int how, ...), how, folder, path, how)
