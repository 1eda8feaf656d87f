// Loaded before the C library, refuses the allocation numbered REFUSED, or with the variable TO_THE_END also those after it,
// and writes a line to stream 9 for each.
//
// A request for 2^62 bytes is a mark, and is refused in any case. With the variable MARKED only what is asked for between a mark and
// the next is counted, and with LEAST only what has so many bytes or more, with MOST no more.
#define _GNU_SOURCE
#include <dlfcn.h>
#include <errno.h>
#include <stdlib.h>
#include <unistd.h>

static const size_t mark = (size_t)1 << 62;

static int is_refused(size_t size) {
    static long asked, marks;
    if (size == mark) {
        __atomic_add_fetch(&marks, 1, __ATOMIC_SEQ_CST);
        return 1;
    }
    if (getenv("MARKED") && __atomic_load_n(&marks, __ATOMIC_SEQ_CST) % 2 == 0) {
        return 0;
    }
    if (getenv("MOST") && size > strtoul(getenv("MOST"), 0, 10)) {
        return 0;
    }
    if (getenv("LEAST") && size < strtoul(getenv("LEAST"), 0, 10)) {
        return 0;
    }
    long number = __atomic_add_fetch(&asked, 1, __ATOMIC_SEQ_CST), at = atol(getenv("REFUSED"));
    return (number == at || (number > at && getenv("TO_THE_END"))) && write(9, "refused\n", 8) == 8;
}

#define REFUSING(name, parameters, ...)                     \
    void *name parameters {                                 \
        void *(*real) parameters = dlsym(RTLD_NEXT, #name); \
        if (is_refused(size)) {                             \
            errno = ENOMEM;                                 \
            return 0;                                       \
        }                                                   \
        return real(__VA_ARGS__);                           \
    }

REFUSING(malloc, (size_t size), size)
REFUSING(realloc, (void *old, size_t size), old, size)
REFUSING(aligned_alloc, (size_t align, size_t size), align, size)

int posix_memalign(void **out, size_t align, size_t size) {
    int (*real)(void **, size_t, size_t) = dlsym(RTLD_NEXT, "posix_memalign");
    return is_refused(size) ? ENOMEM : real(out, align, size);
}
