// Loaded before the C library, refuses the start of the thread numbered REFUSED, or with the variable TO_THE_END also those after it,
// and writes a line to stream 9 for each.
#define _GNU_SOURCE
#include <dlfcn.h>
#include <errno.h>
#include <pthread.h>
#include <stdlib.h>
#include <unistd.h>

int pthread_create(pthread_t *thread, const pthread_attr_t *with, void *(*run)(void *), void *argument) {
    static long asked;
    long number = __atomic_add_fetch(&asked, 1, __ATOMIC_SEQ_CST), at = atol(getenv("REFUSED"));
    if ((number == at || (number > at && getenv("TO_THE_END"))) && write(9, "refused\n", 8) == 8) {
        return EAGAIN;
    }
    int (*real)(pthread_t *, const pthread_attr_t *, void *(*)(void *), void *) = dlsym(RTLD_NEXT, "pthread_create");
    return real(thread, with, run, argument);
}
