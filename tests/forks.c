// Loaded before the C library, holds a program before its start, and makes a run of it for each request: a fork, so that nothing of a run
// is left for the next, and its loading is done once. A request on stream 198 is a count of bytes and that many bytes, words each ended by a
// byte 0; the answer on stream 199 is the status that `waitpid` gives, and how far the streams 1 and 2, which are files, are written.
// Each number has 32 bits. In a run both streams are closed, the environment is empty, and SIGALRM ends it after a minute.
#define _GNU_SOURCE
#include <dlfcn.h>
#include <stdint.h>
#include <stdlib.h>
#include <string.h>
#include <sys/wait.h>
#include <unistd.h>

enum { requests = 198, answers = 199, most_words = 64, most_bytes = 1 << 20, seconds = 60, failed = 125 };

static char text[most_bytes];
static uint32_t size;
// The words of a run, and behind them and a null its environment, which has none.
static char *words[most_words + 2];

static int get(void *to, size_t count) {
    for (char *at = to; count;) {
        ssize_t got = read(requests, at, count);
        if (got <= 0) {
            return 0;
        }
        at += got, count -= got;
    }
    return 1;
}

// Returns in a fork for each request.
static void hold(void) {
    int status;
    unsetenv("LD_PRELOAD");
    while (get(&size, sizeof size)) {
        if (size > sizeof text || !get(text, size)) {
            _exit(failed);
        }
        pid_t run = fork();
        if (!run) {
            close(requests), close(answers), alarm(seconds);
            return;
        }
        if (run < 0 || waitpid(run, &status, 0) != run) {
            _exit(failed);
        }
        int32_t answer[] = {status, lseek(1, 0, SEEK_CUR), lseek(2, 0, SEEK_CUR)};
        if (write(answers, answer, sizeof answer) != sizeof answer) {
            _exit(failed);
        }
    }
    _exit(0);
}

typedef int start(int (*)(int, char **, char **), int, char **, void (*)(void), void (*)(void), void (*)(void), void *);

int __libc_start_main(int (*main)(int, char **, char **), int count, char **given, void (*init)(void), void (*end)(void),
                      void (*unload)(void), void *stack) {
    (void)given;
    hold();
    count = 0;
    for (char *at = text; at < text + size && count < most_words; at += strlen(at) + 1) {
        words[count++] = at;
    }
    return ((start *)dlsym(RTLD_NEXT, "__libc_start_main"))(main, count, words, init, end, unload, stack);
}
