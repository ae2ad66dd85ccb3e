/* Preloaded: refuses the request for memory whose number the variable REFUSE gives, and where
   ONWARDS is set all after it, and then makes the file that REFUSED names, if it names one.
   Where MARKED is set, each request puts a byte 1 into standard output, so that what is written
   before and behind it tells whose it is. */
#define _GNU_SOURCE
#include <dlfcn.h>
#include <fcntl.h>
#include <stdlib.h>
#include <unistd.h>

static long asked;

static int refused(void) {
    if (getenv("MARKED") && write(STDOUT_FILENO, "\1", 1) != 1) abort();
    const char *number = getenv("REFUSE");
    if (!number || ++asked < atol(number)) return 0;
    if (asked > atol(number) && !getenv("ONWARDS")) return 0;
    const char *told = getenv("REFUSED");
    if (told) close(creat(told, 0600));
    return 1;
}

void *malloc(size_t size) {
    static void *(*next)(size_t);
    if (!next) next = (void *(*)(size_t))dlsym(RTLD_NEXT, "malloc");
    return refused() ? NULL : next(size);
}

void *realloc(void *held, size_t size) {
    static void *(*next)(void *, size_t);
    if (!next) next = (void *(*)(void *, size_t))dlsym(RTLD_NEXT, "realloc");
    return refused() ? NULL : next(held, size);
}
