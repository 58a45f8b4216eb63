/* Loaded before the C library. Refuses one allocation: the one whose number, from 1, is in REFUSE_AT, and
   makes the file REFUSE_LOG when it does. And refuses each thread after as many as are in THREADS_AT_MOST.

   Where REFUSE_BETWEEN is set, an allocation of that many bytes is a signal, and none is counted but those between
   a signal and the next: the first and the second, the third and the fourth. So a test says which of its calls are
   to be refused memory. */
#define _GNU_SOURCE
#include <dlfcn.h>
#include <errno.h>
#include <fcntl.h>
#include <pthread.h>
#include <stddef.h>
#include <stdlib.h>
#include <unistd.h>

static _Atomic long counted = 0;
static _Atomic long signals = 0;
static _Atomic long threads = 0;

/* The number in a variable, or 0 where it isn't set. */
static long number(const char *name) {
    const char *text = getenv(name);
    return text ? atol(text) : 0;
}

/* Whether an allocation is counted. A signal isn't. */
static int counts(size_t size) {
    long signal_size = number("REFUSE_BETWEEN");
    if (signal_size == 0) return 1;
    if (size == (size_t)signal_size) {
        ++signals;
        return 0;
    }
    return signals % 2 == 1;
}

static int refused(size_t size) {
    if (!counts(size) || ++counted != number("REFUSE_AT")) return 0;
    const char *log = getenv("REFUSE_LOG");
    if (log) close(creat(log, 0644));
    return 1;
}

int pthread_create(pthread_t *thread, const pthread_attr_t *attr, void *(*start)(void *), void *arg) {
    static int (*next)(pthread_t *, const pthread_attr_t *, void *(*)(void *), void *);
    if (!next) next = dlsym(RTLD_NEXT, "pthread_create");
    if (getenv("THREADS_AT_MOST") && ++threads > number("THREADS_AT_MOST")) return EAGAIN;
    return next(thread, attr, start, arg);
}

void *malloc(size_t size) {
    static void *(*next)(size_t);
    if (!next) next = dlsym(RTLD_NEXT, "malloc");
    return refused(size) ? NULL : next(size);
}

void *realloc(void *old, size_t size) {
    static void *(*next)(void *, size_t);
    if (!next) next = dlsym(RTLD_NEXT, "realloc");
    return refused(size) ? NULL : next(old, size);
}

void *aligned_alloc(size_t alignment, size_t size) {
    static void *(*next)(size_t, size_t);
    if (!next) next = dlsym(RTLD_NEXT, "aligned_alloc");
    return refused(size) ? NULL : next(alignment, size);
}
