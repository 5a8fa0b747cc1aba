// Stands between a program and the C library, and refuses it host threads. REFUSE_THREAD says which one, counted from 1, or with 0 that each one is
// refused. Where one was refused, the file that REFUSE_TO names is made.
#define _GNU_SOURCE
#include <dlfcn.h>
#include <errno.h>
#include <fcntl.h>
#include <pthread.h>
#include <stdatomic.h>
#include <stdlib.h>
#include <unistd.h>

static atomic_long started;

static int is_refused(void) {
    const char *at = getenv("REFUSE_THREAD");
    long place = at ? atol(at) : -1;
    return atomic_fetch_add(&started, 1) + 1 == place || place == 0;
}

static void note(void) {
    const char *name = getenv("REFUSE_TO");
    int file = name ? open(name, O_WRONLY | O_CREAT, 0600) : -1;
    if (file < 0) {
        abort();
    }
    close(file);
}

int pthread_create(pthread_t *thread, const pthread_attr_t *attributes, void *(*begin)(void *), void *argument) {
    int (*create)(pthread_t *, const pthread_attr_t *, void *(*)(void *), void *) = dlsym(RTLD_NEXT, "pthread_create");
    if (is_refused()) {
        note();
        return EAGAIN;
    }
    return create(thread, attributes, begin, argument);
}
