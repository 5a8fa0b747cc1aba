// Stands between a program and the C library, and refuses one growth of memory. A growth is a call of malloc or realloc between a line `call NAME` that the
// program prints and its line `end`; elsewhere nothing is refused or counted. Where REFUSE_ALL is set, each call of malloc or realloc is a growth.
// REFUSE_AT says which growth it is, counted from 1. The name of the call in which it was refused, `program` where all are counted, is written to the
// file that REFUSE_TO names; where the program grows less often, that file stays as it is.
#define _GNU_SOURCE
#include <dlfcn.h>
#include <errno.h>
#include <fcntl.h>
#include <stdatomic.h>
#include <stdlib.h>
#include <string.h>
#include <unistd.h>

static const char BEGINS[] = "call ";
static const char ENDS[] = "end\n";

static char call[64];
static size_t call_length;
static atomic_bool within;
static atomic_long grown;
static long refused_at;

static void *(*c_malloc)(size_t);
static void *(*c_realloc)(void *, size_t);
static ssize_t (*c_write)(int, const void *, size_t);

__attribute__((constructor)) static void find(void) {
    c_malloc = dlsym(RTLD_NEXT, "malloc");
    c_realloc = dlsym(RTLD_NEXT, "realloc");
    c_write = dlsym(RTLD_NEXT, "write");
    const char *at = getenv("REFUSE_AT");
    refused_at = at ? atol(at) : 0;
    if (getenv("REFUSE_ALL")) {
        call_length = strlen(strcpy(call, "program"));
        within = 1;
    }
}

// Writes down the call under way.
static void note(void) {
    const char *name = getenv("REFUSE_TO");
    int file = name ? open(name, O_WRONLY | O_CREAT | O_TRUNC, 0600) : -1;
    if (file < 0 || c_write(file, call, call_length) != (ssize_t)call_length) {
        abort();
    }
    close(file);
}

// Whether this growth is the one to be refused.
static int is_refused(void) {
    if (!within || atomic_fetch_add(&grown, 1) + 1 != refused_at) {
        return 0;
    }
    note();
    errno = ENOMEM;
    return 1;
}

void *malloc(size_t size) {
    if (!c_malloc) {
        find();
    }
    return is_refused() ? NULL : c_malloc(size);
}

void *realloc(void *old, size_t size) {
    if (!c_realloc) {
        find();
    }
    return is_refused() ? NULL : c_realloc(old, size);
}

// Looks whether a line that is printed begins or ends a call.
static void look(int file, const char *line, size_t length) {
    size_t begins = sizeof BEGINS - 1;
    if (file != STDOUT_FILENO || getenv("REFUSE_ALL")) {
        return;
    }
    if (length > begins && length - begins <= sizeof call && !memcmp(line, BEGINS, begins)) {
        call_length = length - begins;
        memcpy(call, line + begins, call_length);
        within = 1;
    } else if (length == sizeof ENDS - 1 && !memcmp(line, ENDS, length)) {
        within = 0;
    }
}

ssize_t write(int file, const void *bytes, size_t length) {
    if (!c_write) {
        find();
    }
    ssize_t written = c_write(file, bytes, length);
    look(file, bytes, length);
    return written;
}

ssize_t __write(int file, const void *bytes, size_t length) {
    return write(file, bytes, length);
}
