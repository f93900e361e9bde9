/* Stands before the C library: it moves few bytes at a time, and refuses one read, write, piece of memory or thread.
   The environment says which, counted from 1: REFUSE_READ, REFUSE_WRITE, REFUSE_MEMORY, REFUSE_THREAD. With REFUSE_ALL each
   later one of the kind is refused too. PIECE is the greatest number of bytes that a read or a write moves. Of each that is
   refused the standard error is told by one byte. */
#define _GNU_SOURCE
#include <dlfcn.h>
#include <errno.h>
#include <pthread.h>
#include <stdatomic.h>
#include <stdlib.h>
#include <sys/syscall.h>
#include <unistd.h>

extern void *__libc_malloc(size_t);
extern void *__libc_realloc(void *, size_t);

struct kind {
    const char *name;
    long wanted;
    atomic_long came;
};
static struct kind reads = {.name = "REFUSE_READ"}, writes = {.name = "REFUSE_WRITE"}, pieces = {.name = "REFUSE_MEMORY"},
                   threads = {.name = "REFUSE_THREAD"};
static size_t most = (size_t)-1;
static int all;

static void begin(struct kind *kind) {
    const char *number = getenv(kind->name);
    kind->wanted = number ? atol(number) : 0;
}

__attribute__((constructor)) static void begin_all(void) {
    const char *piece = getenv("PIECE");
    most = piece ? (size_t)atol(piece) : (size_t)-1;
    all = getenv("REFUSE_ALL") != NULL;
    begin(&reads);
    begin(&writes);
    begin(&pieces);
    begin(&threads);
}

/* Whether this one is refused. Where the environment names no number, none is. */
static int refuses(struct kind *kind) {
    if (!kind->wanted)
        return 0;
    long number = atomic_fetch_add(&kind->came, 1) + 1;
    if (number != kind->wanted && !(all && number > kind->wanted))
        return 0;
    syscall(SYS_write, 2, "!", 1);
    return 1;
}

static size_t piece_of(size_t count) {
    return count < most ? count : most;
}

ssize_t read(int from, void *into, size_t count) {
    ssize_t (*next)(int, void *, size_t) = (ssize_t (*)(int, void *, size_t))dlsym(RTLD_NEXT, "read");
    if (from == 0 && refuses(&reads)) {
        errno = EIO;
        return -1;
    }
    return next(from, into, from == 0 ? piece_of(count) : count);
}

ssize_t write(int to, const void *bytes, size_t count) {
    ssize_t (*next)(int, const void *, size_t) = (ssize_t (*)(int, const void *, size_t))dlsym(RTLD_NEXT, "write");
    if (to == 1 && refuses(&writes)) {
        errno = ENOSPC;
        return -1;
    }
    return next(to, bytes, to == 1 ? piece_of(count) : count);
}

ssize_t __write(int to, const void *bytes, size_t count) {
    return write(to, bytes, count);
}

void *malloc(size_t size) {
    if (refuses(&pieces)) {
        errno = ENOMEM;
        return NULL;
    }
    return __libc_malloc(size);
}

void *realloc(void *old, size_t size) {
    if (refuses(&pieces)) {
        errno = ENOMEM;
        return NULL;
    }
    return __libc_realloc(old, size);
}

int pthread_create(pthread_t *thread, const pthread_attr_t *how, void *(*job)(void *), void *with) {
    int (*next)(pthread_t *, const pthread_attr_t *, void *(*)(void *), void *) =
        (int (*)(pthread_t *, const pthread_attr_t *, void *(*)(void *), void *))dlsym(RTLD_NEXT, "pthread_create");
    return refuses(&threads) ? EAGAIN : next(thread, how, job, with);
}
