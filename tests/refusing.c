/* Refuses memory, or a thread, to a program that loads this first (LD_PRELOAD): the call of number REFUSE_AT of malloc, calloc,
   realloc and posix_memalign together, and all after it where REFUSE_ON is set, or that call of pthread_create where
   REFUSE_THREADS is set. A byte on the descriptor REFUSE_TELL says that one was refused; where REFUSE_NONE is set, none is, and
   a byte says that memory was asked for. */
#define _GNU_SOURCE
#include <dlfcn.h>
#include <errno.h>
#include <pthread.h>
#include <stdatomic.h>
#include <stdlib.h>
#include <unistd.h>

extern void *__libc_malloc(size_t);
extern void *__libc_calloc(size_t, size_t);
extern void *__libc_realloc(void *, size_t);
extern void *__libc_memalign(size_t, size_t);

static atomic_long made;

static void tell(void) {
    if (write(atoi(getenv("REFUSE_TELL")), "r", 1) != 1) abort();
}

static int is_refused(int of_threads) {
    const char *at = getenv("REFUSE_AT");
    int threads = getenv("REFUSE_THREADS") != NULL;
    if (getenv("REFUSE_NONE") && !of_threads) tell();
    if (!at || threads != of_threads) return 0;
    long number = atomic_fetch_add(&made, 1) + 1, first = atol(at);
    if (number != first && !(number > first && getenv("REFUSE_ON"))) return 0;
    tell();
    errno = of_threads ? EAGAIN : ENOMEM;
    return 1;
}

void *malloc(size_t size) { return is_refused(0) ? NULL : __libc_malloc(size); }

void *calloc(size_t count, size_t size) { return is_refused(0) ? NULL : __libc_calloc(count, size); }

void *realloc(void *old, size_t size) { return is_refused(0) ? NULL : __libc_realloc(old, size); }

int posix_memalign(void **to, size_t align, size_t size) {
    if (is_refused(0)) return ENOMEM;
    *to = __libc_memalign(align, size);
    return *to ? 0 : ENOMEM;
}

int pthread_create(pthread_t *thread, const pthread_attr_t *attr, void *(*start)(void *), void *with) {
    if (is_refused(1)) return EAGAIN;
    int (*create)(pthread_t *, const pthread_attr_t *, void *(*)(void *), void *) = dlsym(RTLD_NEXT, "pthread_create");
    return create(thread, attr, start, with);
}
