/* Preloaded into a program, refuses its N-th request for memory, a thread's start too, where REFUSE=N, and with
   REFUSE=N.. each one from there on. At the first refusal it writes a byte to the file that is open as 9. */
#define _GNU_SOURCE
#include <dlfcn.h>
#include <errno.h>
#include <pthread.h>
#include <stdatomic.h>
#include <stdlib.h>
#include <string.h>
#include <unistd.h>

extern void *__libc_malloc(size_t);
extern void *__libc_realloc(void *, size_t);

static atomic_ulong requests;
static unsigned long first;
static int on;

__attribute__((constructor)) static void begin(void) {
    const char *word = getenv("REFUSE");
    char *end = NULL;
    first = word ? strtoul(word, &end, 10) : 0;
    on = end && strcmp(end, "..") == 0;
    atomic_store(&requests, 0);
}

static int is_refused(void) {
    unsigned long number = atomic_fetch_add(&requests, 1) + 1;
    if (number == first && write(9, "x", 1) != 1)
        _exit(99);
    return first && (number == first || (on && number > first));
}

void *malloc(size_t size) {
    if (is_refused()) {
        errno = ENOMEM;
        return NULL;
    }
    return __libc_malloc(size);
}

void *realloc(void *from, size_t size) {
    if (is_refused()) {
        errno = ENOMEM;
        return NULL;
    }
    return __libc_realloc(from, size);
}

int pthread_create(pthread_t *thread, const pthread_attr_t *how, void *(*call)(void *), void *given) {
    static int (*real)(pthread_t *, const pthread_attr_t *, void *(*)(void *), void *);
    if (!real)
        *(void **)&real = dlsym(RTLD_NEXT, "pthread_create");
    return is_refused() ? EAGAIN : real(thread, how, call, given);
}
