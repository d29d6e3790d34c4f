/* Preloaded into a program, tells each request and release of 400,000 bytes and more, and what the program then holds:
       gcc -O1 -shared -fPIC -o held.so bench/held.c && LD_PRELOAD=./held.so release/rdf .. 2>log
   Only for one slot: what is held is counted in one place. */
#define _GNU_SOURCE
#include <malloc.h>
#include <stdio.h>
#include <unistd.h>

extern void *__libc_malloc(size_t);
extern void *__libc_realloc(void *, size_t);
extern void __libc_free(void *);

static long held;

static long size_of(void *place) {
    return place ? (long)malloc_usable_size(place) : 0;
}

static void tell(long change, long size) {
    char line[64];
    held += change;
    if (size < 400000)
        return;
    int length = snprintf(line, sizeof line, "%+.2f MB, %.2f held\n", change / 1e6, held / 1e6);
    if (write(2, line, length) != length)
        _exit(99);
}

void *malloc(size_t size) {
    void *place = __libc_malloc(size);
    tell(size_of(place), size_of(place));
    return place;
}

void *realloc(void *from, size_t size) {
    long had = size_of(from);
    void *place = __libc_realloc(from, size);
    if (place)
        tell(size_of(place) - had, size_of(place));
    return place;
}

void free(void *place) {
    tell(-size_of(place), size_of(place));
    __libc_free(place);
}
