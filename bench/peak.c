/* Counts what a program holds of memory: loaded before the C library (LD_PRELOAD), it says at the
   end, on standard error, the most bytes that were allocated at one time, with the 8 bytes that the
   C library adds to a block. It is for programs of one thread. */
#define _GNU_SOURCE
#include <malloc.h>
#include <stdio.h>
#include <stdlib.h>

void *__libc_malloc(size_t size);
void *__libc_calloc(size_t count, size_t size);
void *__libc_realloc(void *old, size_t size);
void __libc_free(void *block);

static size_t held, most;

static size_t size_of(void *block) { return block ? malloc_usable_size(block) + 8 : 0; }

static void *taken(void *block) {
    held += size_of(block);
    if (held > most) most = held;
    return block;
}

void *malloc(size_t size) { return taken(__libc_malloc(size)); }

void *calloc(size_t count, size_t size) { return taken(__libc_calloc(count, size)); }

void *realloc(void *old, size_t size) {
    size_t before = size_of(old);
    void *block = __libc_realloc(old, size);
    if (!block && size) return block;
    held -= before;
    return taken(block);
}

void free(void *block) {
    held -= size_of(block);
    __libc_free(block);
}

__attribute__((destructor)) static void tell(void) { fprintf(stderr, "most: %zu\n", most); }
