/* Counts the bytes of the heap that a program holds, where it is preloaded. At each write to standard output the third file is told
   how many bytes more than after the write before it the program has held at most, one line each. A block counts with all the bytes
   that may be used of it, and one that is grown counts once. */
#include <malloc.h>
#include <stddef.h>
#include <stdio.h>
#include <unistd.h>

extern void *__libc_malloc(size_t);
extern void *__libc_calloc(size_t, size_t);
extern void *__libc_realloc(void *, size_t);
extern void *__libc_memalign(size_t, size_t);
extern void __libc_free(void *);
extern ssize_t __write(int, const void *, size_t);

static size_t held, most, before;

static void *taken(void *block) {
    held += malloc_usable_size(block);
    if (held > most) most = held;
    return block;
}

static void given_back(void *block) { held -= malloc_usable_size(block); }

void *malloc(size_t size) { return taken(__libc_malloc(size)); }

void *calloc(size_t count, size_t size) { return taken(__libc_calloc(count, size)); }

void *memalign(size_t align, size_t size) { return taken(__libc_memalign(align, size)); }

void *aligned_alloc(size_t align, size_t size) { return memalign(align, size); }

int posix_memalign(void **block, size_t align, size_t size) {
    *block = memalign(align, size);
    return *block ? 0 : 12;
}

void *realloc(void *block, size_t size) {
    size_t old = malloc_usable_size(block);
    void *grown = __libc_realloc(block, size);
    if (grown || size == 0) {
        held -= old;
        taken(grown);
    }
    return grown;
}

void free(void *block) {
    given_back(block);
    __libc_free(block);
}

ssize_t write(int file, const void *bytes, size_t count) {
    if (file == 1) {
        char line[32];
        int length = snprintf(line, sizeof line, "%zu\n", most - before);
        if (length > 0) __write(3, line, length);
        before = most = held;
    }
    return __write(file, bytes, count);
}
