/* Loaded before the program (LD_PRELOAD): one of its calls fails. CALL=malloc, read, out or err says which kind (malloc and
   realloc, read, write to 1, write to 2) and NUMBER which of them, from 0; COUNTS is a file that gets how many of each kind
   there were. */
#define _GNU_SOURCE
#include <dlfcn.h>
#include <errno.h>
#include <fcntl.h>
#include <stdio.h>
#include <stdlib.h>
#include <string.h>
#include <sys/syscall.h>
#include <unistd.h>

enum { MALLOC, READ, OUT, ERR, KINDS };
static const char *names[KINDS] = {"malloc", "read", "out", "err"};
static long counts[KINDS];
static int failing = -1;
static long number = -1;

__attribute__((constructor)) static void begin(void) {
    const char *call = getenv("CALL"), *which = getenv("NUMBER");
    for (int kind = 0; kind < KINDS; kind++) {
        counts[kind] = 0;
        if (call && which && !strcmp(call, names[kind])) {
            failing = kind;
            number = strtol(which, 0, 10);
        }
    }
}

__attribute__((destructor)) static void end(void) {
    const char *path = getenv("COUNTS");
    int file = path ? open(path, O_WRONLY | O_CREAT | O_TRUNC, 0600) : -1;
    char line[100];
    int length = snprintf(line, sizeof line, "%ld %ld %ld %ld\n", counts[0], counts[1], counts[2], counts[3]);
    if (file >= 0) {
        syscall(SYS_write, file, line, length);
        close(file);
    }
}

static int fails(int kind, int error) {
    if (counts[kind]++ != number || kind != failing) return 0;
    errno = error;
    return 1;
}

void *__libc_malloc(size_t);
void *__libc_realloc(void *, size_t);

void *malloc(size_t size) { return fails(MALLOC, ENOMEM) ? 0 : __libc_malloc(size); }

void *realloc(void *block, size_t size) { return fails(MALLOC, ENOMEM) ? 0 : __libc_realloc(block, size); }

ssize_t read(int file, void *into, size_t size) {
    if (file == 0 && fails(READ, EIO)) return -1;
    return syscall(SYS_read, file, into, size);
}

static ssize_t written(int file, const void *from, size_t size) {
    if ((file == 1 || file == 2) && fails(file == 1 ? OUT : ERR, EIO)) return -1;
    return syscall(SYS_write, file, from, size);
}

ssize_t write(int file, const void *from, size_t size) { return written(file, from, size); }

ssize_t __write(int file, const void *from, size_t size) { return written(file, from, size); }
