/* What tools/hostile-calls puts between the program and the C library, by LD_PRELOAD.
 *
 * MEMORY=N refuses the N-th malloc or realloc, and ALL=1 each one behind it too; READ=K and WRITE=K refuse the K-th read of
 * standard input and the K-th write of standard output, FILE=K the K-th read of any other file; BYTES=1 gives and takes one byte at a
 * time. COUNTS names a file into which the number of each of the four is written at the end.
 */
#define _GNU_SOURCE
#include <dlfcn.h>
#include <errno.h>
#include <stdatomic.h>
#include <stdio.h>
#include <stdlib.h>
#include <unistd.h>

static atomic_long memory, reads, writes, files;
static long no_memory, no_read, no_write, no_file;
static int is_all, is_ready, by_bytes;

static long number(const char *name) { return getenv(name) ? atol(getenv(name)) : 0; }

__attribute__((constructor)) static void begin(void) {
    no_memory = number("MEMORY"), no_read = number("READ"), no_write = number("WRITE"), no_file = number("FILE");
    is_all = number("ALL"), by_bytes = number("BYTES"), is_ready = 1;
}

static int is_refused(void) {
    long at = is_ready ? atomic_fetch_add(&memory, 1) + 1 : 0;
    return no_memory && (at == no_memory || (is_all && at > no_memory));
}

static int has_failed(atomic_long *count, long at, size_t *size) {
    if (by_bytes && *size > 1) *size = 1;
    errno = EIO;
    return atomic_fetch_add(count, 1) + 1 == at;
}

void *malloc(size_t size) {
    static void *(*real)(size_t);
    if (!real) real = dlsym(RTLD_NEXT, "malloc");
    return is_refused() ? NULL : real(size);
}

void *realloc(void *block, size_t size) {
    static void *(*real)(void *, size_t);
    if (!real) real = dlsym(RTLD_NEXT, "realloc");
    return is_refused() ? NULL : real(block, size);
}

ssize_t read(int file, void *bytes, size_t size) {
    ssize_t (*real)(int, void *, size_t) = dlsym(RTLD_NEXT, "read");
    int failed = file == 0 ? has_failed(&reads, no_read, &size) : has_failed(&files, no_file, &size);
    return failed ? -1 : real(file, bytes, size);
}

ssize_t write(int file, const void *bytes, size_t size) {
    ssize_t (*real)(int, const void *, size_t) = dlsym(RTLD_NEXT, "write");
    return file == 1 && has_failed(&writes, no_write, &size) ? -1 : real(file, bytes, size);
}

void _exit(int status) {
    void (*real)(int) = dlsym(RTLD_NEXT, "_exit");
    FILE *counts = getenv("COUNTS") ? fopen(getenv("COUNTS"), "w") : NULL;
    is_ready = 0, no_memory = 0;
    if (counts) fprintf(counts, "%ld %ld %ld %ld\n", memory, reads, writes, files), fclose(counts);
    real(status);
    __builtin_unreachable();
}
