// A shim that is preloaded into a program. It counts the bytes of the heap that the program has requested and not freed. For each line
// that the program writes to standard output, it writes a line to the file that COUNT_TO names. That line has the number of these bytes, the
// largest such number since the line before, the number of requests for memory since then, and the program's line. The bytes that an allocator
// adds to a block aren't counted.
#define _GNU_SOURCE
#include <dlfcn.h>
#include <fcntl.h>
#include <malloc.h>
#include <stdio.h>
#include <stdlib.h>
#include <string.h>
#include <sys/syscall.h>
#include <unistd.h>

static long octets;
static long most;
static long growths;
static int counts = -1;

__attribute__((constructor)) static void start(void) {
    const char *name = getenv("COUNT_TO");
    if (!name) return;
    counts = open(name, O_CREAT | O_TRUNC | O_WRONLY, 0600);
    if (counts < 0) abort();
    octets = most = growths = 0;
}

// Returns the place at the end of a block that holds the requested size of the block.
static char *end_of(void *block) {
    return (char *)block + malloc_usable_size(block) - sizeof(size_t);
}

// Returns the requested size of a block, or 0 for no block.
static size_t asked(void *block) {
    size_t size = 0;
    if (block) memcpy(&size, end_of(block), sizeof size);
    return size;
}

// Notes a block of `size` bytes that was allocated in place of `before` bytes, and returns it.
static void *given(void *block, size_t size, size_t before) {
    if (!block) return NULL;
    memcpy(end_of(block), &size, sizeof size);
    octets += (long)size - (long)before;
    if (octets > most) most = octets;
    growths++;
    return block;
}

void *malloc(size_t size) {
    static void *(*real)(size_t);
    if (!real) real = dlsym(RTLD_NEXT, "malloc");
    return given(real(size + sizeof(size_t)), size, 0);
}

void *calloc(size_t count, size_t size) {
    if (size && count > ((size_t)1 << 40) / size) return NULL;
    void *block = malloc(count * size);
    return block ? memset(block, 0, count * size) : NULL;
}

void *realloc(void *block, size_t size) {
    static void *(*real)(void *, size_t);
    if (!real) real = dlsym(RTLD_NEXT, "realloc");
    size_t before = asked(block);
    return given(real(block, size + sizeof(size_t)), size, before);
}

void free(void *block) {
    static void (*real)(void *);
    if (!real) real = dlsym(RTLD_NEXT, "free");
    octets -= (long)asked(block);
    real(block);
}

ssize_t write(int file, const void *from, size_t count) {
    if (file == 1 && counts >= 0 && count > 0 && ((const char *)from)[count - 1] == '\n') {
        char line[256];
        int length = snprintf(line, sizeof line, "%ld %ld %ld %.*s", octets, most, growths, (int)count, (const char *)from);
        if (length < 0 || length >= (int)sizeof line || syscall(SYS_write, counts, line, (size_t)length) != length) abort();
        most = octets;
        growths = 0;
    }
    return syscall(SYS_write, file, from, count);
}
