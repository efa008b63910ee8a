/*
 * The functions that the three programs call besides the C library, for a processor for which the kit doesn't provide
 * them. They return the words of the command line and the number of the last error, and allocate, grow and free memory.
 * tools/target links this file with the programs. The file isn't proved.
 */
#include "../dist/tcrx_memory.c"

#include <errno.h>
#include <string.h>
#include <sys/types.h>

int rattle_errno(void);
void rattle_set_errno(int number);
ssize_t rattle_arg(size_t at, char *room, size_t most);
rattle_block rattle_realloc(void *at, size_t kept, size_t count, size_t alignment);

static size_t word_count;
static char **words;

/* Keeps the words of the command line. The GNU C library calls this before main, with the parameters of main. */
__attribute__((constructor)) static void keep(int count, char **given) {
    word_count = (size_t)count;
    words = given;
}

int rattle_errno(void) {
    return errno;
}

void rattle_set_errno(int number) {
    errno = number;
}

/* Copies a word, and returns its length. Returns -1 if there is no such word, and -2 if the room is full before the
 * word ends. */
ssize_t rattle_arg(size_t at, char *room, size_t most) {
    if (at >= word_count) {
        return -1;
    }
    const size_t count = strlen(words[at]);
    memcpy(room, words[at], count < most ? count : most);
    return count <= most ? (ssize_t)count : -2;
}

/* Returns a block of `count` bytes with the content of the block at `at`, which is freed. If no such block can be
 * allocated, returns `given` false, and the block at `at` stays as it was. */
rattle_block rattle_realloc(void *at, size_t kept, size_t count, size_t alignment) {
    (void)kept;
    return answer(realloc(at, count == 0 ? alignment : count));
}
