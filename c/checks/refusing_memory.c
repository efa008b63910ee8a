/*
 * The memory of channels and sessions over malloc, for the checks of the bindings. tcrx_refuse() makes one request of
 * the calling thread fail. Link this file in place of tcrx_memory.c and tcrx_lines_memory.c, into a program or a shared
 * library.
 */
#include <stdbool.h>
#include <stddef.h>
#include <stdlib.h>

typedef struct {
    bool given;
    void *at;
} rattle_block;

rattle_block rattle_alloc(size_t count, size_t alignment);
rattle_block rattle_realloc(void *at, size_t count_before, size_t count, size_t alignment);
void rattle_dealloc(void *at);
long tcrx_refuse(long growth);
long tcrx_blocks(void);

static char nothing;
/* The number of requests that succeed before one is refused, and the number of blocks in use. No request is refused if
 * the first number is below 0. */
static _Thread_local long given_first = -1;
static _Thread_local long blocks;

/*
 * Refuses the request with this number, counted from 0 for the next one. If the number is below 0, no request is
 * refused. Returns the rest of the previous number, which is below 0 if the request with that number was refused.
 */
long tcrx_refuse(long growth) {
    const long left = given_first;
    given_first = growth;
    return left;
}

/* Returns the number of blocks in use. */
long tcrx_blocks(void) { return blocks; }

static bool is_refused(void) {
    if (given_first < 0) {
        return false;
    }
    given_first -= 1;
    return given_first < 0;
}

static rattle_block answer(void *at) {
    const rattle_block block = {at != NULL, at != NULL ? at : &nothing};
    return block;
}

rattle_block rattle_alloc(size_t count, size_t alignment) {
    void *at = is_refused() ? NULL : malloc(count == 0 ? alignment : count);
    blocks += at == NULL ? 0 : 1;
    return answer(at);
}

rattle_block rattle_realloc(void *at, size_t count_before, size_t count, size_t alignment) {
    (void)count_before;
    return answer(is_refused() ? NULL : realloc(at, count == 0 ? alignment : count));
}

void rattle_dealloc(void *at) {
    blocks -= 1;
    free(at);
}
