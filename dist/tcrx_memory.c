/*
 * The memory of channels, over malloc and free. Link this file with libtcrx.a, or link tcrx_static.c or two functions
 * of your own in its place. You can also compile it as C++.
 *
 * The two functions must keep to these rules:
 * - rattle_alloc returns a new block of `count` bytes that is aligned to `alignment`, a power of two up to 16. If it
 *   has none, it returns `given` false.
 * - rattle_dealloc frees a block that rattle_alloc returned.
 * - Blocks that are returned and not yet freed don't overlap, and nothing else writes to them.
 * - The functions are called from each thread that creates or frees channels, and by no other call of a channel.
 * - `at` is never null, not even if `given` is false.
 */
#include <stdbool.h>
#include <stddef.h>
#include <stdlib.h>

typedef struct {
    bool given;
    void *at;
} rattle_block;

#ifdef __cplusplus
extern "C" {
#endif
rattle_block rattle_alloc(size_t count, size_t alignment);
void rattle_dealloc(void *at);
#ifdef __cplusplus
}
#endif

static char nothing;

static rattle_block answer(void *at) {
    const rattle_block block = {at != NULL, at != NULL ? at : &nothing};
    return block;
}

/* malloc aligns a block to each power of two up to 16 that divides its size. A block of 0 bytes is also a block. */
rattle_block rattle_alloc(size_t count, size_t alignment) {
    return answer(malloc(count == 0 ? alignment : count));
}

void rattle_dealloc(void *at) {
    free(at);
}
