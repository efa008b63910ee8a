/*
 * The third function of memory, over realloc. Only the calls of tcrx_lines.h need it. If your program makes these
 * calls, link this file besides tcrx_memory.c, or write a function of your own in its place. You can also compile it as
 * C++.
 *
 * rattle_realloc returns a block of `count` bytes in place of one that rattle_alloc or rattle_realloc returned. It
 * keeps the octets for which both blocks have room. If it has no such block, it returns `given` false, and the old
 * block stays as it was. The rules for blocks in tcrx_memory.c also hold here.
 */
#include <stdbool.h>
#include <stddef.h>
#include <stdlib.h>

typedef struct {
    bool given;
    void *at;
} rattle_block;

#ifdef __cplusplus
extern "C" {
#endif
rattle_block rattle_realloc(void *at, size_t count_before, size_t count, size_t alignment);
#ifdef __cplusplus
}
#endif

static char nothing;

static rattle_block answer(void *at) {
    const rattle_block block = {at != NULL, at != NULL ? at : &nothing};
    return block;
}

rattle_block rattle_realloc(void *at, size_t count_before, size_t count, size_t alignment) {
    (void)count_before;
    return answer(realloc(at, count == 0 ? alignment : count));
}
