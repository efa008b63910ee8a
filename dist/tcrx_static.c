/*
 * The memory of channels in a static array of the program, for software that may request no memory once it has started.
 * Link this file with libtcrx.a in place of tcrx_memory.c. One file of the program defines the array, as large as its
 * channels need:
 *
 *     TCRX_STATIC_STORAGE(TCRX_STORAGE_OF(TCRX_STORAGE_BUFFER(8) + TCRX_STORAGE_SEGMENTED(1024) + TCRX_STORAGE_QUEUES(4, 8, 1024)
 *                                         + TCRX_STORAGE_LIMITS(1)));
 *
 * Blocks of octets are cut from the end of the array, and all others from its front, so that no gaps are left between
 * them. A block that is freed isn't used again, so create all channels at the start, and keep them. If the array is too
 * small for a channel, its creation fails with TCRX_NO_MEMORY, and the blocks that were cut for it are lost.
 *
 * tcrx_storage_seal() ends the start. A later request stops the program by TCRX_STORAGE_TRAP(), which you may define by
 * -D or here. If TCRX_STORAGE_TRAP() returns, the request fails. The calls on a channel never request memory. Only
 * those that create a channel do. There is no lock, because one thread creates all channels.
 */
#include "tcrx.h"

#include <stdbool.h>

#ifndef TCRX_STORAGE_TRAP
#define TCRX_STORAGE_TRAP() __builtin_trap()
#endif

typedef struct {
    bool given;
    void *at;
} rattle_block;

#ifdef __cplusplus
extern "C" {
#endif
rattle_block rattle_alloc(size_t count, size_t alignment);
void rattle_dealloc(void *at);
#ifdef __cplusplus
}
#endif

/* The number of bytes that have been cut from the front and from the end, and whether the start has ended. */
static size_t front, end;
static bool sealed;

static rattle_block none(void) {
    const rattle_block block = {false, tcrx_static_octets};
    return block;
}

/* Cuts `count` bytes at a place at the front, behind which nothing has been cut. Returns no block if they don't fit. */
static rattle_block cut_front(size_t place, size_t count) {
    const size_t most = tcrx_static_size - end;
    if (place > most || count > most - place) {
        return none();
    }
    front = place + count;
    const rattle_block block = {true, tcrx_static_octets + place};
    return block;
}

static rattle_block cut_end(size_t count) {
    if (count > tcrx_static_size - end - front) {
        return none();
    }
    end += count;
    const rattle_block block = {true, tcrx_static_octets + (tcrx_static_size - end)};
    return block;
}

rattle_block rattle_alloc(size_t count, size_t alignment) {
    if (sealed) {
        TCRX_STORAGE_TRAP();
        return none();
    }
    if (alignment == 1) {
        return cut_end(count);
    }
    const size_t over = (size_t)(uintptr_t)(tcrx_static_octets + front) % alignment;
    return cut_front(front + (over == 0 ? 0 : alignment - over), count);
}

void rattle_dealloc(void *at) {
    (void)at;
}

void tcrx_storage_seal(void) {
    sealed = true;
}

size_t tcrx_storage_used(void) {
    return front + end;
}
