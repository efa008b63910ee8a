/*
 * The heap of the module. The creation of a channel requests memory, which is cut from the memory behind the module's
 * data, at its exact size. It is never reused. Room for incoming octets and lists is cut into slots of a few sizes.
 * Slots are used again once they are returned. Nothing is ever moved to make room, and each call takes a bounded number
 * of steps.
 */
#include <stddef.h>
#include <stdint.h>

void *heap_cut(uint64_t count, uint64_t alignment);
int heap_reserve(uint64_t count);
void *heap_take(uint64_t count);
void heap_give(void *at);

/* The words before the octets of a slot: its size, and the next free slot of that size if the slot is free. */
typedef struct slot {
    uint64_t size;
    struct slot *next;
} slot;

enum { PAGE = 65536, FIELD = 1024, ITEM = 65552 };

static const uint32_t sizes[] = {
    16, 32, 64, 128, 256, 512, FIELD, 2048, 4096, 8192, 16384, 32768, 65536, ITEM, 131072, 262144, 524288, 1048576,
};
enum { SIZES = sizeof sizes / sizeof sizes[0] };

extern unsigned char __heap_base;
static slot *free_slots[SIZES];
/* The place from which on nothing has been cut yet, or 0 before the first block is cut. */
static uintptr_t cut;

/* Returns the index of the size of slot for a block, or SIZES if no slot is large enough. */
static uint64_t size_for(uint64_t count) {
    const uint64_t least = count <= FIELD ? FIELD : count;
    uint64_t size = 0;
    while (size < SIZES && sizes[size] < least) {
        size += 1;
    }
    return size;
}

/* Returns whether there is room, and grows the memory for it if necessary. If the memory can't grow, memory.grow
 * returns 2^32 - 1 in a module whose addresses were lowered from 64 bits to 32, and 2^64 - 1 otherwise. The low 32 bits
 * are the same in both cases. */
static int has_room(uint64_t count) {
    const uint64_t end = __builtin_wasm_memory_size(0) * PAGE;
    const uint64_t pages = cut + count <= end ? 0 : (cut + count - end + PAGE - 1) / PAGE;
    return pages == 0 || (uint32_t)__builtin_wasm_memory_grow(0, pages) != UINT32_MAX;
}

/* Cuts `count` octets from the rest of the memory. Returns NULL if the machine has no more. */
void *heap_cut(uint64_t count, uint64_t alignment) {
    const uintptr_t from = cut == 0 ? (uintptr_t)&__heap_base : cut;
    const uintptr_t place = (from + (uintptr_t)alignment - 1) & ~((uintptr_t)alignment - 1);
    const uintptr_t before = cut;
    cut = place;
    if (!has_room(count)) {
        cut = before;
        return NULL;
    }
    cut = place + (uintptr_t)count;
    return (void *)place;
}

/* Grows the memory at once for `count` octets that are going to be requested. Returns whether it then has room for
 * them. */
int heap_reserve(uint64_t count) {
    if (cut == 0) {
        cut = (uintptr_t)&__heap_base;
    }
    return has_room(count);
}

/* Cuts a slot of this size from the rest of the memory. */
static slot *cut_slot(uint64_t size) {
    slot *made = (slot *)heap_cut(sizeof(slot) + sizes[size], 16);
    if (made != NULL) {
        made->size = size;
    }
    return made;
}

/* Takes a free slot of this size. If there is none, cuts a slot from the rest of the memory. If that fails, takes a
 * free slot of a larger size. */
static slot *take_slot(uint64_t size) {
    slot *taken = size < SIZES && free_slots[size] == NULL ? cut_slot(size) : NULL;
    for (; taken == NULL && size < SIZES; size++) {
        if (free_slots[size] != NULL) {
            taken = free_slots[size];
            free_slots[size] = taken->next;
        }
    }
    return taken;
}

void *heap_take(uint64_t count) {
    slot *taken = take_slot(size_for(count));
    return taken == NULL ? NULL : taken + 1;
}

void heap_give(void *at) {
    slot *given = (slot *)at - 1;
    given->next = free_slots[given->size];
    free_slots[given->size] = given;
}
