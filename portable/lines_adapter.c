/*
 * The calls of sessions of lines for a WebAssembly module. As in adapter.c, their parameters are only numbers of 32 bits
 * and addresses. tools/page puts this module into its page. An instance holds one session, its line and its text.
 */
#include "tcrx_lines.h"

#define EXPORT(name) __attribute__((export_name(#name), used)) name

typedef uint32_t u32;

/* The part of the heap that is used here (heap.c). */
void *heap_cut(uint64_t count, uint64_t alignment);

/* The header of a block, in front of its octets. It has the size of the block, header included, as a power of two. If the
 * block is free, it also has the next free block of that size. */
typedef struct block {
    uint64_t power;
    struct block *next;
} block;

enum { LEAST_POWER = 5, POWERS = 32 };

static block *free_blocks[POWERS];

/* Takes a free block in which this many octets fit, or cuts one. Returns NULL if the machine has no more memory. */
static void *take(uint64_t count) {
    uint64_t power = LEAST_POWER;
    while (power < POWERS && ((uint64_t)1 << power) < count + sizeof(block)) {
        power++;
    }
    if (power == POWERS) {
        return NULL;
    }
    block *taken = free_blocks[power];
    if (taken != NULL) {
        free_blocks[power] = taken->next;
        return taken + 1;
    }
    taken = (block *)heap_cut((uint64_t)1 << power, 16);
    if (taken == NULL) {
        return NULL;
    }
    taken->power = power;
    return taken + 1;
}

static void give(void *at) {
    block *const given = (block *)at - 1;
    given->next = free_blocks[given->power];
    free_blocks[given->power] = given;
}

/* A block of memory, as the library receives it. In the library's LLVM module both fields are numbers of 64 bits. */
typedef struct {
    uint64_t given;
    uint64_t at;
} rattle_block;

rattle_block rattle_alloc(size_t count, size_t alignment);
rattle_block rattle_realloc(void *at, size_t count_before, size_t count, size_t alignment);
void rattle_dealloc(void *at);

static rattle_block block_of(void *at) {
    const rattle_block answer = {at != NULL, (uint64_t)(uintptr_t)(at != NULL ? at : free_blocks)};
    return answer;
}

rattle_block rattle_alloc(size_t count, size_t alignment) {
    (void)alignment;
    return block_of(take(count));
}

rattle_block rattle_realloc(void *at, size_t count_before, size_t count, size_t alignment) {
    uint8_t *const moved = take(count);
    (void)alignment;
    for (size_t i = 0; moved != NULL && i < count_before && i < count; i++) {
        moved[i] = ((const uint8_t *)at)[i];
    }
    if (moved != NULL) {
        give(at);
    }
    return block_of(moved);
}

void rattle_dealloc(void *at) {
    give(at);
}

static tcrx_lines session = TCRX_HOLDS_NONE;
static uint8_t *line, *text;
static size_t line_room, text_room, length;

/* Returns room for `count` octets. Allocates it in place of the old room if that is too small. Returns NULL if there is no
 * memory. */
static uint8_t *room_for(uint8_t **at, size_t *room, size_t count) {
    if (*at == NULL || *room < count) {
        if (*at != NULL) {
            give(*at);
        }
        *at = take(count);
        *room = *at == NULL ? 0 : count;
    }
    return *at;
}

/* Puts the whole text of an answer into `text`, and returns the status. */
static u32 answered(tcrx_written answer) {
    if (answer.status == TCRX_NO_ROOM) {
        if (room_for(&text, &text_room, answer.length) == NULL) {
            return TCRX_NO_ROOM;
        }
        answer = tcrx_lines_text(&session, text, text_room);
    }
    length = answer.length;
    return answer.status;
}

/* Returns the room for a line of `count` octets, or NULL if there is no memory. */
uint8_t *EXPORT(module_line)(u32 count) {
    return room_for(&line, &line_room, count);
}

uint8_t *EXPORT(module_text)(void) {
    return text;
}

u32 EXPORT(module_length)(void) {
    return (u32)length;
}

u32 EXPORT(module_live)(u32 scid, u32 fecf) {
    return tcrx_lines_live(&session, (uint16_t)scid, (uint8_t)fecf);
}

u32 EXPORT(module_script)(u32 scid) {
    return tcrx_lines_script(&session, (uint16_t)scid);
}

u32 EXPORT(module_make)(u32 fecf) {
    return tcrx_lines_make(&session, (uint8_t)fecf);
}

/* Answers the line of `count` octets that stands in the room for a line. */
u32 EXPORT(module_answer)(u32 count) {
    return answered(tcrx_lines_answer(&session, line, count, text, text_room));
}

u32 EXPORT(module_end)(void) {
    return answered(tcrx_lines_end(&session, text, text_room));
}
