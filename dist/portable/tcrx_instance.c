/* Instances of the module, and the functions that its C needs. These are for its memory, and for stopping it if it
 * can't go on. */
#include "tcrx_instance.h"

#include <stdlib.h>

#ifndef TCRX_MODULE_TRAP
#define TCRX_MODULE_TRAP() abort()
#endif

enum { PAGE = 65536 };

static tcrx_instance shared;
static uint64_t shared_page[PAGE / 8];
static bool is_started, has_shared;

/* The memory of the instance that is being created. */
static uint8_t *given;
static uint32_t given_pages;

void wasm_rt_allocate_memory(wasm_rt_memory_t *memory, uint32_t initial, uint32_t most) {
    if (initial > given_pages) {
        wasm_rt_trap(WASM_RT_TRAP_OOB);
    }
    memory->data = given;
    memory->pages = given_pages;
    memory->max_pages = most;
    memory->size = given_pages * PAGE;
}

void wasm_rt_trap(wasm_rt_trap_t why) {
    (void)why;
    TCRX_MODULE_TRAP();
}

bool wasm_rt_is_initialized(void) {
    return true;
}

/* Does nothing, because no function of the module is called by its type. */
uint32_t wasm_rt_register_func_type(uint32_t parameters, uint32_t results, ...) {
    (void)parameters;
    (void)results;
    return 0;
}

static void start(tcrx_instance *at, uint8_t *octets, uint32_t pages) {
    if (!is_started) {
        Z_tcrx_init_module();
        is_started = true;
    }
    memset(octets, 0, (size_t)pages * PAGE);
    given = octets;
    given_pages = pages;
    Z_tcrx_instantiate(&at->module);
    at->numbers = (uint32_t)Z_tcrxZ_module_numbers(&at->module);
    at->read = (uint32_t)Z_tcrxZ_module_frames(&at->module);
    at->written = at->read + TCRX_MODULE_FRAME;
    at->packet = at->written;
    at->packet_room = TCRX_MODULE_FRAME;
}

tcrx_instance *tcrx_instance_shared(void) {
    TCRX_MODULE_LOCK();
    if (!has_shared) {
        start(&shared, (uint8_t *)shared_page, 1);
        has_shared = true;
    }
    return &shared;
}

void tcrx_instance_back(void) {
    TCRX_MODULE_UNLOCK();
}

#if TCRX_MODULE_PAGES > 0

static tcrx_instance instances[TCRX_MODULE_CHANNELS];
static uint64_t memories[TCRX_MODULE_CHANNELS][(size_t)TCRX_MODULE_PAGES * PAGE / 8];
static bool is_taken[TCRX_MODULE_CHANNELS];

uint32_t wasm_rt_grow_memory(wasm_rt_memory_t *memory, uint32_t more) {
    return more == 0 ? memory->pages : UINT32_MAX;
}

void wasm_rt_free_memory(wasm_rt_memory_t *memory) {
    memory->data = NULL;
}

tcrx_instance *tcrx_instance_new(void) {
    tcrx_instance *made = NULL;
    TCRX_MODULE_LOCK();
    for (size_t i = 0; i < TCRX_MODULE_CHANNELS && made == NULL; i++) {
        if (!is_taken[i]) {
            made = &instances[i];
            is_taken[i] = true;
            start(made, (uint8_t *)memories[i], TCRX_MODULE_PAGES);
        }
    }
    TCRX_MODULE_UNLOCK();
    return made;
}

void tcrx_instance_end(tcrx_instance *at) {
    TCRX_MODULE_LOCK();
    Z_tcrx_free(&at->module);
    is_taken[at - instances] = false;
    TCRX_MODULE_UNLOCK();
}

#else

/* Moves the octets into a larger memory. On a big-endian machine the octets are stored backwards, so they go to the end
 * of the memory. */
static void move_to(uint8_t *octets, uint32_t pages, const wasm_rt_memory_t *memory) {
    const size_t before = (size_t)memory->pages * PAGE, more = (size_t)pages * PAGE - before;
    memset(WABT_BIG_ENDIAN ? octets : octets + before, 0, more);
    memcpy(WABT_BIG_ENDIAN ? octets + more : octets, memory->data, before);
}

uint32_t wasm_rt_grow_memory(wasm_rt_memory_t *memory, uint32_t more) {
    const uint32_t before = memory->pages;
    if (more == 0) {
        return before;
    }
    uint8_t *octets = more > 65535 - before ? NULL : malloc((size_t)(before + more) * PAGE);
    if (octets == NULL) {
        return UINT32_MAX;
    }
    move_to(octets, before + more, memory);
    wasm_rt_free_memory(memory);
    memory->data = octets;
    memory->pages = before + more;
    memory->size = memory->pages * PAGE;
    return before;
}

void wasm_rt_free_memory(wasm_rt_memory_t *memory) {
    if (memory->data != (uint8_t *)shared_page) {
        free(memory->data);
    }
}

tcrx_instance *tcrx_instance_new(void) {
    tcrx_instance *made = malloc(sizeof *made);
    if (made == NULL) {
        return NULL;
    }
    uint8_t *octets = malloc(PAGE);
    if (octets == NULL) {
        free(made);
        return NULL;
    }
    TCRX_MODULE_LOCK();
    start(made, octets, 1);
    TCRX_MODULE_UNLOCK();
    return made;
}

void tcrx_instance_end(tcrx_instance *at) {
    TCRX_MODULE_LOCK();
    Z_tcrx_free(&at->module);
    TCRX_MODULE_UNLOCK();
    free(at);
}

#endif
