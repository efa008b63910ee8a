/*
 * Instances of the module, each with a memory of its own: one for each channel, and one for all calls without a
 * channel.
 *
 * You can define these macros:
 *
 *   TCRX_MODULE_PAGES      The number of pages of 65,536 octets in the memory of a channel, which is a static array. If it
 *                          is 0, which is the default, the memory comes from malloc and grows.
 *   TCRX_MODULE_CHANNELS   The number of channels that can be held at once if the memory is static. The default is 1.
 *   TCRX_MODULE_LOCK(), TCRX_MODULE_UNLOCK()
 *                          These are called around each call without a channel, and when a channel is created or freed.
 *                          Without them, such calls are for one thread at a time.
 *   TCRX_MODULE_TRAP()     This is called if the module can't go on, because its stack has come to its end, or because
 *                          the translation is wrong. It must not return. The default is abort().
 */
#ifndef TCRX_INSTANCE_H
#define TCRX_INSTANCE_H

#include "tcrx_module.h"

#include <stddef.h>

#ifndef TCRX_MODULE_PAGES
#define TCRX_MODULE_PAGES 0
#endif
#ifndef TCRX_MODULE_CHANNELS
#define TCRX_MODULE_CHANNELS 1
#endif
#ifndef TCRX_MODULE_LOCK
#define TCRX_MODULE_LOCK() ((void)0)
#define TCRX_MODULE_UNLOCK() ((void)0)
#endif

/* The largest number of octets in a frame plus one, and the largest number of octets in a packet. By the additional
 * octet a call sees that octets follow the frame. */
enum { TCRX_MODULE_FRAME = 2049, TCRX_MODULE_PACKET = 65542 };

/* An instance, and the places in its memory for numbers, for a frame that is read, for a frame that is written, and for
 * a packet or a unit. */
typedef struct {
    Z_tcrx_instance_t module;
    uint32_t numbers, read, written;
    uint32_t packet, packet_room;
} tcrx_instance;

/* Returns an instance for a channel, or null if there is no memory for it. */
tcrx_instance *tcrx_instance_new(void);
void tcrx_instance_end(tcrx_instance *at);

/* Returns the instance of the calls without a channel, which belongs to the caller until it is returned by
 * tcrx_instance_back(). */
tcrx_instance *tcrx_instance_shared(void);
void tcrx_instance_back(void);

static inline uint8_t *tcrx_octet(tcrx_instance *at, uint32_t place) {
    wasm_rt_memory_t *memory = Z_tcrxZ_memory(&at->module);
#if WABT_BIG_ENDIAN
    return &memory->data[memory->size - 1 - place];
#else
    return &memory->data[place];
#endif
}

static inline void tcrx_put(tcrx_instance *at, uint32_t place, const uint8_t *octets, uint32_t count) {
#if WABT_BIG_ENDIAN
    for (uint32_t i = 0; i < count; i++) {
        *tcrx_octet(at, place + i) = octets[i];
    }
#else
    if (count > 0) {
        memcpy(tcrx_octet(at, place), octets, count);
    }
#endif
}

static inline void tcrx_get(tcrx_instance *at, uint32_t place, uint8_t *octets, uint32_t count) {
#if WABT_BIG_ENDIAN
    for (uint32_t i = 0; i < count; i++) {
        octets[i] = *tcrx_octet(at, place + i);
    }
#else
    if (count > 0) {
        memcpy(octets, tcrx_octet(at, place), count);
    }
#endif
}

static inline uint32_t tcrx_number(tcrx_instance *at, uint32_t i) {
    uint8_t octets[4];
    tcrx_get(at, at->numbers + 4 * i, octets, 4);
    return octets[0] | (uint32_t)octets[1] << 8 | (uint32_t)octets[2] << 16 | (uint32_t)octets[3] << 24;
}

static inline void tcrx_set_number(tcrx_instance *at, uint32_t i, uint32_t number) {
    const uint8_t octets[4] = {(uint8_t)number, (uint8_t)(number >> 8), (uint8_t)(number >> 16), (uint8_t)(number >> 24)};
    tcrx_put(at, at->numbers + 4 * i, octets, 4);
}

#endif
