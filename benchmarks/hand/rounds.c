/*
 * Makes COUNT rounds of a load of tc_bench on the channel written by hand (channel.c) or on a channel of the library
 * (library.c), and prints its score.
 *
 *   rounds sequenced|bypassing|packets|segments COUNT
 */
#include "channel.h"

#include <inttypes.h>
#include <stdio.h>
#include <stdlib.h>
#include <string.h>

enum { APID = 5, PACKETS = 100, BODY = 1018, UNIT = 65542, PARTS = (UNIT + BODY - 1) / BODY };

typedef struct {
    size_t count;
    uint8_t octets[1024];
} frame;

static channel *c;
static uint64_t score;
static frame frames[256];

static void add(uint64_t word) { score = score * UINT64_C(1099511628211) + word; }

static void add_delivery(delivery it) {
    add(it.queued);
    add(it.dropped);
    add(it.rest);
}

/* Adds a packet to the score: all octets of a small packet, or the first octets and the last octet of another one. */
static void add_packet(const uint8_t *octets, size_t count) {
    add(count > 16 ? 16 : count);
    for (size_t i = 0; i < count && i < 16; i++) add(octets[i]);
    if (count > 16) {
        add(count);
        add(octets[count - 1]);
    }
}

static void bring(const frame *it) {
    const reply answer = channel_frame(c, it->octets, it->count);
    add(1);
    add(answer.event);
    add(answer.accepted);
    add_delivery(answer.packets);
}

static void let_out(void) {
    delivery result;
    if (channel_release(c, &result)) add_delivery(result);
}

static void take(void) {
    static uint8_t packet[UNIT];
    const size_t count = channel_take(c, APID, packet, sizeof packet);
    if (count > 0) add_packet(packet, count);
}

/* Makes a frame for spacecraft 42 and virtual channel 1, with this segment header and body. */
static void make(frame *it, uint8_t flags, uint8_t number, uint8_t header, const uint8_t *body, size_t count) {
    const uint8_t front[6] = {flags, 42, (uint8_t)(4 | (count + 5) >> 8), (uint8_t)(count + 5), number, header};
    memcpy(it->octets, front, sizeof front);
    memcpy(it->octets + sizeof front, body, count);
    it->count = sizeof front + count;
}

int main(int count, char **words) {
    static uint8_t unit[UNIT];
    if (count != 3) return 2;
    const char *const load = words[1];
    const unsigned long rounds = strtoul(words[2], NULL, 10);
    const bool is_sequenced = strcmp(load, "sequenced") == 0, is_small = is_sequenced || strcmp(load, "bypassing") == 0;
    const bool is_full = strcmp(load, "packets") == 0;
    c = channel_new(4, APID, is_full ? 128 : 16);
    if (is_small) {
        for (unsigned number = 0; number < 256; number++) {
            const uint8_t packet[7] = {0x10, APID, 0xc0, 0, 0, 0, (uint8_t)number};
            make(&frames[number], is_sequenced ? 0 : 0x20, is_sequenced ? (uint8_t)number : 0, 0xc0, packet, sizeof packet);
        }
    } else if (is_full) {
        for (size_t i = 0; i < PACKETS; i++) memcpy(unit + 7 * i, "\x10\x05\xc0\0\0\0\xaa", 7);
        make(&frames[0], 0x20, 0, 0xc0, unit, 7 * PACKETS);
    } else {
        memset(unit, 0xaa, sizeof unit);
        memcpy(unit, "\x10\x05\xc0\0\xff\xff", 6);
        for (size_t part = 0; part < PARTS; part++) {
            const size_t left = UNIT - part * BODY;
            const uint8_t header = part == 0 ? 0x40 : part + 1 == PARTS ? 0x80 : 0;
            make(&frames[part], 0x20, 0, header, unit + part * BODY, left < BODY ? left : BODY);
        }
    }
    for (unsigned long i = 0; i < rounds; i++) {
        const size_t parts = is_small || is_full ? 1 : PARTS, packets = is_full ? PACKETS : 1;
        for (size_t part = 0; part < parts; part++) bring(&frames[is_small ? i % 256 : part]);
        if (is_sequenced) let_out();
        for (size_t k = 0; k < packets; k++) take();
    }
    add(channel_events(c));
    printf("%016" PRIx64 "\n", score);
    return 0;
}
