/*
 * Makes the calls on a usual channel whose instructions benchmarks/limit counts. The channel has units of up to 256
 * octets on MAP 0, and a queue for PACKETS packets. A data field with 36 packets of seven octets is released. That is
 * the largest number of such packets in a unit. Then a frame of 1,024 octets with its frame error control field is
 * brought to the rack of this channel. Prints how many packets the release queued and dropped.
 *
 *   usual PACKETS
 *
 * If this file is compiled with SEALED, it is linked with tcrx_static.c, and the memory is a static array.
 */
#include "../../dist/tcrx.h"

#include <stdio.h>
#include <stdlib.h>
#include <string.h>

enum { SPACECRAFT = 42, CHANNEL = 1, APPLICATION = 5, MOST_UNIT = 256, MOST_PACKETS = 36, BUFFER = 4, FRAME = 1024, PACKET = 7 };

#ifdef SEALED
TCRX_STATIC_STORAGE(TCRX_STORAGE_OF(TCRX_STORAGE_BUFFER(BUFFER) + TCRX_STORAGE_SEGMENTED(MOST_UNIT)
                                    + TCRX_STORAGE_QUEUES(1, MOST_PACKETS, MOST_UNIT) + TCRX_STORAGE_LIMITS(1)));
#endif

static tcrx_channel rack[1];
static uint8_t unit[FRAME], frame[FRAME], with_sum[FRAME];

/* Makes a frame with the first `count` octets of the unit as an unsegmented data field. Returns its length. */
static size_t make(uint8_t number, size_t count) {
    const tcrx_header header = {.scid = SPACECRAFT, .vcid = CHANNEL, .ns = number};
    return tcrx_write_segment(header, 0, 1018, 0, unit, count, frame, sizeof frame).length;
}

/* Brings a frame with 36 packets, and releases its data field. */
static tcrx_delivery release_packets(void) {
    static const uint8_t packet[PACKET] = {0x10, APPLICATION, 0xc0, 0, 0, 0, 0xaa};
    for (size_t i = 0; i < MOST_PACKETS; i++) {
        memcpy(unit + i * PACKET, packet, PACKET);
    }
    tcrx_channel_frame(&rack[0], frame, make(0, (size_t)MOST_PACKETS * PACKET));
    return tcrx_channel_release(&rack[0]);
}

/* Brings a frame of 1,024 octets, the last two of which are its frame error control field. Returns whether it was
 * accepted. */
static int bring_largest(void) {
    const size_t count = tcrx_add_fecf(frame, make(1, FRAME - 8), with_sum, sizeof with_sum).length;
    return count == FRAME && tcrx_rack_frame(rack, 1, SPACECRAFT, 1, with_sum, count).accepted == 1;
}

int main(int count, char **words) {
    const tcrx_settings settings = {CHANNEL, 10, BUFFER, 0, 1};
    const tcrx_queue queue = {APPLICATION, (uint16_t)(count == 2 ? strtoul(words[1], NULL, 10) : 0)};
    const tcrx_limit limit = {0, MOST_UNIT};
    if (tcrx_channel_new_with_limits(&rack[0], settings, &queue, 1, NULL, 0, 0, &limit, 1) != TCRX_DONE) {
        return 2;
    }
    const tcrx_delivery delivery = release_packets();
    printf("queued %lu dropped %lu\n", (unsigned long)delivery.queued, (unsigned long)delivery.dropped);
    return bring_largest() && tcrx_channel_free(&rack[0]) == TCRX_DONE ? 0 : 1;
}
