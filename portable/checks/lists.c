/*
 * Passes lists of queues, of MAPs and of limits to the library, most of them longer than those of any channel. In some
 * of them the APID or the MAP of the last entry alone is out of range, so that each entry must be examined. Prints the
 * status of each call, for checks/targets, which compares them with those of the library of this machine.
 */
#include "tcrx.h"

#include <stdio.h>

enum { LONGEST = 9000, LIMIT = 16 };

static tcrx_queue queues[LONGEST];
static tcrx_map maps[LONGEST];
static tcrx_limit limits[LONGEST];

static void try_lists(size_t queue_count, size_t map_count, uint16_t last_apid, uint8_t last_map) {
    const tcrx_settings settings = {1, 10, 4, 0, 1};
    tcrx_channel channel = TCRX_HOLDS_NONE;
    for (size_t i = 0; i < LONGEST; i++) {
        queues[i].apid = (uint16_t)(i % 2047);
        queues[i].capacity = 1;
        maps[i].map = (uint8_t)(i % 64);
        maps[i].capacity = 1;
        limits[i].map = maps[i].map;
        limits[i].octets = LIMIT;
    }
    if (queue_count > 0) {
        queues[queue_count - 1].apid = last_apid;
    }
    if (map_count > 0) {
        maps[map_count - 1].map = last_map;
    }
    const tcrx_status bound = tcrx_storage_with_limits(settings, queues, queue_count, maps, map_count, LIMIT, limits, map_count).status;
    const tcrx_status made =
        tcrx_channel_new_with_limits(&channel, settings, queues, queue_count, maps, map_count, LIMIT, limits, map_count);
    const tcrx_status freed = tcrx_channel_free(&channel);
    printf("%zu queues, %zu MAPs, APID %u, MAP %u: %u %u %u\n", queue_count, map_count, (unsigned)last_apid, (unsigned)last_map,
           (unsigned)bound, (unsigned)made, (unsigned)freed);
}

int main(void) {
    static const size_t counts[] = {1, 2047, 2048, 4095, 4096, 4097, 8193, LONGEST};
    for (size_t i = 0; i < sizeof counts / sizeof counts[0]; i++) {
        const size_t count = counts[i];
        try_lists(count, 0, (uint16_t)((count - 1) % 2047), 0);
        try_lists(count, 0, 2047, 0);
        try_lists(0, count, 0, (uint8_t)((count - 1) % 64));
        try_lists(0, count, 0, 64);
        try_lists(count, count, 2047, 64);
    }
    return 0;
}
