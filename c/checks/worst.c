/*
 * Makes one call on a channel that the library holds, once, in the state in which the call costs most. The channel has
 * QUEUES packet queues, the last of which is used, 63 chosen MAPs, and units of the largest size. Prints the value
 * that the call returns. The program `tc_bench worst` does the same with a channel of fixed storage, and
 * benchmarks/calls counts the instructions of both.
 *
 *   worst CALL QUEUES
 */
#include "../../dist/tcrx.h"

#include <stdio.h>
#include <stdlib.h>
#include <string.h>

enum { MAPS = 63, CHOSEN = 62, PACKETS = 63, BODY = 1018, LARGEST = 65542, PARTS = 64, MOST = 2047, ROOM = 145 };
enum { FIRST = 0x40, CONTINUING = 0x00, LAST = 0x80, UNSEGMENTED = 0xc0, AD = 0x00, BD = 0x20 };

static tcrx_channel channel = TCRX_HOLDS_NONE;
static uint16_t apid;
static uint8_t next_number;
static uint8_t frame[1024];
static uint8_t taken[LARGEST];

/* Returns the octet at a place of a unit. The unit is one largest packet, or consists of packets of seven octets. */
static uint8_t octet_at(int is_one, size_t place) {
    const uint8_t header[7] = {(uint8_t)(0x10 | apid >> 8), (uint8_t)(apid & 0xff), 0xc0, 0, is_one ? 0xff : 0, is_one ? 0xff : 0, 0};
    return header[is_one ? (place < 6 ? place : 6) : place % 7];
}

/* Makes a frame with this segment header and `count` octets of a unit, from the place `from` on. Returns its length. */
static size_t make(uint8_t flags, uint8_t header, int is_one, size_t from, size_t count) {
    const uint8_t number = flags == AD ? next_number : 0, high = (uint8_t)(4 | (count + 5) >> 8), low = (uint8_t)((count + 5) & 0xff);
    const uint8_t front[6] = {flags, 42, high, low, number, header};
    memcpy(frame, front, sizeof front);
    for (size_t place = 0; place < count; place++) {
        frame[sizeof front + place] = octet_at(is_one, from + place);
    }
    next_number = (uint8_t)(next_number + (flags == AD));
    return sizeof front + count;
}

/* Brings all segments of a largest unit but the last one, and releases those of Type-AD. */
static int begin(uint8_t flags, uint8_t map, int is_one) {
    for (size_t part = 0; part < PARTS; part++) {
        const uint8_t header = (uint8_t)((part == 0 ? FIRST : CONTINUING) | map);
        const size_t count = make(flags, header, is_one, part * BODY, BODY);
        if (tcrx_channel_frame(&channel, frame, count).accepted != 1) {
            return 0;
        }
        if (flags == AD && tcrx_channel_release(&channel).status != TCRX_DONE) {
            return 0;
        }
    }
    return 1;
}

/* Makes the last segment of a largest unit. */
static size_t make_last(uint8_t flags, uint8_t map, int is_one) {
    return make(flags, (uint8_t)(LAST | map), is_one, (size_t)PARTS * BODY, LARGEST - (size_t)PARTS * BODY);
}

/* Makes the frame of a call: a full data field of packets, the end of a unit of packets, or the end of a whole unit. */
static size_t make_for(const char *what, uint8_t flags) {
    if (strcmp(what, "field") == 0) {
        return make(flags, UNSEGMENTED | PACKETS, 0, 0, BODY);
    }
    if (strcmp(what, "packets") == 0) {
        return begin(flags, PACKETS, 0) ? make_last(flags, PACKETS, 0) : 0;
    }
    if (strcmp(what, "whole") == 0) {
        return begin(flags, CHOSEN, 1) ? make_last(flags, CHOSEN, 1) : 0;
    }
    return strcmp(what, "buffered") == 0 ? make(AD, FIRST | PACKETS, 0, 0, BODY) : 0;
}

/* Makes a call on a queue, or a call that reads, when a largest packet and a largest unit wait. */
static unsigned long long call_of_a_queue(const char *call) {
    if (strcmp(call, "take") == 0) {
        return tcrx_channel_take(&channel, apid, taken, sizeof taken).length;
    }
    if (strcmp(call, "take_unit") == 0) {
        return tcrx_channel_take_unit(&channel, CHOSEN, taken, sizeof taken).length;
    }
    if (strcmp(call, "queued") == 0) {
        return tcrx_channel_queued(&channel, apid).count;
    }
    if (strcmp(call, "units") == 0) {
        return tcrx_channel_units(&channel, CHOSEN).count;
    }
    if (strcmp(call, "clcw") == 0) {
        return tcrx_channel_clcw(&channel, 0, 0).word;
    }
    if (strcmp(call, "report") == 0) {
        return tcrx_channel_report(&channel).farm.farm_b;
    }
    return strcmp(call, "buffered") == 0 ? tcrx_channel_buffered(&channel).count : tcrx_channel_events(&channel).count;
}

/* Makes some calls that need no channel, each once. Returns how many of them failed. */
static unsigned long long call_without_a_channel(void) {
    const tcrx_settings settings = {1, 10, 64, 0, 1};
    const tcrx_queue queue = {5, 1};
    const tcrx_map map = {3, 1};
    const tcrx_limit limit = {3, 1024};
    const size_t count = make(BD, UNSEGMENTED | PACKETS, 0, 0, BODY);
    const tcrx_frame read = tcrx_read_frame(frame, count);
    const tcrx_farm_answer start = tcrx_farm_start(10, 0);
    const tcrx_clcw_answer word = tcrx_clcw(start.farm, 1, 0, 0);
    char text[128];
    const tcrx_status statuses[] = {read.status, start.status, word.status, tcrx_kind(frame, count).status,
                                    tcrx_write_frame(read.header, frame + 5, 1019, taken, sizeof taken).status,
                                    tcrx_read_packet(frame + 6, BODY).status, tcrx_farm_step(start.farm, TCRX_AD, 0, 1).status,
                                    tcrx_read_clcw(word.word).status, tcrx_text(TCRX_NO_ROOM, text, sizeof text).status,
                                    tcrx_storage(settings, &queue, 1, &map, 1).status,
                                    tcrx_storage_with_limits(settings, &queue, 1, &map, 1, 0, &limit, 1).status};
    unsigned long long refused = 0;
    for (size_t i = 0; i < sizeof statuses / sizeof statuses[0]; i++) {
        refused += statuses[i] != TCRX_DONE;
    }
    return refused;
}

/* Makes a call by its name. */
static unsigned long long do_call(const char *call) {
    if (strcmp(call, "none") == 0) {
        return call_without_a_channel();
    }
    if (strncmp(call, "frame_", 6) == 0) {
        const char *what = call + 6;
        const size_t count = make_for(what, strcmp(what, "buffered") == 0 ? AD : BD);
        const tcrx_reply reply = tcrx_channel_frame(&channel, frame, count);
        return (unsigned long long)reply.queued + reply.dropped;
    }
    if (strncmp(call, "release_", 8) == 0) {
        const size_t count = make_for(call + 8, AD);
        if (tcrx_channel_frame(&channel, frame, count).accepted != 1) {
            return 0;
        }
        const tcrx_delivery delivery = tcrx_channel_release(&channel);
        return (unsigned long long)delivery.queued + delivery.dropped;
    }
    for (int turn = 0; turn < 2; turn++) {
        const uint8_t map = turn == 0 ? PACKETS : CHOSEN;
        if (!begin(BD, map, 1) || tcrx_channel_frame(&channel, frame, make_last(BD, map, 1)).queued != 1) {
            return 0;
        }
    }
    return call_of_a_queue(call);
}

int main(int count, char **words) {
    static tcrx_queue queues[MOST];
    static tcrx_map maps[MAPS];
    const tcrx_settings settings = {1, 10, 64, 0, 1};
    const unsigned long number = count == 3 ? strtoul(words[2], NULL, 10) : 0;
    if (number < 1 || number > MOST) {
        return 2;
    }
    for (unsigned long i = 0; i < number; i++) {
        queues[i] = (tcrx_queue){(uint16_t)i, i + 1 == number ? ROOM : 1};
    }
    for (int map = 0; map < MAPS; map++) {
        maps[map] = (tcrx_map){(uint8_t)map, 1};
    }
    apid = (uint16_t)(number - 1);
    if (tcrx_channel_new(&channel, settings, queues, number, maps, MAPS) != TCRX_DONE) {
        return 1;
    }
    printf("%s %llu\n", words[1], do_call(words[1]));
    return tcrx_channel_free(&channel) == TCRX_DONE ? 0 : 1;
}
