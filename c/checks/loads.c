/*
 * Brings loads on a channel whose memory is the array of tcrx_static.c. The array is sealed once the channel is
 * created, so that a request for memory by any call ends the program. Each packet that is taken must be the one that
 * was sent.
 *
 *   loads SETTINGS LOAD CALLS SEED
 *
 * SETTINGS is `plain` (without segment headers), `two` (two queues), `maps` (eight queues and two chosen MAPs), or
 * `small` (as `two`, with units of 1,500 octets on each MAP).
 *
 * LOAD is `random`, `hostile` or `comb`. The load `hostile` fills everything with the largest packets, units and open
 * runs, lets some go, and fills it again in other sizes. The load `comb` puts small packets between large ones, and
 * lets the large ones go.
 */
#include "../../dist/tcrx.h"
#include "expecting.h"

#include <stdlib.h>
#include <string.h>

enum { FIRST = 1, CONTINUING = 0, LAST = 2, UNSEGMENTED = 3, MOST_FRAME = 1024, MOST_PACKET = 65542, MAPS = 64, PAYLOADS = 63, SMALL = 1500 };

#ifdef UNSEALED /* The portable C has its own memory. */
#define tcrx_storage_used() ((size_t)0)
#define tcrx_storage_seal() ((void)0)
#else
/* Enough for each of the loads: at most 8 queues and 2 chosen MAPs, with room for 140 items together. */
TCRX_STATIC_STORAGE(TCRX_STORAGE_OF(TCRX_STORAGE_BUFFER(64) + TCRX_STORAGE_SEGMENTED(MAPS * MOST_PACKET) + TCRX_STORAGE_QUEUES(8, 0, 0)
                                    + TCRX_STORAGE_TABLE + TCRX_STORAGE_MAPS(2, 70, MOST_PACKET)));
#endif

typedef struct {
    tcrx_settings settings;
    tcrx_queue queues[8];
    size_t queue_count;
    tcrx_map maps[2];
    size_t map_count;
    uint32_t limit;
} plan;

static tcrx_channel channel = TCRX_HOLDS_NONE;
static plan with;
static uint8_t next_ns;
static uint64_t calls, wrong;
static uint8_t unit[MOST_PACKET], taken[MOST_PACKET];

static void count(tcrx_status status) {
    calls += 1;
    wrong += status == TCRX_DONE || status == TCRX_EMPTY ? 0 : 1;
}

static uint8_t content(size_t place) { return (uint8_t)(place * 31 + place / 251); }

/* Writes a telecommand packet of this length to the front of octets, and returns its length. */
static size_t write_packet(uint8_t *octets, uint16_t apid, size_t length) {
    const size_t field = length - 7;
    const uint8_t header[6] = {(uint8_t)(0x10 | apid >> 8), (uint8_t)apid, 0xc0, 0, (uint8_t)(field >> 8), (uint8_t)field};
    memcpy(octets, header, sizeof header);
    for (size_t i = sizeof header; i < length; i++) {
        octets[i] = content(i);
    }
    return length;
}

static void bring(bool bypass, unsigned flags, size_t map, const uint8_t *part, size_t length) {
    uint8_t frame[MOST_FRAME], field[MOST_FRAME];
    size_t front = 0;
    if (with.settings.segmented == 1) {
        field[front++] = (uint8_t)(flags << 6 | map);
    }
    memcpy(field + front, part, length);
    const tcrx_header header = {42, with.settings.vcid, next_ns, bypass ? 1 : 0, 0};
    const tcrx_written written = tcrx_write_frame(header, field, front + length, frame, sizeof frame);
    const tcrx_reply reply = tcrx_channel_frame(&channel, frame, written.length);
    count(reply.status);
    next_ns = (uint8_t)(next_ns + (reply.event == 1 ? 1 : 0));
}

static void release(void) { count(tcrx_channel_release(&channel).status); }

/* Sends `length` octets of the unit on a service and MAP. If `whole` is set, the last segment is among them. Otherwise
 * the run stays open. */
static void send(bool bypass, size_t map, size_t length, bool whole) {
    const size_t part = with.settings.segmented == 1 ? 1018 : 1019;
    if (length <= part && (whole || with.settings.segmented == 0)) {
        bring(bypass, UNSEGMENTED, map, unit, length);
        if (!bypass) release();
        return;
    }
    for (size_t at = 0; at < length; at += part) {
        const bool last = length - at <= part;
        bring(bypass, at == 0 ? FIRST : last && whole ? LAST : CONTINUING, map, unit + at, last ? length - at : part);
        if (!bypass) release();
    }
}

/* Takes the oldest packet of a queue, which must be as it was sent. */
static void take(size_t queue) {
    const tcrx_written written = tcrx_channel_take(&channel, with.queues[queue].apid, taken, sizeof taken);
    count(written.status);
    for (size_t i = 6; written.status == TCRX_DONE && i < written.length; i++) {
        wrong += taken[i] == content(i) ? 0 : 1;
    }
}

static void take_unit(size_t map) {
    count(tcrx_channel_take_unit(&channel, with.maps[map].map, taken, sizeof taken).status);
}

static bool has_room(size_t queue) {
    return tcrx_channel_queued(&channel, with.queues[queue].apid).count < with.queues[queue].capacity;
}

/* Returns a length that a packet for the channel may have, often a small one. */
static size_t any_length(void) {
    const size_t ends[] = {10, 300, 1012, 5000, 65536, (size_t)1 << below(16)};
    return 7 + below(with.settings.segmented == 1 ? ends[below(6)] : ends[below(3)]);
}

static void load_random(void) {
    const size_t queue = below(with.queue_count), map = below(MAPS);
    const bool bypass = below(2) == 0;
    if (below(3) == 0) {
        take(queue);
        if (with.map_count > 0) take_unit(below(with.map_count));
        return;
    }
    if (below(10) == 0) {
        size_t length = 0;
        while (length < 900) {
            length += write_packet(unit + length, with.queues[below(with.queue_count)].apid, 7 + below(60));
        }
        send(bypass, map, length, true);
        return;
    }
    send(bypass, map, write_packet(unit, with.queues[queue].apid, any_length()), below(4) != 0);
}

/* Fills each packet queue and each unit queue with the largest items. */
static void fill(void) {
    const size_t most = with.settings.segmented == 1 ? with.limit : 1019;
    for (size_t i = 0; i < with.queue_count; i++) {
        write_packet(unit, with.queues[i].apid, most);
        while (has_room(i)) send(true, PAYLOADS, most, true);
    }
    for (size_t i = 0; i < with.map_count; i++) {
        for (size_t k = 0; k < with.maps[i].capacity; k++) send(true, with.maps[i].map, most, true);
    }
}

/* Takes some packets, and puts others of any length into their place. */
static void change(void) {
    for (size_t i = 0; i < with.queue_count; i++) {
        for (size_t k = 0; k < with.queues[i].capacity; k++) {
            if (below(2) == 0) take(i);
        }
        send(true, below(MAPS), write_packet(unit, with.queues[i].apid, any_length()), true);
    }
    for (size_t i = 0; i < with.map_count; i++) take_unit(i);
}

static void load_hostile(void) {
    static unsigned turn;
    const unsigned stage = turn++ % 4;
    const size_t lengths[] = {MOST_PACKET, 1 + below(1000), 1 + below(MOST_PACKET), MOST_PACKET};
    if (stage == 0) fill();
    if (stage == 2) change();
    if (with.settings.segmented == 0) {
        for (size_t i = 0; i < 9; i++) bring(false, UNSEGMENTED, 0, unit, 1019);
        release();
        return;
    }
    for (size_t map = 0; map < MAPS; map++) {
        if (stage % 3 == 0 || below(2) == 0) send(true, map, lengths[stage], false);
        if (stage % 3 == 0 || below(2) == 0) send(false, map, lengths[stage], false);
    }
}

/* Sends small packets to every second queue, and packets of any length to the other queues. Takes packets only from the
 * other queues. */
static void load_comb(void) {
    for (size_t i = 0; i < with.queue_count; i++) {
        while (has_room(i) && below(8) != 0) {
            send(true, below(MAPS), write_packet(unit, with.queues[i].apid, i % 2 == 1 ? 7 + below(32) : any_length()), true);
        }
    }
    for (size_t i = 0; i < with.queue_count; i += below(16) == 0 ? 1 : 2) {
        for (size_t k = 0; k < with.queues[i].capacity; k++) take(i);
    }
    for (size_t i = 0; i < 4; i++) send(below(2) == 0, below(MAPS), any_length(), below(2) == 0);
}

static bool choose(const char *name) {
    static const plan plans[] = {
        {{1, 254, 4, 0, 0}, {{5, 4}, {9, 4}}, 2, {{0, 0}}, 0, MOST_PACKET},
        {{1, 254, 4, 0, 1}, {{5, 4}, {9, 4}}, 2, {{0, 0}}, 0, MOST_PACKET},
        {{1, 254, 64, 0, 1}, {{0, 16}, {1, 16}, {2, 16}, {3, 16}, {4, 16}, {5, 16}, {6, 16}, {7, 16}}, 8, {{1, 4}, {2, 8}}, 2,
         MOST_PACKET},
        {{1, 254, 4, 0, 1}, {{5, 4}, {9, 4}}, 2, {{0, 0}}, 0, SMALL},
    };
    static const char *const names[] = {"plain", "two", "maps", "small"};
    for (size_t i = 0; i < 4; i++) {
        if (strcmp(name, names[i]) == 0) {
            with = plans[i];
            return true;
        }
    }
    return false;
}

int main(int words_count, char **words) {
    if (words_count != 5 || !choose(words[1])) {
        return 2;
    }
    void (*const load)(void) = words[2][0] == 'r' ? load_random : words[2][0] == 'h' ? load_hostile : load_comb;
    const uint64_t wanted = strtoull(words[3], NULL, 10);
    for (size_t seed = strtoul(words[4], NULL, 10); seed > 0; seed--) below(2);
    if (tcrx_channel_new_with_limits(&channel, with.settings, with.queues, with.queue_count, with.maps, with.map_count, with.limit,
                                     NULL, 0) != TCRX_DONE) {
        return 2;
    }
    const size_t used = tcrx_storage_used();
    tcrx_storage_seal();
    while (calls < wanted) load();
    printf("%s, %s: %zu octets, sealed, %" PRIu64 " calls, %" PRIu64 " wrong\n", words[1], words[2], used, calls, wrong);
    return used == tcrx_storage_used() && wrong == 0 ? 0 : 1;
}
