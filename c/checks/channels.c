/*
 * Runs the script on standard input, with the answers of the receiver in c/examples/script.c, and checks the calls more
 * closely:
 *
 *   channels SCID    for the spacecraft with this id
 *
 * Octets are brought from blocks of exactly their size, and items are taken into blocks of exactly their size. A
 * sanitizer then detects each access beyond a block. Each item is first taken into blocks that are too short, which
 * must take nothing. If there is room for the frame error control field, every second frame is brought with a wrong
 * field and then with the right one. Each CLCW must also be that of FARM-1's record.
 *
 * If this file is compiled with LIMITED, the limit of a channel on each MAP is one more than the number of octets in all
 * frames of the script that are for the channel, but at most 65,542. No unit is longer, so that each answer stays the same.
 *
 * If this file is compiled with SEALED, it is linked with tcrx_static.c, and the storage is sealed once all channels are
 * created. A later request for memory by any call ends the program.
 */
#include <tcrx.h>

static tcrx_status made(tcrx_channel *channel, tcrx_settings its, const tcrx_queue *queues, size_t q, const tcrx_map *maps, size_t m);
static tcrx_rack_reply brought(tcrx_channel *channels, size_t count, uint16_t craft, uint8_t fecf, const uint8_t *from, size_t length);
static tcrx_written packet_taken(tcrx_channel *channel, uint16_t key, uint8_t *to, size_t room);
static tcrx_written unit_taken(tcrx_channel *channel, uint8_t key, uint8_t *to, size_t room);
static tcrx_clcw_answer clcw_reported(tcrx_channel *channel, uint8_t no_rf, uint8_t no_bit_lock);

#define tcrx_channel_new made
#define tcrx_rack_frame brought
#define tcrx_channel_take packet_taken
#define tcrx_channel_take_unit unit_taken
#define tcrx_channel_clcw clcw_reported
#define main main_of_script
#include "../examples/script.c"
#undef tcrx_channel_new
#undef tcrx_rack_frame
#undef tcrx_channel_take
#undef tcrx_channel_take_unit
#undef tcrx_channel_clcw
#undef main

#ifdef SEALED
TCRX_STATIC_STORAGE(SEALED);
static void seal(void) { tcrx_storage_seal(); }
#else
static void seal(void) {}
#endif

static void fail(const char *what, tcrx_status status) {
    printf("%s: status %" PRIu32 "\n", what, status);
    exit(1);
}

#ifdef LIMITED
/* Returns one more than the number of octets in all frames that are for a channel. */
static size_t octets_for(unsigned vcid) {
    size_t all = 1;
    for (size_t at = 0, end = 0; at < script_length; at = end + 1) {
        const char *feed = memchr(script + at, '\n', script_length - at);
        end = feed == NULL ? script_length : (size_t)(feed - script);
        for (; at < end && strchr(" \t\r", script[at]) != NULL; at++) {
        }
        const bool is_frame = end - at > 12 && memcmp(script + at, "frame", 5) == 0;
        for (at += 5; is_frame && strchr(" \t\r", script[at]) != NULL; at++) {
        }
        const bool is_its = is_frame && (unsigned)(digit(script[at + 4]) << 4 | digit(script[at + 5])) >> 2 == vcid;
        all += is_its ? (end - at) / 2 : 0;
    }
    return all;
}
#endif

static tcrx_status made(tcrx_channel *channel, tcrx_settings its, const tcrx_queue *queues, size_t q, const tcrx_map *maps, size_t m) {
#ifdef LIMITED
    const size_t all = octets_for(its.vcid);
    return tcrx_channel_new_with_limits(channel, its, queues, q, maps, m, (uint32_t)(all < MOST_OCTETS ? all : MOST_OCTETS), NULL, 0);
#else
    return tcrx_channel_new(channel, its, queues, q, maps, m);
#endif
}

static uint8_t *block(size_t count) {
    uint8_t *at = malloc(count == 0 ? 1 : count);
    if (at == NULL) {
        fail("a block", TCRX_NO_MEMORY);
    }
    return at;
}

/* Brings a frame. Every other time, if it has no fill and there is room for the frame error control field, it is
 * brought with the field. */
static tcrx_rack_reply brought(tcrx_channel *channels, size_t count, uint16_t craft, uint8_t fecf, const uint8_t *from, size_t length) {
    static unsigned frames;
    uint8_t *plain = block(length), *ended = block(length + 2);
    memcpy(plain, from, length);
    seal();
    tcrx_written added = tcrx_add_fecf(plain, length, ended, length + 2);
    const bool is_ended = added.status == TCRX_DONE && frames++ % 2 == 1;
    if (is_ended) {
        ended[added.length - 1] ^= 1;
        if (tcrx_rack_frame(channels, count, craft, 1, ended, added.length).status != TCRX_WRONG_FECF) {
            fail("a wrong frame error control field", TCRX_DONE);
        }
        ended[added.length - 1] ^= 1;
    }
    const tcrx_rack_reply reply = tcrx_rack_frame(channels, count, craft, is_ended ? 1 : fecf, is_ended ? ended : plain, is_ended ? added.length : length);
    free(plain);
    free(ended);
    return reply;
}

/* Takes an item into a block of `room` octets, and copies the written octets to the caller. */
static tcrx_written taken_into(tcrx_channel *channel, bool is_unit, unsigned key, uint8_t *to, size_t room) {
    uint8_t *own = block(room);
    const tcrx_written found = is_unit ? tcrx_channel_take_unit(channel, (uint8_t)key, own, room) : tcrx_channel_take(channel, (uint16_t)key, own, room);
    memcpy(to, own, found.status == TCRX_DONE ? found.length : 0);
    free(own);
    return found;
}

static tcrx_written taken_by_rooms(tcrx_channel *channel, bool is_unit, unsigned key, uint8_t *to) {
    const uint64_t events = tcrx_channel_events(channel).count;
    const tcrx_written first = taken_into(channel, is_unit, key, to, 0);
    seal();
    if (first.status != TCRX_NO_ROOM) {
        return first;
    }
    const tcrx_written again = taken_into(channel, is_unit, key, to, first.length - 1);
    if (again.status != TCRX_NO_ROOM || again.length != first.length || tcrx_channel_events(channel).count != events) {
        fail("a buffer that is short", again.status);
    }
    return taken_into(channel, is_unit, key, to, first.length);
}

static tcrx_written packet_taken(tcrx_channel *channel, uint16_t key, uint8_t *to, size_t room) {
    (void)room;
    return taken_by_rooms(channel, false, key, to);
}

static tcrx_written unit_taken(tcrx_channel *channel, uint8_t key, uint8_t *to, size_t room) {
    (void)room;
    return taken_by_rooms(channel, true, key, to);
}

/* Returns the CLCW of a channel. The rack must find the channel by the id in its CLCW. */
static tcrx_clcw_answer clcw_reported(tcrx_channel *channel, uint8_t no_rf, uint8_t no_bit_lock) {
    const tcrx_clcw_answer clcw = tcrx_channel_clcw(channel, no_rf, no_bit_lock);
    const uint8_t vcid = (uint8_t)(clcw.word >> 18 & 63);
    const tcrx_place found = tcrx_rack_find(rack, CHANNELS, vcid);
    if (found.status != TCRX_DONE || &rack[found.place] != channel
        || tcrx_clcw(tcrx_channel_report(channel).farm, vcid, no_rf, no_bit_lock).word != clcw.word) {
        fail("a CLCW", clcw.status);
    }
    seal();
    return clcw;
}

int main(int count, char **given) {
    char run[] = "run", named[] = "--scid", *all[] = {given[0], run, named, given[1], NULL};
    return count == 2 ? main_of_script(4, all) : 2;
}
