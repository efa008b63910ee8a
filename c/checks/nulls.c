/*
 * Checks the guards of tcrx.h, which are plain C over the library and aren't proved. Each call is made with a null
 * pointer in each place, and each call of a channel is made without a channel. The record that is returned must have
 * the right status and nothing else, and no buffer may change.
 */
#include "../../dist/tcrx.h"
#include "expecting.h"

#include <string.h>

enum { ROOM = 64 };

static const tcrx_settings settings = {1, 10, 1, 0, 1};
static const tcrx_header header = {42, 1, 0, 0, 0};
static const tcrx_packet_header packet = {5, 0, 1, 0, 3};
static const tcrx_tm_header telemetry = {42, 1, 0, 0};
static const tcrx_decoder decoder = {1, 0, 0, 0, 0};
static uint8_t octets[ROOM], kept[ROOM];
static char text[TCRX_TEXT_ROOM];

/* The status of a returned record, and everything behind the status, which must be 0. */
typedef struct {
    const char *call;
    tcrx_status status;
    unsigned long rest;
} row;
#define STATUS(call) {#call, call, 0}
#define WRITTEN(call) {#call, (call).status, (call).length}
#define COUNT(call) {#call, (call).status, (unsigned long)(call).count}

static void compare(const row *rows, size_t count, tcrx_status status) {
    for (size_t i = 0; i < count; i++) {
        expect(rows[i].status == status && rows[i].rest == 0, rows[i].call, i);
    }
    expect(memcmp(octets, kept, ROOM) == 0 && text[0] == '\0', "the buffers after these calls", status);
}

static void check_single(void) {
    const tcrx_frame frame = tcrx_read_frame(NULL, 6);
    const tcrx_kind_answer kind = tcrx_kind(NULL, 6);
    const tcrx_packet read = tcrx_read_packet(NULL, 7);
    const tcrx_tm tm = tcrx_read_tm(1, NULL, 13);
    const row rows[] = {
        {"tcrx_read_frame", frame.status, (unsigned long)frame.length + frame.header.scid},
        {"tcrx_kind", kind.status, (unsigned long)kind.kind + kind.number},
        {"tcrx_read_packet", read.status, (unsigned long)read.length + read.apid},
        {"tcrx_read_tm", tm.status, (unsigned long)tm.clcw + tm.header.scid},
        WRITTEN(tcrx_write_frame(header, NULL, 1, octets, ROOM)),
        WRITTEN(tcrx_write_frame(header, kept, 1, NULL, ROOM)),
        WRITTEN(tcrx_write_packet(packet, NULL, 1, octets, ROOM)),
        WRITTEN(tcrx_write_packet(packet, kept, 1, NULL, ROOM)),
        WRITTEN(tcrx_write_segment(header, 63, 1018, 0, NULL, 1, octets, ROOM)),
        WRITTEN(tcrx_write_segment(header, 63, 1018, 0, kept, 1, NULL, ROOM)),
        WRITTEN(tcrx_write_command(42, 1, TCRX_UNLOCK, 0, NULL, ROOM)),
        WRITTEN(tcrx_add_fecf(NULL, 6, octets, ROOM)),
        WRITTEN(tcrx_add_fecf(kept, 6, NULL, ROOM)),
        WRITTEN(tcrx_check_fecf(NULL, 8, octets, ROOM)),
        WRITTEN(tcrx_check_fecf(kept, 8, NULL, ROOM)),
        WRITTEN(tcrx_write_cltu(NULL, 1, octets, ROOM)),
        WRITTEN(tcrx_write_cltu(kept, 1, NULL, ROOM)),
        WRITTEN(tcrx_randomise(NULL, 1, octets, ROOM)),
        WRITTEN(tcrx_randomise(kept, 1, NULL, ROOM)),
        WRITTEN(tcrx_write_tm(telemetry, 0, 0, 11, NULL, ROOM)),
        WRITTEN(tcrx_text(TCRX_DONE, NULL, ROOM)),
        {"tcrx_cltu_octets without octets", tcrx_cltu_octets(decoder, NULL, 0, octets, TCRX_DECODER_ROOM).status, 0},
        {"tcrx_cltu_octets without a frame", tcrx_cltu_octets(decoder, kept, 1, NULL, TCRX_DECODER_ROOM).status, 0},
        STATUS(tcrx_channel_new(NULL, settings, NULL, 0, NULL, 0)),
        STATUS(tcrx_channel_new_with_limits(NULL, settings, NULL, 0, NULL, 0, 9, NULL, 0)),
    };
    compare(rows, sizeof rows / sizeof rows[0], TCRX_NULL);
}

/* Checks the calls that create a channel or compute its storage, with null pointers to lists. */
static void check_lists(void) {
    tcrx_channel channel = TCRX_HOLDS_NONE;
    const row rows[] = {
        STATUS(tcrx_channel_new(&channel, settings, NULL, 1, NULL, 0)),
        STATUS(tcrx_channel_new(&channel, settings, NULL, 0, NULL, 1)),
        STATUS(tcrx_channel_new_with_limits(&channel, settings, NULL, 1, NULL, 0, 9, NULL, 0)),
        STATUS(tcrx_channel_new_with_limits(&channel, settings, NULL, 0, NULL, 1, 9, NULL, 0)),
        STATUS(tcrx_channel_new_with_limits(&channel, settings, NULL, 0, NULL, 0, 9, NULL, 1)),
        COUNT(tcrx_storage(settings, NULL, 1, NULL, 0)),
        COUNT(tcrx_storage(settings, NULL, 0, NULL, 1)),
        COUNT(tcrx_storage_with_limits(settings, NULL, 1, NULL, 0, 9, NULL, 0)),
        COUNT(tcrx_storage_with_limits(settings, NULL, 0, NULL, 1, 9, NULL, 0)),
        COUNT(tcrx_storage_with_limits(settings, NULL, 0, NULL, 0, 9, NULL, 1)),
    };
    compare(rows, sizeof rows / sizeof rows[0], TCRX_NULL);
    expect(channel.held == 0, "a channel that isn't created", 0);
}

/* Checks each call of a channel with a null pointer or without a channel that is held. */
static void check_none(tcrx_channel *channel, tcrx_status status) {
    static const uint8_t unlock[] = {0x30, 0x2a, 0x04, 0x05, 0x00, 0x00};
    const tcrx_reply frame = tcrx_channel_frame(channel, unlock, sizeof unlock);
    const tcrx_delivery release = tcrx_channel_release(channel);
    const tcrx_clcw_answer clcw = tcrx_channel_clcw(channel, 2, 2);
    const tcrx_farm_answer farm = tcrx_channel_report(channel);
    const row rows[] = {
        {"tcrx_channel_frame", frame.status, (unsigned long)frame.event + frame.accepted + frame.queued + frame.dropped + frame.rest},
        {"tcrx_channel_frame of nothing", tcrx_channel_frame(channel, unlock, 0).status, 0},
        {"tcrx_channel_release", release.status, (unsigned long)release.queued + release.dropped + release.rest},
        {"tcrx_channel_clcw", clcw.status, clcw.word},
        {"tcrx_channel_report", farm.status, (unsigned long)farm.farm.width + farm.farm.state},
        WRITTEN(tcrx_channel_take(channel, 5, octets, ROOM)),
        WRITTEN(tcrx_channel_take_unit(channel, 5, octets, ROOM)),
        COUNT(tcrx_channel_buffered(channel)),
        COUNT(tcrx_channel_queued(channel, 5)),
        COUNT(tcrx_channel_units(channel, 5)),
        COUNT(tcrx_channel_events(channel)),
        STATUS(tcrx_channel_free(channel)),
    };
    compare(rows, sizeof rows / sizeof rows[0], status);
}

/* Checks the calls of a channel that is held, with null pointers to octets. */
static void check_held(tcrx_channel *channel) {
    const row rows[] = {
        {"tcrx_channel_frame without octets", tcrx_channel_frame(channel, NULL, 6).status, 0},
        WRITTEN(tcrx_channel_take(channel, 5, NULL, ROOM)),
        WRITTEN(tcrx_channel_take_unit(channel, 2, NULL, ROOM)),
    };
    compare(rows, sizeof rows / sizeof rows[0], TCRX_NULL);
    expect(tcrx_channel_events(channel).count == 0, "the events of a channel without frames", 0);
}

int main(void) {
    const tcrx_queue queue = {5, 1};
    const tcrx_map map = {2, 1};
    const tcrx_limit limits[] = {{0, 9}, {2, 9}};
    tcrx_channel channel = TCRX_HOLDS_NONE;
    memset(octets, 0xee, sizeof octets);
    memset(kept, 0xee, sizeof kept);
    check_single();
    check_lists();
    check_none(NULL, TCRX_NULL);
    check_none(&channel, TCRX_NO_CHANNEL);
    expect(tcrx_channel_new_with_limits(&channel, settings, &queue, 1, &map, 1, 0, limits, 2) == TCRX_DONE, "a channel", 0);
    check_held(&channel);
    expect(tcrx_channel_free(&channel) == TCRX_DONE, "a channel freed", 0);
    check_none(&channel, TCRX_NO_CHANNEL);
    return close_with("results of calls without octets, lists or a channel");
}
