/*
 * Makes one failing call for each status of each call: with records that no FARM-1 has, lengths beyond the octets,
 * fields out of range, short buffers, settings and limits of a channel, and frames for no channel of a rack. Each call
 * must return its status, and leave the buffer and the channel as they were. The text of each status is checked, too.
 * The statuses of the proved build follow from the contracts. This program is for builds about which nothing is proved.
 * The guards of tcrx.h are in nulls.c, and takes into short buffers are in channels.c.
 *
 * If this is compiled with LIMITED, channels without limits have units of 16 octets, for slow machines. If it is
 * compiled with STATIC, it uses an array of STATIC bytes.
 */
#include "../../dist/tcrx.h"
#include "expecting.h"

#include <stdlib.h>
#include <string.h>

#ifdef STATIC /* with tcrx_static.c */
TCRX_STATIC_STORAGE(STATIC);
#endif

static bool is_filled(const uint8_t *octets, size_t count) {
    for (size_t i = 0; i < count; i++) {
        if (octets[i] != 0xee) {
            return false;
        }
    }
    return true;
}

/* Checks records that are rejected, each with its status, in a step and in a CLCW. Then checks steps of a record that
 * is accepted. */
static void check_records(void) {
    static const struct { tcrx_farm farm; tcrx_status status; } rows[] = {
        {{0, 0, 7, 4, 2, 0, 0}, TCRX_BAD_WIDTH}, {{3, 1, 7, 0, 0, 0, 0}, TCRX_BAD_WIDTH}, {{255, 1, 7, 0, 0, 0, 0}, TCRX_BAD_WIDTH},
        {{10, 0, 7, 4, 2, 0, 0}, TCRX_BAD_STATE}, {{10, 4, 7, 0, 0, 0, 0}, TCRX_BAD_STATE},
        {{10, 1, 7, 4, 2, 0, 0}, TCRX_BAD_FARM_B}, {{10, 1, 7, 0, 2, 0, 0}, TCRX_BAD_FLAG}, {{10, 1, 7, 0, 0, 255, 0}, TCRX_BAD_FLAG},
        {{10, 1, 7, 0, 0, 0, 2}, TCRX_BAD_FLAG}, {{10, 1, 7, 0, 1, 0, 0}, TCRX_FLAGS_DISAGREE}, {{10, 1, 7, 0, 0, 1, 0}, TCRX_FLAGS_DISAGREE},
        {{10, 2, 7, 0, 0, 1, 0}, TCRX_FLAGS_DISAGREE}, {{10, 2, 7, 0, 1, 1, 1}, TCRX_FLAGS_DISAGREE}, {{10, 3, 7, 0, 0, 0, 0}, TCRX_FLAGS_DISAGREE},
        {{10, 3, 7, 0, 1, 1, 0}, TCRX_FLAGS_DISAGREE},
    };
    const tcrx_farm wait = {10, 2, 7, 0, 0, 1, 1};
    for (size_t i = 0; i < sizeof rows / sizeof rows[0]; i++) {
        const tcrx_step_answer step = tcrx_farm_step(rows[i].farm, 0, 0, 2);
        const bool kept = memcmp(&step.farm, &rows[i].farm, sizeof step.farm) == 0;
        expect(step.status == rows[i].status && step.event == 0 && kept, "a step of a bad record", i);
        expect(tcrx_clcw(rows[i].farm, 64, 2, 2).status == rows[i].status, "the CLCW of a bad record", i);
    }
    expect(tcrx_farm_step(wait, 0, 7, 2).status == TCRX_BAD_FLAG, "a room", 0);
    expect(tcrx_farm_step(wait, 0, 7, 1).status == TCRX_BAD_ARRIVAL && tcrx_farm_step(wait, 7, 7, 1).status == TCRX_BAD_ARRIVAL, "an arrival", 0);
    expect(tcrx_farm_step(wait, TCRX_AD, 7, 1).status == TCRX_NO_ENTRY, "no entry", 0);
    const tcrx_farm none = {0, 0, 0, 0, 0, 0, 0};
    const tcrx_farm_answer started = tcrx_farm_start(3, 200);
    expect(started.status == TCRX_BAD_WIDTH && memcmp(&started.farm, &none, sizeof none) == 0, "an odd width", 0);
}

static void check_clcws(void) {
    static const uint32_t bad[] = {
        0x81040000u, 0x21040000u, 0x41040000u, 0x00040000u, 0x02040000u, 0x03040000u, 0x01050000u, 0x01060000u, 0x01040100u,
    };
    const tcrx_farm farm = {10, 1, 5, 2, 0, 0, 0};
    expect(tcrx_clcw(farm, 64, 1, 1).status == TCRX_BAD_VCID, "a virtual channel", 64);
    expect(tcrx_clcw(farm, 1, 2, 0).status == TCRX_BAD_FLAG && tcrx_clcw(farm, 1, 0, 2).status == TCRX_BAD_FLAG, "a flag of the link", 2);
    for (size_t i = 0; i < sizeof bad / sizeof bad[0]; i++) {
        const tcrx_clcw_fields read = tcrx_read_clcw(bad[i]);
        expect(read.status == TCRX_NO_CLCW && read.vcid == 0 && read.vr == 0 && read.wait == 0, "no CLCW", i);
    }
}

/* Returns these octets in a block of exactly their size, so that a tool detects each access beyond them. */
static uint8_t *block(const uint8_t *from, size_t count) {
    uint8_t *at = (uint8_t *)malloc(count == 0 ? 1 : count);
    if (at == NULL) {
        exit(3);
    }
    memcpy(at, from, count);
    return at;
}

static void check_frame(const uint8_t *octets, size_t count, tcrx_status wanted, unsigned long place) {
    uint8_t *at = block(octets, count);
    const tcrx_frame frame = tcrx_read_frame(at, count);
    const tcrx_kind_answer kind = tcrx_kind(at, count);
    expect(frame.status == wanted && kind.status == wanted, "the status of a frame", place);
    const bool empty = frame.length == 0 && frame.header.scid == 0 && kind.kind == 0 && kind.number == 0;
    expect(wanted == TCRX_DONE || empty, "a refused frame", place);
    free(at);
}

static void check_reading(void) {
    static const uint8_t unlock[] = {0x30, 0x2a, 0x04, 0x05, 0x00, 0x00, 0xff};
    static const struct { uint8_t octets[6]; tcrx_status status; } frames[] = {
        {{0x70, 0x2a, 0x04, 0x05, 0x00, 0x00}, TCRX_BAD_VERSION}, {{0x34, 0x2a, 0x04, 0x05, 0x00, 0x00}, TCRX_SPARE},
        {{0x30, 0x2a, 0x04, 0x04, 0x00, 0x00}, TCRX_LENGTH_SMALL}, {{0x30, 0x2a, 0x07, 0xff, 0x00, 0x00}, TCRX_TRUNCATED},
    };
    static const uint8_t packet[] = {0x18, 0x05, 0xc0, 0x07, 0x00, 0x01, 0xaa, 0xbb, 0xcc};
    for (size_t count = 0; count <= sizeof unlock; count++) {
        check_frame(unlock, count, count < 5 ? TCRX_SHORT : count < 6 ? TCRX_TRUNCATED : TCRX_DONE, count);
    }
    for (size_t i = 0; i < sizeof frames / sizeof frames[0]; i++) check_frame(frames[i].octets, 6, frames[i].status, 100 + i);
    for (size_t count = 0; count <= sizeof packet; count++) {
        uint8_t *at = block(packet, count);
        const tcrx_packet read = tcrx_read_packet(at, count);
        expect(read.status == (count < 8 ? TCRX_NO_PACKET : TCRX_DONE), "the status of a packet", count);
        expect(read.length == (count < 8 ? 0u : 8u) && read.apid == (count < 8 ? 0 : 5), "a packet", count);
        free(at);
    }
    expect(tcrx_read_packet(unlock, sizeof unlock).status == TCRX_NO_PACKET, "a packet of another version", 0);
}

static void check_write(tcrx_header header, size_t field_count, size_t room, tcrx_status status, size_t length,
                        unsigned long place) {
    static uint8_t field[2000], octets[2000];
    memset(field, 0x11, sizeof field);
    memset(octets, 0xee, sizeof octets);
    uint8_t *from = block(field, field_count), *to = block(octets, room);
    const tcrx_written written = tcrx_write_frame(header, from, field_count, to, room);
    const size_t kept = status == TCRX_DONE ? length : 0;
    expect(written.status == status && written.length == length, "the status of a written frame", place);
    expect(is_filled(to + kept, room - kept), "the octets behind a written frame", place);
    expect(status != TCRX_DONE || memcmp(to + 5, from, field_count) == 0, "the data field of a written frame", place);
    free(from);
    free(to);
}

static void check_writing(void) {
    const tcrx_header good = {1023, 63, 255, 1, 0}, scid = {1024, 63, 255, 1, 0}, bypass = {1024, 63, 255, 2, 0};
    check_write(good, 8, 12, TCRX_NO_ROOM, 13, 12);
    check_write(good, 1019, 1024, TCRX_DONE, 1024, 31);
    check_write(good, 1020, 2000, TCRX_TOO_LONG, 0, 32);
    check_write(good, 0, 2000, TCRX_EMPTY_DATA, 0, 33);
    check_write(scid, 0, 0, TCRX_BAD_FIELD, 0, 34);
    check_write(bypass, 0, 0, TCRX_BAD_FLAG, 0, 36);
}

/* The buffer for the octets that a call writes. */
static uint8_t made[1030];

static uint8_t *fresh(void) {
    memset(made, 0xee, sizeof made);
    return made;
}

static void expect_refused(tcrx_written written, tcrx_status status, size_t length, unsigned long place) {
    expect(written.status == status && written.length == length, "the status of a write that fails", place);
    expect(is_filled(made, sizeof made), "the buffer after a write that fails", place);
}

static void check_packets_made(void) {
    static uint8_t field[65537];
    const size_t all = sizeof made;
    const tcrx_packet_header good = {2047, 16383, 1, 1, 3}, telecommand = {2048, 0, 2, 0, 0}, apid = {2048, 0, 1, 0, 0};
    expect_refused(tcrx_write_packet(telecommand, field, 0, fresh(), all), TCRX_BAD_FLAG, 0, 100);
    expect_refused(tcrx_write_packet(apid, field, 0, fresh(), all), TCRX_BAD_FIELD, 0, 102);
    expect_refused(tcrx_write_packet(good, field, 0, fresh(), 0), TCRX_EMPTY_DATA, 0, 105);
    expect_refused(tcrx_write_packet(good, field, 65537, fresh(), 0), TCRX_LONG_PACKET, 0, 106);
    expect_refused(tcrx_write_packet(good, field, 65536, fresh(), all), TCRX_NO_ROOM, 65542, 107);
}

static void check_segments_made(void) {
    static uint8_t unit[65543];
    const size_t all = sizeof made;
    const tcrx_header good = {1023, 63, 255, 0, 0}, flag = {1024, 63, 255, 0, 2}, scid = {1024, 63, 255, 0, 0};
    expect_refused(tcrx_write_segment(flag, 64, 0, 0, unit, 0, fresh(), all), TCRX_BAD_FLAG, 0, 120);
    expect_refused(tcrx_write_segment(scid, 64, 0, 0, unit, 0, fresh(), all), TCRX_BAD_FIELD, 0, 121);
    expect_refused(tcrx_write_segment(good, 64, 0, 0, unit, 0, fresh(), all), TCRX_BAD_MAP, 0, 123);
    expect_refused(tcrx_write_segment(good, 63, 1019, 0, unit, 0, fresh(), all), TCRX_BAD_SIZE, 0, 125);
    expect_refused(tcrx_write_segment(good, 63, 1018, 0, unit, 0, fresh(), all), TCRX_EMPTY_DATA, 0, 126);
    expect_refused(tcrx_write_segment(good, 63, 1018, 99, unit, 65543, fresh(), all), TCRX_LONG_UNIT, 0, 127);
    expect_refused(tcrx_write_segment(good, 63, 1018, 0, unit, 65542, fresh(), 1023), TCRX_NO_ROOM, 1024, 130);
    expect_refused(tcrx_write_segment(good, 63, 1018, UINT32_MAX, unit, 65542, fresh(), all), TCRX_NO_SEGMENT, 0, 131);
}

static void check_commands_made(void) {
    const size_t all = sizeof made;
    expect_refused(tcrx_write_command(1024, 0, 0, 0, fresh(), all), TCRX_BAD_FIELD, 0, 140);
    expect_refused(tcrx_write_command(1023, 63, TCRX_BD, 0, fresh(), 0), TCRX_BAD_COMMAND, 0, 141);
    expect_refused(tcrx_write_command(1023, 63, TCRX_UNLOCK, 0, fresh(), 5), TCRX_NO_ROOM, 6, 142);
    expect_refused(tcrx_write_command(1023, 63, TCRX_SET_VR, 0, fresh(), 7), TCRX_NO_ROOM, 8, 143);
}

static void check_fields_made(void) {
    static uint8_t frame[1025], field[1019];
    const size_t all = sizeof made;
    const tcrx_header header = {1, 2, 3, 0, 0};
    expect_refused(tcrx_add_fecf(frame, 4, fresh(), all), TCRX_SHORT, 0, 150);
    expect(tcrx_write_frame(header, field, 1, frame, sizeof frame).length == 6, "a short frame", 152);
    expect_refused(tcrx_add_fecf(frame, 7, fresh(), all), TCRX_FILL, 0, 153);
    expect_refused(tcrx_add_fecf(frame, 5, fresh(), all), TCRX_TRUNCATED, 0, 155);
    expect_refused(tcrx_check_fecf(frame, 6, fresh(), all), TCRX_NO_FECF, 0, 156);
    expect_refused(tcrx_add_fecf(frame, 6, fresh(), 7), TCRX_NO_ROOM, 8, 157);
    expect(tcrx_add_fecf(frame, 6, field, 8).length == 8, "a field on a short frame", 158);
    expect_refused(tcrx_check_fecf(field, 8, fresh(), 5), TCRX_NO_ROOM, 6, 159);
    field[6] ^= 1;
    expect_refused(tcrx_check_fecf(field, 8, fresh(), 0), TCRX_WRONG_FECF, 0, 160);
    expect(tcrx_write_frame(header, field, 1018, frame, sizeof frame).length == 1023, "a long frame", 161);
    expect_refused(tcrx_add_fecf(frame, 1023, fresh(), 0), TCRX_LONG_FRAME, 0, 162);
}

static void check_cltus_made(void) {
    static uint8_t frame[1030], room[1186];
    expect_refused(tcrx_write_cltu(frame, 0, fresh(), 1030), TCRX_EMPTY_DATA, 0, 180);
    expect_refused(tcrx_randomise(frame, 0, fresh(), 1030), TCRX_EMPTY_DATA, 0, 181);
    expect_refused(tcrx_write_cltu(frame, 1030, fresh(), 0), TCRX_LONG_CLTU, 0, 182);
    expect_refused(tcrx_randomise(frame, 1030, fresh(), 0), TCRX_LONG_CLTU, 0, 183);
    expect_refused(tcrx_write_cltu(frame, 1029, fresh(), 1030), TCRX_NO_ROOM, 1186, 184);
    expect_refused(tcrx_randomise(frame, 1029, fresh(), 1028), TCRX_NO_ROOM, 1029, 185);
    expect(tcrx_write_cltu(frame, 1029, room, sizeof room).length == 1186, "the longest CLTU", 191);
    expect(tcrx_randomise(frame, 1029, room, 1029).length == 1029, "the most octets", 192);
}

static void expect_undecoded(tcrx_decoder decoder, uint8_t *frame, size_t room, tcrx_status status, unsigned long place) {
    static const uint8_t octets[] = {0x55, 0x55};
    const tcrx_decoded answer = tcrx_cltu_octets(decoder, octets, sizeof octets, frame, room);
    const tcrx_decoder kept = answer.decoder;
    expect(answer.status == status && answer.ended == 0 && answer.taken == 0, "a decoder that takes no octets", place);
    expect(answer.corrected == 0 && answer.rejected == 0 && answer.overlong == 0, "the counts of a decoder that takes no octets", place);
    expect(kept.correct == decoder.correct && kept.decoding == decoder.decoding && kept.last == decoder.last, "an unchanged decoder", place);
    expect(kept.count == decoder.count && kept.carried == decoder.carried && is_filled(made, sizeof made), "a decoder's octets", place);
}

static void check_decoders(void) {
    static uint8_t carried[TCRX_DECODER_ROOM];
    const tcrx_decoder correct = {2, 1, 0, 8, 0}, decoding = {1, 2, 0, 8, 0}, count = {1, 1, 0, 8, 0}, too_much = {0, 1, 0, 0, 1030};
    const tcrx_decoder full = {1, 1, 7, 7, 1029};
    expect_undecoded(correct, fresh(), 0, TCRX_BAD_FLAG, 230);
    expect_undecoded(count, fresh(), 0, TCRX_BAD_DECODER, 232);
    expect_undecoded(too_much, fresh(), 0, TCRX_BAD_DECODER, 233);
    expect_undecoded(full, fresh(), TCRX_DECODER_ROOM - 1, TCRX_NO_ROOM, 234);
    const uint8_t last = 0xfe;
    const tcrx_decoded answer = tcrx_cltu_octets(full, &last, 1, carried, sizeof carried);
    expect(answer.status == TCRX_DONE && answer.decoder.decoding == 0 && answer.ended == 0, "no room for a code block", 236);
    expect(answer.overlong == 1 && answer.corrected == 0 && answer.rejected == 0, "a CLTU that carries too much", 237);
    const tcrx_decoded anew = tcrx_cltu_search(full);
    const tcrx_decoder now = anew.decoder;
    expect(anew.status == TCRX_DONE && now.correct == 1 && now.decoding == 0 && now.last == 0 && now.count == 0, "a new search", 238);
    expect(anew.ended == 0 && anew.taken == 0 && anew.corrected == 0 && anew.rejected == 0 && anew.overlong == 0, "the counts of a search", 239);
    expect(tcrx_cltu_search(correct).status == TCRX_BAD_FLAG && tcrx_cltu_search(decoding).status == TCRX_BAD_FLAG, "a decoder's flags", 240);
    expect(tcrx_cltu_search(count).status == TCRX_BAD_DECODER && tcrx_cltu_search(too_much).status == TCRX_BAD_DECODER, "a decoder's counts", 241);
}

static void expect_unread(tcrx_tm read, tcrx_status status, unsigned long place) {
    const int is_empty = read.clcw == 0 && read.pointer == 0 && read.header.scid == 0 && read.header.vcid == 0;
    expect(read.status == status && is_empty, "a telemetry frame that is refused", place);
    expect(read.header.master_count == 0 && read.header.channel_count == 0, "the counts of a telemetry frame that is refused", place);
}

static void check_telemetry(void) {
    static uint8_t frame[2049];
    const tcrx_tm_header good = {1023, 7, 255, 255}, scid = {1024, 7, 0, 0};
    expect_refused(tcrx_write_tm(scid, 2, 0, 10, fresh(), 0), TCRX_BAD_FLAG, 0, 200);
    expect_refused(tcrx_write_tm(scid, 0, 0, 10, fresh(), 0), TCRX_BAD_FIELD, 0, 201);
    expect_refused(tcrx_write_tm(good, 1, 0, 12, fresh(), 0), TCRX_BAD_LENGTH, 0, 204);
    expect_refused(tcrx_write_tm(good, 1, 0, 13, fresh(), 12), TCRX_NO_ROOM, 13, 207);
    expect(tcrx_write_tm(good, 1, 0xffffffff, 2048, frame, sizeof frame).length == 2048, "the longest telemetry frame", 209);
    expect_unread(tcrx_read_tm(2, frame, 0), TCRX_BAD_FLAG, 210);
    expect_unread(tcrx_read_tm(1, frame, 12), TCRX_BAD_LENGTH, 212);
    expect_unread(tcrx_read_tm(1, frame, 2047), TCRX_WRONG_FECF, 214);
    expect(tcrx_read_tm(1, frame, 2048).clcw == 0xffffffff, "the longest telemetry frame, read", 216);
    frame[1] ^= 1;
    expect_unread(tcrx_read_tm(0, frame, 2048), TCRX_NO_CONTROL, 217);
    frame[0] |= 0x40;
    expect_unread(tcrx_read_tm(0, frame, 2048), TCRX_BAD_VERSION, 218);
}

static void check_text(tcrx_status status, const char *wanted) {
    char text[TCRX_TEXT_ROOM + 1];
    const size_t needed = strlen(wanted) + 1;
    memset(text, 0xee, sizeof text);
    const tcrx_written refused = tcrx_text(status, text, needed - 1);
    expect(refused.status == TCRX_NO_ROOM && refused.length == needed && is_filled((const uint8_t *)text, sizeof text), "no room for a text", status);
    const tcrx_written written = tcrx_text(status, text, TCRX_TEXT_ROOM);
    expect(written.status == TCRX_DONE && written.length == needed && strcmp(text, wanted) == 0, wanted, status);
    expect(is_filled((const uint8_t *)text + needed, sizeof text - needed), "the octets behind a text", status);
}

static void check_texts(void) {
    static const struct { tcrx_status status; const char *text; } texts[] = {
#include "texts.inc" /* The check that compiles this file writes it from Status.antt of tc_c_base. */
    };
    unsigned long there = 0;
    for (size_t i = 0; i < sizeof texts / sizeof texts[0]; i++) {
        check_text(texts[i].status, texts[i].text);
    }
    for (uint32_t status = 0; status < 1000; status++) {
        char text[TCRX_TEXT_ROOM];
        const tcrx_written written = tcrx_text(status, text, sizeof text);
        there += written.status == TCRX_DONE ? 1 : 0;
        expect(written.status == TCRX_DONE || (written.status == TCRX_NO_STATUS && written.length == 0), "a status number", status);
    }
    expect(there == sizeof texts / sizeof texts[0], "the count of statuses", there);
}

static const tcrx_settings good_settings = {63, 254, 64, 255, 1};
static const tcrx_queue good_queues[] = {{0, 1}, {2046, 256}};
static const tcrx_map good_maps[] = {{0, 1}, {63, 256}};

static tcrx_status new_channel(tcrx_channel *channel, tcrx_settings settings, const tcrx_queue *queues, size_t q, const tcrx_map *maps,
                               size_t m) {
#ifdef LIMITED
    return tcrx_channel_new_with_limits(channel, settings, queues, q, maps, m, 16, NULL, 0);
#else
    return tcrx_channel_new(channel, settings, queues, q, maps, m);
#endif
}

/* Returns the status of a new channel. A channel that is created is freed. */
static tcrx_status status_of(tcrx_settings settings, const tcrx_queue *queues, size_t q, const tcrx_map *maps, size_t m) {
    tcrx_channel channel = TCRX_HOLDS_NONE;
    const tcrx_status status = new_channel(&channel, settings, queues, q, maps, m);
    expect((channel.held == 1) == (status == TCRX_DONE), "the flag of a new channel", status);
    expect(tcrx_channel_free(&channel) == (status == TCRX_DONE ? TCRX_DONE : TCRX_NO_CHANNEL), "the status of freeing a channel", status);
    return status;
}

static void check_lists(void) {
    static const tcrx_queue bad_apid[] = {{5, 1}, {2047, 0}}, twice[] = {{5, 1}, {6, 0}, {5, 1}}, large[] = {{5, 257}};
    static const tcrx_map bad_map[] = {{5, 1}, {64, 0}}, map_twice[] = {{5, 1}, {6, 0}, {5, 1}}, many[] = {{5, 257}};
    const tcrx_settings plain = {63, 254, 64, 255, 0};
    const tcrx_settings vcid = {64, 254, 64, 255, 1}, width = {63, 9, 64, 255, 1}, buffer = {63, 254, 65, 255, 1}, flag = {63, 254, 64, 255, 2};
    expect(status_of(vcid, NULL, 0, NULL, 0) == TCRX_BAD_VCID && status_of(width, NULL, 0, NULL, 0) == TCRX_BAD_WIDTH, "bad settings", 0);
    expect(status_of(buffer, NULL, 0, NULL, 0) == TCRX_BAD_BUFFER && status_of(flag, NULL, 0, NULL, 0) == TCRX_BAD_FLAG, "bad settings", 1);
    expect(status_of(good_settings, good_queues, 2, good_maps, 2) == TCRX_DONE, "good lists", 0);
    expect(status_of(plain, good_queues, 2, NULL, 0) == TCRX_DONE, "a plain channel", 0);
    expect(status_of(good_settings, bad_apid, 2, bad_map, 2) == TCRX_BAD_APID, "a bad APID", 0);
    expect(status_of(good_settings, twice, 3, bad_map, 2) == TCRX_DOUBLE_APID, "an APID twice", 0);
    expect(status_of(good_settings, large, 1, bad_map, 2) == TCRX_BAD_CAPACITY, "a large capacity", 0);
    expect(status_of(good_settings, NULL, 0, bad_map, 2) == TCRX_BAD_MAP, "a bad MAP", 0);
    expect(status_of(good_settings, NULL, 0, map_twice, 3) == TCRX_DOUBLE_MAP, "a MAP twice", 0);
    expect(status_of(plain, NULL, 0, many, 1) == TCRX_BAD_UNITS, "room for many units", 0);
    expect(status_of(plain, NULL, 0, good_maps, 2) == TCRX_PLAIN_MAP, "a MAP of a plain channel", 0);
}

/* Returns the status of a new channel within limits. A channel that is created is freed. Its storage isn't
 * compared here, because storage.c does that. */
static tcrx_status limited(tcrx_settings settings, const tcrx_map *maps, size_t m, uint32_t others, const tcrx_limit *limits, size_t l) {
    tcrx_channel channel = TCRX_HOLDS_NONE;
    const tcrx_status status = tcrx_channel_new_with_limits(&channel, settings, good_queues, 2, maps, m, others, limits, l);
    expect((channel.held == 1) == (status == TCRX_DONE), "the flag of a new channel within limits", status);
    expect(tcrx_channel_free(&channel) == (status == TCRX_DONE ? TCRX_DONE : TCRX_NO_CHANNEL), "the status of freeing a channel", status);
    return status;
}

static void check_limits(void) {
    static const tcrx_limit both[] = {{0, 9}, {63, 9}}, twice[] = {{5, 9}, {6, 0}, {5, 0}}, over[] = {{5, 0}, {64, 0}}, none = {7, 0};
    const tcrx_settings plain = {63, 254, 1, 255, 0}, bad = {63, 3, 1, 255, 1}, good = {63, 254, 1, 255, 1};
    expect(limited(good, good_maps, 2, 0, both, 2) == TCRX_DONE, "good limits", 0);
    expect(limited(bad, good_maps, 2, 65543, over, 2) == TCRX_BAD_WIDTH, "a fault of the settings before those of limits", 0);
    expect(limited(good, good_maps, 2, 65543, over, 2) == TCRX_BAD_OTHERS, "the limit of other MAPs", 0);
    expect(limited(good, good_maps, 2, 9, over, 2) == TCRX_BAD_LIMIT_MAP, "the MAP of a limit", 0);
    expect(limited(good, good_maps, 2, 9, twice, 3) == TCRX_DOUBLE_LIMIT, "two limits of a MAP", 0);
    expect(limited(plain, NULL, 0, 9, both, 2) == TCRX_PLAIN_LIMIT, "limits of a plain channel", 0);
    expect(limited(good, good_maps, 2, 0, both, 1) == TCRX_UNLISTED_MAP, "a chosen MAP that isn't listed", 0);
    expect(limited(good, good_maps, 2, 1, both, 1) == TCRX_DONE, "a chosen MAP with the limit of the others", 0);
    expect(limited(good, NULL, 0, 9, &none, 1) == TCRX_BAD_LIMIT, "a limit of no octets", 0);
}

static void check_asked(tcrx_channel *channel) {
    static const uint8_t unlock[] = {0x30, 0x2a, 0x04, 0x05, 0x00, 0x00, 0xff};
    uint8_t octets[8];
    expect(tcrx_channel_new(channel, good_settings, NULL, 0, NULL, 0) == TCRX_IN_USE, "a held channel", 0);
    expect(tcrx_channel_new_with_limits(channel, good_settings, NULL, 0, NULL, 0, 9, NULL, 0) == TCRX_IN_USE, "a held channel, with limits", 1);
    expect(tcrx_channel_frame(channel, unlock, 4).status == TCRX_SHORT && tcrx_channel_frame(channel, unlock, 5).status == TCRX_TRUNCATED, "a frame", 5);
    expect(tcrx_channel_frame(channel, unlock, 6).status == TCRX_DONE, "a frame", 6);
    expect(tcrx_channel_release(channel).status == TCRX_EMPTY, "an empty buffer", 0);
    expect(tcrx_channel_take(channel, 6, octets, 8).status == TCRX_NO_QUEUE, "no queue", 0);
    expect(tcrx_channel_take_unit(channel, 6, octets, 8).status == TCRX_NO_MAP, "no MAP", 0);
    expect(tcrx_channel_queued(channel, 6).status == TCRX_NO_QUEUE, "no queue", 1);
    expect(tcrx_channel_units(channel, 6).status == TCRX_NO_MAP, "no MAP", 1);
    expect(tcrx_channel_clcw(channel, 2, 0).status == TCRX_BAD_FLAG && tcrx_channel_clcw(channel, 0, 2).word == 0, "a flag of the link", 0);
    expect(tcrx_channel_events(channel).count == 1, "the number of events", 0);
}

static void check_channel(void) {
    static const tcrx_queue queues[] = {{5, 1}};
    static const tcrx_map maps[] = {{2, 1}};
    tcrx_channel channel = TCRX_HOLDS_NONE;
    expect(new_channel(&channel, (tcrx_settings){1, 10, 1, 0, 1}, queues, 1, maps, 1) == TCRX_DONE, "a channel", 0);
    check_asked(&channel);
    expect(tcrx_channel_free(&channel) == TCRX_DONE, "a channel freed", 0);
}

/* A rack with places without a channel, two channels with one id, a channel that is freed, and a channel with another
 * id. */
enum { CRAFT = 675, PLACES = 6, FIRST = 1, SECOND = 2, FREED = 3, OTHER = 5 };

static tcrx_channel rack[PLACES];

/* Returns the events of all places, each in digits of its own. */
static uint64_t rack_events(void) {
    uint64_t all = 0;
    for (size_t i = 0; i < PLACES; i++) all = 100 * all + tcrx_channel_events(&rack[i]).count;
    return all;
}

/* Writes a Type-AD frame with this N(S). If `fecf` is 1, the frame ends with a frame error control field. Returns its
 * length. */
static size_t rack_octets(uint16_t scid, uint8_t vcid, uint8_t ns, uint8_t fecf, uint8_t *octets) {
    const tcrx_header header = {scid, vcid, ns, 0, 0};
    const uint8_t field[] = {0xc0, 0xaa};
    uint8_t plain[8];
    const size_t count = tcrx_write_frame(header, field, sizeof field, fecf == 1 ? plain : octets, 8).length;
    return fecf == 1 ? tcrx_add_fecf(plain, count, octets, 10).length : count;
}

/* Expects that a rack rejects a candidate. The reply must have the length of its frame and the flag for octets that
 * follow the frame. No channel may have a new event. */
static void expect_no_candidate(uint16_t scid, uint8_t fecf, const uint8_t *octets, size_t count, tcrx_status status, size_t length, unsigned more) {
    const uint64_t events = rack_events();
    const tcrx_candidate_reply reply = tcrx_rack_candidate(rack, PLACES, scid, fecf, octets, count);
    const bool is_empty = reply.queued == 0 && reply.dropped == 0 && reply.event == 0 && reply.accepted == 0 && reply.rest == 0 && reply.vcid == 0;
    expect(reply.status == status && is_empty && reply.length == length && reply.more == more, "a refused candidate", count);
    expect(rack_events() == events, "the events after a refused candidate", count);
}

/* Expects that a rack rejects a frame, and that the reply has nothing but the status. */
static void expect_unracked(tcrx_rack_reply reply, tcrx_status status, unsigned long place) {
    static const tcrx_rack_reply none;
    tcrx_rack_reply bare = reply;
    bare.status = none.status;
    expect(reply.status == status && memcmp(&bare, &none, sizeof none) == 0, "a refusal of a rack", place);
}

static void check_rack_refusals(uint8_t fecf) {
    uint8_t octets[40];
    memset(octets, 0x55, sizeof octets);
    const uint64_t events = rack_events();
    const size_t count = rack_octets(CRAFT, 5, 7, fecf, octets);
    expect_unracked(tcrx_rack_frame(rack, PLACES, CRAFT, fecf, octets, 4), TCRX_SHORT, 4);
    expect_no_candidate(CRAFT, fecf, octets, count - 1, TCRX_TRUNCATED, 0, 0);
    octets[0] ^= 0x40;
    expect_unracked(tcrx_rack_frame(rack, PLACES, CRAFT, fecf, octets, count), TCRX_BAD_VERSION, 20);
    octets[0] ^= 0x40;
    expect_unracked(tcrx_rack_frame(rack, PLACES, CRAFT, 2, octets, 0), TCRX_BAD_FLAG, 30);
    expect_no_candidate(CRAFT, 2, octets, count, TCRX_BAD_FLAG, 0, 0);
    expect_unracked(tcrx_rack_frame(rack, PLACES, CRAFT, fecf, NULL, 0), TCRX_NULL, 32);
    expect_no_candidate(CRAFT, fecf, NULL, 0, TCRX_NULL, 0, 0);
    expect_unracked(tcrx_rack_frame(NULL, 1, CRAFT, fecf, octets, count), TCRX_NULL, 33);
    expect_unracked(tcrx_rack_frame(NULL, 0, CRAFT, fecf, octets, count), TCRX_UNKNOWN_CHANNEL, 34);
    expect_unracked(tcrx_rack_frame(rack, FIRST, CRAFT, fecf, octets, count), TCRX_UNKNOWN_CHANNEL, 35);
    /* A frame for another spacecraft is rejected before one for an unknown channel, and both after a wrong frame error
     * control field. Up to six octets behind a frame are fill. */
    rack_octets(CRAFT, 9, 0, fecf, octets);
    for (size_t behind = 0; behind < 20; behind++) {
        expect_no_candidate(CRAFT, fecf, octets, count + behind, TCRX_UNKNOWN_CHANNEL, count, behind > 6);
        expect_no_candidate(CRAFT + 1, fecf, octets, count + behind, TCRX_OTHER_SPACECRAFT, count, behind > 6);
    }
    expect_unracked(tcrx_rack_frame(rack, PLACES, CRAFT, fecf, octets, count), TCRX_UNKNOWN_CHANNEL, 36);
    expect_unracked(tcrx_rack_frame(rack, PLACES, CRAFT + 1, fecf, octets, count), TCRX_OTHER_SPACECRAFT, 37);
    if (fecf == 1) {
        const uint8_t least[] = {0x02, 0xa3, 0x14, 0x05, 0x07, 0xc0, 0x55};
        octets[count - 1] ^= 1;
        expect_unracked(tcrx_rack_frame(rack, PLACES, CRAFT + 1, 1, octets, count), TCRX_WRONG_FECF, 38);
        expect_no_candidate(CRAFT + 1, 1, octets, count + 7, TCRX_WRONG_FECF, count, 1);
        expect_unracked(tcrx_rack_frame(rack, PLACES, CRAFT, 1, octets, count + 1), TCRX_FILL, 39);
        expect_unracked(tcrx_rack_frame(rack, PLACES, CRAFT, 1, least, 6), TCRX_NO_FECF, 40);
        expect_no_candidate(CRAFT, 1, least, 7, TCRX_NO_FECF, 6, 0);
    }
    expect(rack_events() == events, "the events after refusals of a rack", fecf);
}

/* Checks three frames for the first channel that is held with an id, one after the other, with two octets of fill
 * behind them. */
static void check_candidates(uint8_t fecf, uint8_t vcid, size_t place) {
    uint8_t octets[40];
    size_t all = 0;
    const uint8_t first = tcrx_channel_report(&rack[place]).farm.vr;
    for (uint8_t i = 0; i < 3; i++) all += rack_octets(CRAFT, vcid, (uint8_t)(first + i), fecf, octets + all);
    octets[all] = octets[all + 1] = 0x55;
    for (size_t at = 0; at < all; at += all / 3) {
        const uint64_t events = tcrx_channel_events(&rack[place]).count;
        const tcrx_candidate_reply reply = tcrx_rack_candidate(rack, PLACES, CRAFT, fecf, octets + at, all + 2 - at);
        expect(reply.status == TCRX_DONE && reply.vcid == vcid && reply.event == 1 && reply.accepted == 1, "a frame of a candidate", at);
        expect(reply.length == all / 3 && reply.more == (at < 2 * (all / 3)), "the length of a frame of a candidate", at);
        expect(tcrx_channel_release(&rack[place]).status == TCRX_DONE && tcrx_channel_events(&rack[place]).count == events + 2, "a candidate's channel", at);
    }
}

static void check_rack(void) {
    const tcrx_limit limit = {0, 64};
    for (size_t place = FIRST; place < PLACES; place++) {
        const tcrx_settings settings = {place < FREED ? 5 : 8, 10, 4, 250, 1};
        const tcrx_status status = place == 4 ? TCRX_DONE : tcrx_channel_new_with_limits(&rack[place], settings, NULL, 0, NULL, 0, 0, &limit, 1);
        expect(status == TCRX_DONE, "a channel of a rack", place);
    }
    expect(tcrx_channel_free(&rack[FREED]) == TCRX_DONE, "a channel that is freed", FREED);
    for (uint8_t fecf = 0; fecf < 2; fecf++) {
        check_rack_refusals(fecf);
        check_candidates(fecf, 8, OTHER);
        check_candidates(fecf, 5, FIRST);
    }
    const tcrx_place first = tcrx_rack_find(rack, PLACES, 5), other = tcrx_rack_find(rack, PLACES, 8), none = tcrx_rack_find(rack, PLACES, 6);
    expect(first.status == TCRX_DONE && first.place == FIRST && other.status == TCRX_DONE && other.place == OTHER, "the places of ids", 0);
    expect(none.status == TCRX_UNKNOWN_CHANNEL && none.place == 0, "an id of no channel", 6);
    expect(tcrx_rack_find(NULL, 1, 5).status == TCRX_NULL && tcrx_rack_find(NULL, 0, 5).status == TCRX_UNKNOWN_CHANNEL, "no rack", 0);
    expect(tcrx_rack_find(rack, FIRST, 5).status == TCRX_UNKNOWN_CHANNEL, "an id of a channel behind the end of a rack", 0);
    expect(tcrx_channel_free(&rack[FIRST]) == TCRX_DONE, "the first channel", FIRST);
    check_candidates(1, 5, SECOND);
    expect(tcrx_channel_free(&rack[SECOND]) == TCRX_DONE && tcrx_channel_free(&rack[OTHER]) == TCRX_DONE, "the last channels", 0);
}

int main(void) {
    check_records();
    check_clcws();
    check_reading();
    check_writing();
    check_packets_made();
    check_segments_made();
    check_commands_made();
    check_fields_made();
    check_cltus_made();
    check_decoders();
    check_telemetry();
    check_texts();
    check_lists();
    check_limits();
    check_channel();
    check_rack();
    return close_with("answers of refused calls");
}
