/*
 * The calls of the library, with parameters that are only numbers of 32 bits and addresses. Each machine passes those
 * in the same way, so no machine's rule for passing records matters. This file is compiled to an LLVM module for the
 * machine that the library's LLVM module is for, and linked with that. The result becomes a WebAssembly module, from
 * which tools/portable writes its output.
 *
 * Each call returns a status, and puts the other fields of its record into `numbers`. The record of a FARM-1 and a
 * count take two of these numbers. The settings and headers that a call takes stand in `numbers`, too. An instance of
 * the module holds one channel.
 */
#include "tcrx.h"

#define EXPORT(name) __attribute__((export_name(#name), used)) name

typedef uint32_t u32;

/* The largest number of octets that are passed to a call. The longest frame is a telemetry frame of 2,048 octets. One
 * more octet is passed, so that the call can detect that octets follow the frame. */
enum { MOST_FRAME = 2049 };

static u32 numbers[16];
/* The frame or data field that a call reads, and behind it the frame or data field that it writes. */
static uint8_t frames[2 * MOST_FRAME] __attribute__((aligned(16)));
static tcrx_channel channel = TCRX_HOLDS_NONE;

/* The heap of the module (heap.c). */
void *heap_cut(uint64_t count, uint64_t alignment);
int heap_reserve(uint64_t count);
void *heap_take(uint64_t count);
void heap_give(void *at);

/* A block of memory, as the library receives it. In the library's LLVM module both fields are numbers of 64 bits. */
typedef struct {
    uint64_t given;
    uint64_t at;
} rattle_block;

rattle_block rattle_alloc(size_t count, size_t alignment);
void rattle_dealloc(void *at);

static rattle_block block_of(void *at) {
    const rattle_block block = {at != NULL, (uint64_t)(uintptr_t)(at != NULL ? at : frames)};
    return block;
}

/* Cuts a block. Only the creation of the channel requests memory, and the instance ends with the channel, so nothing is
 * reused. */
rattle_block rattle_alloc(size_t count, size_t alignment) {
    return block_of(heap_cut(count, alignment));
}

void rattle_dealloc(void *at) {
    (void)at;
}

static tcrx_farm farm_of(u32 first, u32 second) {
    const tcrx_farm farm = {(uint8_t)first,  (uint8_t)(first >> 8),  (uint8_t)(first >> 16), (uint8_t)(first >> 24),
                            (uint8_t)second, (uint8_t)(second >> 8), (uint8_t)(second >> 16)};
    return farm;
}

static void answer_farm(u32 place, tcrx_farm farm) {
    numbers[place] = farm.width | (u32)farm.state << 8 | (u32)farm.vr << 16 | (u32)farm.farm_b << 24;
    numbers[place + 1] = farm.lockout | (u32)farm.wait << 8 | (u32)farm.retransmit << 16;
}

static void answer_count(u32 place, uint64_t count) {
    numbers[place] = (u32)count;
    numbers[place + 1] = (u32)(count >> 32);
}

u32 *EXPORT(module_numbers)(void) {
    return numbers;
}

uint8_t *EXPORT(module_frames)(void) {
    return frames;
}

/* Reserves room in the module for `count` octets or entries, or returns null if there is none. module_room_back() frees
 * the room. */
void *EXPORT(module_room)(u32 count) {
    return heap_take(count);
}

u32 EXPORT(module_room_back)(void *at) {
    heap_give(at);
    return TCRX_DONE;
}

/* tools/c_interface writes the following lines from dist/tcrx.h. */
static tcrx_header header_given(void) {
    const tcrx_header given = {(uint16_t)numbers[0], (uint8_t)numbers[1], (uint8_t)numbers[2], (uint8_t)numbers[3],
                               (uint8_t)numbers[4]};
    return given;
}

static tcrx_packet_header packet_header_given(void) {
    const tcrx_packet_header given = {(uint16_t)numbers[0], (uint16_t)numbers[1], (uint8_t)numbers[2], (uint8_t)numbers[3],
                                      (uint8_t)numbers[4]};
    return given;
}

static tcrx_tm_header tm_header_given(void) {
    const tcrx_tm_header given = {(uint16_t)numbers[0], (uint8_t)numbers[1], (uint8_t)numbers[2], (uint8_t)numbers[3]};
    return given;
}

static tcrx_decoder decoder_given(void) {
    const tcrx_decoder given = {(uint8_t)numbers[0], (uint8_t)numbers[1], (uint8_t)numbers[2], (uint8_t)numbers[3],
                                (uint16_t)numbers[4]};
    return given;
}

static tcrx_settings settings_given(void) {
    const tcrx_settings given = {(uint8_t)numbers[0], (uint8_t)numbers[1], (uint8_t)numbers[2], (uint8_t)numbers[3],
                                 (uint8_t)numbers[4]};
    return given;
}

u32 EXPORT(module_text)(u32 status, uint8_t *text, u32 room) {
    const tcrx_written answer = tcrx_text_at(status, text, room);
    answer_count(0, answer.length);
    return answer.status;
}

u32 EXPORT(module_farm_start)(u32 width, u32 first_vr) {
    const tcrx_farm_answer answer = tcrx_farm_start((uint8_t)width, (uint8_t)first_vr);
    answer_farm(0, answer.farm);
    return answer.status;
}

u32 EXPORT(module_farm_step)(u32 first, u32 second, u32 arrival, u32 number, u32 room) {
    const tcrx_step_answer answer = tcrx_farm_step(farm_of(first, second), (uint8_t)arrival, (uint8_t)number, (uint8_t)room);
    answer_farm(0, answer.farm);
    numbers[2] = answer.event;
    numbers[3] = answer.accepted;
    return answer.status;
}

u32 EXPORT(module_clcw)(u32 first, u32 second, u32 vcid, u32 no_rf, u32 no_bit_lock) {
    const tcrx_clcw_answer answer = tcrx_clcw(farm_of(first, second), (uint8_t)vcid, (uint8_t)no_rf, (uint8_t)no_bit_lock);
    numbers[0] = answer.word;
    return answer.status;
}

u32 EXPORT(module_read_clcw)(u32 word) {
    const tcrx_clcw_fields answer = tcrx_read_clcw(word);
    numbers[0] = answer.status_field;
    numbers[1] = answer.vcid;
    numbers[2] = answer.no_rf;
    numbers[3] = answer.no_bit_lock;
    numbers[4] = answer.lockout;
    numbers[5] = answer.wait;
    numbers[6] = answer.retransmit;
    numbers[7] = answer.farm_b;
    numbers[8] = answer.vr;
    return answer.status;
}

u32 EXPORT(module_read_frame)(const uint8_t *octets, u32 count) {
    const tcrx_frame answer = tcrx_read_frame_at(octets, count);
    numbers[0] = answer.header.scid;
    numbers[1] = answer.header.vcid;
    numbers[2] = answer.header.ns;
    numbers[3] = answer.header.bypass;
    numbers[4] = answer.header.control;
    numbers[5] = answer.length;
    return answer.status;
}

u32 EXPORT(module_kind)(const uint8_t *octets, u32 count) {
    const tcrx_kind_answer answer = tcrx_kind_at(octets, count);
    numbers[0] = answer.kind;
    numbers[1] = answer.number;
    return answer.status;
}

u32 EXPORT(module_write_frame)(const uint8_t *field, u32 field_count, uint8_t *octets, u32 room) {
    const tcrx_written answer = tcrx_write_frame_at(header_given(), field, field_count, octets, room);
    answer_count(0, answer.length);
    return answer.status;
}

u32 EXPORT(module_write_segment)(u32 map, u32 size, u32 place, const uint8_t *unit, u32 unit_count, uint8_t *octets, u32 room) {
    const tcrx_written answer = tcrx_write_segment_at(header_given(), (uint8_t)map, (uint16_t)size, place, unit, unit_count,
                                                      octets, room);
    answer_count(0, answer.length);
    return answer.status;
}

u32 EXPORT(module_write_command)(u32 scid, u32 vcid, u32 kind, u32 number, uint8_t *octets, u32 room) {
    const tcrx_written answer = tcrx_write_command_at((uint16_t)scid, (uint8_t)vcid, (uint8_t)kind, (uint8_t)number, octets, room);
    answer_count(0, answer.length);
    return answer.status;
}

u32 EXPORT(module_add_fecf)(const uint8_t *frame, u32 frame_count, uint8_t *octets, u32 room) {
    const tcrx_written answer = tcrx_add_fecf_at(frame, frame_count, octets, room);
    answer_count(0, answer.length);
    return answer.status;
}

u32 EXPORT(module_check_fecf)(const uint8_t *frame, u32 frame_count, uint8_t *octets, u32 room) {
    const tcrx_written answer = tcrx_check_fecf_at(frame, frame_count, octets, room);
    answer_count(0, answer.length);
    return answer.status;
}

u32 EXPORT(module_write_packet)(const uint8_t *field, u32 field_count, uint8_t *octets, u32 room) {
    const tcrx_written answer = tcrx_write_packet_at(packet_header_given(), field, field_count, octets, room);
    answer_count(0, answer.length);
    return answer.status;
}

u32 EXPORT(module_read_packet)(const uint8_t *octets, u32 count) {
    const tcrx_packet answer = tcrx_read_packet_at(octets, count);
    numbers[0] = answer.length;
    numbers[1] = answer.apid;
    numbers[2] = answer.count;
    numbers[3] = answer.telecommand;
    numbers[4] = answer.secondary;
    numbers[5] = answer.sequence;
    return answer.status;
}

u32 EXPORT(module_write_cltu)(const uint8_t *frame, u32 frame_count, uint8_t *octets, u32 room) {
    const tcrx_written answer = tcrx_write_cltu_at(frame, frame_count, octets, room);
    answer_count(0, answer.length);
    return answer.status;
}

u32 EXPORT(module_cltu_octets)(const uint8_t *octets, u32 count, uint8_t *frame, u32 room) {
    const tcrx_decoded answer = tcrx_cltu_octets_at(decoder_given(), octets, count, frame, room);
    numbers[0] = answer.decoder.correct;
    numbers[1] = answer.decoder.decoding;
    numbers[2] = answer.decoder.last;
    numbers[3] = answer.decoder.count;
    numbers[4] = answer.decoder.carried;
    numbers[5] = answer.ended;
    answer_count(6, answer.taken);
    answer_count(8, answer.corrected);
    answer_count(10, answer.rejected);
    answer_count(12, answer.overlong);
    return answer.status;
}

u32 EXPORT(module_cltu_search)(void) {
    const tcrx_decoded answer = tcrx_cltu_search(decoder_given());
    numbers[0] = answer.decoder.correct;
    numbers[1] = answer.decoder.decoding;
    numbers[2] = answer.decoder.last;
    numbers[3] = answer.decoder.count;
    numbers[4] = answer.decoder.carried;
    numbers[5] = answer.ended;
    answer_count(6, answer.taken);
    answer_count(8, answer.corrected);
    answer_count(10, answer.rejected);
    answer_count(12, answer.overlong);
    return answer.status;
}

u32 EXPORT(module_randomise)(const uint8_t *frame, u32 frame_count, uint8_t *octets, u32 room) {
    const tcrx_written answer = tcrx_randomise_at(frame, frame_count, octets, room);
    answer_count(0, answer.length);
    return answer.status;
}

u32 EXPORT(module_write_tm)(u32 fecf, u32 clcw, u32 size, uint8_t *octets, u32 room) {
    const tcrx_written answer = tcrx_write_tm_at(tm_header_given(), (uint8_t)fecf, clcw, (uint16_t)size, octets, room);
    answer_count(0, answer.length);
    return answer.status;
}

u32 EXPORT(module_read_tm)(u32 fecf, const uint8_t *octets, u32 count) {
    const tcrx_tm answer = tcrx_read_tm_at((uint8_t)fecf, octets, count);
    numbers[0] = answer.clcw;
    numbers[1] = answer.header.scid;
    numbers[2] = answer.header.vcid;
    numbers[3] = answer.header.master_count;
    numbers[4] = answer.header.channel_count;
    numbers[5] = answer.pointer;
    return answer.status;
}

u32 EXPORT(module_storage)(const tcrx_queue *queues, u32 queue_count, const tcrx_map *maps, u32 map_count) {
    const tcrx_count answer = tcrx_storage_at(settings_given(), queues, queue_count, maps, map_count);
    answer_count(0, answer.count);
    return answer.status;
}

u32 EXPORT(module_storage_with_limits)(const tcrx_queue *queues, u32 queue_count, const tcrx_map *maps, u32 map_count,
                                       u32 others, const tcrx_limit *limits, u32 limit_count) {
    const tcrx_count answer = tcrx_storage_with_limits_at(settings_given(), queues, queue_count, maps, map_count, others, limits,
                                                          limit_count);
    answer_count(0, answer.count);
    return answer.status;
}

u32 EXPORT(module_channel_frame)(const uint8_t *octets, u32 count) {
    const tcrx_reply answer = tcrx_channel_frame_at(&channel, octets, count);
    numbers[0] = answer.queued;
    numbers[1] = answer.dropped;
    numbers[2] = answer.event;
    numbers[3] = answer.accepted;
    numbers[4] = answer.rest;
    return answer.status;
}

u32 EXPORT(module_channel_release)(void) {
    const tcrx_delivery answer = tcrx_channel_release_at(&channel);
    numbers[0] = answer.queued;
    numbers[1] = answer.dropped;
    numbers[2] = answer.rest;
    return answer.status;
}

u32 EXPORT(module_channel_take)(u32 apid, uint8_t *octets, u32 room) {
    const tcrx_written answer = tcrx_channel_take_at(&channel, (uint16_t)apid, octets, room);
    answer_count(0, answer.length);
    return answer.status;
}

u32 EXPORT(module_channel_take_unit)(u32 map, uint8_t *octets, u32 room) {
    const tcrx_written answer = tcrx_channel_take_unit_at(&channel, (uint8_t)map, octets, room);
    answer_count(0, answer.length);
    return answer.status;
}

u32 EXPORT(module_channel_clcw)(u32 no_rf, u32 no_bit_lock) {
    const tcrx_clcw_answer answer = tcrx_channel_clcw_at(&channel, (uint8_t)no_rf, (uint8_t)no_bit_lock);
    numbers[0] = answer.word;
    return answer.status;
}

u32 EXPORT(module_channel_report)(void) {
    const tcrx_farm_answer answer = tcrx_channel_report_at(&channel);
    answer_farm(0, answer.farm);
    return answer.status;
}

u32 EXPORT(module_channel_buffered)(void) {
    const tcrx_count answer = tcrx_channel_buffered_at(&channel);
    answer_count(0, answer.count);
    return answer.status;
}

u32 EXPORT(module_channel_queued)(u32 apid) {
    const tcrx_count answer = tcrx_channel_queued_at(&channel, (uint16_t)apid);
    answer_count(0, answer.count);
    return answer.status;
}

u32 EXPORT(module_channel_units)(u32 map) {
    const tcrx_count answer = tcrx_channel_units_at(&channel, (uint8_t)map);
    answer_count(0, answer.count);
    return answer.status;
}

u32 EXPORT(module_channel_events)(void) {
    const tcrx_count answer = tcrx_channel_events_at(&channel);
    answer_count(0, answer.count);
    return answer.status;
}

u32 EXPORT(module_channel_free)(void) {
    return tcrx_channel_free_at(&channel);
}

u32 EXPORT(module_rack_frame)(u32 scid, u32 fecf, const uint8_t *octets, u32 count) {
    const tcrx_rack_reply answer = tcrx_rack_frame_at(&channel, 1, (uint16_t)scid, (uint8_t)fecf, octets, count);
    numbers[0] = answer.queued;
    numbers[1] = answer.dropped;
    numbers[2] = answer.event;
    numbers[3] = answer.accepted;
    numbers[4] = answer.rest;
    numbers[5] = answer.vcid;
    return answer.status;
}

u32 EXPORT(module_rack_candidate)(u32 scid, u32 fecf, const uint8_t *octets, u32 count) {
    const tcrx_candidate_reply answer = tcrx_rack_candidate_at(&channel, 1, (uint16_t)scid, (uint8_t)fecf, octets, count);
    numbers[0] = answer.queued;
    numbers[1] = answer.dropped;
    numbers[2] = answer.event;
    numbers[3] = answer.accepted;
    numbers[4] = answer.rest;
    numbers[5] = answer.vcid;
    numbers[6] = answer.more;
    numbers[7] = answer.length;
    return answer.status;
}

u32 EXPORT(module_rack_find)(u32 vcid) {
    const tcrx_place answer = tcrx_rack_find_at(&channel, 1, (uint8_t)vcid);
    answer_count(0, answer.place);
    return answer.status;
}
/* The lines that tools/c_interface writes end here. */

/* Returns whether there is room for a channel with this storage, with its own block and a copy of each list. If the
 * settings have a fault, returns true, because the creation of the channel then fails without it. */
static int is_reserved(tcrx_count storage, uint64_t entries) {
    return storage.status != TCRX_DONE || heap_reserve(storage.count + 1024 + 8 * entries);
}

u32 EXPORT(module_channel_new)(const tcrx_queue *queues, u32 queue_count, const tcrx_map *maps, u32 map_count) {
    const tcrx_count storage = tcrx_storage_at(settings_given(), queues, queue_count, maps, map_count);
    if (!is_reserved(storage, (uint64_t)queue_count + map_count)) {
        return TCRX_NO_MEMORY;
    }
    return tcrx_channel_new_at(&channel, settings_given(), queues, queue_count, maps, map_count);
}

u32 EXPORT(module_channel_new_with_limits)(const tcrx_queue *queues, u32 queue_count, const tcrx_map *maps, u32 map_count,
                                           u32 others, const tcrx_limit *limits, u32 limit_count) {
    const tcrx_count storage =
        tcrx_storage_with_limits_at(settings_given(), queues, queue_count, maps, map_count, others, limits, limit_count);
    if (!is_reserved(storage, (uint64_t)queue_count + map_count + limit_count)) {
        return TCRX_NO_MEMORY;
    }
    return tcrx_channel_new_with_limits_at(&channel, settings_given(), queues, queue_count, maps, map_count, others, limits,
                                           limit_count);
}
