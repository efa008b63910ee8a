/*
 * The calls of tcrx.h over the module. Octets and lists are copied into the memory of an instance and out of it. A call
 * on a channel that isn't held goes to the instance of the calls without a channel. That instance holds no channel
 * either, so the call returns what the library returns.
 */
#include "tcrx.h"

#include "tcrx_instance.h"

static uint32_t least(size_t count, uint32_t most) {
    return count < most ? (uint32_t)count : most;
}

static uint32_t first_half(tcrx_farm farm) {
    return farm.width | (uint32_t)farm.state << 8 | (uint32_t)farm.vr << 16 | (uint32_t)farm.farm_b << 24;
}

static uint32_t second_half(tcrx_farm farm) {
    return farm.lockout | (uint32_t)farm.wait << 8 | (uint32_t)farm.retransmit << 16;
}

static tcrx_farm farm_of(tcrx_instance *at, uint32_t place) {
    const uint32_t first = tcrx_number(at, place), second = tcrx_number(at, place + 1);
    const tcrx_farm farm = {(uint8_t)first,  (uint8_t)(first >> 8),  (uint8_t)(first >> 16), (uint8_t)(first >> 24),
                            (uint8_t)second, (uint8_t)(second >> 8), (uint8_t)(second >> 16)};
    return farm;
}

static uint64_t count_of(tcrx_instance *at, uint32_t place) {
    return tcrx_number(at, place) | (uint64_t)tcrx_number(at, place + 1) << 32;
}

/* Copies the octets that a call wrote at a place in the memory to the caller, if the call succeeded. */
static tcrx_written written_of(tcrx_instance *at, tcrx_status status, uint32_t place, uint8_t *octets) {
    const tcrx_written answer = {status, (size_t)count_of(at, 0)};
    if (status == TCRX_DONE) {
        tcrx_get(at, place, octets, (uint32_t)answer.length);
    }
    return answer;
}

static tcrx_instance *begin(const tcrx_channel *channel) {
    return channel->held ? (tcrx_instance *)channel->place : tcrx_instance_shared();
}

static void end(const tcrx_channel *channel) {
    if (!channel->held) {
        tcrx_instance_back();
    }
}

/*
 * Copies the frame at the front of octets, because the library looks at nothing else. If a data field has more octets
 * than are copied, the copied part alone is too long, so the status is the same.
 */
static uint32_t put_frame(tcrx_instance *at, const uint8_t *octets, size_t count) {
    const uint32_t looked_at = least(count, TCRX_MODULE_FRAME);
    tcrx_put(at, at->read, octets, looked_at);
    return looked_at;
}

/* Copies the buffer in and out, because it holds the octets that the decoder has so far. If there are more octets than
 * the module has room for, they are passed piece by piece. */
tcrx_decoded tcrx_cltu_octets_at(tcrx_decoder decoder, const uint8_t *octets, size_t count, uint8_t *frame, size_t room) {
    tcrx_decoded answer = {TCRX_DONE, decoder, 0, 0, 0, 0, 0};
    tcrx_instance *at = tcrx_instance_shared();
    const uint32_t has = least(room, TCRX_DECODER_ROOM);
    tcrx_set_number(at, 0, decoder.correct);
    tcrx_set_number(at, 1, decoder.decoding);
    tcrx_set_number(at, 2, decoder.last);
    tcrx_set_number(at, 3, decoder.count);
    tcrx_set_number(at, 4, decoder.carried);
    tcrx_put(at, at->written, frame, least((size_t)decoder.carried + decoder.count, has));
    do {
        const uint32_t given = least(count - (size_t)answer.taken, TCRX_MODULE_FRAME);
        tcrx_put(at, at->read, octets + answer.taken, given);
        answer.status = Z_tcrxZ_module_cltu_octets(&at->module, at->read, given, at->written, has);
        answer.ended = (uint8_t)tcrx_number(at, 5);
        answer.taken += count_of(at, 6);
        answer.corrected += count_of(at, 8);
        answer.rejected += count_of(at, 10);
        answer.overlong += count_of(at, 12);
    } while (answer.status == TCRX_DONE && !answer.ended && answer.taken < count);
    answer.decoder.decoding = (uint8_t)tcrx_number(at, 1);
    answer.decoder.last = (uint8_t)tcrx_number(at, 2);
    answer.decoder.count = (uint8_t)tcrx_number(at, 3);
    answer.decoder.carried = (uint16_t)tcrx_number(at, 4);
    if (answer.status == TCRX_DONE) {
        tcrx_get(at, at->written, frame, least((size_t)answer.decoder.carried + answer.decoder.count, has));
    }
    tcrx_instance_back();
    return answer;
}

/* tools/c_interface writes the following lines from dist/tcrx.h. */
tcrx_written tcrx_text_at(tcrx_status status, uint8_t *text, size_t room) {
    tcrx_instance *at = tcrx_instance_shared();
    const tcrx_status done = Z_tcrxZ_module_text(&at->module, status, at->written, least(room, TCRX_MODULE_FRAME));
    const tcrx_written answer = written_of(at, done, at->written, text);
    tcrx_instance_back();
    return answer;
}

tcrx_farm_answer tcrx_farm_start(uint8_t width, uint8_t first_vr) {
    tcrx_farm_answer answer;
    tcrx_instance *at = tcrx_instance_shared();
    answer.status = Z_tcrxZ_module_farm_start(&at->module, width, first_vr);
    answer.farm = farm_of(at, 0);
    tcrx_instance_back();
    return answer;
}

tcrx_step_answer tcrx_farm_step(tcrx_farm farm, uint8_t arrival, uint8_t number, uint8_t room) {
    tcrx_step_answer answer;
    tcrx_instance *at = tcrx_instance_shared();
    answer.status = Z_tcrxZ_module_farm_step(&at->module, first_half(farm), second_half(farm), arrival, number, room);
    answer.farm = farm_of(at, 0);
    answer.event = (uint8_t)tcrx_number(at, 2);
    answer.accepted = (uint8_t)tcrx_number(at, 3);
    tcrx_instance_back();
    return answer;
}

tcrx_clcw_answer tcrx_clcw(tcrx_farm farm, uint8_t vcid, uint8_t no_rf, uint8_t no_bit_lock) {
    tcrx_clcw_answer answer;
    tcrx_instance *at = tcrx_instance_shared();
    answer.status = Z_tcrxZ_module_clcw(&at->module, first_half(farm), second_half(farm), vcid, no_rf, no_bit_lock);
    answer.word = tcrx_number(at, 0);
    tcrx_instance_back();
    return answer;
}

tcrx_clcw_fields tcrx_read_clcw(uint32_t word) {
    tcrx_clcw_fields answer;
    tcrx_instance *at = tcrx_instance_shared();
    answer.status = Z_tcrxZ_module_read_clcw(&at->module, word);
    answer.status_field = (uint8_t)tcrx_number(at, 0);
    answer.vcid = (uint8_t)tcrx_number(at, 1);
    answer.no_rf = (uint8_t)tcrx_number(at, 2);
    answer.no_bit_lock = (uint8_t)tcrx_number(at, 3);
    answer.lockout = (uint8_t)tcrx_number(at, 4);
    answer.wait = (uint8_t)tcrx_number(at, 5);
    answer.retransmit = (uint8_t)tcrx_number(at, 6);
    answer.farm_b = (uint8_t)tcrx_number(at, 7);
    answer.vr = (uint8_t)tcrx_number(at, 8);
    tcrx_instance_back();
    return answer;
}

tcrx_frame tcrx_read_frame_at(const uint8_t *octets, size_t count) {
    tcrx_frame answer;
    tcrx_instance *at = tcrx_instance_shared();
    answer.status = Z_tcrxZ_module_read_frame(&at->module, at->read, put_frame(at, octets, count));
    answer.header.scid = (uint16_t)tcrx_number(at, 0);
    answer.header.vcid = (uint8_t)tcrx_number(at, 1);
    answer.header.ns = (uint8_t)tcrx_number(at, 2);
    answer.header.bypass = (uint8_t)tcrx_number(at, 3);
    answer.header.control = (uint8_t)tcrx_number(at, 4);
    answer.length = (uint16_t)tcrx_number(at, 5);
    tcrx_instance_back();
    return answer;
}

tcrx_kind_answer tcrx_kind_at(const uint8_t *octets, size_t count) {
    tcrx_kind_answer answer;
    tcrx_instance *at = tcrx_instance_shared();
    answer.status = Z_tcrxZ_module_kind(&at->module, at->read, put_frame(at, octets, count));
    answer.kind = (uint8_t)tcrx_number(at, 0);
    answer.number = (uint8_t)tcrx_number(at, 1);
    tcrx_instance_back();
    return answer;
}

tcrx_written tcrx_write_frame_at(tcrx_header header, const uint8_t *field, size_t field_count, uint8_t *octets, size_t room) {
    tcrx_instance *at = tcrx_instance_shared();
    tcrx_set_number(at, 0, header.scid);
    tcrx_set_number(at, 1, header.vcid);
    tcrx_set_number(at, 2, header.ns);
    tcrx_set_number(at, 3, header.bypass);
    tcrx_set_number(at, 4, header.control);
    const tcrx_status done = Z_tcrxZ_module_write_frame(&at->module, at->read, put_frame(at, field, field_count), at->written,
                                                        least(room, TCRX_MODULE_FRAME));
    const tcrx_written answer = written_of(at, done, at->written, octets);
    tcrx_instance_back();
    return answer;
}

tcrx_written tcrx_write_command_at(uint16_t scid, uint8_t vcid, uint8_t kind, uint8_t number, uint8_t *octets, size_t room) {
    tcrx_instance *at = tcrx_instance_shared();
    const tcrx_status done = Z_tcrxZ_module_write_command(&at->module, scid, vcid, kind, number, at->written,
                                                          least(room, TCRX_MODULE_FRAME));
    const tcrx_written answer = written_of(at, done, at->written, octets);
    tcrx_instance_back();
    return answer;
}

tcrx_written tcrx_add_fecf_at(const uint8_t *frame, size_t frame_count, uint8_t *octets, size_t room) {
    tcrx_instance *at = tcrx_instance_shared();
    const tcrx_status done = Z_tcrxZ_module_add_fecf(&at->module, at->read, put_frame(at, frame, frame_count), at->written,
                                                     least(room, TCRX_MODULE_FRAME));
    const tcrx_written answer = written_of(at, done, at->written, octets);
    tcrx_instance_back();
    return answer;
}

tcrx_written tcrx_check_fecf_at(const uint8_t *frame, size_t frame_count, uint8_t *octets, size_t room) {
    tcrx_instance *at = tcrx_instance_shared();
    const tcrx_status done = Z_tcrxZ_module_check_fecf(&at->module, at->read, put_frame(at, frame, frame_count), at->written,
                                                       least(room, TCRX_MODULE_FRAME));
    const tcrx_written answer = written_of(at, done, at->written, octets);
    tcrx_instance_back();
    return answer;
}

tcrx_written tcrx_write_cltu_at(const uint8_t *frame, size_t frame_count, uint8_t *octets, size_t room) {
    tcrx_instance *at = tcrx_instance_shared();
    const tcrx_status done = Z_tcrxZ_module_write_cltu(&at->module, at->read, put_frame(at, frame, frame_count), at->written,
                                                       least(room, TCRX_MODULE_FRAME));
    const tcrx_written answer = written_of(at, done, at->written, octets);
    tcrx_instance_back();
    return answer;
}

tcrx_decoded tcrx_cltu_search(tcrx_decoder decoder) {
    tcrx_decoded answer;
    tcrx_instance *at = tcrx_instance_shared();
    tcrx_set_number(at, 0, decoder.correct);
    tcrx_set_number(at, 1, decoder.decoding);
    tcrx_set_number(at, 2, decoder.last);
    tcrx_set_number(at, 3, decoder.count);
    tcrx_set_number(at, 4, decoder.carried);
    answer.status = Z_tcrxZ_module_cltu_search(&at->module);
    answer.decoder.correct = (uint8_t)tcrx_number(at, 0);
    answer.decoder.decoding = (uint8_t)tcrx_number(at, 1);
    answer.decoder.last = (uint8_t)tcrx_number(at, 2);
    answer.decoder.count = (uint8_t)tcrx_number(at, 3);
    answer.decoder.carried = (uint16_t)tcrx_number(at, 4);
    answer.ended = (uint8_t)tcrx_number(at, 5);
    answer.taken = count_of(at, 6);
    answer.corrected = count_of(at, 8);
    answer.rejected = count_of(at, 10);
    answer.overlong = count_of(at, 12);
    tcrx_instance_back();
    return answer;
}

tcrx_written tcrx_randomise_at(const uint8_t *frame, size_t frame_count, uint8_t *octets, size_t room) {
    tcrx_instance *at = tcrx_instance_shared();
    const tcrx_status done = Z_tcrxZ_module_randomise(&at->module, at->read, put_frame(at, frame, frame_count), at->written,
                                                      least(room, TCRX_MODULE_FRAME));
    const tcrx_written answer = written_of(at, done, at->written, octets);
    tcrx_instance_back();
    return answer;
}

tcrx_written tcrx_write_tm_at(tcrx_tm_header header, uint8_t fecf, uint32_t clcw, uint16_t size, uint8_t *octets, size_t room) {
    tcrx_instance *at = tcrx_instance_shared();
    tcrx_set_number(at, 0, header.scid);
    tcrx_set_number(at, 1, header.vcid);
    tcrx_set_number(at, 2, header.master_count);
    tcrx_set_number(at, 3, header.channel_count);
    const tcrx_status done = Z_tcrxZ_module_write_tm(&at->module, fecf, clcw, size, at->written, least(room, TCRX_MODULE_FRAME));
    const tcrx_written answer = written_of(at, done, at->written, octets);
    tcrx_instance_back();
    return answer;
}

tcrx_tm tcrx_read_tm_at(uint8_t fecf, const uint8_t *octets, size_t count) {
    tcrx_tm answer;
    tcrx_instance *at = tcrx_instance_shared();
    answer.status = Z_tcrxZ_module_read_tm(&at->module, fecf, at->read, put_frame(at, octets, count));
    answer.clcw = tcrx_number(at, 0);
    answer.header.scid = (uint16_t)tcrx_number(at, 1);
    answer.header.vcid = (uint8_t)tcrx_number(at, 2);
    answer.header.master_count = (uint8_t)tcrx_number(at, 3);
    answer.header.channel_count = (uint8_t)tcrx_number(at, 4);
    answer.pointer = (uint16_t)tcrx_number(at, 5);
    tcrx_instance_back();
    return answer;
}

tcrx_reply tcrx_channel_frame_at(tcrx_channel *channel, const uint8_t *octets, size_t count) {
    tcrx_reply answer;
    tcrx_instance *at = begin(channel);
    answer.status = Z_tcrxZ_module_channel_frame(&at->module, at->read, put_frame(at, octets, count));
    answer.queued = tcrx_number(at, 0);
    answer.dropped = tcrx_number(at, 1);
    answer.event = (uint8_t)tcrx_number(at, 2);
    answer.accepted = (uint8_t)tcrx_number(at, 3);
    answer.rest = (uint8_t)tcrx_number(at, 4);
    end(channel);
    return answer;
}

tcrx_delivery tcrx_channel_release_at(tcrx_channel *channel) {
    tcrx_delivery answer;
    tcrx_instance *at = begin(channel);
    answer.status = Z_tcrxZ_module_channel_release(&at->module);
    answer.queued = tcrx_number(at, 0);
    answer.dropped = tcrx_number(at, 1);
    answer.rest = (uint8_t)tcrx_number(at, 2);
    end(channel);
    return answer;
}

tcrx_written tcrx_channel_take_at(tcrx_channel *channel, uint16_t apid, uint8_t *octets, size_t room) {
    tcrx_instance *at = begin(channel);
    const tcrx_status done = Z_tcrxZ_module_channel_take(&at->module, apid, at->packet, least(room, at->packet_room));
    const tcrx_written answer = written_of(at, done, at->packet, octets);
    end(channel);
    return answer;
}

tcrx_written tcrx_channel_take_unit_at(tcrx_channel *channel, uint8_t map, uint8_t *octets, size_t room) {
    tcrx_instance *at = begin(channel);
    const tcrx_status done = Z_tcrxZ_module_channel_take_unit(&at->module, map, at->packet, least(room, at->packet_room));
    const tcrx_written answer = written_of(at, done, at->packet, octets);
    end(channel);
    return answer;
}

tcrx_clcw_answer tcrx_channel_clcw_at(tcrx_channel *channel, uint8_t no_rf, uint8_t no_bit_lock) {
    tcrx_clcw_answer answer;
    tcrx_instance *at = begin(channel);
    answer.status = Z_tcrxZ_module_channel_clcw(&at->module, no_rf, no_bit_lock);
    answer.word = tcrx_number(at, 0);
    end(channel);
    return answer;
}

tcrx_farm_answer tcrx_channel_report_at(tcrx_channel *channel) {
    tcrx_farm_answer answer;
    tcrx_instance *at = begin(channel);
    answer.status = Z_tcrxZ_module_channel_report(&at->module);
    answer.farm = farm_of(at, 0);
    end(channel);
    return answer;
}

tcrx_count tcrx_channel_buffered_at(tcrx_channel *channel) {
    tcrx_count answer;
    tcrx_instance *at = begin(channel);
    answer.status = Z_tcrxZ_module_channel_buffered(&at->module);
    answer.count = count_of(at, 0);
    end(channel);
    return answer;
}

tcrx_count tcrx_channel_queued_at(tcrx_channel *channel, uint16_t apid) {
    tcrx_count answer;
    tcrx_instance *at = begin(channel);
    answer.status = Z_tcrxZ_module_channel_queued(&at->module, apid);
    answer.count = count_of(at, 0);
    end(channel);
    return answer;
}

tcrx_count tcrx_channel_units_at(tcrx_channel *channel, uint8_t map) {
    tcrx_count answer;
    tcrx_instance *at = begin(channel);
    answer.status = Z_tcrxZ_module_channel_units(&at->module, map);
    answer.count = count_of(at, 0);
    end(channel);
    return answer;
}

tcrx_count tcrx_channel_events_at(tcrx_channel *channel) {
    tcrx_count answer;
    tcrx_instance *at = begin(channel);
    answer.status = Z_tcrxZ_module_channel_events(&at->module);
    answer.count = count_of(at, 0);
    end(channel);
    return answer;
}
/* The lines that tools/c_interface writes end here. */

/* Sets the five numbers of a record that goes into the module. */
static void set_numbers(tcrx_instance *at, const uint32_t *numbers) {
    for (uint32_t i = 0; i < 5; i++) {
        tcrx_set_number(at, i, numbers[i]);
    }
}

/* Copies octets into the memory of an instance, in room that the caller frees later. Returns 0 if there is no room for
 * them. */
static uint32_t copied(tcrx_instance *at, const uint8_t *octets, uint32_t count) {
    const uint32_t place = (uint32_t)Z_tcrxZ_module_room(&at->module, count);
    if (place != 0) {
        tcrx_put(at, place, octets, count);
    }
    return place;
}

/* Copies the front of the unit only. If the unit has more octets, the copied part alone is too long, so the status is
 * the same. */
tcrx_written tcrx_write_segment_at(tcrx_header header, uint8_t map, uint16_t size, uint32_t place, const uint8_t *unit,
                                   size_t unit_count, uint8_t *octets, size_t room) {
    tcrx_written answer = {TCRX_NO_MEMORY, 0};
    tcrx_instance *at = tcrx_instance_shared();
    const uint32_t read = least(unit_count, TCRX_MODULE_PACKET + 1), from = copied(at, unit, read);
    const uint32_t numbers[] = {header.scid, header.vcid, header.ns, header.bypass, header.control};
    if (from != 0) {
        set_numbers(at, numbers);
        const tcrx_status done = Z_tcrxZ_module_write_segment(&at->module, map, size, place, from, read, at->written,
                                                              least(room, TCRX_MODULE_FRAME));
        answer = written_of(at, done, at->written, octets);
        Z_tcrxZ_module_room_back(&at->module, from);
    }
    tcrx_instance_back();
    return answer;
}

/* Copies the front of the packet data field only. If the field has more octets, the copied part alone is too long, so
 * the status is the same. */
tcrx_written tcrx_write_packet_at(tcrx_packet_header header, const uint8_t *field, size_t field_count, uint8_t *octets,
                                  size_t room) {
    tcrx_written answer = {TCRX_NO_MEMORY, 0};
    tcrx_instance *at = tcrx_instance_shared();
    const uint32_t read = least(field_count, TCRX_MODULE_PACKET), from = copied(at, field, read);
    const uint32_t most = least(room, TCRX_MODULE_PACKET), to = (uint32_t)Z_tcrxZ_module_room(&at->module, most);
    const uint32_t numbers[] = {header.apid, header.count, header.telecommand, header.secondary, header.sequence};
    if (from != 0 && to != 0) {
        set_numbers(at, numbers);
        const tcrx_status done = Z_tcrxZ_module_write_packet(&at->module, from, read, to, most);
        answer = written_of(at, done, to, octets);
    }
    if (to != 0) {
        Z_tcrxZ_module_room_back(&at->module, to);
    }
    if (from != 0) {
        Z_tcrxZ_module_room_back(&at->module, from);
    }
    tcrx_instance_back();
    return answer;
}

tcrx_packet tcrx_read_packet_at(const uint8_t *octets, size_t count) {
    tcrx_packet answer = {TCRX_NO_MEMORY, 0, 0, 0, 0, 0, 0};
    tcrx_instance *at = tcrx_instance_shared();
    const uint32_t read = least(count, TCRX_MODULE_PACKET), place = copied(at, octets, read);
    if (place != 0) {
        answer.status = Z_tcrxZ_module_read_packet(&at->module, place, read);
        answer.length = tcrx_number(at, 0);
        answer.apid = (uint16_t)tcrx_number(at, 1);
        answer.count = (uint16_t)tcrx_number(at, 2);
        answer.telecommand = (uint8_t)tcrx_number(at, 3);
        answer.secondary = (uint8_t)tcrx_number(at, 4);
        answer.sequence = (uint8_t)tcrx_number(at, 5);
        Z_tcrxZ_module_room_back(&at->module, place);
    }
    tcrx_instance_back();
    return answer;
}

/* The settings and the limits of a channel, and the places of their whole lists in the memory of an instance. */
typedef struct {
    tcrx_settings settings;
    const tcrx_queue *queues;
    size_t queue_count;
    const tcrx_map *maps;
    size_t map_count;
    bool limited;
    uint32_t others;
    const tcrx_limit *limits;
    size_t limit_count;
    uint32_t at_queues, at_maps, at_limits;
} plan;

/* Returns room for `count` entries of `octets` octets each, or 0 if there is none. */
static uint32_t list_room(tcrx_instance *at, size_t count, uint32_t octets) {
    return count > UINT32_MAX / octets ? 0 : (uint32_t)Z_tcrxZ_module_room(&at->module, octets * (uint32_t)count);
}

static void give_back(tcrx_instance *at, const plan *put) {
    const uint32_t places[] = {put->at_queues, put->at_maps, put->at_limits};
    for (uint32_t i = 0; i < 3; i++) {
        if (places[i] != 0) {
            Z_tcrxZ_module_room_back(&at->module, places[i]);
        }
    }
}

/* Copies the lists into the memory of an instance. Returns whether there was room for them. */
static bool put_lists(tcrx_instance *at, plan *put) {
    put->at_queues = list_room(at, put->queue_count, 4);
    put->at_maps = list_room(at, put->map_count, 4);
    put->at_limits = list_room(at, put->limit_count, 8);
    if (put->at_queues == 0 || put->at_maps == 0 || put->at_limits == 0) {
        give_back(at, put);
        return false;
    }
    for (uint32_t i = 0; i < put->queue_count; i++) {
        const uint16_t apid = put->queues[i].apid, capacity = put->queues[i].capacity;
        const uint8_t entry[] = {(uint8_t)apid, (uint8_t)(apid >> 8), (uint8_t)capacity, (uint8_t)(capacity >> 8)};
        tcrx_put(at, put->at_queues + 4 * i, entry, 4);
    }
    for (uint32_t i = 0; i < put->map_count; i++) {
        const uint16_t capacity = put->maps[i].capacity;
        const uint8_t entry[] = {put->maps[i].map, 0, (uint8_t)capacity, (uint8_t)(capacity >> 8)};
        tcrx_put(at, put->at_maps + 4 * i, entry, 4);
    }
    for (uint32_t i = 0; i < put->limit_count; i++) {
        const uint32_t most = put->limits[i].octets;
        const uint8_t entry[] = {put->limits[i].map, 0,         0,           0,
                                 (uint8_t)most,      (uint8_t)(most >> 8), (uint8_t)(most >> 16), (uint8_t)(most >> 24)};
        tcrx_put(at, put->at_limits + 8 * i, entry, 8);
    }
    return true;
}

static void put_settings(tcrx_instance *at, tcrx_settings settings) {
    const uint32_t numbers[] = {settings.vcid, settings.width, settings.buffer, settings.first_vr, settings.segmented};
    set_numbers(at, numbers);
}

static tcrx_count storage(plan *asked) {
    tcrx_count answer = {TCRX_NO_MEMORY, 0};
    tcrx_instance *at = tcrx_instance_shared();
    if (put_lists(at, asked)) {
        const uint32_t queue_count = (uint32_t)asked->queue_count, map_count = (uint32_t)asked->map_count;
        put_settings(at, asked->settings);
        answer.status = asked->limited
            ? Z_tcrxZ_module_storage_with_limits(&at->module, asked->at_queues, queue_count, asked->at_maps, map_count,
                                                 asked->others, asked->at_limits, (uint32_t)asked->limit_count)
            : Z_tcrxZ_module_storage(&at->module, asked->at_queues, queue_count, asked->at_maps, map_count);
        answer.count = count_of(at, 0);
        give_back(at, asked);
    }
    tcrx_instance_back();
    return answer;
}

tcrx_count tcrx_storage_at(tcrx_settings settings, const tcrx_queue *queues, size_t queue_count, const tcrx_map *maps,
                           size_t map_count) {
    plan asked = {settings, queues, queue_count, maps, map_count, false, 0, NULL, 0, 0, 0, 0};
    return storage(&asked);
}

tcrx_count tcrx_storage_with_limits_at(tcrx_settings settings, const tcrx_queue *queues, size_t queue_count, const tcrx_map *maps,
                                       size_t map_count, uint32_t others, const tcrx_limit *limits, size_t limit_count) {
    plan asked = {settings, queues, queue_count, maps, map_count, true, others, limits, limit_count, 0, 0, 0};
    return storage(&asked);
}

/* Creates the channel in its instance, with room for the longest packet that the channel can come to hold. */
static tcrx_status make(tcrx_instance *at, plan *asked) {
    if (!put_lists(at, asked)) {
        return TCRX_NO_MEMORY;
    }
    const uint32_t queue_count = (uint32_t)asked->queue_count, map_count = (uint32_t)asked->map_count;
    put_settings(at, asked->settings);
    const tcrx_status status = asked->limited
        ? Z_tcrxZ_module_channel_new_with_limits(&at->module, asked->at_queues, queue_count, asked->at_maps, map_count,
                                                 asked->others, asked->at_limits, (uint32_t)asked->limit_count)
        : Z_tcrxZ_module_channel_new(&at->module, asked->at_queues, queue_count, asked->at_maps, map_count);
    give_back(at, asked);
    if (status == TCRX_DONE && asked->settings.segmented) {
        at->packet = (uint32_t)Z_tcrxZ_module_room(&at->module, TCRX_MODULE_PACKET);
        at->packet_room = TCRX_MODULE_PACKET;
    }
    return status == TCRX_DONE && at->packet == 0 ? TCRX_NO_MEMORY : status;
}

/* Creates a channel. A fault of the settings or of the limits is found before an instance requests memory. */
static tcrx_status make_anew(tcrx_channel *channel, plan *asked) {
    if (channel->held) {
        return TCRX_IN_USE;
    }
    const tcrx_status fault = storage(asked).status;
    tcrx_instance *at = fault == TCRX_DONE ? tcrx_instance_new() : NULL;
    if (at == NULL) {
        return fault == TCRX_DONE ? TCRX_NO_MEMORY : fault;
    }
    const tcrx_status status = make(at, asked);
    if (status == TCRX_DONE) {
        channel->held = 1;
        channel->place = at;
    } else {
        tcrx_instance_end(at);
    }
    return status;
}

tcrx_status tcrx_channel_new_at(tcrx_channel *channel, tcrx_settings settings, const tcrx_queue *queues, size_t queue_count,
                                const tcrx_map *maps, size_t map_count) {
    plan asked = {settings, queues, queue_count, maps, map_count, false, 0, NULL, 0, 0, 0, 0};
    return make_anew(channel, &asked);
}

tcrx_status tcrx_channel_new_with_limits_at(tcrx_channel *channel, tcrx_settings settings, const tcrx_queue *queues,
                                            size_t queue_count, const tcrx_map *maps, size_t map_count, uint32_t others,
                                            const tcrx_limit *limits, size_t limit_count) {
    plan asked = {settings, queues, queue_count, maps, map_count, true, others, limits, limit_count, 0, 0, 0};
    return make_anew(channel, &asked);
}

/* Finds a channel by searching each instance, because the channel of an instance is a rack by itself. */
tcrx_place tcrx_rack_find_at(tcrx_channel *channels, size_t channel_count, uint8_t vcid) {
    tcrx_place answer = {TCRX_UNKNOWN_CHANNEL, 0};
    for (size_t i = 0; i < channel_count && answer.status != TCRX_DONE; i++) {
        if (channels[i].held) {
            tcrx_instance *at = (tcrx_instance *)channels[i].place;
            answer.status = Z_tcrxZ_module_rack_find(&at->module, vcid);
            answer.place = answer.status == TCRX_DONE ? i : 0;
        }
    }
    return answer;
}

static tcrx_rack_reply brought(tcrx_instance *at, uint16_t scid, uint8_t fecf, const uint8_t *octets, size_t count) {
    tcrx_rack_reply answer;
    answer.status = Z_tcrxZ_module_rack_frame(&at->module, scid, fecf, at->read, put_frame(at, octets, count));
    answer.queued = tcrx_number(at, 0);
    answer.dropped = tcrx_number(at, 1);
    answer.event = (uint8_t)tcrx_number(at, 2);
    answer.accepted = (uint8_t)tcrx_number(at, 3);
    answer.rest = (uint8_t)tcrx_number(at, 4);
    answer.vcid = (uint8_t)tcrx_number(at, 5);
    return answer;
}

/* Brings the frame to a rack without a channel first. If that fails with a status other than TCRX_UNKNOWN_CHANNEL, each
 * rack would fail with this status. */
tcrx_rack_reply tcrx_rack_frame_at(tcrx_channel *channels, size_t channel_count, uint16_t scid, uint8_t fecf, const uint8_t *octets,
                                   size_t count) {
    tcrx_rack_reply answer = brought(tcrx_instance_shared(), scid, fecf, octets, count);
    tcrx_instance_back();
    if (answer.status == TCRX_UNKNOWN_CHANNEL) {
        const uint8_t vcid = tcrx_read_frame_at(octets, count).header.vcid;
        const tcrx_place found = tcrx_rack_find_at(channels, channel_count, vcid);
        if (found.status == TCRX_DONE) {
            answer = brought((tcrx_instance *)channels[found.place].place, scid, fecf, octets, count);
        }
    }
    return answer;
}

static tcrx_candidate_reply brought_out_of(tcrx_instance *at, uint16_t scid, uint8_t fecf, const uint8_t *octets, size_t count) {
    tcrx_candidate_reply answer;
    answer.status = Z_tcrxZ_module_rack_candidate(&at->module, scid, fecf, at->read, put_frame(at, octets, count));
    answer.queued = tcrx_number(at, 0);
    answer.dropped = tcrx_number(at, 1);
    answer.event = (uint8_t)tcrx_number(at, 2);
    answer.accepted = (uint8_t)tcrx_number(at, 3);
    answer.rest = (uint8_t)tcrx_number(at, 4);
    answer.vcid = (uint8_t)tcrx_number(at, 5);
    answer.more = (uint8_t)tcrx_number(at, 6);
    answer.length = (uint16_t)tcrx_number(at, 7);
    return answer;
}

tcrx_candidate_reply tcrx_rack_candidate_at(tcrx_channel *channels, size_t channel_count, uint16_t scid, uint8_t fecf,
                                            const uint8_t *octets, size_t count) {
    tcrx_candidate_reply answer = brought_out_of(tcrx_instance_shared(), scid, fecf, octets, count);
    tcrx_instance_back();
    if (answer.status == TCRX_UNKNOWN_CHANNEL) {
        const uint8_t vcid = tcrx_read_frame_at(octets, count).header.vcid;
        const tcrx_place found = tcrx_rack_find_at(channels, channel_count, vcid);
        if (found.status == TCRX_DONE) {
            answer = brought_out_of((tcrx_instance *)channels[found.place].place, scid, fecf, octets, count);
        }
    }
    return answer;
}

tcrx_status tcrx_channel_free_at(tcrx_channel *channel) {
    if (!channel->held) {
        tcrx_instance *none = tcrx_instance_shared();
        const tcrx_status status = Z_tcrxZ_module_channel_free(&none->module);
        tcrx_instance_back();
        return status;
    }
    tcrx_instance *at = (tcrx_instance *)channel->place;
    const tcrx_status status = Z_tcrxZ_module_channel_free(&at->module);
    tcrx_instance_end(at);
    channel->held = 0;
    channel->place = NULL;
    return status;
}
