/**
 * @file tcrx_at.h
 * @brief The layouts of the records of tcrx.h, and the calls that the library exports.
 *
 * tools/c_interface writes this file from dist/tcrx.h, which includes it after its records. Include tcrx.h in your program.
 */
#ifndef TCRX_AT_H
#define TCRX_AT_H

#ifndef TCRX_H
#error "include tcrx.h"
#endif

/** @cond */
/* The layout of each record in the library. If a compiler has another layout, an array here has a negative size. */
#define TCRX_LAYOUT(record, holds) typedef char record##_layout[(holds) ? 1 : -1]
#define TCRX_AT(record, field, place) (offsetof(record, field) == (place))
TCRX_LAYOUT(tcrx_farm, sizeof(tcrx_farm) == 7 && TCRX_AT(tcrx_farm, width, 0) && TCRX_AT(tcrx_farm, state, 1)
                           && TCRX_AT(tcrx_farm, vr, 2) && TCRX_AT(tcrx_farm, farm_b, 3) && TCRX_AT(tcrx_farm, lockout, 4)
                           && TCRX_AT(tcrx_farm, wait, 5) && TCRX_AT(tcrx_farm, retransmit, 6));
TCRX_LAYOUT(tcrx_farm_answer, sizeof(tcrx_farm_answer) == 12 && TCRX_AT(tcrx_farm_answer, status, 0)
                                  && TCRX_AT(tcrx_farm_answer, farm, 4));
TCRX_LAYOUT(tcrx_step_answer, sizeof(tcrx_step_answer) == 16 && TCRX_AT(tcrx_step_answer, status, 0)
                                  && TCRX_AT(tcrx_step_answer, farm, 4) && TCRX_AT(tcrx_step_answer, event, 11)
                                  && TCRX_AT(tcrx_step_answer, accepted, 12));
TCRX_LAYOUT(tcrx_clcw_answer, sizeof(tcrx_clcw_answer) == 8 && TCRX_AT(tcrx_clcw_answer, status, 0)
                                  && TCRX_AT(tcrx_clcw_answer, word, 4));
TCRX_LAYOUT(tcrx_clcw_fields, sizeof(tcrx_clcw_fields) == 16 && TCRX_AT(tcrx_clcw_fields, status, 0)
                                  && TCRX_AT(tcrx_clcw_fields, status_field, 4) && TCRX_AT(tcrx_clcw_fields, vcid, 5)
                                  && TCRX_AT(tcrx_clcw_fields, no_rf, 6) && TCRX_AT(tcrx_clcw_fields, no_bit_lock, 7)
                                  && TCRX_AT(tcrx_clcw_fields, lockout, 8) && TCRX_AT(tcrx_clcw_fields, wait, 9)
                                  && TCRX_AT(tcrx_clcw_fields, retransmit, 10) && TCRX_AT(tcrx_clcw_fields, farm_b, 11)
                                  && TCRX_AT(tcrx_clcw_fields, vr, 12));
TCRX_LAYOUT(tcrx_header, sizeof(tcrx_header) == 6 && TCRX_AT(tcrx_header, scid, 0) && TCRX_AT(tcrx_header, vcid, 2)
                             && TCRX_AT(tcrx_header, ns, 3) && TCRX_AT(tcrx_header, bypass, 4) && TCRX_AT(tcrx_header, control, 5));
TCRX_LAYOUT(tcrx_frame, sizeof(tcrx_frame) == 12 && TCRX_AT(tcrx_frame, status, 0) && TCRX_AT(tcrx_frame, header, 4)
                            && TCRX_AT(tcrx_frame, length, 10));
TCRX_LAYOUT(tcrx_kind_answer, sizeof(tcrx_kind_answer) == 8 && TCRX_AT(tcrx_kind_answer, status, 0)
                                  && TCRX_AT(tcrx_kind_answer, kind, 4) && TCRX_AT(tcrx_kind_answer, number, 5));
TCRX_LAYOUT(tcrx_packet, sizeof(tcrx_packet) == 16 && TCRX_AT(tcrx_packet, status, 0) && TCRX_AT(tcrx_packet, length, 4)
                             && TCRX_AT(tcrx_packet, apid, 8) && TCRX_AT(tcrx_packet, count, 10)
                             && TCRX_AT(tcrx_packet, telecommand, 12) && TCRX_AT(tcrx_packet, secondary, 13)
                             && TCRX_AT(tcrx_packet, sequence, 14));
TCRX_LAYOUT(tcrx_packet_header, sizeof(tcrx_packet_header) == 8 && TCRX_AT(tcrx_packet_header, apid, 0)
                                    && TCRX_AT(tcrx_packet_header, count, 2) && TCRX_AT(tcrx_packet_header, telecommand, 4)
                                    && TCRX_AT(tcrx_packet_header, secondary, 5) && TCRX_AT(tcrx_packet_header, sequence, 6));
TCRX_LAYOUT(tcrx_tm_header, sizeof(tcrx_tm_header) == 6 && TCRX_AT(tcrx_tm_header, scid, 0) && TCRX_AT(tcrx_tm_header, vcid, 2)
                                && TCRX_AT(tcrx_tm_header, master_count, 3) && TCRX_AT(tcrx_tm_header, channel_count, 4));
TCRX_LAYOUT(tcrx_tm, sizeof(tcrx_tm) == 16 && TCRX_AT(tcrx_tm, status, 0) && TCRX_AT(tcrx_tm, clcw, 4)
                         && TCRX_AT(tcrx_tm, header, 8) && TCRX_AT(tcrx_tm, pointer, 14));
TCRX_LAYOUT(tcrx_decoder, sizeof(tcrx_decoder) == 6 && TCRX_AT(tcrx_decoder, correct, 0) && TCRX_AT(tcrx_decoder, decoding, 1)
                              && TCRX_AT(tcrx_decoder, last, 2) && TCRX_AT(tcrx_decoder, count, 3)
                              && TCRX_AT(tcrx_decoder, carried, 4));
TCRX_LAYOUT(tcrx_decoded, sizeof(tcrx_decoded) == 48 && TCRX_AT(tcrx_decoded, status, 0) && TCRX_AT(tcrx_decoded, decoder, 4)
                              && TCRX_AT(tcrx_decoded, ended, 10) && TCRX_AT(tcrx_decoded, taken, 16)
                              && TCRX_AT(tcrx_decoded, corrected, 24) && TCRX_AT(tcrx_decoded, rejected, 32)
                              && TCRX_AT(tcrx_decoded, overlong, 40));
TCRX_LAYOUT(tcrx_written, sizeof(tcrx_written) == 2 * sizeof(size_t) && TCRX_AT(tcrx_written, status, 0)
                              && TCRX_AT(tcrx_written, length, sizeof(size_t)));
TCRX_LAYOUT(tcrx_channel, sizeof(tcrx_channel) == 2 * sizeof(void *) && TCRX_AT(tcrx_channel, held, 0)
                              && TCRX_AT(tcrx_channel, place, sizeof(void *)));
TCRX_LAYOUT(tcrx_settings, sizeof(tcrx_settings) == 5 && TCRX_AT(tcrx_settings, vcid, 0) && TCRX_AT(tcrx_settings, width, 1)
                               && TCRX_AT(tcrx_settings, buffer, 2) && TCRX_AT(tcrx_settings, first_vr, 3)
                               && TCRX_AT(tcrx_settings, segmented, 4));
TCRX_LAYOUT(tcrx_queue, sizeof(tcrx_queue) == 4 && TCRX_AT(tcrx_queue, apid, 0) && TCRX_AT(tcrx_queue, capacity, 2));
TCRX_LAYOUT(tcrx_map, sizeof(tcrx_map) == 4 && TCRX_AT(tcrx_map, map, 0) && TCRX_AT(tcrx_map, capacity, 2));
TCRX_LAYOUT(tcrx_limit, sizeof(tcrx_limit) == 8 && TCRX_AT(tcrx_limit, map, 0) && TCRX_AT(tcrx_limit, octets, 4));
TCRX_LAYOUT(tcrx_reply, sizeof(tcrx_reply) == 16 && TCRX_AT(tcrx_reply, status, 0) && TCRX_AT(tcrx_reply, queued, 4)
                            && TCRX_AT(tcrx_reply, dropped, 8) && TCRX_AT(tcrx_reply, event, 12)
                            && TCRX_AT(tcrx_reply, accepted, 13) && TCRX_AT(tcrx_reply, rest, 14));
TCRX_LAYOUT(tcrx_delivery, sizeof(tcrx_delivery) == 16 && TCRX_AT(tcrx_delivery, status, 0) && TCRX_AT(tcrx_delivery, queued, 4)
                               && TCRX_AT(tcrx_delivery, dropped, 8) && TCRX_AT(tcrx_delivery, rest, 12));
TCRX_LAYOUT(tcrx_rack_reply, sizeof(tcrx_rack_reply) == 16 && TCRX_AT(tcrx_rack_reply, status, 0)
                                 && TCRX_AT(tcrx_rack_reply, queued, 4) && TCRX_AT(tcrx_rack_reply, dropped, 8)
                                 && TCRX_AT(tcrx_rack_reply, event, 12) && TCRX_AT(tcrx_rack_reply, accepted, 13)
                                 && TCRX_AT(tcrx_rack_reply, rest, 14) && TCRX_AT(tcrx_rack_reply, vcid, 15));
TCRX_LAYOUT(tcrx_candidate_reply, sizeof(tcrx_candidate_reply) == 20 && TCRX_AT(tcrx_candidate_reply, status, 0)
                                      && TCRX_AT(tcrx_candidate_reply, queued, 4) && TCRX_AT(tcrx_candidate_reply, dropped, 8)
                                      && TCRX_AT(tcrx_candidate_reply, event, 12) && TCRX_AT(tcrx_candidate_reply, accepted, 13)
                                      && TCRX_AT(tcrx_candidate_reply, rest, 14) && TCRX_AT(tcrx_candidate_reply, vcid, 15)
                                      && TCRX_AT(tcrx_candidate_reply, more, 16) && TCRX_AT(tcrx_candidate_reply, length, 18));
TCRX_LAYOUT(tcrx_place, sizeof(tcrx_place) == 2 * sizeof(size_t) && TCRX_AT(tcrx_place, status, 0)
                            && TCRX_AT(tcrx_place, place, sizeof(size_t)));
TCRX_LAYOUT(tcrx_count, sizeof(tcrx_count) == 16 && TCRX_AT(tcrx_count, status, 0) && TCRX_AT(tcrx_count, count, 8));
#undef TCRX_AT
#undef TCRX_LAYOUT
/** @endcond */

/**
 * @defgroup tcrx_library Calls of the library
 *
 * The library exports these calls, which tcrx_at.h declares for callers in other languages. Never pass them a null pointer,
 * not even for a list without entries or a buffer without room. Callers in C use the names without `_at`, which are plain C
 * in tcrx.h. They check for null pointers, and aren't proved.
 * @{
 */
/** @copydoc tcrx_text */
tcrx_written tcrx_text_at(tcrx_status status, uint8_t *text, size_t room);
/** @copydoc tcrx_read_frame */
tcrx_frame tcrx_read_frame_at(const uint8_t *octets, size_t count);
/** @copydoc tcrx_kind */
tcrx_kind_answer tcrx_kind_at(const uint8_t *octets, size_t count);
/** @copydoc tcrx_write_frame */
tcrx_written tcrx_write_frame_at(tcrx_header header, const uint8_t *field, size_t field_count, uint8_t *octets, size_t room);
/** @copydoc tcrx_write_segment */
tcrx_written tcrx_write_segment_at(tcrx_header header, uint8_t map, uint16_t size, uint32_t place, const uint8_t *unit,
                                   size_t unit_count, uint8_t *octets, size_t room);
/** @copydoc tcrx_write_command */
tcrx_written tcrx_write_command_at(uint16_t scid, uint8_t vcid, uint8_t kind, uint8_t number, uint8_t *octets, size_t room);
/** @copydoc tcrx_add_fecf */
tcrx_written tcrx_add_fecf_at(const uint8_t *frame, size_t frame_count, uint8_t *octets, size_t room);
/** @copydoc tcrx_check_fecf */
tcrx_written tcrx_check_fecf_at(const uint8_t *frame, size_t frame_count, uint8_t *octets, size_t room);
/** @copydoc tcrx_write_packet */
tcrx_written tcrx_write_packet_at(tcrx_packet_header header, const uint8_t *field, size_t field_count, uint8_t *octets,
                                  size_t room);
/** @copydoc tcrx_read_packet */
tcrx_packet tcrx_read_packet_at(const uint8_t *octets, size_t count);
/** @copydoc tcrx_write_cltu */
tcrx_written tcrx_write_cltu_at(const uint8_t *frame, size_t frame_count, uint8_t *octets, size_t room);
/** @copydoc tcrx_cltu_octets */
tcrx_decoded tcrx_cltu_octets_at(tcrx_decoder decoder, const uint8_t *octets, size_t count, uint8_t *frame, size_t room);
/** @copydoc tcrx_randomise */
tcrx_written tcrx_randomise_at(const uint8_t *frame, size_t frame_count, uint8_t *octets, size_t room);
/** @copydoc tcrx_write_tm */
tcrx_written tcrx_write_tm_at(tcrx_tm_header header, uint8_t fecf, uint32_t clcw, uint16_t size, uint8_t *octets, size_t room);
/** @copydoc tcrx_read_tm */
tcrx_tm tcrx_read_tm_at(uint8_t fecf, const uint8_t *octets, size_t count);
/** @copydoc tcrx_storage */
tcrx_count tcrx_storage_at(tcrx_settings settings, const tcrx_queue *queues, size_t queue_count, const tcrx_map *maps,
                           size_t map_count);
/** @copydoc tcrx_storage_with_limits */
tcrx_count tcrx_storage_with_limits_at(tcrx_settings settings, const tcrx_queue *queues, size_t queue_count, const tcrx_map *maps,
                                       size_t map_count, uint32_t others, const tcrx_limit *limits, size_t limit_count);
/** @copydoc tcrx_channel_new */
tcrx_status tcrx_channel_new_at(tcrx_channel *channel, tcrx_settings settings, const tcrx_queue *queues, size_t queue_count,
                                const tcrx_map *maps, size_t map_count);
/** @copydoc tcrx_channel_new_with_limits */
tcrx_status tcrx_channel_new_with_limits_at(tcrx_channel *channel, tcrx_settings settings, const tcrx_queue *queues,
                                            size_t queue_count, const tcrx_map *maps, size_t map_count, uint32_t others,
                                            const tcrx_limit *limits, size_t limit_count);
/** @copydoc tcrx_channel_frame */
tcrx_reply tcrx_channel_frame_at(tcrx_channel *channel, const uint8_t *octets, size_t count);
/** @copydoc tcrx_channel_release */
tcrx_delivery tcrx_channel_release_at(tcrx_channel *channel);
/** @copydoc tcrx_channel_take */
tcrx_written tcrx_channel_take_at(tcrx_channel *channel, uint16_t apid, uint8_t *octets, size_t room);
/** @copydoc tcrx_channel_take_unit */
tcrx_written tcrx_channel_take_unit_at(tcrx_channel *channel, uint8_t map, uint8_t *octets, size_t room);
/** @copydoc tcrx_channel_clcw */
tcrx_clcw_answer tcrx_channel_clcw_at(tcrx_channel *channel, uint8_t no_rf, uint8_t no_bit_lock);
/** @copydoc tcrx_channel_report */
tcrx_farm_answer tcrx_channel_report_at(tcrx_channel *channel);
/** @copydoc tcrx_channel_buffered */
tcrx_count tcrx_channel_buffered_at(tcrx_channel *channel);
/** @copydoc tcrx_channel_queued */
tcrx_count tcrx_channel_queued_at(tcrx_channel *channel, uint16_t apid);
/** @copydoc tcrx_channel_units */
tcrx_count tcrx_channel_units_at(tcrx_channel *channel, uint8_t map);
/** @copydoc tcrx_channel_events */
tcrx_count tcrx_channel_events_at(tcrx_channel *channel);
/** @copydoc tcrx_channel_free */
tcrx_status tcrx_channel_free_at(tcrx_channel *channel);
/** @copydoc tcrx_rack_frame */
tcrx_rack_reply tcrx_rack_frame_at(tcrx_channel *channels, size_t channel_count, uint16_t scid, uint8_t fecf,
                                   const uint8_t *octets, size_t count);
/** @copydoc tcrx_rack_candidate */
tcrx_candidate_reply tcrx_rack_candidate_at(tcrx_channel *channels, size_t channel_count, uint16_t scid, uint8_t fecf,
                                            const uint8_t *octets, size_t count);
/** @copydoc tcrx_rack_find */
tcrx_place tcrx_rack_find_at(tcrx_channel *channels, size_t channel_count, uint8_t vcid);
/** @} */

#endif
