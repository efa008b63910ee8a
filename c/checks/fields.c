/*
 * Checks each row of fields.h, field by field. Frames and packets are read and written again, CLCWs are read, and other
 * frames are written. Then checks the report of a channel after each step, and its CLCW with each flag of the link alone.
 * The last line of the output is the number of comparisons that passed.
 */
#include "expecting.h"
#include "fields.h"

#include <string.h>

static void check_frames(void) {
    uint8_t octets[MOST_OCTETS] = {0};
    for (size_t i = 0; i < sizeof frame_rows / sizeof frame_rows[0]; i++) {
        const frame_row *row = &frame_rows[i];
        const tcrx_frame read = tcrx_read_frame(row->octets, row->count);
        const tcrx_kind_answer kind = tcrx_kind(row->octets, row->count);
        const tcrx_header header = read.header;
        const uint32_t found[OF_FRAME] = {header.scid,    header.vcid, header.ns, header.bypass,
                                          header.control, read.length, kind.kind, kind.number};
        expect(read.status == TCRX_DONE && kind.status == TCRX_DONE, "a frame", i);
        expect(memcmp(found, row->fields, sizeof found) == 0, "the fields of a frame", i);
        const size_t length = row->fields[5];
        const tcrx_written written = tcrx_write_frame(header, row->octets + 5, length - 5, octets, sizeof octets);
        expect(written.status == TCRX_DONE && written.length == length, "the length of a frame written from its fields", i);
        expect(memcmp(octets, row->octets, length) == 0, "the octets of a frame written from its fields", i);
    }
}

static void check_clcws(void) {
    for (size_t i = 0; i < sizeof clcw_rows / sizeof clcw_rows[0]; i++) {
        const tcrx_clcw_fields read = tcrx_read_clcw(clcw_rows[i].word);
        const uint32_t found[OF_CLCW] = {read.status_field, read.vcid,       read.no_rf,  read.no_bit_lock, read.lockout,
                                         read.wait,         read.retransmit, read.farm_b, read.vr};
        expect(read.status == TCRX_DONE && memcmp(found, clcw_rows[i].fields, sizeof found) == 0, "the fields of a CLCW", i);
    }
}

static void check_packets(void) {
    for (size_t i = 0; i < sizeof packet_rows / sizeof packet_rows[0]; i++) {
        const packet_row *row = &packet_rows[i];
        const tcrx_packet read = tcrx_read_packet(row->octets, row->count);
        const uint32_t found[OF_PACKET] = {read.length, read.apid, read.count, read.telecommand, read.secondary, read.sequence};
        expect(read.status == TCRX_DONE && memcmp(found, row->fields, sizeof found) == 0, "the fields of a packet", i);
        const tcrx_packet_header header = {read.apid, read.count, read.telecommand, read.secondary, read.sequence};
        uint8_t octets[MOST_OCTETS];
        const tcrx_written written = tcrx_write_packet(header, row->octets + 6, read.length - 6, octets, sizeof octets);
        expect(written.status == TCRX_DONE && written.length == read.length, "the length of a packet written from its fields", i);
        expect(memcmp(octets, row->octets, read.length) == 0, "the octets of a packet written from its fields", i);
    }
}

static void expect_made(tcrx_written written, const uint8_t *octets, const uint8_t *wanted, size_t count, uint64_t place) {
    expect(written.status == TCRX_DONE && written.length == count, "the length of a written frame", place);
    expect(memcmp(octets, wanted, count) == 0, "the octets of a written frame", place);
}

static void check_made(void) {
    const tcrx_header first = {675, 37, 255, 0, 0}, bypass = {675, 37, 200, 1, 0};
    const size_t unit_count = sizeof made_unit;
    const frame_row *plain = &frame_rows[0];
    uint8_t octets[16], again[16];
    for (uint32_t i = 0; i < 3; i++) {
        const tcrx_written written = tcrx_write_segment(first, 37, 3, i, made_unit, unit_count, octets, sizeof octets);
        expect_made(written, octets, segment_rows[i].octets, segment_rows[i].count, i);
    }
    expect(tcrx_write_segment(first, 37, 3, 3, made_unit, unit_count, octets, sizeof octets).status == TCRX_NO_SEGMENT, "no more segments", 3);
    expect_made(tcrx_write_segment(bypass, 37, 7, 0, made_unit, unit_count, octets, sizeof octets), octets, whole_row.octets, whole_row.count, 4);
    expect_made(tcrx_write_command(675, 12, TCRX_UNLOCK, 77, octets, sizeof octets), octets, command_rows[0].octets, command_rows[0].count, 5);
    expect_made(tcrx_write_command(675, 12, TCRX_SET_VR, 9, octets, sizeof octets), octets, command_rows[1].octets, command_rows[1].count, 6);
    const size_t length = plain->fields[5];
    expect_made(tcrx_add_fecf(plain->octets, length, octets, sizeof octets), octets, fecf_row.octets, fecf_row.count, 7);
    expect_made(tcrx_check_fecf(octets, fecf_row.count, again, sizeof again), again, plain->octets, length, 8);
}

static void expect_tm(tcrx_tm read, tcrx_tm_header header, uint64_t place) {
    expect(read.status == TCRX_DONE && read.clcw == TM_CLCW && read.pointer == 2046, "the fields of a telemetry frame", place);
    expect(read.header.scid == header.scid && read.header.vcid == header.vcid, "the ids in a telemetry frame", place);
    expect(read.header.master_count == header.master_count && read.header.channel_count == header.channel_count, "the frame counts", place);
}

/* Gives a decoder the CLTU in pieces of `size` octets, with another octet behind it. If `wrong` isn't 0, the first code
 * block has a wrong bit. Checks the counts of code blocks, and the octets that the CLTU carries. */
static void check_stream(uint8_t correct, uint8_t wrong, size_t size, uint64_t place) {
    static uint8_t carried[TCRX_DECODER_ROOM];
    const frame_row *plain = &frame_rows[0];
    const size_t length = plain->fields[5], all = sizeof cltu_octets + 1;
    uint8_t octets[sizeof cltu_octets + 1];
    memcpy(octets, cltu_octets, sizeof cltu_octets);
    octets[5] ^= wrong;
    octets[all - 1] = 0x55;
    tcrx_decoder decoder = {correct, 0, 0, 0, 0};
    uint64_t ended = 0, corrected = 0, rejected = 0;
    for (size_t at = 0; at < all;) {
        const size_t count = all - at < size ? all - at : size;
        const tcrx_decoded answer = tcrx_cltu_octets(decoder, octets + at, count, carried, sizeof carried);
        decoder = answer.decoder;
        at += (size_t)answer.taken;
        corrected += answer.corrected;
        rejected += answer.rejected;
        expect(answer.status == TCRX_DONE && (answer.ended ? at == all - 1 : answer.taken == count), "the count of taken octets", place);
        if (answer.ended) {
            ended++;
            expect(decoder.carried == 14 && memcmp(carried, plain->octets, length) == 0, "the octets that a CLTU carries", place);
            for (size_t k = length; k < 14; k++) expect(carried[k] == 0x55, "the fill in a CLTU", place);
        }
    }
    expect(corrected == (correct && wrong ? 1u : 0u), "the number of corrected code blocks", place);
    expect(rejected == (!correct && wrong ? 1u : 0u), "the number of rejected code blocks", place);
    expect(ended == (correct || !wrong ? 1u : 0u), "the number of candidate frames", place);
}

static void check_ends_of_the_link(void) {
    const frame_row *plain = &frame_rows[0];
    const size_t length = plain->fields[5];
    const tcrx_tm_header header = {675, 5, 200, 77};
    uint8_t octets[32], again[32];
    const size_t all = sizeof octets;
    expect_made(tcrx_write_cltu(plain->octets, length, octets, all), octets, cltu_octets, sizeof cltu_octets, 10);
    for (size_t size = 1; size <= sizeof cltu_octets + 1; size++) {
        check_stream(0, 0, size, 20);
        check_stream(1, 0, size, 21);
        check_stream(1, 16, size, 22);
        check_stream(0, 16, size, 23);
    }
    expect_made(tcrx_randomise(plain->octets, length, octets, all), octets, random_row.octets, random_row.count, 11);
    expect_made(tcrx_randomise(octets, length, again, all), again, plain->octets, length, 12);
    expect_made(tcrx_write_tm(header, 0, TM_CLCW, 13, octets, all), octets, tm_row.octets, tm_row.count, 13);
    expect_tm(tcrx_read_tm(0, octets, 13), header, 13);
    expect_made(tcrx_write_tm(header, 1, TM_CLCW, 15, octets, all), octets, tm_fecf_row.octets, tm_fecf_row.count, 14);
    expect_tm(tcrx_read_tm(1, octets, 15), header, 14);
}

static void check_reports(void) {
    tcrx_channel channel = TCRX_HOLDS_NONE;
    expect(tcrx_channel_new_with_limits(&channel, step_settings, NULL, 0, NULL, 0, 16, NULL, 0) == TCRX_DONE, "a channel", 0);
    for (size_t i = 0; i < sizeof step_rows / sizeof step_rows[0]; i++) {
        const step_row *row = &step_rows[i];
        expect(tcrx_channel_frame(&channel, row->octets, sizeof row->octets).status == TCRX_DONE, "a step", i);
        const tcrx_farm_answer report = tcrx_channel_report(&channel);
        const tcrx_farm farm = report.farm;
        const uint32_t found[OF_FARM] = {farm.width, farm.state, farm.vr, farm.farm_b, farm.lockout, farm.wait, farm.retransmit};
        expect(report.status == TCRX_DONE && memcmp(found, row->fields, sizeof found) == 0, "a report", i);
    }
    expect(tcrx_channel_clcw(&channel, 1, 0).word == link_words[0], "the CLCW with No RF Available", 0);
    expect(tcrx_channel_clcw(&channel, 0, 1).word == link_words[1], "the CLCW with No Bit Lock", 0);
    expect(tcrx_channel_free(&channel) == TCRX_DONE, "a channel freed", 0);
}

int main(void) {
    check_frames();
    check_clcws();
    check_packets();
    check_made();
    check_ends_of_the_link();
    check_reports();
    return close_with("comparisons of fields");
}
