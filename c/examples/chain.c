/*
 * Takes octets of the radio all the way to packets, through the decoder, the randomiser, frames of different lengths,
 * the check sum and a channel. The program sends a frame of each length from 8 to 1,024 octets in a CLTU of its own,
 * and then CLTUs with 2 to 4 frames, all without and with a check sum. Each CLTU comes in pieces and with one wrong bit.
 * The program prints how many frames were lost, and then the outcome for a CLTU that carries more than the receiver takes.
 */
#include <tcrx.h>

#include <stdio.h>
#include <string.h>

enum { SPACECRAFT = 42, CHANNEL = 1, APID = 5, UNITS = 1, SHORTEST = 8, LONGEST = 1024, CARRIED = 1029, PIECE = 113 };

/* The receiver: its channels, its decoder, the number of frames that it takes out of a CLTU, and its counts. */
typedef struct {
    tcrx_channel rack[1];
    tcrx_decoder decoder;
    uint8_t carried[TCRX_DECODER_ROOM], fecf;
    unsigned most, frames, refused, over_the_bound, overlong;
} receiver;

/* Takes in the octets that a CLTU carried. Removes the random sequence, and then takes one frame after another, each as
 * long as its length field says. */
static void receive_candidate(receiver *at) {
    static uint8_t plain[CARRIED];
    size_t left = tcrx_randomise(at->carried, at->decoder.carried, plain, sizeof plain).length;
    const uint8_t *rest = plain;
    for (unsigned i = 0; i < at->most; i++) {
        const tcrx_candidate_reply reply = tcrx_rack_candidate(at->rack, 1, SPACECRAFT, at->fecf, rest, left);
        at->frames += reply.status == TCRX_DONE;
        at->refused += reply.status != TCRX_DONE;
        if (!reply.more) {
            return;
        }
        rest += reply.length;
        left -= reply.length;
    }
    at->over_the_bound++;
}

/* Takes in octets of the radio, in pieces of any size. */
static void receive(receiver *at, const uint8_t *octets, size_t count) {
    while (count > 0) {
        const tcrx_decoded answer = tcrx_cltu_octets(at->decoder, octets, count, at->carried, sizeof at->carried);
        at->decoder = answer.decoder;
        at->overlong += (unsigned)answer.overlong;
        if (answer.ended) {
            receive_candidate(at);
        }
        octets += answer.taken;
        count -= (size_t)answer.taken;
    }
}

/* A frame that is sent, with or without a check sum, and the unit that must come out of the receiver's queues. */
typedef struct {
    uint8_t octets[LONGEST], unit[LONGEST];
    size_t length, unit_length;
} sent;

static void send_frame(sent *frame, size_t length, uint8_t fecf) {
    static unsigned number;
    uint8_t plain[LONGEST], field[LONGEST];
    const size_t sum = fecf ? 2 : 0, packet = length - sum < 13 ? 0 : length - sum - 6;
    const tcrx_header header = {SPACECRAFT, CHANNEL, 0, 1, 0};
    size_t whole;
    frame->unit_length = length - sum < 7 ? 0 : length - sum - 6;
    memset(field, (int)(++number & 0xff), sizeof field);
    if (packet > 0) {
        const tcrx_packet_header packet_header = {APID, 0, 1, 0, 3};
        tcrx_write_packet(packet_header, field, packet - 6, frame->unit, sizeof frame->unit);
    } else {
        memcpy(frame->unit, field, sizeof frame->unit);
    }
    if (frame->unit_length == 0) {
        whole = tcrx_write_command(SPACECRAFT, CHANNEL, TCRX_UNLOCK, 0, plain, sizeof plain).length;
    } else {
        field[0] = (uint8_t)(0xc0 | (packet > 0 ? 0 : UNITS));
        memcpy(field + 1, frame->unit, frame->unit_length);
        whole = tcrx_write_frame(header, field, frame->unit_length + 1, plain, sizeof plain).length;
    }
    memcpy(frame->octets, plain, whole);
    frame->length = fecf ? tcrx_add_fecf(plain, whole, frame->octets, sizeof frame->octets).length : whole;
}

/* Sends one CLTU with these frames, in pieces, and with one bit flipped in its first code block. */
static void transmit(receiver *at, const sent *frames, unsigned count) {
    static uint8_t carried[2 * CARRIED], random[2 * CARRIED], cltu[1200];
    size_t length = 0;
    for (unsigned i = 0; i < count; i++) {
        memcpy(carried + length, frames[i].octets, frames[i].length);
        length += frames[i].length;
    }
    tcrx_randomise(carried, length, random, sizeof random);
    const size_t whole = tcrx_write_cltu(random, length, cltu, sizeof cltu).length;
    cltu[5] ^= 0x10;
    for (size_t done = 0; done < whole; done += PIECE) {
        receive(at, cltu + done, whole - done < PIECE ? whole - done : PIECE);
    }
}

/* Returns whether the unit of a frame is the oldest item in its queue. */
static unsigned is_taken(receiver *at, const sent *frame) {
    static uint8_t taken[LONGEST];
    if (frame->unit_length == 0) {
        return 1;
    }
    const tcrx_written answer = frame->unit_length < 7 ? tcrx_channel_take_unit(at->rack, UNITS, taken, sizeof taken)
                                                       : tcrx_channel_take(at->rack, APID, taken, sizeof taken);
    return answer.status == TCRX_DONE && answer.length == frame->unit_length && memcmp(taken, frame->unit, answer.length) == 0;
}

/* Sends a CLTU with this number of frames, and returns how many frames were lost. */
static unsigned lost_of(receiver *at, unsigned count, size_t length) {
    static sent frames[4];
    size_t left = CARRIED;
    for (unsigned i = 0; i < count; i++) {
        const size_t most = left - SHORTEST * (count - 1 - i), own = length + 131 * i;
        send_frame(&frames[i], i == 0 && count == 1 ? length : SHORTEST + own % ((most < 400 ? most : 400) - SHORTEST + 1), at->fecf);
        left -= frames[i].length;
    }
    const unsigned before = at->frames;
    transmit(at, frames, count);
    unsigned lost = before + count - at->frames;
    for (unsigned i = 0; i < count; i++) {
        lost += !is_taken(at, &frames[i]);
    }
    return lost;
}

static int make(receiver *at, uint8_t fecf, unsigned most) {
    const tcrx_settings settings = {.vcid = CHANNEL, .width = 10, .buffer = 4, .first_vr = 0, .segmented = 1};
    const tcrx_queue queue = {APID, 8};
    const tcrx_map map = {UNITS, 8};
    const tcrx_limit limits[] = {{0, LONGEST}, {UNITS, LONGEST}};
    memset(at, 0, sizeof *at);
    at->decoder.correct = 1;
    at->fecf = fecf;
    at->most = most;
    return tcrx_channel_new_with_limits(at->rack, settings, &queue, 1, &map, 1, 0, limits, 2) == TCRX_DONE;
}

int main(void) {
    static receiver at;
    unsigned all = 0;
    for (unsigned fecf = 0; fecf < 2; fecf++) {
        for (unsigned count = 1; count <= 4; count++) {
            unsigned lost = 0, cltus = 0;
            if (!make(&at, (uint8_t)fecf, count)) {
                return 1;
            }
            for (size_t length = SHORTEST; length <= LONGEST; length++, cltus++) {
                lost += lost_of(&at, count, length);
            }
            printf("%s check sum, frames in a CLTU: %u, CLTUs: %u, frames lost: %u\n", fecf ? "with" : "without", count, cltus, lost);
            all += lost + at.refused + at.over_the_bound;
            tcrx_channel_free(at.rack);
        }
    }
    static sent frames[3];
    if (!make(&at, 1, 2)) {
        return 1;
    }
    for (unsigned i = 0; i < 3; i++) {
        send_frame(&frames[i], 40, 1);
    }
    transmit(&at, frames, 3);
    printf("of a CLTU with 3 frames, at most 2 are taken: %u came, and %u CLTU had more\n", at.frames, at.over_the_bound);
    return tcrx_channel_free(at.rack) != TCRX_DONE || all != 0;
}
