/*
 * Runs the main loop of a receiver on board, over a channel that the library holds. In each cycle a frame comes in, all
 * data fields in the buffer are released, packets go to their applications, and a CLCW goes out. All memory is requested
 * by start().
 *
 * If this file is compiled with SEALED, it is linked with tcrx_static.c. The memory is then an array, and a request for
 * more traps.
 */
#include <tcrx.h>

#include <inttypes.h>
#include <stdio.h>

enum { SPACECRAFT = 42, CHANNEL = 1, PACKET_MAP = 0, PAYLOAD_MAP = 2, MOST_UNIT = 256, BUFFER = 2, PACKETS = 8, PAYLOADS = 4 };

typedef struct {
    uint16_t apid;
    void (*handle)(const uint8_t *packet, size_t count);
} application;

static void switch_heater(const uint8_t *packet, size_t count) {
    printf("heater: %s\n", count > 6 && packet[6] == 1 ? "on" : "off");
}

static void set_mode(const uint8_t *packet, size_t count) {
    printf("mode: %u\n", count > 6 ? (unsigned)packet[6] : 0u);
}

static const application applications[] = {{5, switch_heater}, {9, set_mode}};
enum { APPLICATIONS = sizeof applications / sizeof applications[0] };

#ifdef SEALED
TCRX_STATIC_STORAGE(TCRX_STORAGE_OF(TCRX_STORAGE_BUFFER(BUFFER) + TCRX_STORAGE_SEGMENTED(2 * MOST_UNIT)
                                    + TCRX_STORAGE_QUEUES(APPLICATIONS, PACKETS, MOST_UNIT) + TCRX_STORAGE_MAPS(1, PAYLOADS, MOST_UNIT)
                                    + TCRX_STORAGE_LIMITS(2)));
#endif

static int print_refusal(tcrx_status status) {
    char text[TCRX_TEXT_ROOM];
    printf("refused: %s\n", tcrx_text(status, text, sizeof text).status == TCRX_DONE ? text : "no such status");
    return 1;
}

static tcrx_status start(tcrx_channel *channel) {
    const tcrx_settings settings = {CHANNEL, 10, BUFFER, 0, 1};
    const tcrx_map payload = {PAYLOAD_MAP, PAYLOADS};
    const tcrx_limit limits[] = {{PACKET_MAP, MOST_UNIT}, {PAYLOAD_MAP, MOST_UNIT}};
    tcrx_queue queues[APPLICATIONS];
    for (size_t i = 0; i < APPLICATIONS; i++) {
        queues[i].apid = applications[i].apid;
        queues[i].capacity = PACKETS;
    }
    const tcrx_status status = tcrx_channel_new_with_limits(channel, settings, queues, APPLICATIONS, &payload, 1, 0, limits, 2);
#ifdef SEALED
    tcrx_storage_seal();
#endif
    return status;
}

static void bring(tcrx_channel *channel, const uint8_t *octets, size_t count) {
    const tcrx_frame frame = tcrx_read_frame(octets, count);
    if (frame.status != TCRX_DONE) {
        print_refusal(frame.status);
        return;
    }
    if (frame.header.scid != SPACECRAFT || frame.header.vcid != CHANNEL) {
        printf("not for this channel\n");
        return;
    }
    const tcrx_reply reply = tcrx_channel_frame(channel, octets, count);
    if (reply.status != TCRX_DONE) {
        print_refusal(reply.status);
        return;
    }
    printf("frame E%u %s\n", (unsigned)reply.event, reply.accepted == 1 ? "accepted" : "discarded");
}

static void release_all(tcrx_channel *channel) {
    while (tcrx_channel_buffered(channel).count > 0) {
        const tcrx_delivery delivery = tcrx_channel_release(channel);
        if (delivery.status != TCRX_DONE) {
            print_refusal(delivery.status);
            return;
        }
        printf("released: %" PRIu32 " queued, %" PRIu32 " dropped\n", delivery.queued, delivery.dropped);
    }
}

/* Delivers packets to their applications, and takes a unit of the payload's MAP. */
static void deliver(tcrx_channel *channel) {
    uint8_t octets[MOST_UNIT];
    for (size_t i = 0; i < APPLICATIONS; i++) {
        tcrx_written packet = tcrx_channel_take(channel, applications[i].apid, octets, sizeof octets);
        for (; packet.status == TCRX_DONE; packet = tcrx_channel_take(channel, applications[i].apid, octets, sizeof octets)) {
            applications[i].handle(octets, packet.length);
        }
        if (packet.status != TCRX_EMPTY) {
            print_refusal(packet.status);
        }
    }
    const tcrx_written unit = tcrx_channel_take_unit(channel, PAYLOAD_MAP, octets, sizeof octets);
    if (unit.status == TCRX_DONE) {
        printf("payload: %zu octets\n", unit.length);
    }
}

int main(void) {
    static const uint8_t heater_on[] = {0x00, 0x2a, 0x04, 0x0c, 0x00, 0xc0, 0x10, 0x05, 0xc0, 0x00, 0x00, 0x00, 0x01};
    static const uint8_t mode_3[] = {0x00, 0x2a, 0x04, 0x0c, 0x01, 0xc0, 0x10, 0x09, 0xc0, 0x00, 0x00, 0x00, 0x03};
    static const uint8_t after_a_gap[] = {0x00, 0x2a, 0x04, 0x0c, 0x03, 0xc0, 0x10, 0x05, 0xc0, 0x00, 0x00, 0x00, 0x00};
    static const uint8_t payload[] = {0x20, 0x2a, 0x04, 0x08, 0x00, 0xc2, 0xaa, 0xbb, 0xcc};
    static const struct { const uint8_t *octets; size_t count; } inputs[] = {
        {heater_on, sizeof heater_on}, {mode_3, sizeof mode_3}, {after_a_gap, sizeof after_a_gap},
        {payload, sizeof payload}, {mode_3, sizeof mode_3 - 1},
    };
    tcrx_channel channel = TCRX_HOLDS_NONE;
    const tcrx_status status = start(&channel);
    if (status != TCRX_DONE) {
        return print_refusal(status);
    }
    for (size_t i = 0; i < sizeof inputs / sizeof inputs[0]; i++) {
        bring(&channel, inputs[i].octets, inputs[i].count);
        release_all(&channel);
        deliver(&channel);
        printf("clcw %08" PRIx32 "\n", tcrx_channel_clcw(&channel, 0, 0).word);
    }
    return tcrx_channel_free(&channel) == TCRX_DONE ? 0 : 1;
}
