/*
 * Sends three telecommands to a channel. The third has an N(S) far outside the window, so FARM-1 goes to lockout. The
 * channel is then unlocked, the third telecommand comes again with the expected N(S), and all three packets are taken.
 */
#include <tcrx.h>

#include <inttypes.h>
#include <stdio.h>

enum { SPACECRAFT = 42, CHANNEL = 1, APPLICATION = 5, ROOM = 64 };

/* Writes the frame with this N(S) that carries this packet into a buffer, and returns its length. */
static size_t write_frame(uint8_t ns, uint8_t packet, uint8_t *octets) {
    const tcrx_header header = {SPACECRAFT, CHANNEL, ns, 0, 0};
    const uint8_t field[] = {0xc0, 0x10, APPLICATION, 0xc0, packet, 0x00, 0x00, 0xaa};
    return tcrx_write_frame(header, field, sizeof field, octets, ROOM).length;
}

static void bring(tcrx_channel *channel, const uint8_t *octets, size_t count) {
    printf("frame E%u\n", (unsigned)tcrx_channel_frame(channel, octets, count).event);
}

static void print_clcw(tcrx_channel *channel) {
    printf("clcw %08" PRIx32 "\n", tcrx_channel_clcw(channel, 0, 0).word);
}

static void print_packets(tcrx_channel *channel) {
    uint8_t octets[ROOM];
    tcrx_written packet = tcrx_channel_take(channel, APPLICATION, octets, ROOM);
    for (; packet.status == TCRX_DONE; packet = tcrx_channel_take(channel, APPLICATION, octets, ROOM)) {
        printf("packet ");
        for (size_t i = 0; i < packet.length; i++) printf("%02x", (unsigned)octets[i]);
        printf("\n");
    }
}

int main(void) {
    static const uint8_t unlock[] = {0x30, SPACECRAFT, CHANNEL << 2, 0x05, 0x00, 0x00};
    const tcrx_settings settings = {CHANNEL, 10, 4, 0, 1};
    const tcrx_queue queue = {APPLICATION, 8};
    tcrx_channel channel = TCRX_HOLDS_NONE;
    uint8_t octets[ROOM];
    if (tcrx_channel_new(&channel, settings, &queue, 1, NULL, 0) != TCRX_DONE) {
        return 1;
    }
    bring(&channel, octets, write_frame(0, 0, octets));
    bring(&channel, octets, write_frame(1, 1, octets));
    bring(&channel, octets, write_frame(50, 2, octets));
    print_clcw(&channel);
    bring(&channel, unlock, sizeof unlock);
    bring(&channel, octets, write_frame(2, 2, octets));
    while (tcrx_channel_release(&channel).status == TCRX_DONE) {
    }
    print_packets(&channel);
    print_clcw(&channel);
    return tcrx_channel_free(&channel) == TCRX_DONE ? 0 : 1;
}
