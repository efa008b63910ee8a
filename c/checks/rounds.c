/*
 * Makes COUNT rounds on a channel that the library holds, with units of 1,024 octets on MAP 0. In a round, a Type-AD
 * frame of 13 octets with the next N(S) is brought to the channel and released, and its packet is taken. The output is
 * the number of packets that were taken.
 *
 *   rounds COUNT
 */
#include "../../dist/tcrx.h"

#include <stdio.h>
#include <stdlib.h>

int main(int count, char **words) {
    const tcrx_settings settings = {1, 10, 4, 0, 1};
    const tcrx_queue queue = {5, 16};
    const tcrx_limit limit = {0, 1024};
    tcrx_channel channel = TCRX_HOLDS_NONE;
    uint8_t frame[] = {0x00, 0x2a, 0x04, 0x0c, 0x00, 0xc0, 0x10, 0x05, 0xc0, 0x00, 0x00, 0x00, 0xaa}, packet[64];
    if (count != 2 || tcrx_channel_new_with_limits(&channel, settings, &queue, 1, NULL, 0, 0, &limit, 1) != TCRX_DONE) {
        return 2;
    }
    const unsigned long rounds = strtoul(words[1], NULL, 10);
    unsigned long taken = 0;
    for (unsigned long i = 0; i < rounds; i++) {
        frame[4] = (uint8_t)i;
        const tcrx_reply reply = tcrx_channel_frame(&channel, frame, sizeof frame);
        const tcrx_delivery delivery = tcrx_channel_release(&channel);
        const tcrx_written written = tcrx_channel_take(&channel, 5, packet, sizeof packet);
        taken += reply.accepted + delivery.queued == 2 && written.length == 7 ? 1 : 0;
    }
    printf("%lu packets in %lu rounds\n", taken, rounds);
    return taken == rounds && tcrx_channel_free(&channel) == TCRX_DONE ? 0 : 1;
}
