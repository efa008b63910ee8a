/*
 * Uses two channels at once. Two threads, each with a channel of its own, make rounds side by side, with another packet
 * in each round. Then one thread makes rounds on both channels in turn. Each packet must come back as it was sent, and
 * each CLCW must be that of its channel.
 *
 *   threads COUNT    makes COUNT rounds on each channel in each of the two ways, rounded down to a multiple of 256
 */
#include "tcrx.h"

#include <pthread.h>
#include <stdio.h>
#include <stdlib.h>
#include <string.h>

typedef struct {
    tcrx_channel channel;
    uint8_t vcid;
    unsigned long rounds, done;
} receiver;

static int make(receiver *at, uint8_t vcid, unsigned long rounds) {
    const tcrx_channel none = TCRX_HOLDS_NONE;
    const tcrx_settings settings = {vcid, 10, 4, 0, 1};
    const tcrx_queue queue = {5, 16};
    at->channel = none;
    at->vcid = vcid;
    at->rounds = rounds;
    at->done = 0;
    return tcrx_channel_new_with_limits(&at->channel, settings, &queue, 1, NULL, 0, 256, NULL, 0) == TCRX_DONE;
}

static void make_round(receiver *at, unsigned long i) {
    const uint8_t a = (uint8_t)(i >> 8), b = (uint8_t)i, c = at->vcid;
    const uint8_t sent[] = {0x10, 0x05, 0xc0, 0x00, 0x00, 0x02, a, b, c};
    uint8_t frame[] = {0x00, 0x2a, (uint8_t)(c << 2), 0x0e, b, 0xc0, 0x10, 0x05, 0xc0, 0x00, 0x00, 0x02, a, b, c}, packet[64];
    const tcrx_reply reply = tcrx_channel_frame(&at->channel, frame, sizeof frame);
    const tcrx_delivery delivery = tcrx_channel_release(&at->channel);
    const tcrx_written written = tcrx_channel_take(&at->channel, 5, packet, sizeof packet);
    const uint32_t clcw = tcrx_channel_clcw(&at->channel, 0, 0).word;
    if (reply.accepted == 1 && delivery.queued == 1 && written.length == sizeof sent && memcmp(packet, sent, sizeof sent) == 0
        && clcw == (0x01000000u | (uint32_t)c << 18 | (uint8_t)(b + 1))) {
        at->done += 1;
    }
}

/* The point at which both threads meet before their first round. */
static pthread_barrier_t start;

static void *make_rounds(void *given) {
    receiver *at = given;
    pthread_barrier_wait(&start);
    for (unsigned long i = 0; i < at->rounds; i++) {
        make_round(at, i);
    }
    return NULL;
}

int main(int count, char **words) {
    static receiver at[2];
    const unsigned long rounds = count == 2 ? strtoul(words[1], NULL, 10) / 256 * 256 : 0;
    if (rounds == 0 || !make(&at[0], 1, rounds) || !make(&at[1], 63, rounds)) {
        return 2;
    }
    pthread_t other;
    if (pthread_barrier_init(&start, NULL, 2) != 0 || pthread_create(&other, NULL, make_rounds, &at[1]) != 0) {
        return 2;
    }
    make_rounds(&at[0]);
    pthread_join(other, NULL);
    for (unsigned long i = 0; i < rounds; i++) {
        make_round(&at[0], i);
        make_round(&at[1], i);
    }
    const unsigned long done = at[0].done + at[1].done, freed = (tcrx_channel_free(&at[0].channel) == TCRX_DONE ? 1u : 0u)
        + (tcrx_channel_free(&at[1].channel) == TCRX_DONE ? 1u : 0u);
    printf("%lu of %lu rounds on two channels at once\n", done, 4 * rounds);
    return done == 4 * rounds && freed == 2 ? 0 : 1;
}
