/* A channel written by hand in C, with which the library's channel of fixed storage is compared. It gives the same
 * answers, creates its rooms at the start, and has no journal. */
#ifndef CHANNEL_H
#define CHANNEL_H

#include <stdbool.h>
#include <stddef.h>
#include <stdint.h>

/** The outcome for the packets of a unit: how many were queued and dropped, and whether octets were left. */
typedef struct {
    uint32_t queued, dropped;
    bool rest;
} delivery;

/** The outcome for a frame: FARM-1's event, or 0 if the frame is refused. */
typedef struct {
    uint8_t event;
    bool accepted;
    delivery packets;
} reply;

typedef struct channel channel;

/** Creates virtual channel 1 with segment headers, a window of 10, V(R) 0, and one queue. */
channel *channel_new(uint32_t buffer, uint16_t apid, uint32_t capacity);

reply channel_frame(channel *, const uint8_t *octets, size_t count);

/** Releases a data field. Returns whether one waited. */
bool channel_release(channel *, delivery *);

/** Copies the oldest packet to octets that have room for it, and drops it. Returns its length, or 0 if there is
 * none. */
size_t channel_take(channel *, uint16_t apid, uint8_t *octets, size_t room);

uint64_t channel_events(channel *);

#endif
