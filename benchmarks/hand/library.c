/* The calls of channel.h over the library for C, so that rounds.c brings the same loads to it. */
#include "../../dist/tcrx.h"
#include "channel.h"

#include <stdlib.h>

struct channel {
    tcrx_channel seat;
};

channel *channel_new(uint32_t buffer, uint16_t apid, uint32_t capacity) {
    const tcrx_settings settings = {1, 10, (uint8_t)buffer, 0, 1};
    const tcrx_queue queue = {apid, (uint16_t)capacity};
    channel *const c = calloc(1, sizeof *c);
    if (tcrx_channel_new(&c->seat, settings, &queue, 1, NULL, 0) != TCRX_DONE) abort();
    return c;
}

reply channel_frame(channel *c, const uint8_t *octets, size_t count) {
    const tcrx_reply answer = tcrx_channel_frame(&c->seat, octets, count);
    const reply it = {answer.event, answer.accepted == 1, {answer.queued, answer.dropped, answer.rest == 1}};
    return it;
}

bool channel_release(channel *c, delivery *result) {
    const tcrx_delivery it = tcrx_channel_release(&c->seat);
    const delivery of_it = {it.queued, it.dropped, it.rest == 1};
    *result = of_it;
    return it.status == TCRX_DONE;
}

size_t channel_take(channel *c, uint16_t apid, uint8_t *octets, size_t room) {
    const tcrx_written it = tcrx_channel_take(&c->seat, apid, octets, room);
    return it.status == TCRX_DONE ? it.length : 0;
}

uint64_t channel_events(channel *c) { return tcrx_channel_events(&c->seat).count; }
