#include "channel.h"

#include <stdlib.h>
#include <string.h>

enum { FIELD = 1019, UNIT = 65542, STREAMS = 128, KEYS = 2048, NONE = 0xffff };
enum { OPEN = 1, WAITING, LOCKED_OUT };
enum { CONTINUING, FIRST, LAST, UNSEGMENTED };

/* A ring of rooms. Each room begins with the number of octets that it holds. */
typedef struct {
    uint32_t first, waiting, capacity, stride;
    uint8_t *rooms;
} ring;

typedef struct {
    bool is_open;
    uint32_t count;
    uint8_t *octets;
} run;

struct channel {
    uint8_t next, half, state, farm_b;
    bool lockout, wait, retransmit;
    uint64_t events;
    ring buffer, queue;
    run runs[STREAMS];
    uint16_t places[KEYS];
};

#define INLINE static inline __attribute__((always_inline))
#define RARE(x) __builtin_expect(!!(x), 0)

/* Copies a few octets by two moves that overlap, without a call. */
INLINE void copy(uint8_t *to, const uint8_t *from, size_t count) {
    uint64_t front[2], back[2];
    if (count > 32) {
        memcpy(to, from, count);
    } else if (count >= 16) {
        memcpy(front, from, 16), memcpy(back, from + count - 16, 16);
        memcpy(to, front, 16), memcpy(to + count - 16, back, 16);
    } else if (count >= 8) {
        memcpy(front, from, 8), memcpy(back, from + count - 8, 8);
        memcpy(to, front, 8), memcpy(to + count - 8, back, 8);
    } else {
        for (size_t i = 0; i < count; i++) to[i] = from[i];
    }
}

INLINE bool push(ring *r, const uint8_t *octets, uint32_t count) {
    if (RARE(r->waiting == r->capacity)) return false;
    uint32_t place = r->first + r->waiting;
    if (place >= r->capacity) place -= r->capacity;
    uint8_t *const room = r->rooms + (size_t)place * r->stride;
    memcpy(room, &count, sizeof count);
    copy(room + sizeof count, octets, count);
    r->waiting++;
    return true;
}

INLINE const uint8_t *oldest(const ring *r, uint32_t *count) {
    const uint8_t *const room = r->rooms + (size_t)r->first * r->stride;
    memcpy(count, room, sizeof *count);
    return room + sizeof *count;
}

INLINE void pop(ring *r) {
    r->first = r->first + 1 == r->capacity ? 0 : r->first + 1;
    r->waiting--;
}

/* Cuts a unit into packets, and puts each into its queue. */
INLINE delivery deliver(channel *c, const uint8_t *unit, size_t count) {
    delivery result = {0, 0, false};
    while (count >= 7 && unit[0] >> 5 == 0) {
        const uint32_t size = ((uint32_t)unit[4] << 8 | unit[5]) + 7;
        if (RARE(size > count)) break;
        const bool is_known = (unit[0] & 0x10) != 0 && c->places[(unit[0] & 7u) << 8 | unit[1]] != NONE;
        if (is_known && push(&c->queue, unit, size)) result.queued++;
        else result.dropped++;
        unit += size;
        count -= size;
    }
    result.rest = count != 0;
    return result;
}

/* Takes a data field in on its stream, and delivers the unit that it ends. */
INLINE delivery pass(channel *c, unsigned service, const uint8_t *field, size_t count) {
    const delivery nothing = {0, 0, false};
    run *const r = &c->runs[service + (field[0] & 63)];
    const unsigned flags = field[0] >> 6;
    const uint8_t *const body = field + 1;
    count--;
    if (flags == UNSEGMENTED) {
        r->is_open = false;
        return deliver(c, body, count);
    }
    if (flags == FIRST) {
        r->count = 0;
    } else if (!r->is_open || count > UNIT - r->count) {
        r->is_open = false;
        return nothing;
    }
    copy(r->octets + r->count, body, count);
    r->count += (uint32_t)count;
    r->is_open = flags != LAST;
    return flags == LAST ? deliver(c, r->octets, r->count) : nothing;
}

static reply answer(uint8_t event) {
    const reply result = {event, false, {0, 0, false}};
    return result;
}

/* Takes in a Type-AD frame, by FARM-1's events 1 to 5. */
INLINE reply sequenced(channel *c, uint8_t number, const uint8_t *field, size_t count) {
    const uint8_t ahead = (uint8_t)(number - c->next);
    if (RARE(ahead != 0)) {
        if (ahead < c->half) {
            if (c->state == OPEN) c->retransmit = true;
            return answer(3);
        }
        if ((uint8_t)-ahead <= c->half) return answer(4);
        c->state = LOCKED_OUT;
        c->lockout = true;
        return answer(5);
    }
    if (RARE(c->buffer.waiting == c->buffer.capacity)) {
        if (c->state == OPEN) c->state = WAITING, c->retransmit = c->wait = true;
        return answer(2);
    }
    if (RARE(c->state != OPEN)) return answer(1);
    push(&c->buffer, field, (uint32_t)count);
    c->next++;
    c->retransmit = false;
    const reply result = {1, true, {0, 0, false}};
    return result;
}

/* Takes in a control command: Unlock, Set V(R), or a field that is neither. */
static reply command(channel *c, const uint8_t *field, size_t count) {
    const bool is_unlock = count == 1 && field[0] == 0, is_set = count == 3 && field[0] == 0x82 && field[1] == 0;
    if (!is_unlock && !is_set) return answer(9);
    c->farm_b = (c->farm_b + 1) & 3;
    if (is_unlock) c->lockout = false;
    if (is_set && c->state == LOCKED_OUT) return answer(8);
    if (is_set) c->next = field[2];
    c->retransmit = c->wait = false;
    c->state = OPEN;
    return answer(is_unlock ? 7 : 8);
}

reply channel_frame(channel *c, const uint8_t *octets, size_t count) {
    if (RARE(count < 6 || (octets[0] & 0xcc) != 0)) return answer(0);
    const size_t length = (size_t)((octets[2] & 3) << 8 | octets[3]) + 1;
    if (RARE(length < 6 || length > count)) return answer(0);
    c->events++;
    const uint8_t *const field = octets + 5;
    switch (octets[0] >> 4) {
    case 0: return sequenced(c, octets[4], field, length - 5);
    case 2: {
        const reply result = {6, true, pass(c, 64, field, length - 5)};
        c->farm_b = (c->farm_b + 1) & 3;
        return result;
    }
    case 3: return command(c, field, length - 5);
    default: return answer(9);
    }
}

bool channel_release(channel *c, delivery *result) {
    uint32_t count;
    if (RARE(c->buffer.waiting == 0)) return false;
    const uint8_t *const field = oldest(&c->buffer, &count);
    c->events++;
    *result = pass(c, 0, field, count);
    pop(&c->buffer);
    c->wait = false;
    if (RARE(c->state == WAITING)) c->state = OPEN;
    return true;
}

size_t channel_take(channel *c, uint16_t apid, uint8_t *octets, size_t room) {
    uint32_t count;
    if (RARE(apid >= KEYS || c->places[apid] == NONE || c->queue.waiting == 0)) return 0;
    const uint8_t *const packet = oldest(&c->queue, &count);
    if (RARE(count > room)) return 0;
    copy(octets, packet, count);
    pop(&c->queue);
    c->events++;
    return count;
}

uint64_t channel_events(channel *c) { return c->events; }

static ring made(uint32_t capacity, uint32_t size) {
    const uint32_t stride = (size + 4 + 15) & ~15u;
    const ring r = {0, 0, capacity, stride, calloc(capacity, stride)};
    return r;
}

channel *channel_new(uint32_t buffer, uint16_t apid, uint32_t capacity) {
    channel *const c = calloc(1, sizeof *c);
    c->half = 5;
    c->state = OPEN;
    c->buffer = made(buffer, FIELD);
    c->queue = made(capacity, UNIT);
    memset(c->places, 0xff, sizeof c->places);
    c->places[apid] = 0;
    for (size_t i = 0; i < STREAMS; i++) c->runs[i].octets = malloc(UNIT);
    return c;
}
