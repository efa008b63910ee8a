/*
 * FARM-1 as a table that is written here from CCSDS 232.1-B, 6.3, and shares nothing with the library. The file also
 * has the counts of the comparisons. The place of an N(S) in the window is found by searching for how far it is ahead
 * of V(R) or behind it.
 */
#ifndef FARM_H
#define FARM_H

#include "../../dist/tcrx.h"

#include <inttypes.h>
#include <stdbool.h>
#include <stdio.h>

enum { EXPECTED, AHEAD, BEHIND, OUTSIDE };

/* The states of FARM-1, with the flags Lockout, Wait and Retransmit that it can have in them. */
static const uint8_t states[6][4] = {
    {TCRX_OPEN, 0, 0, 0}, {TCRX_OPEN, 0, 0, 1}, {TCRX_WAIT, 0, 1, 1},
    {TCRX_LOCKOUT, 1, 0, 0}, {TCRX_LOCKOUT, 1, 0, 1}, {TCRX_LOCKOUT, 1, 1, 1},
};
static uint8_t places[255][256]; /* the place of N(S), by width and N(S) - V(R) */
static uint64_t checked, failed;

static inline void expect(bool good, const char *what, tcrx_farm farm, unsigned arrival, unsigned number, unsigned room) {
    checked += 1;
    failed += good ? 0 : 1;
    if (!good && failed <= 20) {
        printf("%s: W %u, S%u, V(R) %u, FARM-B %u, flags %u %u %u; arrival %u, number %u, room %u\n", what, farm.width, farm.state,
               farm.vr, farm.farm_b, farm.lockout, farm.wait, farm.retransmit, arrival, number, room);
    }
}

/* Returns the place of N(S) in the sliding window of this width. The positive part of the window is ahead of V(R), and
 * its negative part behind. */
static inline uint8_t place_of(unsigned width, unsigned vr, unsigned ns) {
    if (ns == vr) {
        return EXPECTED;
    }
    for (unsigned k = 1; k <= width / 2; k++) {
        if (k < width / 2 && ns == (vr + k) % 256) return AHEAD;
        if (vr == (ns + k) % 256) return BEHIND;
    }
    return OUTSIDE;
}

/* Looks up all places once. A place depends only on the difference of the two numbers. */
static inline void find_places(void) {
    const tcrx_farm none = {0, 0, 0, 0, 0, 0, 0};
    for (unsigned width = 2; width <= 254; width += 2) {
        for (unsigned vr = 0; vr < 256; vr++) {
            for (unsigned ns = 0; ns < 256; ns++) {
                uint8_t *place = &places[width][(ns - vr) & 255];
                if (vr == 0) *place = place_of(width, vr, ns);
                expect(*place == place_of(width, vr, ns), "the place of an N(S)", none, width, vr, ns);
            }
        }
    }
}

static inline unsigned event_of(tcrx_farm farm, unsigned arrival, unsigned number, unsigned room) {
    static const uint8_t others[] = {[TCRX_BD] = 6, [TCRX_UNLOCK] = 7, [TCRX_SET_VR] = 8, [TCRX_INVALID] = 9, [TCRX_RELEASE] = 10};
    if (arrival != TCRX_AD) {
        return others[arrival];
    }
    switch (places[farm.width][(number - farm.vr) & 255]) {
    case EXPECTED: return room == 1 ? 1 : 2;
    case AHEAD: return 3;
    case BEHIND: return 4;
    default: return 5;
    }
}

/* Returns FARM-1 after a Type-AD frame, by the rows E1 to E5. */
static inline tcrx_farm after_frame(tcrx_farm farm, unsigned event) {
    if (farm.state == TCRX_LOCKOUT) {
        return farm;
    }
    if (event == 5) {
        farm.state = TCRX_LOCKOUT;
        farm.lockout = 1;
    }
    if (farm.state != TCRX_OPEN) {
        return farm;
    }
    if (event == 1) {
        farm.vr = (uint8_t)(farm.vr + 1);
        farm.retransmit = 0;
    }
    if (event == 2) {
        farm.state = TCRX_WAIT;
        farm.wait = 1;
    }
    if (event == 2 || event == 3) {
        farm.retransmit = 1;
    }
    return farm;
}

/* Returns FARM-1 after a Type-B frame or a release, by the rows E6 to E10. */
static inline tcrx_farm after_other(tcrx_farm farm, unsigned event, unsigned number) {
    const bool reset = event == 7 || (event == 8 && farm.state != TCRX_LOCKOUT);
    if (event >= 6 && event <= 8) {
        farm.farm_b = (uint8_t)((farm.farm_b + 1) % 4);
    }
    if (event == 8 && reset) {
        farm.vr = (uint8_t)number;
    }
    if (reset) {
        farm.retransmit = farm.wait = farm.lockout = 0;
        farm.state = TCRX_OPEN;
    }
    if (event == 10) {
        farm.wait = 0;
        farm.state = farm.state == TCRX_WAIT ? TCRX_OPEN : farm.state;
    }
    return farm;
}

static inline bool is_same(tcrx_farm a, tcrx_farm b) {
    return a.width == b.width && a.state == b.state && a.vr == b.vr && a.farm_b == b.farm_b && a.lockout == b.lockout
        && a.wait == b.wait && a.retransmit == b.retransmit;
}

#endif
