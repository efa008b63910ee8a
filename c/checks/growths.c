/*
 * Refuses each block that the creation of a channel requests in turn: first the first one, then the second, until the
 * creation requests no more. Each time the status must be TCRX_NO_MEMORY, no channel may be held, and none of its
 * blocks may be left. Then each kind of call is made once with its first block refused, and no call may request a
 * block. Packets and units that are taken must be those that were sent. Nothing may be left of a channel that was
 * freed. The address that rattle_alloc returns must not be null, even if rattle_alloc has no block. Settings that
 * create no channel are in storage.c.
 *
 * The memory is that of tcrx_memory.c, which is linked with this program. The linker leads its calls of malloc and free
 * here, by --wrap=malloc and --wrap=free, and this program refuses them. The last line of the output is the number of
 * refused blocks.
 */
#include "../../dist/tcrx.h"

#include <stdbool.h>
#include <stdio.h>
#include <stdlib.h>
#include <string.h>

void *__real_malloc(size_t count);
void __real_free(void *at);
void *__wrap_malloc(size_t count);
void __wrap_free(void *at);

/* The number of blocks that are allocated before one is refused, the number of refused blocks, and the number of blocks
 * in use. */
static unsigned long given_first, refusals, blocks;
static bool refusing, met;

static bool is_refused(void) {
    if (!refusing || met) {
        return false;
    }
    if (given_first > 0) {
        given_first -= 1;
        return false;
    }
    met = true;
    refusals += 1;
    return true;
}

void *__wrap_malloc(size_t count) {
    void *at = is_refused() ? NULL : __real_malloc(count);
    blocks += at == NULL ? 0 : 1;
    return at;
}

void __wrap_free(void *at) {
    blocks -= 1;
    __real_free(at);
}

static tcrx_channel channel = TCRX_HOLDS_NONE;

/* All that a channel can report. */
typedef struct {
    tcrx_status status;
    uint32_t clcw;
    uint8_t farm[7];
    uint64_t counts[5];
} state;

static state look(void) {
    state now;
    memset(&now, 0, sizeof now);
    const tcrx_clcw_answer clcw = tcrx_channel_clcw(&channel, 1, 0);
    const tcrx_farm farm = tcrx_channel_report(&channel).farm;
    const uint8_t farm_now[7] = {farm.width, farm.state, farm.vr, farm.farm_b, farm.lockout, farm.wait, farm.retransmit};
    now.status = clcw.status;
    now.clcw = clcw.word;
    memcpy(now.farm, farm_now, sizeof farm_now);
    now.counts[0] = tcrx_channel_buffered(&channel).count;
    now.counts[1] = tcrx_channel_queued(&channel, 5).count;
    now.counts[2] = tcrx_channel_queued(&channel, 9).count;
    now.counts[3] = tcrx_channel_units(&channel, 2).count;
    now.counts[4] = tcrx_channel_events(&channel).count;
    return now;
}

static const tcrx_settings settings = {1, 10, 4, 0, 1};
static const tcrx_queue queues[] = {{5, 4}, {9, 2}, {77, 256}};
static const tcrx_map maps[] = {{2, 3}, {7, 1}};

static const tcrx_limit limits[] = {{0, 64}, {2, 128}, {7, 16}};

static tcrx_status make(void) { return tcrx_channel_new_with_limits(&channel, settings, queues, 3, maps, 2, 0, limits, 3); }
#ifdef LIMITED /* for slow machines */
static tcrx_status make_unlimited(void) { return tcrx_channel_new_with_limits(&channel, settings, queues, 2, maps, 1, 16, NULL, 0); }
#else
static tcrx_status make_unlimited(void) { return tcrx_channel_new(&channel, settings, queues, 2, maps, 1); }
#endif
static tcrx_status free_it(void) { return tcrx_channel_free(&channel); }
static tcrx_status ask_storage(void) { return tcrx_storage(settings, queues, 3, maps, 2).status; }
static tcrx_status ask_limited(void) { return tcrx_storage_with_limits(settings, queues, 3, maps, 2, 0, limits, 3).status; }

static const uint8_t ad0[] = {0x00, 0x2a, 0x04, 0x0c, 0x00, 0xc0, 0x10, 0x05, 0xc0, 0x00, 0x00, 0x00, 0xaa};
static const uint8_t first[] = {0x00, 0x2a, 0x04, 0x0b, 0x01, 0x40, 0x10, 0x05, 0xc0, 0x00, 0x00, 0x02};
static const uint8_t last[] = {0x00, 0x2a, 0x04, 0x10, 0x02, 0x80, 0x11, 0x22, 0x33,
                               0x10, 0x09, 0xc0, 0x00, 0x00, 0x00, 0x01, 0xff};
static const uint8_t bd[] = {0x20, 0x2a, 0x04, 0x0c, 0x00, 0xc0, 0x10, 0x05, 0xc0, 0x00, 0x00, 0x00, 0xbb};
static const uint8_t unit[] = {0x20, 0x2a, 0x04, 0x08, 0x00, 0xc2, 0xaa, 0xbb, 0xcc};
static const uint8_t half[] = {0x20, 0x2a, 0x04, 0x08, 0x00, 0x42, 0xaa, 0xbb, 0xcc};
static const uint8_t middle[] = {0x20, 0x2a, 0x04, 0x0c, 0x00, 0x02, 0x01, 0x02, 0x03, 0x04, 0x05, 0x06, 0x07};
static const uint8_t rest[] = {0x20, 0x2a, 0x04, 0x08, 0x00, 0x82, 0xaa, 0xbb, 0xcc};

static tcrx_status bring_ad0(void) { return tcrx_channel_frame(&channel, ad0, sizeof ad0).status; }
static tcrx_status bring_first(void) { return tcrx_channel_frame(&channel, first, sizeof first).status; }
static tcrx_status bring_last(void) { return tcrx_channel_frame(&channel, last, sizeof last).status; }
static tcrx_status bring_bd(void) { return tcrx_channel_frame(&channel, bd, sizeof bd).status; }
static tcrx_status bring_unit(void) { return tcrx_channel_frame(&channel, unit, sizeof unit).status; }
static tcrx_status bring_half(void) { return tcrx_channel_frame(&channel, half, sizeof half).status; }
static tcrx_status bring_middle(void) { return tcrx_channel_frame(&channel, middle, sizeof middle).status; }
static tcrx_status bring_rest(void) { return tcrx_channel_frame(&channel, rest, sizeof rest).status; }
static tcrx_status release(void) { return tcrx_channel_release(&channel).status; }

static const uint8_t joined[] = {0x10, 0x05, 0xc0, 0x00, 0x00, 0x02, 0x11, 0x22, 0x33};
static const uint8_t halves[] = {0xaa, 0xbb, 0xcc, 0x01, 0x02, 0x03, 0x04, 0x05, 0x06, 0x07, 0xaa, 0xbb, 0xcc};
static uint8_t octets[64];

/* The packets of queue 5 and the units of MAP 2 that the sent frames carry, in their order. Each take must return the
 * next one. */
static const struct { const uint8_t *octets; size_t count; } packets[] = {
    {bd + 6, 7}, {ad0 + 6, 7}, {joined, sizeof joined}, {bd + 6, 7}}, units[] = {{unit + 6, 3}, {halves, sizeof halves}};
static size_t packets_taken, units_taken;

static tcrx_status taken(tcrx_written written, const uint8_t *wanted, size_t count, size_t *number) {
    if (written.status != TCRX_DONE) {
        return written.status;
    }
    *number += 1;
    return written.length == count && memcmp(octets, wanted, count) == 0 ? TCRX_DONE : TCRX_EMPTY;
}

static tcrx_status take(void) {
    const tcrx_written written = tcrx_channel_take(&channel, 5, octets, sizeof octets);
    return taken(written, packets[packets_taken].octets, packets[packets_taken].count, &packets_taken);
}

static tcrx_status take_unit(void) {
    const tcrx_written written = tcrx_channel_take_unit(&channel, 2, octets, sizeof octets);
    return taken(written, units[units_taken].octets, units[units_taken].count, &units_taken);
}

#ifdef PORTABLE
/* The portable C serves its channels from its own memory, and has no rattle_alloc that could be called here. */
static bool is_never_null(void) {
    return true;
}
#else
typedef struct {
    bool given;
    void *at;
} rattle_block;

rattle_block rattle_alloc(size_t count, size_t alignment);

static bool is_never_null(void) {
    given_first = 0;
    met = false;
    refusing = true;
    const rattle_block block = rattle_alloc(1, 1);
    refusing = false;
    return !block.given && block.at != NULL;
}
#endif

/* Makes a call with its first block refused, then with its second, and so on until no block is refused. If `grows` isn't
 * set, the call must request no block. Returns whether each result is as it must be. */
static bool done(tcrx_status (*call)(void), bool grows) {
    for (unsigned long n = 0; n < 10000; n++) {
        const state before = look();
        const unsigned long blocks_before = blocks;
        given_first = n;
        met = false;
        refusing = true;
        const tcrx_status status = call();
        refusing = false;
        if (!met) {
            return status == TCRX_DONE && (n > 0) == grows && (grows || call == free_it || blocks == blocks_before);
        }
        const state after = look();
        if (!grows || status != TCRX_NO_MEMORY || memcmp(&before, &after, sizeof before) != 0 || blocks != blocks_before) {
            return false;
        }
    }
    return false;
}

int main(void) {
    static const struct { tcrx_status (*call)(void); bool grows; } calls[] = {
        {make_unlimited, true}, {free_it, false},      {ask_storage, false},  {ask_limited, false}, {make, true},
        {bring_ad0, false},     {bring_bd, false},     {bring_first, false},  {bring_last, false},  {release, false},
        {release, false},       {release, false},      {bring_unit, false},   {bring_half, false},  {bring_middle, false},
        {bring_rest, false},    {take, false},         {take, false},         {take, false},        {take_unit, false},
        {take_unit, false},     {bring_bd, false},     {ask_limited, false},  {take, false},
    };
    unsigned long good = 0;
    const unsigned long count = sizeof calls / sizeof calls[0];
    for (size_t i = 0; i < count; i++) {
        if (done(calls[i].call, calls[i].grows)) {
            good += 1;
        } else {
            printf("call %zu doesn't have the expected result\n", i);
        }
    }
    const bool never = is_never_null();
    const bool freed = free_it() == TCRX_DONE && blocks == 0;
    if (!never) {
        printf("the address is null if there is no block\n");
    }
    printf("%lu blocks refused in %lu calls, %lu calls done, %s\n", refusals, count, good, freed ? "all freed" : "not all freed");
    return good == count && never && freed && refusals > 0 ? 0 : 1;
}
