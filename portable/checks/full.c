/*
 * Tests a memory of fixed size. The creation of a channel that doesn't fit must fail with TCRX_NO_MEMORY, and a channel
 * that fits is created in its place. Then all memory of the module is taken, up to the last slot of each size. Each
 * call must still succeed, because none requests memory, and each packet must be as it was sent. TCRX_MODULE_PAGES must
 * be defined.
 */
#include "tcrx.h"
#include "tcrx_instance.h"

#include <stdio.h>

enum { SIZES = 4, MOST_TAKEN = 4096 };
static const uint32_t sizes[SIZES] = {131072, 65552, 1024, 1};

static tcrx_channel channel = TCRX_HOLDS_NONE;
static uint32_t taken[MOST_TAKEN];
static size_t taken_count;
static unsigned long failed;

static void fail(const char *what, unsigned long call) {
    failed += 1;
    printf("%s, call %lu\n", what, call);
}

static void fill(tcrx_instance *at) {
    for (size_t i = 0; i < SIZES; i++) {
        uint32_t place = 1;
        while (place != 0 && taken_count < MOST_TAKEN) {
            place = (uint32_t)Z_tcrxZ_module_room(&at->module, sizes[i]);
            taken[taken_count] = place;
            taken_count += place != 0 ? 1 : 0;
        }
    }
}

static const uint8_t ad0[] = {0x00, 0x2a, 0x04, 0x0c, 0x00, 0xc0, 0x10, 0x05, 0xc0, 0x00, 0x00, 0x00, 0xaa};
static const uint8_t first[] = {0x00, 0x2a, 0x04, 0x0b, 0x01, 0x40, 0x10, 0x05, 0xc0, 0x00, 0x00, 0x02};
static const uint8_t last[] = {0x00, 0x2a, 0x04, 0x08, 0x02, 0x80, 0x11, 0x22, 0x33};
static const uint8_t bd[] = {0x20, 0x2a, 0x04, 0x0c, 0x00, 0xc0, 0x10, 0x05, 0xc0, 0x00, 0x00, 0x00, 0xbb};
static uint8_t packet[64];
static size_t packet_length;

static tcrx_status bring_ad0(void) { return tcrx_channel_frame(&channel, ad0, sizeof ad0).status; }
static tcrx_status bring_first(void) { return tcrx_channel_frame(&channel, first, sizeof first).status; }
static tcrx_status bring_last(void) { return tcrx_channel_frame(&channel, last, sizeof last).status; }
static tcrx_status bring_bd(void) { return tcrx_channel_frame(&channel, bd, sizeof bd).status; }
static tcrx_status release(void) { return tcrx_channel_release(&channel).status; }

static tcrx_status take(void) {
    const tcrx_written written = tcrx_channel_take(&channel, 5, packet, sizeof packet);
    packet_length = written.length;
    return written.status;
}

static const tcrx_settings settings = {1, 10, 4, 0, 1};
static const tcrx_queue queue = {5, 16};
static const tcrx_limit limit = {0, 1024};

/* Creates a channel within limits. Before that, a channel without limits, of 8.4 MB or more, must be refused. */
static tcrx_status make(void) {
    if (tcrx_channel_new(&channel, settings, &queue, 1, NULL, 0) != TCRX_NO_MEMORY || channel.held != 0) {
        fail("a channel that doesn't fit", 0);
    }
    return tcrx_channel_new_with_limits(&channel, settings, &queue, 1, NULL, 0, 0, &limit, 1);
}

/* Brings frames that open runs and continue them on each MAP. Each of these calls must succeed. */
static void open_runs(void) {
    uint8_t run[] = {0x20, 0x2a, 0x04, 0x08, 0x00, 0x40, 0x11, 0x22, 0x33};
    for (unsigned map = 0; map < 64; map++) {
        run[5] = (uint8_t)(0x40 | map);
        for (unsigned i = 0; i < 1200; i++) {
            if (tcrx_channel_frame(&channel, run, sizeof run).status != TCRX_DONE) {
                fail("a segment that is refused", map);
            }
            run[5] = (uint8_t)map;
        }
    }
}

/* Returns how many bytes of the module's stack were used. The stack grows down to address 0, and a memory begins with
 * zeros. */
static uint32_t stack_used(void) {
    enum { STACK = 16384, MOST_USED = 4096 };
    tcrx_instance *at = channel.place;
    uint32_t unused = 0;
    while (unused < STACK && *tcrx_octet(at, unused) == 0) {
        unused += 1;
    }
    if (STACK - unused > MOST_USED) {
        fail("a deep stack", 0);
    }
    return STACK - unused;
}

int main(void) {
    static tcrx_status (*const calls[])(void) = {
        bring_ad0, bring_bd, bring_first, bring_last, release, release, release, take, take, take,
    };
    static const uint8_t ends[] = {0xbb, 0xaa, 0x33};
    size_t packets = 0;
    if (make() != TCRX_DONE) {
        return 2;
    }
    fill(channel.place);
    for (size_t i = 0; i < sizeof calls / sizeof calls[0]; i++) {
        if (calls[i]() != TCRX_DONE) {
            fail("a call that is refused", i + 1);
        }
        if (calls[i] == take) {
            if (packet_length < 7 || packet[packet_length - 1] != ends[packets]) {
                fail("a packet that differs from the one that was sent", i + 1);
            }
            packets += 1;
        }
    }
    open_runs();
    const uint32_t stack = stack_used();
    if (tcrx_channel_free(&channel) != TCRX_DONE || make() != TCRX_DONE || bring_ad0() != TCRX_DONE || release() != TCRX_DONE
        || take() != TCRX_DONE || tcrx_channel_free(&channel) != TCRX_DONE) {
        fail("a new channel after the first one", 0);
    }
    printf("%zu calls with a full memory, in which %zu slots were taken; %lu failures, %u bytes of the stack used\n",
           sizeof calls / sizeof calls[0], taken_count, failed, (unsigned)stack);
    return failed == 0 && taken_count > 2 ? 0 : 1;
}
