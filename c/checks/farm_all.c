/*
 * Tests the steps of FARM-1 for each width of the window, each state with its flags, and each V(R). The arrivals are a
 * Type-AD frame with each N(S), with and without room, a Set V(R) with each number, and every other arrival with each
 * value of the FARM-B counter. Also tests each CLCW that can be written, and each word of 32 bits that can be read. The
 * expected results are those of farm.h, and for CLCWs those of the fields in CCSDS 232.0-B, 4.2. The program takes about
 * half a minute.
 */
#include "farm.h"

static void check_step(tcrx_farm farm, unsigned arrival, unsigned number, unsigned room) {
    const unsigned event = event_of(farm, arrival, number, room);
    const tcrx_step_answer step = tcrx_farm_step(farm, (uint8_t)arrival, (uint8_t)number, (uint8_t)room);
    if (event == 1 && farm.state == TCRX_WAIT) {
        const bool refused = step.status == TCRX_NO_ENTRY && step.event == 0 && step.accepted == 0 && is_same(step.farm, farm);
        expect(refused, "a step without an entry", farm, arrival, number, room);
        return;
    }
    const tcrx_farm wanted = event <= 5 ? after_frame(farm, event) : after_other(farm, event, number);
    const bool accepted = (event == 1 && farm.state == TCRX_OPEN) || event == 6;
    const bool good = step.status == TCRX_DONE && step.event == event && is_same(step.farm, wanted);
    expect(good && step.accepted == (accepted ? 1 : 0), "a step", farm, arrival, number, room);
}

static void check_farm(tcrx_farm farm) {
    for (unsigned number = 0; number < 256; number++) {
        check_step(farm, TCRX_AD, number, 0);
        check_step(farm, TCRX_AD, number, 1);
        check_step(farm, TCRX_SET_VR, number, number & 1);
    }
    for (unsigned farm_b = 0; farm_b < 4; farm_b++) {
        farm.farm_b = (uint8_t)farm_b;
        for (unsigned arrival = TCRX_BD; arrival <= TCRX_RELEASE; arrival++) {
            check_step(farm, arrival, farm.vr, 0);
            check_step(farm, arrival, (unsigned)farm.vr ^ 0x5au, 1);
        }
    }
}

static tcrx_farm farm_in(unsigned width, unsigned state, unsigned vr, unsigned farm_b) {
    const tcrx_farm farm = {(uint8_t)width, states[state][0], (uint8_t)vr, (uint8_t)farm_b, states[state][1], states[state][2],
                            states[state][3]};
    return farm;
}

static void check_written(unsigned vcid, tcrx_farm farm) {
    for (unsigned link = 0; link < 4; link++) {
        const uint32_t word = UINT32_C(1) << 24 | vcid << 18 | link << 14 | (uint32_t)farm.lockout << 13 | (uint32_t)farm.wait << 12
            | (uint32_t)farm.retransmit << 11 | (uint32_t)farm.farm_b << 9 | farm.vr;
        const tcrx_clcw_answer clcw = tcrx_clcw(farm, (uint8_t)vcid, (uint8_t)(link >> 1), link & 1);
        expect(clcw.status == TCRX_DONE && clcw.word == word, "a CLCW", farm, vcid, link, 0);
    }
}

/* Returns whether a word has the fixed fields of a CLCW (CCSDS 232.0-B, 4.2.1): type, version and both spares are 0,
 * and COP is 1. */
static bool is_clcw(uint32_t word) { return (word & UINT32_C(0xe3030100)) == UINT32_C(0x01000000); }

static bool is_none(tcrx_clcw_fields read) {
    const int any = read.status_field | read.vcid | read.no_rf | read.no_bit_lock | read.lockout | read.wait | read.retransmit
        | read.farm_b | read.vr;
    return read.status == TCRX_NO_CLCW && any == 0;
}

/* Compares the fields of a CLCW, from its first bit on, each with its number of bits. */
static bool is_read(uint32_t word, tcrx_clcw_fields read) {
    const uint8_t fields[9] = {read.status_field, read.vcid, read.no_rf, read.no_bit_lock, read.lockout, read.wait, read.retransmit,
                               read.farm_b, read.vr};
    static const uint8_t shifts[9] = {26, 18, 15, 14, 13, 12, 11, 9, 0}, bits[9] = {3, 6, 1, 1, 1, 1, 1, 2, 8};
    for (unsigned i = 0; i < 9; i++) {
        if (fields[i] != (word >> shifts[i] & ((UINT32_C(1) << bits[i]) - 1))) {
            return false;
        }
    }
    return read.status == TCRX_DONE;
}

int main(void) {
    const tcrx_farm none = {0, 0, 0, 0, 0, 0, 0};
    find_places();
    checked = 0;
    for (unsigned width = 2; width <= 254; width += 2) {
        for (unsigned farm = 0; farm < 6 * 256; farm++) check_farm(farm_in(width, farm % 6, farm / 6, width / 2 % 4));
    }
    printf("%" PRIu64 " steps", checked);
    checked = 0;
    for (unsigned vcid = 0; vcid < 64; vcid++) {
        for (unsigned farm = 0; farm < 6 * 1024; farm++) check_written(vcid, farm_in(10, farm % 6, farm / 6 % 256, farm / 6 / 256));
    }
    printf(", %" PRIu64 " CLCWs written", checked);
    checked = 0;
    for (uint32_t upper = 0; upper < 65536; upper++) {
        for (uint32_t lower = 0; lower < 65536; lower++) {
            const uint32_t word = upper << 16 | lower;
            const tcrx_clcw_fields read = tcrx_read_clcw(word);
            if (!(is_clcw(word) ? is_read(word, read) : is_none(read))) expect(false, "a word", none, upper, lower, 0);
        }
        checked += 65536;
    }
    printf(", %" PRIu64 " words read; %" PRIu64 " otherwise\n", checked, failed);
    return failed == 0 ? 0 : 1;
}
