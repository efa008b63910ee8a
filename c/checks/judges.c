/*
 * Checks the calls on judges of receivers and senders, of the crate tc_c_judge. No header has these calls yet, so this
 * file declares them. It compares verdicts on short accounts with values worked out by hand, and tries calls that are
 * refused. It compares the storage of judges with the bytes that their creation requests, refuses each block of that
 * memory in turn, and sees that no other call requests memory. The last line of the output is the number of results
 * that were as they must be.
 *
 * The memory is that of tcrx_memory.c and tcrx_lines_memory.c. The linker leads its calls of malloc, realloc and free
 * here, by --wrap=malloc, --wrap=realloc and --wrap=free.
 */
#include "expecting.h"

#include <string.h>

typedef struct {
    uint8_t held;
    void *place;
} judge;

typedef struct {
    uint16_t scid;
    uint8_t vcid, width, first, lossy, profile;
    uint32_t most;
} settings;

typedef struct {
    uint32_t status;
    uint8_t flag;
} flag_answer;

typedef struct {
    uint32_t status;
    uint8_t verdict;
} verdict_answer;

typedef struct {
    uint32_t status, word;
    uint8_t found;
} word_answer;

uint64_t tcrx_judge_storage(uint32_t most);
uint32_t tcrx_judge_new_at(judge *seat, settings given);
flag_answer tcrx_judge_sent_at(judge *seat, const uint8_t *octets, size_t count, uint8_t right);
verdict_answer tcrx_judge_heard_at(judge *seat, uint32_t word);
flag_answer tcrx_judge_go_on_at(judge *seat, uint32_t word);
uint32_t tcrx_judge_restart_at(judge *seat, uint8_t vr);
flag_answer tcrx_judge_restart_from_at(judge *seat, uint32_t word);
uint32_t tcrx_judge_possible_at(judge *seat);
flag_answer tcrx_judge_found_at(judge *seat, uint32_t word);
word_answer tcrx_judge_word_at(judge *seat, uint32_t place);
uint32_t tcrx_judge_free_at(judge *seat);
uint64_t tcrx_sender_storage(uint8_t window);
uint32_t tcrx_sender_new_at(judge *seat, uint8_t window, uint8_t vr);
verdict_answer tcrx_sender_arrived_at(judge *seat, uint8_t number, uint8_t accepted);
verdict_answer tcrx_sender_made_at(judge *seat, uint8_t vr);
uint32_t tcrx_sender_set_at(judge *seat, uint8_t vr);

enum { DONE = 0, NO_MEMORY = 13, BAD_WIDTH = 20, BAD_FLAG = 23, BAD_VCID = 30, NO_SESSION = 100, IN_USE = 101, BAD_SCID = 102 };
enum { POSSIBLE = 1, IMPOSSIBLE = 2, UNKNOWN = 3, NO_ITEM = 4 };
enum { EXPLAINED = 1, BREACH = 2, CONTRADICTORY = 3 };
enum { PLACES = 8192, LARGEST = 300, BLOCKS = 16 };

void *__real_malloc(size_t count);
void *__real_realloc(void *at, size_t count);
void __real_free(void *at);
void *__wrap_malloc(size_t count);
void *__wrap_realloc(void *at, size_t count);
void __wrap_free(void *at);

/* The blocks in use with their sizes, the number of requests so far, and the number of the request that gets no memory,
 * counted from 1. */
static struct {
    void *at;
    size_t count;
} blocks[BLOCKS];
static size_t requests, refused;

/* Returns the place of a block in the list, or of an unused entry if there is no block. */
static size_t place_of(const void *at) {
    size_t place = 0;
    while (place < BLOCKS - 1 && blocks[place].at != at) {
        place += 1;
    }
    expect(blocks[place].at == at, "a block that is known", requests);
    return place;
}

/* Enters a block at a place of the list, with its size, and returns it. */
static void *enter(size_t place, void *at, size_t count) {
    blocks[place].at = at;
    blocks[place].count = count;
    return at;
}

static bool is_refused(void) {
    requests += 1;
    return requests == refused;
}

void *__wrap_malloc(size_t count) { return is_refused() ? NULL : enter(place_of(NULL), __real_malloc(count), count); }
void *__wrap_realloc(void *at, size_t count) {
    const size_t place = place_of(at);
    return is_refused() ? NULL : enter(place, __real_realloc(at, count), count);
}
void __wrap_free(void *at) {
    enter(place_of(at), NULL, 0);
    __real_free(at);
}

/* Returns the number of bytes in use. */
static uint64_t used(void) {
    uint64_t sum = 0;
    for (size_t i = 0; i < BLOCKS; i++) {
        sum += blocks[i].count;
    }
    return sum;
}

/* The settings of a receiver on virtual channel 1 of spacecraft 42. No frame that is sent to it is lost. */
static settings usual(uint32_t most) {
    const settings given = {42, 1, 10, 0, 0, 1, most};
    return given;
}

/* Notes a frame of six octets with this number as sent to the receiver. The first octet has the type of the frame. */
static bool sends(judge *seat, uint8_t type, uint8_t number) {
    const uint8_t octets[] = {type, 0x2a, 0x04, 0x05, number, 0xaa};
    const flag_answer said = tcrx_judge_sent_at(seat, octets, sizeof octets, 1);
    return said.status == DONE && said.flag == 1;
}

static bool hears(judge *seat, uint32_t word, uint8_t verdict) {
    const verdict_answer said = tcrx_judge_heard_at(seat, word);
    return said.status == DONE && said.verdict == verdict;
}

/* Returns whether exactly these CLCWs would be possible next. */
static bool finds(judge *seat, const uint32_t *words, size_t count) {
    size_t found = 0;
    bool good = tcrx_judge_possible_at(seat) == DONE;
    for (uint32_t place = 0; place < PLACES + 1; place++) {
        const word_answer said = tcrx_judge_word_at(seat, place);
        good = good && said.status == DONE && said.found <= 1 && (said.found == 1 || said.word == 0);
        if (said.found == 1) {
            good = good && found < count && said.word == words[found] && tcrx_judge_found_at(seat, said.word).flag == 1;
            found += 1;
        }
    }
    return good && found == count && tcrx_judge_found_at(seat, 0x01040fff).flag == 0;
}

/* Judges a receiver. The CLCWs of virtual channel 1 begin with 0104. */
static void judge_receiver(void) {
    const uint32_t after_two[] = {0x01040000, 0x01040200, 0x01040201, 0x01040a00, 0x01041a00};
    const uint8_t other[] = {0x00, 0x2b, 0x04, 0x05, 0x00, 0xaa};
    judge seat = {0, NULL};
    expect(tcrx_judge_new_at(&seat, usual(2)) == DONE, "a judge", 0);
    const size_t before = requests;
    expect(hears(&seat, 0x01040000, POSSIBLE), "the first CLCW", 0);
    expect(tcrx_judge_sent_at(&seat, other, sizeof other, 1).flag == 0, "a frame for another spacecraft", 0);
    expect(tcrx_judge_sent_at(&seat, other, 4, 1).flag == 0, "no frame", 0);
    expect(sends(&seat, 0x20, 0) && sends(&seat, 0x00, 0), "two frames", 0);
    expect(finds(&seat, after_two, 5), "what is possible after a Type-BD and a Type-AD frame", 0);
    expect(hears(&seat, 0x01040202, IMPOSSIBLE), "a CLCW that is impossible", 0);
    expect(finds(&seat, after_two, 5), "what would have been possible", 0);
    expect(hears(&seat, 0x01080201, NO_ITEM) && hears(&seat, 0, NO_ITEM), "words that are no items", 0);
    expect(hears(&seat, 0x01040201, POSSIBLE) && hears(&seat, 0x01040000, IMPOSSIBLE), "CLCWs in order", 0);
    expect(tcrx_judge_go_on_at(&seat, 0x01080005).flag == 0 && tcrx_judge_go_on_at(&seat, 0x01040005).flag == 1, "going on", 0);
    expect(hears(&seat, 0x01040005, POSSIBLE) && hears(&seat, 0x01040006, IMPOSSIBLE), "CLCWs after going on", 0);
    expect(sends(&seat, 0x20, 0) && sends(&seat, 0x20, 0) && sends(&seat, 0x20, 0), "three frames", 0);
    expect(hears(&seat, 0x01040005, UNKNOWN) && finds(&seat, NULL, 0), "more frames than there is room for", 0);
    expect(tcrx_judge_restart_from_at(&seat, 0x01080007).flag == 0 && hears(&seat, 0x01040007, UNKNOWN), "no CLCW to begin from", 0);
    expect(tcrx_judge_restart_from_at(&seat, 0x01042007).flag == 1 && hears(&seat, 0x01042007, POSSIBLE), "a new beginning", 0);
    expect(tcrx_judge_restart_at(&seat, 9) == DONE && hears(&seat, 0x01040009, POSSIBLE), "a reset", 0);
    expect(tcrx_judge_sent_at(&seat, other, sizeof other, 2).status == BAD_FLAG, "a bad flag", 0);
    expect(requests == before, "calls that request no memory", 0);
    expect(tcrx_judge_free_at(&seat) == DONE && used() == 0, "a judge that is freed", 0);
}

/* Judges a sender with a window of 10 frames, whose first number is 0. */
static void judge_sender(void) {
    judge seat = {0, NULL};
    expect(tcrx_sender_new_at(&seat, 10, 0) == DONE, "a judge of a sender", 0);
    const size_t before = requests;
    expect(tcrx_sender_arrived_at(&seat, 10, 0).verdict == BREACH, "a frame beyond the window", 0);
    expect(tcrx_sender_arrived_at(&seat, 0, 1).verdict == EXPLAINED, "the first frame", 0);
    expect(tcrx_sender_arrived_at(&seat, 3, 1).verdict == CONTRADICTORY, "a frame that no receiver accepts", 0);
    expect(tcrx_sender_made_at(&seat, 0).verdict == CONTRADICTORY, "a CLCW that no receiver makes", 0);
    expect(tcrx_sender_made_at(&seat, 1).verdict == EXPLAINED, "a CLCW", 0);
    expect(tcrx_sender_arrived_at(&seat, 10, 0).verdict == EXPLAINED, "a frame that the CLCW allows", 0);
    expect(tcrx_sender_arrived_at(&seat, 0, 0).verdict == BREACH, "a frame that is known to be accepted", 0);
    expect(tcrx_sender_set_at(&seat, 200) == DONE && tcrx_sender_arrived_at(&seat, 209, 0).verdict == EXPLAINED, "a Set V(R)", 0);
    expect(tcrx_sender_arrived_at(&seat, 1, 2).status == BAD_FLAG, "a bad flag", 0);
    expect(requests == before, "calls that request no memory", 1);
    expect(tcrx_judge_free_at(&seat) == DONE && used() == 0, "a judge that is freed", 1);
}

/* Tries all calls on a judge of a receiver, which the seat doesn't hold. */
static void try_without_receiver(judge *seat) {
    const uint8_t none = 0;
    expect(tcrx_judge_sent_at(seat, &none, 0, 1).status == NO_SESSION, "tcrx_judge_sent_at", seat->held);
    expect(tcrx_judge_heard_at(seat, 0x01040000).status == NO_SESSION, "tcrx_judge_heard_at", seat->held);
    expect(tcrx_judge_go_on_at(seat, 0x01040000).status == NO_SESSION, "tcrx_judge_go_on_at", seat->held);
    expect(tcrx_judge_restart_at(seat, 0) == NO_SESSION, "tcrx_judge_restart_at", seat->held);
    expect(tcrx_judge_restart_from_at(seat, 0x01040000).status == NO_SESSION, "tcrx_judge_restart_from_at", seat->held);
    expect(tcrx_judge_possible_at(seat) == NO_SESSION, "tcrx_judge_possible_at", seat->held);
    expect(tcrx_judge_found_at(seat, 0x01040000).status == NO_SESSION, "tcrx_judge_found_at", seat->held);
    expect(tcrx_judge_word_at(seat, 0).status == NO_SESSION, "tcrx_judge_word_at", seat->held);
}

static void try_without_sender(judge *seat) {
    expect(tcrx_sender_arrived_at(seat, 0, 0).status == NO_SESSION, "tcrx_sender_arrived_at", seat->held);
    expect(tcrx_sender_made_at(seat, 0).status == NO_SESSION, "tcrx_sender_made_at", seat->held);
    expect(tcrx_sender_set_at(seat, 0) == NO_SESSION, "tcrx_sender_set_at", seat->held);
}

/* Tries settings with a fault, and seats that hold no judge or one of the other kind. */
static void try_refusals(void) {
    const struct {
        settings given;
        uint32_t status;
    } faults[] = {{{1024, 64, 9, 0, 2, 2, 1}, BAD_SCID}, {{42, 64, 9, 0, 2, 2, 1}, BAD_VCID}, {{42, 1, 9, 0, 2, 2, 1}, BAD_WIDTH},
                  {{42, 1, 10, 0, 2, 0, 1}, BAD_FLAG},   {{42, 1, 10, 0, 0, 2, 1}, BAD_FLAG}};
    judge seat = {0, NULL};
    for (size_t i = 0; i < sizeof faults / sizeof *faults; i++) {
        expect(tcrx_judge_new_at(&seat, faults[i].given) == faults[i].status && seat.held == 0, "a fault of the settings", i);
    }
    expect(tcrx_sender_new_at(&seat, 0, 0) == BAD_WIDTH && tcrx_sender_new_at(&seat, 128, 0) == BAD_WIDTH, "a bad window", 0);
    expect(tcrx_judge_free_at(&seat) == NO_SESSION && requests == 0, "nothing to free", 0);
    try_without_receiver(&seat);
    try_without_sender(&seat);
    expect(tcrx_sender_new_at(&seat, 127, 0) == DONE && tcrx_judge_new_at(&seat, usual(1)) == IN_USE, "a seat in use", 0);
    try_without_receiver(&seat);
    expect(tcrx_judge_free_at(&seat) == DONE && tcrx_judge_new_at(&seat, usual(1)) == DONE, "a judge in place of another", 0);
    expect(tcrx_sender_new_at(&seat, 127, 0) == IN_USE, "a seat in use", 1);
    try_without_sender(&seat);
    expect(tcrx_judge_free_at(&seat) == DONE && used() == 0, "a judge that is freed", 2);
}

/* Creates judges of all sizes up to a limit, and refuses each of their blocks in turn. */
static void try_storage(void) {
    judge seat = {0, NULL};
    for (uint32_t most = 0; most <= LARGEST; most++) {
        refused = 0;
        expect(tcrx_judge_new_at(&seat, usual(most)) == DONE && used() == tcrx_judge_storage(most), "tcrx_judge_storage", most);
        expect(tcrx_judge_free_at(&seat) == DONE && used() == 0, "a judge that is freed", most);
        for (requests = 0, refused = 1; tcrx_judge_new_at(&seat, usual(most)) == NO_MEMORY; requests = 0, refused += 1) {
            expect(seat.held == 0 && used() == 0, "a block that is refused", most);
        }
        expect(refused > 6 && tcrx_judge_free_at(&seat) == DONE && used() == 0, "all blocks", most);
    }
    refused = 0;
    for (uint8_t window = 1; window < 128; window++) {
        expect(tcrx_sender_new_at(&seat, window, 0) == DONE && used() == tcrx_sender_storage(window), "tcrx_sender_storage", window);
        expect(tcrx_judge_free_at(&seat) == DONE && used() == 0, "a judge that is freed", window);
    }
}

int main(void) {
    try_refusals();
    judge_receiver();
    judge_sender();
    try_storage();
    return close_with("results of judges");
}
