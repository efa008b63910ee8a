/*
 * Compares tcrx_storage and tcrx_storage_with_limits with a sum that is computed here anew, part by part, as
 * docs/explanation/memory.md describes it. The settings are those of that page, and others of all sorts. Compares their
 * statuses with those of the calls that create a channel. Compares the storage with the bytes that the creation of a
 * channel then requests: the storage, the channel's own block and the copies of the lists, and no more than
 * TCRX_STORAGE_OF gives. The last line of the output is the number of results that were as they must be. With the word
 * `rows` the program prints the rows of the table of c/README.md.
 *
 * The memory is that of tcrx_memory.c. The linker leads its calls of malloc and free here, by --wrap=malloc and
 * --wrap=free.
 */
#include "../../dist/tcrx.h"
#include "expecting.h"

enum { MOST_QUEUES = 2047, MOST_MAPS = 64, LARGEST = 65542, OWN = 296, MADE = 2000000 };

/* The portable C requests the memory of a whole instance. It creates few of the channels, because it is tried on slow
 * machines. */
#ifdef PORTABLE
static const bool is_exact = false;
static bool is_made(uint64_t place) { return place % 100 == 0; }
#else
static const bool is_exact = true;
static bool is_made(uint64_t place) { return place < UINT64_MAX; }
#endif

void *__real_malloc(size_t count);
void __real_free(void *at);
void *__wrap_malloc(size_t count);
void __wrap_free(void *at);

/* The number of bytes that were requested, and the number of blocks in use. */
static uint64_t asked, blocks;

void *__wrap_malloc(size_t count) {
    asked += count;
    blocks += 1;
    return __real_malloc(count);
}

void __wrap_free(void *at) {
    blocks -= 1;
    __real_free(at);
}

typedef struct {
    tcrx_settings settings;
    tcrx_queue queues[MOST_QUEUES + 1];
    size_t queue_count;
    tcrx_map maps[MOST_MAPS + 1];
    size_t map_count;
    bool limited;
    uint32_t others;
    tcrx_limit limits[MOST_MAPS + 1];
    size_t limit_count;
} plan;

/* The following functions return the limit of a MAP, the largest limit, and the sum of all limits. */
static uint32_t limit_of(const plan *p, unsigned map) {
    for (size_t i = 0; p->limited && i < p->limit_count; i++) {
        if (p->limits[i].map == map) return p->limits[i].octets;
    }
    return p->limited ? p->others : LARGEST;
}

static uint32_t largest_of(const plan *p) {
    uint32_t largest = p->limited ? p->others : LARGEST;
    for (size_t i = 0; p->limited && i < p->limit_count; i++) {
        if (p->limits[i].octets > largest) largest = p->limits[i].octets;
    }
    return p->settings.segmented == 0 && largest > 1019 ? 1019 : largest;
}

static uint64_t all_limits(const plan *p) {
    uint64_t all = 0;
    for (unsigned map = 0; map < MOST_MAPS; map++) all += limit_of(p, map);
    return all;
}

static uint64_t items_of(const plan *p) {
    uint64_t items = 0;
    for (size_t i = 0; i < p->queue_count; i++) items += p->queues[i].capacity;
    for (size_t i = 0; i < p->map_count; i++) items += p->maps[i].capacity;
    return items;
}

/* Returns how many bytes a static array has for the channel, by the macros for its parts. */
static uint64_t static_storage(const plan *p) {
    uint64_t parts = TCRX_STORAGE_BUFFER(p->settings.buffer) + TCRX_STORAGE_LIMITS(p->limited ? p->limit_count : 0);
    if (p->settings.segmented == 1) parts += TCRX_STORAGE_SEGMENTED(all_limits(p));
    for (size_t i = 0; i < p->queue_count; i++) parts += TCRX_STORAGE_QUEUES(1, p->queues[i].capacity, largest_of(p));
    for (size_t i = 0; i < p->map_count; i++) parts += TCRX_STORAGE_MAPS(1, p->maps[i].capacity, largest_of(p));
    if (p->queue_count >= 8) parts += TCRX_STORAGE_TABLE;
    if (p->map_count >= 8) parts += TCRX_STORAGE_TABLE;
    return TCRX_STORAGE_OF(parts);
}

/* Computes the storage part by part, as docs/explanation/memory.md describes it. */
static uint64_t sum(const plan *p) {
    const uint64_t buffer = p->settings.buffer * (UINT64_C(32) + 1019);
    const uint64_t runs = p->settings.segmented == 1 ? 128 * 40 + 2 * all_limits(p) : 0;
    const uint64_t tables = (p->queue_count < 8 ? 0 : 2048 * 2) + (p->map_count < 8 ? 0 : 2048 * 2);
    return buffer + runs + 64 * (p->queue_count + p->map_count) + items_of(p) * (32 + (uint64_t)largest_of(p)) + tables;
}

static tcrx_count ask(const plan *p) {
    return p->limited ? tcrx_storage_with_limits(p->settings, p->queues, p->queue_count, p->maps, p->map_count, p->others, p->limits,
                                                 p->limit_count)
                      : tcrx_storage(p->settings, p->queues, p->queue_count, p->maps, p->map_count);
}

static tcrx_status make(tcrx_channel *channel, const plan *p) {
    return p->limited ? tcrx_channel_new_with_limits(channel, p->settings, p->queues, p->queue_count, p->maps, p->map_count,
                                                     p->others, p->limits, p->limit_count)
                      : tcrx_channel_new(channel, p->settings, p->queues, p->queue_count, p->maps, p->map_count);
}

/* Checks the storage of settings that create a channel, or their status. A channel that needs much memory isn't
 * created. */
static void check(const plan *p, uint64_t place) {
    tcrx_channel channel = TCRX_HOLDS_NONE;
    asked = 0;
    const tcrx_count storage = ask(p);
    expect(asked == 0 || !is_exact, "a call for the storage that requests memory", place);
    expect(storage.count == (storage.status == TCRX_DONE ? sum(p) : 0), "the storage", place);
    if (storage.count > MADE || !is_made(place)) {
        return;
    }
    const tcrx_status made = make(&channel, p);
    expect(storage.status == made, "the status of a storage", place);
    if (made == TCRX_DONE) {
        const size_t limits = p->limited ? p->limit_count : 0, lists = 4 * (p->queue_count + p->map_count) + 8 * limits;
        const uint64_t most = static_storage(p);
        const uint64_t all = storage.count + lists + OWN;
        expect(asked == all || !is_exact, "the bytes that the creation requests", place);
        expect(all + 63 < most && most <= all + 128, "the bytes that TCRX_STORAGE_OF gives", place);
    } else {
        expect(asked == 0 || !is_exact, "a refused creation that requests memory", place);
    }
    expect(tcrx_channel_free(&channel) == (made == TCRX_DONE ? TCRX_DONE : TCRX_NO_CHANNEL), "the status of freeing a channel", place);
    expect(blocks == 0 || !is_exact, "blocks that are left", place);
}

/* Returns a plan without limits, with `queues` queues for `capacity` packets each, and `maps` chosen MAPs with `units`
 * units each. */
static plan *plan_of(tcrx_settings settings, size_t queues, size_t capacity, size_t maps, size_t units) {
    static plan p;
    p.settings = settings;
    p.queue_count = queues;
    p.map_count = maps;
    p.limited = false;
    p.limit_count = 0;
    for (size_t i = 0; i < queues; i++) {
        p.queues[i].apid = (uint16_t)i;
        p.queues[i].capacity = (uint16_t)capacity;
    }
    for (size_t i = 0; i < maps; i++) {
        p.maps[i].map = (uint8_t)i;
        p.maps[i].capacity = (uint16_t)units;
    }
    return &p;
}

/* Limits a plan: one limit for the first `maps` MAPs, and another for the rest. */
static plan *limited(plan *p, size_t maps, uint32_t octets, uint32_t others) {
    p->limited = true;
    p->others = others;
    p->limit_count = maps;
    for (size_t i = 0; i < maps; i++) {
        p->limits[i].map = (uint8_t)i;
        p->limits[i].octets = octets;
    }
    return p;
}

/* Checks the channels of fixed storage that docs/explanation/memory.md names but c/README.md doesn't, and the largest
 * possible channel. */
static void check_named(void) {
    const tcrx_settings one = {1, 10, 1, 0, 1}, many = {1, 10, 64, 0, 1};
    expect(ask(plan_of(one, 1, 1, 0, 0)).count == 8461185, "the channel `fixed_one`", 0);
    expect(ask(plan_of(many, 70, 2, 3, 3)).count == 18241054, "the channel `fixed_many`", 0);
    expect(ask(plan_of(many, MOST_QUEUES, 256, MOST_MAPS, 256)).count == sum(plan_of(many, MOST_QUEUES, 256, MOST_MAPS, 256)),
           "the largest channel", 0);
}

/* Checks settings of all sorts, of which about half create a channel. */
static void check_any(uint64_t place) {
    const size_t odd = below(20);
    const tcrx_settings settings = {(uint8_t)below(odd == 0 ? 256 : 64), (uint8_t)(odd == 1 ? below(256) : 2 + 2 * below(127)),
                                    (uint8_t)(odd == 2 ? below(256) : 1 + below(64)), (uint8_t)below(256),
                                    (uint8_t)below(odd == 3 ? 4 : 2)};
    const size_t queues = below(below(4) == 0 ? 200 : 8), maps = below(below(4) == 0 ? MOST_MAPS + 1 : 8);
    plan *p = plan_of(settings, queues, 1 + below(8), settings.segmented == 1 || odd == 4 ? maps : 0, 1 + below(8));
    if (p->queue_count > 0) {
        tcrx_queue *queue = &p->queues[below(p->queue_count)];
        if (odd == 5) queue->apid = (uint16_t)below(4000);
        if (odd == 6) queue->capacity = (uint16_t)below(600);
    }
    if (p->map_count > 0) {
        tcrx_map *map = &p->maps[below(p->map_count)];
        if (odd == 7) map->map = (uint8_t)below(100);
        if (odd == 8) map->capacity = (uint16_t)below(600);
    }
    if (below(8) != 0) {
        const bool listed = settings.segmented == 1 || odd == 9;
        limited(p, listed ? below(12) : 0, 1 + (uint32_t)below(2000), odd == 10 ? (uint32_t)below(80000) : (uint32_t)below(3000) / 2);
        for (size_t i = 0; i < p->limit_count; i++) p->limits[i].octets = 1 + (uint32_t)below(2000);
    }
    if (p->limit_count > 0) {
        tcrx_limit *limit = &p->limits[below(p->limit_count)];
        if (odd == 11) limit->map = (uint8_t)below(100);
        if (odd == 12) limit->octets = (uint32_t)below(131072);
        if (odd == 13) p->others = 0;
    }
    check(p, place);
}

static void check_nothing(void) {
    const plan *p = plan_of((tcrx_settings){1, 10, 4, 0, 1}, 0, 0, 0, 0);
    const tcrx_count none = tcrx_storage(p->settings, NULL, 0, NULL, 0);
    expect(none.status == TCRX_DONE && none.count == sum(p), "no queues and no MAPs", 0);
    const tcrx_count others = tcrx_storage_with_limits(p->settings, NULL, 0, NULL, 0, LARGEST, NULL, 0);
    expect(others.status == TCRX_DONE && others.count == none.count, "the largest limit on each MAP", 0);
}

/* Returns a number with commas. */
static const char *number(uint64_t value, char *text) {
    char digits[24];
    const int count = snprintf(digits, sizeof digits, "%" PRIu64, value);
    size_t at = 0;
    for (int i = 0; i < count; i++) {
        if (i > 0 && (count - i) % 3 == 0) text[at++] = ',';
        text[at++] = digits[i];
    }
    text[at] = '\0';
    return text;
}

static void print_row(const char *settings, const char *limits, const plan *p) {
    char storage[32], array[32];
    printf("| %s | %s | %s | %s |\n", settings, limits, number(ask(p).count, storage), number(static_storage(p), array));
}

/* Prints the rows of the table of c/README.md. */
static void print_rows(void) {
    const tcrx_settings two = {1, 10, 4, 0, 1}, plain = {1, 10, 4, 0, 0}, eight = {1, 10, 8, 0, 1};
    const char *of_two = "segmented, buffer 4, two queues of 4", *of_four = "segmented, buffer 8, four queues of 8";
    print_row("plain, buffer 4, two queues of 4", "none", plan_of(plain, 2, 4, 0, 0));
    print_row(of_two, "256 on MAP 0, others 0", limited(plan_of(two, 2, 4, 0, 0), 1, 256, 0));
    print_row(of_four, "256 on MAP 0, others 0", limited(plan_of(eight, 4, 8, 0, 0), 1, 256, 0));
    print_row(of_four, "1,024 on MAP 0, others 0", limited(plan_of(eight, 4, 8, 0, 0), 1, 1024, 0));
    print_row(of_four, "1,024 on each MAP", limited(plan_of(eight, 4, 8, 0, 0), 0, 0, 1024));
    print_row(of_two, "none", plan_of(two, 2, 4, 0, 0));
    print_row(of_four, "none", plan_of(eight, 4, 8, 0, 0));
}

int main(int count, char **words) {
    if (count == 2 && words[1][0] == 'r') {
        print_rows();
        return 0;
    }
    check_named();
    check_nothing();
    for (uint64_t place = 0; place < 20000; place++) check_any(place);
    return close_with("results about storage");
}
