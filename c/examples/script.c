/*
 * The receiver of a spacecraft at the command line, over the library for C. You can start your own program from it. It
 * answers in the words of the programs tcrx and tclive, without the hints behind a colon. Their pages (docs/reference)
 * describe the lines.
 *
 *   script run --scid N         runs the script on standard input, as tcrx does
 *   script --scid N [--fecf]    answers each line of standard input as it comes, as tclive does
 *
 * The library decides the outcome of a frame, and its calls are proved. This file isn't proved. It takes lines apart,
 * keeps the settings of channels, and prints. A check compares its output with that of the proved programs.
 */
#include <tcrx.h>

#include <inttypes.h>
#include <stdbool.h>
#include <stdio.h>
#include <stdlib.h>
#include <string.h>

enum { CHANNELS = 64, QUEUES = 2047, MAPS = 64, LONGEST = 8192, LONGEST_SCRIPT = 1048576, MOST_WORDS = 7, MOST_OCTETS = 65542 };

/* --- Lines --- */

typedef struct {
    const char *at;
    size_t length;
} word;

static char line[LONGEST_SCRIPT + 1];
static word words[MOST_WORDS];
static size_t word_count;
/* The numbers of a line, and the octets of a frame. */
static unsigned numbers[MOST_WORDS];
static uint8_t octets[LONGEST_SCRIPT / 2];
static size_t octet_count;

/* True if standard input is a script, which is read whole. Otherwise lines are read one by one. */
static bool is_script;
static char script[LONGEST_SCRIPT + 1];
static size_t script_length, script_read;

static int next_octet(void) {
    if (!is_script) {
        return getchar();
    }
    return script_read == script_length ? EOF : (unsigned char)script[script_read++];
}

/* Reads a line into `line`, without its line feed, and sets its length. Keeps no more octets than a line may have.
 * Returns false at the end. */
static bool next_line(size_t *length) {
    const size_t most = is_script ? LONGEST_SCRIPT : LONGEST;
    int octet = next_octet();
    *length = 0;
    if (octet == EOF) {
        return false;
    }
    for (; octet != EOF && octet != '\n'; octet = next_octet()) {
        if (*length < most) {
            line[*length] = (char)octet;
        }
        ++*length;
    }
    return true;
}

/* Splits a line into words. Stops at MOST_WORDS words, one more than any command may have. */
static void split(size_t length) {
    word_count = 0;
    for (size_t at = 0; at < length && word_count < MOST_WORDS;) {
        size_t end = at;
        while (end < length && line[end] != ' ' && line[end] != '\t' && line[end] != '\r') {
            end++;
        }
        if (end > at) {
            words[word_count].at = line + at;
            words[word_count++].length = end - at;
        }
        at = end + 1;
    }
}

static bool is_word(word given, const char *text) {
    return given.length == strlen(text) && memcmp(given.at, text, given.length) == 0;
}

/* Reads a number of 1 to 5 decimal digits. Returns false if the word isn't one, or if the number is over `most`. */
static bool read_number(word given, unsigned most, unsigned *number) {
    *number = 0;
    for (size_t i = 0; i < given.length; i++) {
        if (given.at[i] < '0' || given.at[i] > '9') {
            return false;
        }
        *number = 10 * *number + (unsigned)(given.at[i] - '0');
    }
    return given.length >= 1 && given.length <= 5 && *number <= most;
}

static int digit(char c) {
    const char *const digits = "0123456789abcdef", *found = memchr(digits, c >= 'A' && c <= 'F' ? c + ('a' - 'A') : c, 16);
    return found == NULL ? -1 : (int)(found - digits);
}

static bool read_octets(word given) {
    octet_count = given.length / 2;
    for (size_t i = 0; i < octet_count; i++) {
        const int high = digit(given.at[2 * i]), low = digit(given.at[2 * i + 1]);
        if (high < 0 || low < 0) {
            return false;
        }
        octets[i] = (uint8_t)(high << 4 | low);
    }
    return given.length % 2 == 0;
}

/* --- Channels --- */

typedef struct {
    bool is_there;
    tcrx_settings settings;
    tcrx_queue queues[QUEUES + 1];
    size_t queue_count;
    tcrx_map maps[MAPS + 1];
    size_t map_count;
    uint8_t no_rf, no_bit_lock;
} receiver;

/* The settings of each channel, and the rack. From the first operation on, each channel is at the place of its id in the
 * rack. */
static receiver receivers[CHANNELS];
static tcrx_channel rack[CHANNELS];
static bool is_operating;
static uint16_t scid;
static uint8_t has_fecf;

/* The reason why a line is bad, or null. */
typedef const char *reason;

/* Returns the reason why the library rejects settings, or null if it accepts them. */
static reason judge(const receiver *at) {
    switch (tcrx_storage(at->settings, at->queues, at->queue_count, at->maps, at->map_count).status) {
    case TCRX_DONE: return NULL;
    case TCRX_BAD_VCID: return "bad channel";
    case TCRX_BAD_WIDTH: return "bad window";
    case TCRX_BAD_BUFFER: return "bad buffer";
    case TCRX_BAD_APID: return "bad application";
    case TCRX_DOUBLE_APID: return "double application";
    case TCRX_BAD_CAPACITY: return "bad capacity";
    case TCRX_BAD_MAP: return "bad map";
    case TCRX_DOUBLE_MAP: return "double map";
    case TCRX_BAD_UNITS: return "bad units";
    case TCRX_PLAIN_MAP: return "map on plain channel";
    default: return "no memory";
    }
}

static receiver *find(unsigned vcid) {
    return vcid < CHANNELS && receivers[vcid].is_there ? &receivers[vcid] : NULL;
}

static tcrx_channel *held_by(const receiver *at) {
    return &rack[at->settings.vcid];
}

static void free_all(void) {
    for (unsigned i = 0; i < CHANNELS; i++) {
        tcrx_channel_free(&rack[i]);
    }
}

/* Creates all channels, or none. */
static reason make_all(void) {
    for (unsigned i = 0; i < CHANNELS; i++) {
        const receiver *at = find(i);
        if (at != NULL && tcrx_channel_new(&rack[i], at->settings, at->queues, at->queue_count, at->maps, at->map_count) != TCRX_DONE) {
            free_all();
            return "no memory";
        }
    }
    is_operating = true;
    return NULL;
}

/* Creates the channels at the first operation. */
static reason begin(void) {
    bool is_any = false;
    for (unsigned i = 0; i < CHANNELS; i++) {
        is_any = is_any || receivers[i].is_there;
    }
    return !is_any ? "no channel" : is_operating ? NULL : make_all();
}

/* --- Lines that set up --- */

static reason set_up_channel(void) {
    static const receiver none;
    if (word_count == 6 && !is_word(words[5], "plain")) {
        return "bad option";
    }
    const tcrx_settings settings = {(uint8_t)numbers[1], (uint8_t)numbers[2], (uint8_t)numbers[3], (uint8_t)numbers[4], word_count == 5};
    receiver *at = find(numbers[1]);
    if (is_operating || at != NULL) {
        return is_operating ? "too late" : "double channel";
    }
    at = &receivers[numbers[1] < CHANNELS ? numbers[1] : 0];
    const receiver before = *at;
    *at = none;
    at->is_there = true;
    at->settings = settings;
    const reason why = judge(at);
    if (why != NULL) {
        *at = before;
    }
    return why;
}

/* Adds a queue at the end of its list. Removes it again if the library rejects the settings. */
static reason set_up_queue(void) {
    receiver *at = find(numbers[1]);
    if (is_operating || at == NULL) {
        return is_operating ? "too late" : "unknown channel";
    }
    const tcrx_queue queue = {(uint16_t)numbers[2], (uint16_t)numbers[3]};
    at->queues[at->queue_count++] = queue;
    const reason why = judge(at);
    at->queue_count -= why != NULL;
    return why;
}

static reason set_up_map(void) {
    receiver *at = find(numbers[1]);
    if (is_operating || at == NULL) {
        return is_operating ? "too late" : "unknown channel";
    }
    const tcrx_map map = {(uint8_t)numbers[2], (uint16_t)numbers[3]};
    at->maps[at->map_count++] = map;
    const reason why = judge(at);
    at->map_count -= why != NULL;
    return why;
}

/* --- Operations --- */

static const char *refusal(tcrx_status status) {
    switch (status) {
    case TCRX_SHORT: return "short";
    case TCRX_BAD_VERSION: return "version";
    case TCRX_SPARE: return "spare";
    case TCRX_LENGTH_SMALL: return "length";
    case TCRX_TRUNCATED: return "truncated";
    case TCRX_OTHER_SPACECRAFT: return "spacecraft";
    case TCRX_UNKNOWN_CHANNEL: return "channel";
    case TCRX_NO_QUEUE: return "no queue";
    case TCRX_NO_MAP: return "no map";
    case TCRX_EMPTY: return "empty";
    default: return "by another status";
    }
}

/* Returns whether a call was refused. If so, prints the refusal. */
static bool is_refused(tcrx_status status) {
    if (status != TCRX_DONE) {
        printf("refused %s\n", refusal(status));
    }
    return status != TCRX_DONE;
}

static void print_delivery(uint32_t queued, uint32_t dropped, uint8_t rest) {
    printf(" queued %" PRIu32 " dropped %" PRIu32 " rest %u\n", queued, dropped, (unsigned)rest);
}

static void print_clcw(const char *what, const receiver *at, uint8_t no_rf, uint8_t no_bit_lock) {
    printf("%s %u %08" PRIx32, what, (unsigned)at->settings.vcid, tcrx_channel_clcw(held_by(at), no_rf, no_bit_lock).word);
}

static void print_counts(const char *begin_with, const char *end_with, const receiver *at, bool with_id) {
    char id[8] = "";
    if (with_id) {
        snprintf(id, sizeof id, "%u ", (unsigned)at->settings.vcid);
    }
    for (size_t i = 0; i < at->queue_count; i++) {
        const uint16_t apid = at->queues[i].apid;
        printf("%squeue %s%u %" PRIu64 "%s", begin_with, id, (unsigned)apid, tcrx_channel_queued(held_by(at), apid).count, end_with);
    }
    for (size_t i = 0; i < at->map_count; i++) {
        const uint8_t map = at->maps[i].map;
        printf("%smap %s%u %" PRIu64 "%s", begin_with, id, (unsigned)map, tcrx_channel_units(held_by(at), map).count, end_with);
    }
}

/* Brings a frame to the channel that it is for. If frames have a frame error control field, it is checked first and
 * removed. Octets that don't pass the check aren't an operation. */
static reason bring(void) {
    if (has_fecf) {
        static uint8_t plain[1024];
        const tcrx_written checked = tcrx_check_fecf(octets, octet_count, plain, sizeof plain);
        if (checked.status != TCRX_DONE) {
            printf("refused check\n");
            return NULL;
        }
        octet_count = checked.length;
        memcpy(octets, plain, octet_count);
    }
    const reason why = begin();
    if (why != NULL) {
        return why;
    }
    const tcrx_rack_reply reply = tcrx_rack_frame(rack, CHANNELS, scid, 0, octets, octet_count);
    if (!is_refused(reply.status)) {
        printf("frame %u E%u accepted %u", (unsigned)reply.vcid, (unsigned)reply.event, (unsigned)reply.accepted);
        print_delivery(reply.queued, reply.dropped, reply.rest);
    }
    return NULL;
}

/* Brings the frame that a CLTU carried. Up to six octets that don't begin with a frame may follow it as fill. If more
 * follows, refuses the octets. */
static reason bring_candidate(void) {
    const tcrx_frame frame = tcrx_read_frame(octets, octet_count);
    if (frame.status == TCRX_DONE) {
        const size_t rest = octet_count - frame.length;
        if (rest > 6 || tcrx_read_frame(octets + frame.length, rest).status == TCRX_DONE) {
            printf("refused more\n");
            return NULL;
        }
        octet_count = frame.length;
    }
    return bring();
}

static void release(const receiver *at) {
    const tcrx_delivery delivery = tcrx_channel_release(held_by(at));
    if (!is_refused(delivery.status)) {
        printf("release %u", (unsigned)at->settings.vcid);
        print_delivery(delivery.queued, delivery.dropped, delivery.rest);
    }
}

/* Takes a packet or a unit, and prints it. Otherwise prints the refusal, unless `is_asked` is set and no item waits.
 * Returns whether an item was taken. */
static bool take(const receiver *at, bool is_unit, unsigned key, bool is_asked) {
    static uint8_t taken[MOST_OCTETS];
    const tcrx_written found = is_unit ? tcrx_channel_take_unit(held_by(at), (uint8_t)key, taken, sizeof taken)
                                       : tcrx_channel_take(held_by(at), (uint16_t)key, taken, sizeof taken);
    if ((is_asked && found.status == TCRX_EMPTY) || is_refused(found.status)) {
        return false;
    }
    printf("%s %u %u ", is_unit ? "unit" : "take", (unsigned)at->settings.vcid, key);
    for (size_t i = 0; i < found.length; i++) {
        printf("%02x", taken[i]);
    }
    printf("%s\n", found.length == 0 ? "-" : "");
    return true;
}

/* Takes everything that waits in the queues, in the order of the set-up. */
static void collect(const receiver *at) {
    for (size_t i = 0; i < at->queue_count; i++) {
        while (take(at, false, at->queues[i].apid, true)) {
        }
    }
    for (size_t i = 0; i < at->map_count; i++) {
        while (take(at, true, at->maps[i].map, true)) {
        }
    }
}

static void report(const receiver *at) {
    static const char *const states[] = {"", "open", "wait", "lockout"};
    const tcrx_farm farm = tcrx_channel_report(held_by(at)).farm;
    printf("report %u state %s vr %u lockout %u wait %u", (unsigned)at->settings.vcid, states[farm.state], (unsigned)farm.vr, (unsigned)farm.lockout,
           (unsigned)farm.wait);
    printf(" retransmit %u farm-b %u buffered %" PRIu64, (unsigned)farm.retransmit, (unsigned)farm.farm_b, tcrx_channel_buffered(held_by(at)).count);
    print_counts(" ", "", at, false);
    printf("\n");
}

typedef enum { CHANNEL, QUEUE, MAP, FRAME, RELEASE, TAKE, UNIT, CLCW, LINK, REPORT, DELIVER, COLLECT, CANDIDATE, COMMANDS } command;

static reason operate(command what) {
    const reason why = begin();
    if (why != NULL) {
        return why;
    }
    receiver *at = find(numbers[1]);
    if (at == NULL) {
        is_refused(TCRX_UNKNOWN_CHANNEL);
        return NULL;
    }
    switch (what) {
    case RELEASE: release(at); break;
    case TAKE: take(at, false, numbers[2], false); break;
    case UNIT: take(at, true, numbers[2], false); break;
    case REPORT: report(at); break;
    case LINK:
        at->no_rf = (uint8_t)numbers[2];
        at->no_bit_lock = (uint8_t)numbers[3];
        printf("link %u %u %u\n", numbers[1], numbers[2], numbers[3]);
        break;
    default:
        if (what == DELIVER) {
            release(at);
        }
        if (what != CLCW) {
            collect(at);
        }
        print_clcw("clcw", at, at->no_rf, at->no_bit_lock);
        printf("\n");
    }
    return NULL;
}

/* --- The words of a line --- */

typedef struct {
    const char *name;
    /* The least and the largest number of words, with the command among them, and the bound of each number. */
    size_t least, most;
    unsigned bounds[4];
} form;

static const form forms[COMMANDS] = {
    {"channel", 5, 6, {255, 255, 255, 255}},
    {"queue", 4, 4, {255, 65535, 65535, 0}},
    {"map", 4, 4, {255, 255, 65535, 0}},
    {"frame", 2, 2, {0}},
    {"release", 2, 2, {255, 0, 0, 0}},
    {"take", 3, 3, {255, 65535, 0, 0}},
    {"unit", 3, 3, {255, 255, 0, 0}},
    {"clcw", 2, 2, {255, 0, 0, 0}},
    {"link", 4, 4, {255, 1, 1, 0}},
    {"report", 2, 2, {255, 0, 0, 0}},
    {"deliver", 2, 2, {255, 0, 0, 0}},
    {"collect", 2, 2, {255, 0, 0, 0}},
    {"candidate", 2, 2, {0}},
};

/* Returns the command with which a line begins. A script may have only the commands before LINK. */
static command command_of(void) {
    const int last = is_script ? LINK : COMMANDS;
    for (int i = 0; i < last; i++) {
        if (is_word(words[0], forms[i].name)) {
            return (command)i;
        }
    }
    return COMMANDS;
}

/* Carries out the line that was split. Returns the reason if the line is bad. */
static reason do_line(command what) {
    if (what == COMMANDS) {
        return "unknown command";
    }
    if (word_count < forms[what].least || word_count > forms[what].most) {
        return "wrong number of words";
    }
    if (what == FRAME || what == CANDIDATE) {
        return !read_octets(words[1]) ? "bad hex" : what == FRAME ? bring() : bring_candidate();
    }
    for (size_t i = 1; i < forms[what].least; i++) {
        if (!read_number(words[i], forms[what].bounds[i - 1], &numbers[i])) {
            return "bad number";
        }
    }
    switch (what) {
    case CHANNEL: return set_up_channel();
    case QUEUE: return set_up_queue();
    case MAP: return set_up_map();
    default: return operate(what);
    }
}

/* Answers a line. Returns the reason if the line is bad. */
static reason answer(size_t length) {
    if (length > (is_script ? LONGEST_SCRIPT : LONGEST)) {
        return "too long";
    }
    split(length);
    if (word_count == 0 || words[0].at[0] == '#') {
        return NULL;
    }
    return do_line(command_of());
}

/* --- The program --- */

static int end_with(const char *text, unsigned long number) {
    fflush(stdout);
    if (is_script) {
        fprintf(stderr, "line %lu: %s\n", number, text);
    } else {
        fprintf(stderr, "script: %s\n", text);
    }
    return 1;
}

static int print_final(unsigned long count) {
    const reason why = is_operating ? NULL : make_all();
    if (why != NULL) {
        return end_with(why, count);
    }
    for (unsigned i = 0; i < CHANNELS; i++) {
        const receiver *at = find(i);
        if (at != NULL) {
            print_clcw("final", at, 0, 0);
            printf(" events %" PRIu64 " buffered %" PRIu64 "\n", tcrx_channel_events(held_by(at)).count, tcrx_channel_buffered(held_by(at)).count);
            print_counts("", "\n", at, true);
        }
    }
    free_all();
    return fflush(stdout) == 0 && !ferror(stdout) ? 0 : end_with("cannot write", 0);
}

static int answer_all(void) {
    size_t length;
    unsigned long count = 0;
    while (next_line(&length)) {
        const reason why = answer(length);
        count++;
        if (why != NULL && is_script) {
            return end_with(why, count);
        }
        if (why != NULL) {
            printf("%s%s\n", strncmp(why, "bad ", 4) == 0 ? "" : "bad ", why);
        }
        if (ferror(stdout) || (!is_script && fflush(stdout) != 0)) {
            return end_with("cannot write", 0);
        }
    }
    return ferror(stdin) ? end_with("cannot read", 0) : print_final(count);
}

static int read_script(void) {
    script_length = fread(script, 1, sizeof script, stdin);
    return ferror(stdin) ? end_with("cannot read", 0) : script_length > LONGEST_SCRIPT ? end_with("too long", 0) : answer_all();
}

int main(int count, char **given) {
    int at = 1;
    is_script = count > at && strcmp(given[at], "run") == 0;
    at += is_script;
    unsigned number = 0;
    const word digits = {count > at + 1 ? given[at + 1] : "", count > at + 1 ? strlen(given[at + 1]) : 0};
    const bool is_named = digits.length > 0 && strcmp(given[at], "--scid") == 0 && read_number(digits, 1023, &number);
    has_fecf = !is_script && count == at + 3 && strcmp(given[at + 2], "--fecf") == 0;
    if (!is_named || count != at + 2 + has_fecf) {
        fprintf(stderr, "usage: %s run --scid N < SCRIPT, or %s --scid N [--fecf]; N is 0 to 1023\n", given[0], given[0]);
        return 2;
    }
    scid = (uint16_t)number;
    return is_script ? read_script() : answer_all();
}
