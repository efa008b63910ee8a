/*
 * A program for a Cortex-M3 without an operating system and without a C library's heap or streams. It runs a script on
 * one channel, and prints the answers in the words of the program tcrx. It prints by semihosting, which qemu-system-arm
 * and debuggers support. At the end it prints how many bytes of the stack were used. checks/targets compiles a script
 * into it, and compares its output.
 */
#include "tcrx.h"

#include <stdbool.h>
#include <string.h>

extern const char script[];
extern const unsigned spacecraft;
extern uint32_t stack_top, data_load, data_start, data_end, bss_start, bss_end;
void reset(void);
void abort(void);

__attribute__((section(".vectors"), used)) const void *const vectors[] = {&stack_top, (const void *)reset};

enum { WRITE_TEXT = 4, EXIT = 0x20, EXIT_REASON = 0x20026, MOST_WORDS = 6, MOST_UNIT = 256, MOST_OCTETS = 70000 };

static int ask_host(int what, const void *with) {
    register int r0 __asm__("r0") = what;
    register const void *r1 __asm__("r1") = with;
    __asm__ volatile("bkpt 0xab" : "+r"(r0) : "r"(r1) : "memory");
    return r0;
}

static void end(uint32_t status) {
    const uint32_t words[] = {EXIT_REASON, status};
    ask_host(EXIT, words);
    for (;;) {
    }
}

static void say(const char *text) {
    ask_host(WRITE_TEXT, text);
}

void abort(void) {
    say("the module can't go on\n");
    end(1);
}

static void say_number(uint32_t number) {
    char text[11];
    char *at = text + sizeof text - 1;
    *at = '\0';
    do {
        *--at = (char)('0' + number % 10);
        number /= 10;
    } while (number > 0);
    say(at);
}

static void say_field(const char *name, uint32_t number) {
    say(name);
    say_number(number);
}

static void say_hex(uint32_t word, int digits) {
    char text[9];
    for (int i = 0; i < digits; i++) {
        text[i] = "0123456789abcdef"[word >> 4 * (digits - 1 - i) & 15];
    }
    text[digits] = '\0';
    say(text);
}

/* The words of a line, each with its length. read_line() returns the place of the next line. */
typedef struct {
    const char *at[MOST_WORDS];
    size_t length[MOST_WORDS];
    size_t count;
} line;

static const char *read_line(const char *at, line *read) {
    read->count = 0;
    while (*at != '\0' && *at != '\n') {
        const size_t length = strcspn(at, " \n");
        if (length > 0 && read->count < MOST_WORDS) {
            read->at[read->count] = at;
            read->length[read->count++] = length;
        }
        at += length;
        at += *at == ' ' ? 1 : 0;
    }
    return *at == '\n' ? at + 1 : at;
}

static bool is_word(const line *read, const char *word) {
    return read->length[0] == strlen(word) && memcmp(read->at[0], word, read->length[0]) == 0;
}

static unsigned number(const line *read, size_t i) {
    unsigned value = 0;
    for (size_t at = 0; i < read->count && at < read->length[i]; at++) {
        value = 10 * value + (unsigned)(read->at[i][at] - '0');
    }
    return value;
}

static uint8_t octets[MOST_OCTETS];

static unsigned digit(char c) {
    return (unsigned)(c <= '9' ? c - '0' : (c | 32) - 'a' + 10);
}

static size_t read_octets(const line *read) {
    const size_t count = read->length[1] / 2;
    for (size_t i = 0; i < count; i++) {
        octets[i] = (uint8_t)(digit(read->at[1][2 * i]) << 4 | digit(read->at[1][2 * i + 1]));
    }
    return count;
}

static tcrx_channel channel = TCRX_HOLDS_NONE;
static tcrx_settings settings;
static tcrx_queue queues[8];
static size_t queue_count;

static void make(void) {
    const tcrx_status status = tcrx_channel_new_with_limits(&channel, settings, queues, queue_count, NULL, 0, MOST_UNIT, NULL, 0);
    if (status != TCRX_DONE) {
        say_field("no channel: ", status);
        end(1);
    }
}

static void bring(const line *read) {
    const size_t count = read_octets(read);
    const tcrx_frame frame = tcrx_read_frame(octets, count);
    const tcrx_reply reply = tcrx_channel_frame(&channel, octets, count);
    if (reply.status != TCRX_DONE || frame.header.scid != spacecraft) {
        say_field("refused: ", reply.status);
        end(1);
    }
    say_field("frame ", frame.header.vcid);
    say_field(" E", reply.event);
    say_field(" accepted ", reply.accepted);
    say_field(" queued ", reply.queued);
    say_field(" dropped ", reply.dropped);
    say_field(" rest ", reply.rest);
}

/* Returns whether a call was refused. If so, prints the refusal. */
static bool is_refused(tcrx_status status) {
    if (status == TCRX_EMPTY) {
        say("refused empty");
    } else if (status != TCRX_DONE) {
        say_field("refused by status ", status);
    }
    return status != TCRX_DONE;
}

static void release(unsigned vcid) {
    const tcrx_delivery delivery = tcrx_channel_release(&channel);
    if (is_refused(delivery.status)) {
        return;
    }
    say_field("release ", vcid);
    say_field(" queued ", delivery.queued);
    say_field(" dropped ", delivery.dropped);
    say_field(" rest ", delivery.rest);
}

static void take(unsigned vcid, unsigned apid) {
    const tcrx_written packet = tcrx_channel_take(&channel, (uint16_t)apid, octets, sizeof octets);
    if (is_refused(packet.status)) {
        return;
    }
    say_field("take ", vcid);
    say_field(" ", apid);
    say(" ");
    for (size_t i = 0; i < packet.length; i++) {
        say_hex(octets[i], 2);
    }
}

static void say_clcw(const char *name, unsigned vcid) {
    say_field(name, vcid);
    say(" ");
    say_hex(tcrx_channel_clcw(&channel, 0, 0).word, 8);
}

/* Returns whether the line sets something up. */
static bool sets_up(const line *read) {
    if (is_word(read, "channel")) {
        const tcrx_settings given = {(uint8_t)number(read, 1), (uint8_t)number(read, 2), (uint8_t)number(read, 3),
                                     (uint8_t)number(read, 4), read->count < 6};
        settings = given;
    } else if (is_word(read, "queue") && queue_count < sizeof queues / sizeof queues[0]) {
        queues[queue_count].apid = (uint16_t)number(read, 2);
        queues[queue_count++].capacity = (uint16_t)number(read, 3);
    } else {
        return false;
    }
    return true;
}

static void operate(const line *read) {
    if (!channel.held) {
        make();
    }
    if (is_word(read, "frame")) {
        bring(read);
    } else if (is_word(read, "release")) {
        release(number(read, 1));
    } else if (is_word(read, "take")) {
        take(number(read, 1), number(read, 2));
    } else {
        say_clcw("clcw ", number(read, 1));
    }
    say("\n");
}

static void report(void) {
    say_clcw("final ", settings.vcid);
    say_field(" events ", (uint32_t)tcrx_channel_events(&channel).count);
    say_field(" buffered ", (uint32_t)tcrx_channel_buffered(&channel).count);
    say("\n");
    for (size_t i = 0; i < queue_count; i++) {
        say_field("queue ", settings.vcid);
        say_field(" ", queues[i].apid);
        say_field(" ", (uint32_t)tcrx_channel_queued(&channel, queues[i].apid).count);
        say("\n");
    }
}

/* The stack is filled below this function, and examined at the end. The words that changed are the ones that were
 * used. */
enum { FILLED_WORDS = 16384 };
static const uint32_t filling = 0xdeadbeefu;

static void fill_stack(void) {
    const uintptr_t below = (uintptr_t)__builtin_frame_address(0) - 256, top = (uintptr_t)&stack_top;
    for (uintptr_t at = top - 4 * FILLED_WORDS; at < below; at += 4) {
        *(volatile uint32_t *)at = filling;
    }
}

static void report_stack(void) {
    const uintptr_t top = (uintptr_t)&stack_top;
    uintptr_t at = top - 4 * FILLED_WORDS;
    while (*(const volatile uint32_t *)at == filling) {
        at += 4;
    }
    say_field("stack ", (uint32_t)(top - at));
    say("\n");
}

void reset(void) {
    memcpy(&data_start, &data_load, (uintptr_t)&data_end - (uintptr_t)&data_start);
    memset(&bss_start, 0, (uintptr_t)&bss_end - (uintptr_t)&bss_start);
    fill_stack();
    for (const char *at = script; *at != '\0';) {
        line read;
        at = read_line(at, &read);
        if (read.count > 0 && read.at[0][0] != '#' && !sets_up(&read)) {
            operate(&read);
        }
    }
    report();
    report_stack();
    end(tcrx_channel_free(&channel) == TCRX_DONE ? 0 : 1);
}
