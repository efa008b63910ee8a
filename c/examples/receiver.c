/*
 * Runs a receiver's main loop over single calls. Octets come in, FARM-1 takes a step, the data field of an accepted
 * Type-AD frame waits in a buffer with room for one, and a CLCW goes out in each cycle. For the packet in a released
 * data field the program prints its application.
 */
#include <tcrx.h>

#include <inttypes.h>
#include <stdbool.h>
#include <stdio.h>
#include <string.h>

enum { SPACECRAFT = 42, CHANNEL = 1, WIDTH = 10, MOST_OCTETS = 1019 };

typedef struct {
    tcrx_farm farm;
    uint8_t field[MOST_OCTETS];
    size_t count;
    bool full;
} receiver;

static void print_refusal(tcrx_status status) {
    char text[TCRX_TEXT_ROOM];
    const tcrx_written written = tcrx_text(status, text, sizeof text);
    printf("refused: %s\n", written.status == TCRX_DONE ? text : "no such status");
}

static void print_clcw(const receiver *self) {
    const tcrx_clcw_answer clcw = tcrx_clcw(self->farm, CHANNEL, 0, 0);
    printf("clcw %08" PRIx32 "\n", clcw.word);
}

/* Prints the packet of a data field that is an unsegmented unit. The packet follows the segment header, which is one
 * octet. */
static void print_packet(const uint8_t *field, size_t count) {
    const tcrx_packet packet = tcrx_read_packet(field + 1, count - 1);
    if (packet.status != TCRX_DONE) {
        print_refusal(packet.status);
        return;
    }
    printf("packet of application %u with %" PRIu32 " octets\n", (unsigned)packet.apid, packet.length);
}

/* Takes one step of FARM-1, and keeps its new record. */
static tcrx_step_answer step(receiver *self, uint8_t arrival, uint8_t number) {
    const tcrx_step_answer answer = tcrx_farm_step(self->farm, arrival, number, self->full ? 0 : 1);
    self->farm = answer.farm;
    return answer;
}

static void take_octets(receiver *self, const uint8_t *octets, size_t count) {
    const tcrx_frame frame = tcrx_read_frame(octets, count);
    if (frame.status != TCRX_DONE) {
        print_refusal(frame.status);
        return;
    }
    if (frame.header.scid != SPACECRAFT || frame.header.vcid != CHANNEL) {
        printf("not for this channel\n");
        return;
    }
    const tcrx_kind_answer kind = tcrx_kind(octets, count);
    const tcrx_step_answer answer = step(self, kind.kind, kind.number);
    if (answer.status != TCRX_DONE) {
        print_refusal(answer.status);
        return;
    }
    printf("frame E%u accepted %u\n", (unsigned)answer.event, (unsigned)answer.accepted);
    if (answer.accepted == 0) {
        return;
    }
    const size_t field_count = (size_t)frame.length - 5;
    if (kind.kind == TCRX_BD) {
        print_packet(octets + 5, field_count);
        return;
    }
    memcpy(self->field, octets + 5, field_count);
    self->count = field_count;
    self->full = true;
}

static void release(receiver *self) {
    if (!self->full) {
        printf("empty\n");
        return;
    }
    self->full = false;
    step(self, TCRX_RELEASE, 0);
    print_packet(self->field, self->count);
}

int main(void) {
    static const uint8_t first[] = {0x00, 0x2a, 0x04, 0x0c, 0x00, 0xc0, 0x10, 0x05, 0xc0, 0x00, 0x00, 0x00, 0xaa};
    static const uint8_t second[] = {0x00, 0x2a, 0x04, 0x0c, 0x01, 0xc0, 0x10, 0x05, 0xc0, 0x00, 0x00, 0x00, 0xaa};
    receiver self;
    memset(&self, 0, sizeof self);
    const tcrx_farm_answer started = tcrx_farm_start(WIDTH, 0);
    if (started.status != TCRX_DONE) {
        print_refusal(started.status);
        return 1;
    }
    self.farm = started.farm;
    print_clcw(&self);
    take_octets(&self, first, sizeof first);
    print_clcw(&self);
    take_octets(&self, second, sizeof second);
    print_clcw(&self);
    release(&self);
    print_clcw(&self);
    take_octets(&self, first, 12);
    release(&self);
    return 0;
}
