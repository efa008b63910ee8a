/* The bus of the stand-in. It brings two frames, and octets that aren't a frame, to c/examples/cfs.c, and prints the
 * messages that this application sends. */
#include "cfe.h"

#include <stdarg.h>
#include <stdio.h>
#include <string.h>

enum { MESSAGES = 3 };

/* Type-AD frames 0 and 1 of spacecraft 42, channel 1, and one that is cut short. */
static const uint8_t frames[MESSAGES][13] = {
    {0x00, 0x2a, 0x04, 0x0c, 0x00, 0xc0, 0x10, 0x05, 0xc0, 0x00, 0x00, 0x00, 0xaa},
    {0x00, 0x2a, 0x04, 0x0c, 0x01, 0xc0, 0x10, 0x05, 0xc0, 0x01, 0x00, 0x00, 0xbb},
    {0x00, 0x2a, 0x04, 0x0c, 0x02},
};
static const uint16_t counts[MESSAGES] = {13, 13, 5};
static unsigned brought;
static CFE_SB_Buffer_t radio, lent;

void TCRX_APP_Main(void);

static void print_octets(const char *what, const void *octets, size_t count) {
    printf("%s ", what);
    for (size_t i = 0; i < count; i++) {
        printf("%02x", ((const uint8_t *)octets)[i]);
    }
    printf("\n");
}

bool CFE_ES_RunLoop(uint32 *status) { return *status == CFE_ES_RunStatus_APP_RUN && brought < MESSAGES; }

void CFE_ES_ExitApp(uint32 status) { printf("exit %u\n", (unsigned)status); }

CFE_Status_t CFE_EVS_SendEvent(uint16 id, uint16 type, const char *form, ...) {
    va_list values;
    printf("event %u %u ", (unsigned)id, (unsigned)type);
    va_start(values, form);
    vprintf(form, values);
    va_end(values);
    printf("\n");
    return CFE_SUCCESS;
}

CFE_SB_MsgId_t CFE_SB_ValueToMsgId(uint32 value) { return value; }

CFE_Status_t CFE_SB_CreatePipe(CFE_SB_PipeId_t *pipe, uint16 depth, const char *name) {
    printf("pipe %s %u\n", name, (unsigned)depth);
    *pipe = 7;
    return CFE_SUCCESS;
}

CFE_Status_t CFE_SB_Subscribe(CFE_SB_MsgId_t id, CFE_SB_PipeId_t pipe) { return id == 0x1880 && pipe == 7 ? CFE_SUCCESS : -1; }

CFE_Status_t CFE_SB_ReceiveBuffer(CFE_SB_Buffer_t **message, CFE_SB_PipeId_t pipe, int32 patience) {
    uint8_t *octets = (uint8_t *)&radio;
    if (pipe != 7 || patience != CFE_SB_PEND_FOREVER) {
        return -1;
    }
    memset(&radio, 0, sizeof radio);
    memcpy(octets + sizeof(CFE_MSG_CommandHeader_t), &counts[brought], sizeof counts[brought]);
    memcpy(octets + sizeof(CFE_MSG_CommandHeader_t) + 2, frames[brought], counts[brought]);
    brought++;
    *message = &radio;
    return CFE_SUCCESS;
}

CFE_SB_Buffer_t *CFE_SB_AllocateMessageBuffer(size_t size) { return size <= sizeof lent ? &lent : NULL; }

CFE_Status_t CFE_SB_ReleaseMessageBuffer(CFE_SB_Buffer_t *message) { return message == &lent ? CFE_SUCCESS : -1; }

CFE_Status_t CFE_SB_TransmitBuffer(CFE_SB_Buffer_t *message, bool is_origination) {
    const uint8_t *octets = (const uint8_t *)message;
    print_octets(is_origination ? "made" : "passed on", octets, 7u + (octets[4] << 8 | octets[5]));
    return CFE_SUCCESS;
}

CFE_Status_t CFE_SB_TransmitMsg(const CFE_MSG_Message_t *message, bool is_origination) {
    uint32_t word;
    memcpy(&word, (const uint8_t *)message + sizeof(CFE_MSG_TelemetryHeader_t), sizeof word);
    printf("%s %08x\n", is_origination ? "clcw" : "passed on", (unsigned)word);
    return CFE_SUCCESS;
}

CFE_Status_t CFE_MSG_Init(CFE_MSG_Message_t *message, CFE_SB_MsgId_t id, size_t size) {
    memset(message, 0, size);
    message->octets[0] = (uint8)(id >> 8);
    message->octets[1] = (uint8)id;
    return CFE_SUCCESS;
}

int main(void) {
    TCRX_APP_Main();
    return 0;
}
