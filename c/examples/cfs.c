/*
 * Shows how an application of cFS (core Flight System) calls a rack. Frames arrive in the radio's messages, packets go
 * out on the software bus unchanged, and a CLCW follows each message. All memory is that of tcrx_static.c, which is
 * sealed once the channels are created.
 *
 * It was tried only with the stand-ins in c/checks/stand_ins, and not with cFS.
 */
#include "cfe.h"

#include <tcrx.h>

enum { SPACECRAFT = 42, CHANNELS = 1, APPLICATION = 5, PACKETS = 8, BUFFER = 4, MOST_UNIT = 256, DEPTH = 16 };
enum { RADIO_MID = 0x1880, CLCW_MID = 0x0880 };
enum { REFUSED_EID = 1, START_EID = 2 };

typedef struct {
    CFE_MSG_CommandHeader_t header;
    uint16 count;
    uint8 octets[1024];
} radio_message;

typedef struct {
    CFE_MSG_TelemetryHeader_t header;
    uint32 word;
} clcw_message;

TCRX_STATIC_STORAGE(TCRX_STORAGE_OF(TCRX_STORAGE_BUFFER(BUFFER) + TCRX_STORAGE_SEGMENTED(MOST_UNIT)
                                    + TCRX_STORAGE_QUEUES(1, PACKETS, MOST_UNIT) + TCRX_STORAGE_LIMITS(1)));
static tcrx_channel rack[CHANNELS];
static clcw_message clcw;

static bool start(CFE_SB_PipeId_t *pipe) {
    const tcrx_settings settings = {1, 10, BUFFER, 0, 1};
    const tcrx_queue queue = {APPLICATION, PACKETS};
    const tcrx_limit limit = {0, MOST_UNIT};
    const tcrx_status made = tcrx_channel_new_with_limits(&rack[0], settings, &queue, 1, NULL, 0, 0, &limit, 1);
    tcrx_storage_seal();
    return made == TCRX_DONE && CFE_SB_CreatePipe(pipe, DEPTH, "TCRX") == CFE_SUCCESS
           && CFE_SB_Subscribe(CFE_SB_ValueToMsgId(RADIO_MID), *pipe) == CFE_SUCCESS
           && CFE_MSG_Init(CFE_MSG_PTR(clcw.header), CFE_SB_ValueToMsgId(CLCW_MID), sizeof clcw) == CFE_SUCCESS;
}

static void receive(const radio_message *message) {
    const size_t count = message->count < sizeof message->octets ? message->count : sizeof message->octets;
    const tcrx_rack_reply reply = tcrx_rack_frame(rack, CHANNELS, SPACECRAFT, 0, message->octets, count);
    if (reply.status != TCRX_DONE) {
        CFE_EVS_SendEvent(REFUSED_EID, CFE_EVS_EventType_ERROR, "TCRX: frame refused, status %u", (unsigned)reply.status);
    }
}

/* Sends all packets that wait on the bus, each under the message id in its primary header. Returns false if the bus had
 * no buffer. */
static bool send_packets(void) {
    for (;;) {
        CFE_SB_Buffer_t *message = CFE_SB_AllocateMessageBuffer(MOST_UNIT);
        if (message == NULL) {
            return false;
        }
        if (tcrx_channel_take(&rack[0], APPLICATION, (uint8_t *)message, MOST_UNIT).status != TCRX_DONE) {
            CFE_SB_ReleaseMessageBuffer(message);
            return true;
        }
        if (CFE_SB_TransmitBuffer(message, false) != CFE_SUCCESS) {
            CFE_SB_ReleaseMessageBuffer(message);
        }
    }
}

/* Releases data fields, each only after all packets before it are sent. If the bus has no buffer, the data fields wait,
 * so that the ground must wait, too. */
static void hand_on(void) {
    while (send_packets() && tcrx_channel_release(&rack[0]).status == TCRX_DONE) {
    }
}

void TCRX_APP_Main(void) {
    CFE_SB_PipeId_t pipe;
    CFE_SB_Buffer_t *message;
    uint32 status = start(&pipe) ? CFE_ES_RunStatus_APP_RUN : CFE_ES_RunStatus_APP_ERROR;
    while (CFE_ES_RunLoop(&status)) {
        if (CFE_SB_ReceiveBuffer(&message, pipe, CFE_SB_PEND_FOREVER) != CFE_SUCCESS) {
            status = CFE_ES_RunStatus_APP_ERROR;
            continue;
        }
        receive((const radio_message *)message);
        hand_on();
        clcw.word = tcrx_channel_clcw(&rack[0], 0, 0).word;
        CFE_SB_TransmitMsg(CFE_MSG_PTR(clcw.header), true);
    }
    CFE_ES_ExitApp(status);
}
