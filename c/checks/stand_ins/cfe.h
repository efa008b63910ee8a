/*
 * A stand-in for cfe.h of cFS. It has the parts that c/examples/cfs.c uses, and was written for this repository from
 * the names and parameters of the public interface, so that the example compiles and runs. It isn't a part of cFS, and
 * shows nothing about it.
 */
#ifndef CFE_H
#define CFE_H

#include <stdbool.h>
#include <stddef.h>
#include <stdint.h>

typedef uint8_t uint8;
typedef uint16_t uint16;
typedef uint32_t uint32;
typedef int32_t int32;
typedef int32 CFE_Status_t;
typedef uint32 CFE_SB_PipeId_t;
typedef uint32 CFE_SB_MsgId_t;
typedef struct {
    uint8 octets[6];
} CFE_MSG_Message_t;
typedef struct {
    CFE_MSG_Message_t Msg;
    uint8 secondary[2];
} CFE_MSG_CommandHeader_t;
typedef struct {
    CFE_MSG_Message_t Msg;
    uint8 secondary[6];
} CFE_MSG_TelemetryHeader_t;
typedef union {
    CFE_MSG_Message_t Msg;
    uint64_t aligned[130];
} CFE_SB_Buffer_t;

#define CFE_SUCCESS 0
#define CFE_SB_PEND_FOREVER (-1)
#define CFE_MSG_PTR(header) (&(header).Msg)
enum { CFE_ES_RunStatus_APP_RUN = 1, CFE_ES_RunStatus_APP_EXIT, CFE_ES_RunStatus_APP_ERROR };
enum { CFE_EVS_EventType_ERROR = 3 };

bool CFE_ES_RunLoop(uint32 *status);
void CFE_ES_ExitApp(uint32 status);
CFE_Status_t CFE_EVS_SendEvent(uint16 id, uint16 type, const char *form, ...);
CFE_SB_MsgId_t CFE_SB_ValueToMsgId(uint32 value);
CFE_Status_t CFE_SB_CreatePipe(CFE_SB_PipeId_t *pipe, uint16 depth, const char *name);
CFE_Status_t CFE_SB_Subscribe(CFE_SB_MsgId_t id, CFE_SB_PipeId_t pipe);
CFE_Status_t CFE_SB_ReceiveBuffer(CFE_SB_Buffer_t **message, CFE_SB_PipeId_t pipe, int32 patience);
CFE_SB_Buffer_t *CFE_SB_AllocateMessageBuffer(size_t size);
CFE_Status_t CFE_SB_ReleaseMessageBuffer(CFE_SB_Buffer_t *message);
CFE_Status_t CFE_SB_TransmitBuffer(CFE_SB_Buffer_t *message, bool is_origination);
CFE_Status_t CFE_SB_TransmitMsg(const CFE_MSG_Message_t *message, bool is_origination);
CFE_Status_t CFE_MSG_Init(CFE_MSG_Message_t *message, CFE_SB_MsgId_t id, size_t size);

#endif
