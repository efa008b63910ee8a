/**
 * @file tcrx.h
 * @brief The spacecraft's end of a CCSDS telecommand link, for C99 and C++11.
 *
 * The library has these parts:
 * - FARM-1, the frame acceptance and reporting mechanism (CCSDS 232.1-B)
 * - the CLCW, the communications link control word, and transfer frames (CCSDS 232.0-B)
 * - the primary header of space packets (CCSDS 133.0-B)
 * - CLTUs, the communications link transmission units (CCSDS 231.0-B)
 * - telemetry frames with a CLCW (CCSDS 132.0-B)
 * - a whole virtual channel of a receiver, with its buffer, its reassembly and its queues
 *
 * The library is libtcrx.a, or libtcrx.so, which contains the two memory functions of tcrx_memory.c. Its functions are
 * proved. From outside, the static library needs only memcpy, memmove and memset, and the two memory functions of
 * tcrx_memory.c or tcrx_static.c.
 *
 * @par Results
 * Each call returns a status, either alone or as the first field of a record. The status is #TCRX_DONE if the call
 * succeeded. Otherwise it is the first reason why the call failed, in the order in which the description of the call
 * lists them. If a call fails, each other number in the record that it returns is 0, unless the description of the
 * record says otherwise. A record that you pass by value may have any number in each of its fields. Flags are 0 or 1. A
 * compiler warns if you ignore the status of a call that creates a channel.
 *
 * @par Pointers and buffers
 * If you pass a pointer with a count, there must be as many octets or entries at the pointer as the count says. A call
 * fails with #TCRX_NULL if a pointer is null. Only a pointer to a list may be null, if the count of the list is 0. No
 * call can detect other bad pointers. No call keeps a pointer after it has returned. Apart from channels, a call writes
 * only to the buffer that its description names, which must not overlap anything else that you pass to the call. The
 * octets behind those that the call writes stay as they were. If the call fails, the whole buffer stays as it was.
 *
 * @par Threads
 * The library keeps nothing of its own between calls. Calls that take no channel may run in any threads, interrupt
 * handlers and signal handlers at the same time, as long as none writes octets that another one reads or writes. Calls
 * on a channel may be made from any thread, but not from an interrupt handler or a signal handler. Only one call at a
 * time may use a channel, so threads that share a channel need a lock.
 *
 * @par Memory
 * A channel has storage for each data field, packet, unit and open run (the segments of an unfinished unit) that its
 * settings and limits allow. All of this memory is requested from rattle_alloc when the channel is created, and
 * returned to rattle_dealloc when the channel is freed. No other call requests memory, so no other call can run out of
 * it. tcrx_memory.c defines the two functions over malloc and free. tcrx_static.c defines them over a static array,
 * which can be sealed after the start. Flight software may link two functions of its own instead, which must keep to
 * the rules in tcrx_memory.c.
 *
 * tcrx_storage() and tcrx_storage_with_limits() return how many bytes the creation of a channel requests. Without
 * limits, a channel with segment headers takes 8.4 MB or more, because the storage for one unit has 65,542 bytes.
 * Create such a channel with limits.
 *
 * @par The library as portable C
 * If TCRX_MODULE is defined, this is the header of the portable C that tools/portable writes. There, the calls that
 * take no channel share one memory. Without a lock they are for one thread at a time, and they must not be made from an
 * interrupt handler or a signal handler. The README of the portable C shows how to provide a lock.
 * tcrx_write_segment(), tcrx_read_packet(), tcrx_write_packet(), tcrx_storage() and tcrx_storage_with_limits() can also
 * fail with #TCRX_NO_MEMORY there.
 */
#ifndef TCRX_H
#define TCRX_H

/** The library as a module in C: see the paragraph about it above. */
#define TCRX_MODULE 1

#include <stddef.h>
#include <stdint.h>

/** @cond */
/* Marks a call that returns only a status, so that compilers warn if the status is ignored. */
#if (defined(__cplusplus) && __cplusplus >= 201703L) || (defined(__STDC_VERSION__) && __STDC_VERSION__ >= 202311L)
#define TCRX_TO_BE_READ [[nodiscard]]
#elif defined(__GNUC__)
#define TCRX_TO_BE_READ __attribute__((warn_unused_result))
#else
#define TCRX_TO_BE_READ
#endif
/** @endcond */

#ifdef __cplusplus
extern "C" {
#endif

/**
 * @defgroup tcrx_version Version of this interface
 *
 * You can test for the version that you need: `#if TCRX_API_VERSION < 0x000300`.
 * @{
 */
#define TCRX_API_MAJOR 0 /**< The major version. From 1.0.0 on, only a new major version may break a caller. */
#define TCRX_API_MINOR 3 /**< The minor version, for additions. While MAJOR is 0, a new one may break a caller. */
#define TCRX_API_PATCH 0 /**< The patch version, for corrections. A new one never breaks a caller. */

/** The version as one number, with eight bits for each of its three parts. */
#define TCRX_API_VERSION (TCRX_API_MAJOR * 0x10000 + TCRX_API_MINOR * 0x100 + TCRX_API_PATCH)

/** The version as a text. */
#define TCRX_API_TEXT "0.3.0"
/** @} */

/**
 * @defgroup tcrx_status Statuses
 * @{
 */

/** The outcome of a call. tcrx_text() has a text for each status. */
typedef uint32_t tcrx_status;

/** The values of a #tcrx_status. */
enum {
    TCRX_DONE = 0, /**< The call succeeded. */

    TCRX_SHORT = 1,        /**< There are fewer than 5 octets, too few for a frame. */
    TCRX_BAD_VERSION = 2,  /**< The version number of the frame isn't 0. */
    TCRX_SPARE = 3,        /**< The spare bits of the frame aren't 0. */
    TCRX_LENGTH_SMALL = 4, /**< The length field of the frame gives fewer than 6 octets. */
    TCRX_TRUNCATED = 5,    /**< The length field of the frame gives more octets than there are. */
    TCRX_FILL = 6,         /**< Octets follow the frame, but the call takes only a frame. */
    TCRX_NO_FECF = 7,      /**< The frame has fewer than 8 octets, too few to end with a frame error control field. */
    TCRX_WRONG_FECF = 8,   /**< The frame error control field is wrong. */

    TCRX_BAD_FIELD = 10,   /**< A field of the header is over its bound, so nothing is written. */
    TCRX_EMPTY_DATA = 11,  /**< A data field, a unit or a frame is empty, so nothing is written. */
    TCRX_TOO_LONG = 12,    /**< The data field has more than 1,019 octets, so no frame is written. */
    TCRX_NO_MEMORY = 13,   /**< There is too little memory, so no channel is created. */
    TCRX_LONG_PACKET = 14, /**< The packet data field has more than 65,536 octets, so no packet is written. */
    TCRX_LONG_UNIT = 15,   /**< The unit has more than 65,542 octets, so no segment is written. */
    TCRX_LONG_FRAME = 16,  /**< The frame has more than 1,022 octets, so no frame error control field is added. */
    TCRX_BAD_SIZE = 17,    /**< The size of a segment isn't 1 to 1,018 octets, so no segment is written. */
    TCRX_NO_SEGMENT = 18,  /**< The unit has no segment at this place, so no segment is written. */
    TCRX_BAD_COMMAND = 19, /**< The kind is neither #TCRX_UNLOCK nor #TCRX_SET_VR, so no command is written. */

    TCRX_BAD_WIDTH = 20,      /**< The width of the window isn't an even number from 2 to 254. */
    TCRX_BAD_STATE = 21,      /**< The state isn't 1 to 3. */
    TCRX_BAD_FARM_B = 22,     /**< The FARM-B counter is over 3. */
    TCRX_BAD_FLAG = 23,       /**< A flag is neither 0 nor 1. */
    TCRX_FLAGS_DISAGREE = 24, /**< FARM-1 never has these flags in this state. */
    TCRX_BAD_ARRIVAL = 25,    /**< The arrival isn't 1 to 6. */
    TCRX_NO_ENTRY = 26,       /**< The state table has no entry for an expected Type-AD frame that finds room in
                                   #TCRX_WAIT. */

    TCRX_BAD_VCID = 30, /**< The virtual channel id is over 63. */
    TCRX_NO_CLCW = 31,  /**< The word isn't a CLCW of COP-1. */

    TCRX_NO_PACKET = 40, /**< The octets don't begin with a whole packet of version 0. */

    TCRX_NO_ROOM = 50,   /**< The buffer is too short. */
    TCRX_NULL = 51,      /**< A pointer is null. */
    TCRX_NO_STATUS = 52, /**< No status has this number. */

    TCRX_BAD_BUFFER = 60,   /**< The number of data fields in the buffer of the settings isn't 1 to 64. */
    TCRX_BAD_APID = 61,     /**< The APID of a queue in the settings is over 2,046. */
    TCRX_DOUBLE_APID = 62,  /**< Two queues in the settings have the same APID. */
    TCRX_BAD_CAPACITY = 63, /**< The capacity of a packet queue in the settings isn't 1 to 256. */
    TCRX_BAD_MAP = 64,      /**< A MAP in the settings, or of a segment, is over 63. */
    TCRX_DOUBLE_MAP = 65,   /**< The settings choose a MAP twice. */
    TCRX_BAD_UNITS = 66,    /**< The capacity of a chosen MAP's queue in the settings isn't 1 to 256. */
    TCRX_PLAIN_MAP = 67,    /**< The settings choose a MAP, but have no segment headers. */

    TCRX_NO_CHANNEL = 70, /**< No channel is held. */
    TCRX_IN_USE = 71,     /**< A channel is already held. */
    TCRX_NO_QUEUE = 72,   /**< No queue has this APID. */
    TCRX_NO_MAP = 73,     /**< This MAP isn't chosen. */
    TCRX_EMPTY = 74,      /**< Nothing waits in the buffer or in the queue. */

    TCRX_OTHER_SPACECRAFT = 75, /**< The frame is for another spacecraft. */
    TCRX_UNKNOWN_CHANNEL = 76,  /**< No channel has this virtual channel id. */

    TCRX_BAD_OTHERS = 80,    /**< The limit `others` is over 65,542, or it is 0 without segment headers. */
    TCRX_BAD_LIMIT_MAP = 81, /**< The MAP of a limit is over 63. */
    TCRX_DOUBLE_LIMIT = 82,  /**< Two limits are for the same MAP. */
    TCRX_BAD_LIMIT = 83,     /**< The limit of a MAP isn't 1 to 65,542. */
    TCRX_PLAIN_LIMIT = 84,   /**< A limit is for a MAP, but the settings have no segment headers. */
    TCRX_UNLISTED_MAP = 85,  /**< A chosen MAP has no limit of its own, and `others` is 0. */

    TCRX_LONG_CLTU = 90,  /**< There are more than 1,029 octets, the most that a CLTU carries. */
    TCRX_BAD_LENGTH = 91, /**< The length of the telemetry frame isn't 11 to 2,048 octets, or 13 to 2,048 with a frame
                               error control field. */
    TCRX_NO_CONTROL = 92, /**< The telemetry frame has no operational control field. */
    TCRX_BAD_DECODER = 93 /**< The record isn't one that a decoder can have. */
};

/** The size of a buffer for texts, in octets. */
enum { TCRX_TEXT_ROOM = 64 /**< Enough for any text, with the 0 at its end. */ };
/** @} */

/**
 * @defgroup tcrx_records Records
 * @{
 */

/** The states of FARM-1. */
enum {
    TCRX_OPEN = 1,   /**< State S1, Open. */
    TCRX_WAIT = 2,   /**< State S2, Wait. */
    TCRX_LOCKOUT = 3 /**< State S3, Lockout. */
};

/** The arrivals at FARM-1: a frame of one of five kinds, or a buffer release. */
enum {
    TCRX_AD = 1,      /**< A Type-AD frame, with sequence control. */
    TCRX_BD = 2,      /**< A Type-BD frame, without sequence control. */
    TCRX_UNLOCK = 3,  /**< A Type-BC frame with the control command Unlock. */
    TCRX_SET_VR = 4,  /**< A Type-BC frame with the control command Set V(R). */
    TCRX_INVALID = 5, /**< A Type-AC frame, which is reserved, or a Type-BC frame that carries no control command. */
    TCRX_RELEASE = 6  /**< A buffer release, when a data field has left the buffer. */
};

/** The record of FARM-1: the width of its window and its six components. */
typedef struct {
    uint8_t width;      /**< The width of the sliding window, even and 2 to 254. */
    uint8_t state;      /**< #TCRX_OPEN, #TCRX_WAIT or #TCRX_LOCKOUT. */
    uint8_t vr;         /**< The receiver frame sequence number V(R), modulo 256. */
    uint8_t farm_b;     /**< The FARM-B counter, 0 to 3. */
    uint8_t lockout;    /**< The Lockout flag, which is 1 only in #TCRX_LOCKOUT. */
    uint8_t wait;       /**< The Wait flag, which is 1 in #TCRX_WAIT and 0 in #TCRX_OPEN. */
    uint8_t retransmit; /**< The Retransmit flag, which is 1 whenever the Wait flag is 1. */
} tcrx_farm;

/** A status with the record of a FARM-1. */
typedef struct {
    tcrx_status status; /**< #TCRX_DONE, or the reason why the call failed. */
    tcrx_farm farm;     /**< The record of FARM-1. */
} tcrx_farm_answer;

/** The outcome of a step of FARM-1. If the call fails, `farm` is the record that was passed. */
typedef struct {
    tcrx_status status; /**< #TCRX_DONE, or the reason why the call failed. */
    tcrx_farm farm;     /**< The record of FARM-1 after the step. */
    uint8_t event;      /**< The row E1 to E10 of the state table, as a number from 1 to 10. */
    uint8_t accepted;   /**< 1 if the frame's data was accepted, otherwise 0. It is also 0 for a control command. */
} tcrx_step_answer;

/** A status with a CLCW. */
typedef struct {
    tcrx_status status; /**< #TCRX_DONE, or the reason why the call failed. */
    uint32_t word;      /**< The CLCW, whose first bit is the most significant bit of the word. */
} tcrx_clcw_answer;

/** A status with the fields of a CLCW. */
typedef struct {
    tcrx_status status;   /**< #TCRX_DONE, or the reason why the call failed. */
    uint8_t status_field; /**< The status field, 0 to 7, whose meaning is left to the mission. */
    uint8_t vcid;         /**< The virtual channel id, 0 to 63. */
    uint8_t no_rf;        /**< The No RF Available flag. */
    uint8_t no_bit_lock;  /**< The No Bit Lock flag. */
    uint8_t lockout;      /**< The Lockout flag. */
    uint8_t wait;         /**< The Wait flag. */
    uint8_t retransmit;   /**< The Retransmit flag. */
    uint8_t farm_b;       /**< The FARM-B counter, 0 to 3. */
    uint8_t vr;           /**< The report value, which is V(R). */
} tcrx_clcw_fields;

/** The primary header of a frame, without the frame length. */
typedef struct {
    uint16_t scid;   /**< The spacecraft id, 0 to 1,023. */
    uint8_t vcid;    /**< The virtual channel id, 0 to 63. */
    uint8_t ns;      /**< The frame sequence number N(S). */
    uint8_t bypass;  /**< The bypass flag: 1 for Type-B, 0 for Type-A. */
    uint8_t control; /**< The control command flag: 1 for Type-C, 0 for Type-D. */
} tcrx_header;

/**
 * The header and the length of the frame at the front of octets. The first 5 octets of the frame are its header, and
 * the others are its data field.
 */
typedef struct {
    tcrx_status status; /**< #TCRX_DONE, or the reason why the call failed. */
    tcrx_header header; /**< The primary header. */
    uint16_t length;    /**< The number of octets in the frame, 6 to 1,024. */
} tcrx_frame;

/** The kind of a frame. */
typedef struct {
    tcrx_status status; /**< #TCRX_DONE, or the reason why the call failed. */
    uint8_t kind;       /**< The kind, #TCRX_AD to #TCRX_INVALID. */
    uint8_t number;     /**< The N(S) of #TCRX_AD, the new V(R) of #TCRX_SET_VR, or 0 for other kinds. */
} tcrx_kind_answer;

/**
 * The header and the length of the packet at the front of octets. The first 6 octets of the packet are its primary
 * header.
 */
typedef struct {
    tcrx_status status;  /**< #TCRX_DONE, or the reason why the call failed. */
    uint32_t length;     /**< The number of octets in the packet, 7 to 65,542. */
    uint16_t apid;       /**< The APID, at most 2,047. The APID 2,047 marks idle packets. */
    uint16_t count;      /**< The sequence count or the packet name, at most 16,383. */
    uint8_t telecommand; /**< The packet type: 1 for telecommand, 0 for telemetry. */
    uint8_t secondary;   /**< The secondary header flag. */
    uint8_t sequence;    /**< The sequence flags, at most 3. */
} tcrx_packet;

/** The primary header of a packet, without the version and the length. */
typedef struct {
    uint16_t apid;       /**< The APID, at most 2,047. The APID 2,047 marks idle packets. */
    uint16_t count;      /**< The sequence count or the packet name, at most 16,383. */
    uint8_t telecommand; /**< The packet type: 1 for telecommand, 0 for telemetry. */
    uint8_t secondary;   /**< The secondary header flag. */
    uint8_t sequence;    /**< The sequence flags, at most 3. An unsegmented packet has 3. */
} tcrx_packet_header;

/**
 * The ids and the frame counts in the primary header of a telemetry frame.
 */
typedef struct {
    uint16_t scid;         /**< The spacecraft id, 0 to 1,023. */
    uint8_t vcid;          /**< The virtual channel id, 0 to 7. */
    uint8_t master_count;  /**< The master channel frame count: earlier frames of the spacecraft, modulo 256. */
    uint8_t channel_count; /**< The virtual channel frame count: earlier frames of the virtual channel, modulo 256. */
} tcrx_tm_header;

/**
 * The fields of a telemetry frame with an operational control field. The first bit of that field is the most
 * significant bit of `clcw`, and is 0 for a CLCW and 1 for a Type-2 report.
 */
typedef struct {
    tcrx_status status;    /**< #TCRX_DONE, or the reason why the call failed. */
    uint32_t clcw;         /**< The operational control field. */
    tcrx_tm_header header; /**< The primary header. */
    uint16_t pointer;      /**< The first header pointer: 2,046 if all data are idle, 2,047 if no packet begins. */
} tcrx_tm;

/** The size of the buffer of a decoder, in octets. */
enum { TCRX_DECODER_ROOM = 1037 /**< Enough for the 1,029 octets that a CLTU carries at most, and one code block. */ };

/**
 * A decoder of CLTUs (communications link transmission units), without the octets that it holds, which are in a buffer.
 * At the start, each field except `correct` is 0.
 *
 * If `correct` is 1, the decoder corrects one wrong bit in a code block, and accepts a start sequence with one wrong
 * bit. If `correct` is 0, it does neither.
 */
typedef struct {
    uint8_t correct;  /**< 1 to correct one wrong bit in a code block, 0 to correct none. */
    uint8_t decoding; /**< 1 if a start sequence has come and code blocks are decoded, otherwise 0. */
    uint8_t last;     /**< The previous octet, while a start sequence is looked for. */
    uint8_t count;    /**< The number of octets of the next code block that have come, 0 to 7. */
    uint16_t carried; /**< The number of octets that code blocks have carried since the start sequence, 0 to 1,029. */
} tcrx_decoder;

/**
 * The outcome for octets of a stream. If `ended` is 1, the candidate frame is the first `decoder.carried` octets of the
 * buffer. If the call fails, `decoder` is the record that was passed.
 */
typedef struct {
    tcrx_status status;   /**< #TCRX_DONE, or the reason why the call failed. */
    tcrx_decoder decoder; /**< The decoder after the octets that were taken. */
    uint8_t ended;        /**< 1 if the last octet that was taken ended a candidate frame, otherwise 0. */
    uint64_t taken;       /**< The number of octets that were taken. */
    uint64_t corrected;   /**< The number of code blocks that ended in these octets and had one bit corrected. */
    uint64_t rejected;    /**< The number of code blocks that were rejected in these octets, without tail sequences. */
    uint64_t overlong;    /**< The number of CLTUs that carried more than 1,029 octets. They end no candidate frame. */
} tcrx_decoded;

/**
 * A status with a number of octets. If the status is #TCRX_NO_ROOM, `length` is the number of octets that the buffer
 * needs.
 */
typedef struct {
    tcrx_status status; /**< #TCRX_DONE, or the reason why the call failed. */
    size_t length;      /**< The number of octets that were written. */
} tcrx_written;

/**
 * A virtual channel in the caller's memory, or none. Set it to #TCRX_HOLDS_NONE before the first call, and don't write
 * to it after that.
 *
 * A copy of this record isn't a second channel. You may move a channel to another place, if you set the old place to
 * #TCRX_HOLDS_NONE before the next call. A channel that is still held when the lifetime of this memory ends isn't
 * freed.
 */
typedef struct {
    uint8_t held; /**< 1 if a channel is held, otherwise 0. */
    void *place;  /**< The library's own data. */
} tcrx_channel;

/** The initial value of a #tcrx_channel, which holds no channel. */
#define TCRX_HOLDS_NONE \
    { 0, NULL }

/** The settings from which a channel is created, apart from its queues. */
typedef struct {
    uint8_t vcid;      /**< The virtual channel id, 0 to 63. */
    uint8_t width;     /**< The width of the sliding window, even and 2 to 254. */
    uint8_t buffer;    /**< The number of data fields that the buffer holds, 1 to 64. */
    uint8_t first_vr;  /**< V(R) at the start. */
    uint8_t segmented; /**< 1 if data fields begin with a segment header, 0 if each data field is a unit by itself. */
} tcrx_settings;

/** A queue for the telecommand packets of one application. */
typedef struct {
    uint16_t apid;     /**< The APID of the packets, at most 2,046. */
    uint16_t capacity; /**< The number of packets that the queue holds, 1 to 256. */
} tcrx_queue;

/** A chosen MAP (multiplexer access point), whose units are queued whole instead of being cut into packets. */
typedef struct {
    uint8_t map;       /**< The MAP, at most 63. */
    uint16_t capacity; /**< The number of units that its queue holds, 1 to 256. */
} tcrx_map;

/** The limit for the units of one MAP. */
typedef struct {
    uint8_t map;     /**< The MAP, at most 63. */
    uint32_t octets; /**< The largest number of octets in a unit of the MAP, 1 to 65,542. */
} tcrx_limit;

/**
 * The outcome for a frame, and for the unit that the frame ended. If no unit ended, `queued`, `dropped` and `rest` are
 * 0.
 *
 * A packet is dropped if it isn't a telecommand, if there is no queue for its APID, or if that queue has no room. A
 * whole unit is dropped if its queue has no room.
 */
typedef struct {
    tcrx_status status; /**< #TCRX_DONE, or the reason why the call failed. */
    uint32_t queued;    /**< The number of packets that were queued, or 1 for a unit that was queued whole. */
    uint32_t dropped;   /**< The number of packets that were dropped, or 1 for a whole unit that was dropped. */
    uint8_t event;      /**< The row E1 to E9 of the state table of FARM-1, as a number from 1 to 9. */
    uint8_t accepted;   /**< 1 if the frame's data was accepted, otherwise 0. It is also 0 for a control command. */
    uint8_t rest;       /**< 1 if octets were left that don't begin with a packet, otherwise 0. */
} tcrx_reply;

/** The outcome for the unit that a released data field ended. If no unit ended, each number is 0. */
typedef struct {
    tcrx_status status; /**< #TCRX_DONE, or the reason why the call failed. */
    uint32_t queued;    /**< The number of packets that were queued, or 1 for a unit that was queued whole. */
    uint32_t dropped;   /**< The number of packets that were dropped, or 1 for a whole unit that was dropped. */
    uint8_t rest;       /**< 1 if octets were left that don't begin with a packet, otherwise 0. */
} tcrx_delivery;

/** The outcome for a frame, and the channel that took it in. */
typedef struct {
    tcrx_status status; /**< #TCRX_DONE, or the reason why the call failed. */
    uint32_t queued;    /**< The number of packets that were queued, or 1 for a unit that was queued whole. */
    uint32_t dropped;   /**< The number of packets that were dropped, or 1 for a whole unit that was dropped. */
    uint8_t event;      /**< The row E1 to E9 of the state table of FARM-1, as a number from 1 to 9. */
    uint8_t accepted;   /**< 1 if the frame's data was accepted, otherwise 0. It is also 0 for a control command. */
    uint8_t rest;       /**< 1 if octets were left that don't begin with a packet, otherwise 0. */
    uint8_t vcid;       /**< The virtual channel id of that channel, 0 to 63. */
} tcrx_rack_reply;

/**
 * The outcome for the frame at the front of a candidate, and the channel that took it in. If a frame was found but the
 * call fails, `more` and `length` are set nevertheless.
 */
typedef struct {
    tcrx_status status; /**< #TCRX_DONE, or the reason why the call failed. */
    uint32_t queued;    /**< The number of packets that were queued, or 1 for a unit that was queued whole. */
    uint32_t dropped;   /**< The number of packets that were dropped, or 1 for a whole unit that was dropped. */
    uint8_t event;      /**< The row E1 to E9 of the state table of FARM-1, as a number from 1 to 9. */
    uint8_t accepted;   /**< 1 if the frame's data was accepted, otherwise 0. It is also 0 for a control command. */
    uint8_t rest;       /**< 1 if octets were left that don't begin with a packet, otherwise 0. */
    uint8_t vcid;       /**< The virtual channel id of that channel, 0 to 63. */
    uint8_t more;       /**< 1 if more follows the frame than can be fill: over six octets, or another frame. */
    uint16_t length;    /**< The number of octets in the frame, 6 to 1,024, with its frame error control field. */
} tcrx_candidate_reply;

/** A status with a place in an array. */
typedef struct {
    tcrx_status status; /**< #TCRX_DONE, or the reason why the call failed. */
    size_t place;       /**< The place, counted from 0. */
} tcrx_place;

/** A status with a count. */
typedef struct {
    tcrx_status status; /**< #TCRX_DONE, or the reason why the call failed. */
    uint64_t count;     /**< The count. */
} tcrx_count;
/** @} */

/* The layouts of these records, and the calls that the library exports. In C++ they are inside extern "C", too. */
#include "tcrx_at.h"

/**
 * @defgroup tcrx_single Single calls
 *
 * These calls keep no state and allocate no memory.
 * @{
 */

/**
 * Writes the text of a status to the front of a buffer. The text is ASCII, and ends with a 0. A buffer of
 * #TCRX_TEXT_ROOM octets is long enough for each text.
 *
 * @param status the status
 * @param text   the buffer to write to
 * @param room   the size of the buffer, in octets
 * @return the length of the text, with the 0 at its end. The call fails with #TCRX_NULL, #TCRX_NO_STATUS if no status
 * has this number, or #TCRX_NO_ROOM if the buffer is too short.
 */
static inline tcrx_written tcrx_text(tcrx_status status, char *text, size_t room) {
    if (text == NULL) {
        const tcrx_written refused = {TCRX_NULL, 0};
        return refused;
    }
    return tcrx_text_at(status, (uint8_t *)text, room);
}

/**
 * Starts FARM-1 in #TCRX_OPEN, with every flag and the FARM-B counter at 0.
 *
 * @param width    the width of the window, even and 2 to 254
 * @param first_vr the first V(R)
 * @return the record of FARM-1. The call fails with #TCRX_BAD_WIDTH if the width isn't an even number from 2 to 254.
 */
tcrx_farm_answer tcrx_farm_start(uint8_t width, uint8_t first_vr);

/**
 * Takes one step of FARM-1, by its state table (CCSDS 232.1-B, 6.3). Pass the record that it returns to the next call.
 *
 * @param farm    the record of FARM-1
 * @param arrival the kind that tcrx_kind() returns, or #TCRX_RELEASE
 * @param number  the number that tcrx_kind() returns, or any number for #TCRX_RELEASE
 * @param room    1 if the buffer has room for the data field of a Type-AD frame, otherwise 0
 * @return the outcome of the step, whose record is again one that FARM-1 can have. The call fails with #TCRX_BAD_WIDTH,
 * #TCRX_BAD_STATE, #TCRX_BAD_FARM_B, #TCRX_BAD_FLAG or #TCRX_FLAGS_DISAGREE if FARM-1 can't have the record that you
 * passed. After that it fails with #TCRX_BAD_FLAG if `room` is neither 0 nor 1, #TCRX_BAD_ARRIVAL if the arrival isn't
 * 1 to 6, or #TCRX_NO_ENTRY if an expected Type-AD frame arrives in #TCRX_WAIT and `room` is 1. The last status never
 * occurs if `room` is 0 in #TCRX_WAIT. That is its value for a buffer from which nothing was released since it was full.
 */
tcrx_step_answer tcrx_farm_step(tcrx_farm farm, uint8_t arrival, uint8_t number, uint8_t room);

/**
 * Builds the CLCW that reports this FARM-1 for a virtual channel. Its status field is 0, and COP-1 is in effect.
 *
 * @param farm        the record of FARM-1
 * @param vcid        the virtual channel id, 0 to 63
 * @param no_rf       the No RF Available flag of the link, 0 or 1
 * @param no_bit_lock the No Bit Lock flag of the link, 0 or 1
 * @return the CLCW. The call fails with #TCRX_BAD_WIDTH to #TCRX_FLAGS_DISAGREE if FARM-1 can't have this record,
 * #TCRX_BAD_VCID if the virtual channel id is over 63, or #TCRX_BAD_FLAG if a flag of the link is neither 0 nor 1.
 */
tcrx_clcw_answer tcrx_clcw(tcrx_farm farm, uint8_t vcid, uint8_t no_rf, uint8_t no_bit_lock);

/**
 * Reads the fields of a CLCW of COP-1. In such a word the type, the version and the spare bits are 0, and COP is 1.
 *
 * @param word the word
 * @return the fields. The call fails with #TCRX_NO_CLCW for any other word.
 */
tcrx_clcw_fields tcrx_read_clcw(uint32_t word);

/**
 * Reads the header and the length of the frame at the front of octets. Octets that follow the frame are fill.
 *
 * @param octets the octets to read
 * @param count  the number of octets
 * @return the header and the length. The call fails with #TCRX_NULL, then #TCRX_SHORT to #TCRX_TRUNCATED if the octets
 * don't begin with a frame.
 */
static inline tcrx_frame tcrx_read_frame(const uint8_t *octets, size_t count) {
    if (octets == NULL) {
        const tcrx_frame refused = {TCRX_NULL, {0, 0, 0, 0, 0}, 0};
        return refused;
    }
    return tcrx_read_frame_at(octets, count);
}

/**
 * Determines the kind of the frame at the front of octets, by its two flags and its data field. tcrx_farm_step() takes
 * the kind and the number as this call returns them.
 *
 * @param octets the octets to read
 * @param count  the number of octets
 * @return the kind. The call fails as tcrx_read_frame() does.
 */
static inline tcrx_kind_answer tcrx_kind(const uint8_t *octets, size_t count) {
    if (octets == NULL) {
        const tcrx_kind_answer refused = {TCRX_NULL, 0, 0};
        return refused;
    }
    return tcrx_kind_at(octets, count);
}

/**
 * Writes a frame to the front of a buffer. The frame consists of its header and a data field of 1 to 1,019 octets.
 *
 * @param header      the header
 * @param field       the data field, of 1 to 1,019 octets
 * @param field_count the number of octets in the data field
 * @param octets      the buffer to write to
 * @param room        the size of the buffer, in octets
 * @return the length of the frame, which is 5 more than that of its data field. The call fails with #TCRX_NULL,
 * #TCRX_BAD_FLAG if a flag of the header is neither 0 nor 1, #TCRX_BAD_FIELD if an id of the header is over its bound,
 * #TCRX_EMPTY_DATA if the data field is empty, #TCRX_TOO_LONG if it has more than 1,019 octets, or #TCRX_NO_ROOM if the
 * buffer is too short.
 */
static inline tcrx_written tcrx_write_frame(tcrx_header header, const uint8_t *field, size_t field_count, uint8_t *octets,
                                            size_t room) {
    if (field == NULL || octets == NULL) {
        const tcrx_written refused = {TCRX_NULL, 0};
        return refused;
    }
    return tcrx_write_frame_at(header, field, field_count, octets, room);
}

/**
 * Writes the frame that carries one segment of a unit to the front of a buffer. Call it for the places 0, 1, 2 and so
 * on, until it fails with #TCRX_NO_SEGMENT. The N(S) of Type-AD frames counts up modulo 256 from that of the header. A
 * unit of at most `size` octets is one unsegmented segment.
 *
 * @param header     the header of the first frame. It can't be of Type-C, because Type-C frames have no segment header.
 * @param map        the MAP, at most 63
 * @param size       the number of octets of the unit that a segment carries, 1 to 1,018. The last segment carries the
 *                   octets that are left.
 * @param place      the place of the segment, counted from 0
 * @param unit       the unit, of 1 to 65,542 octets
 * @param unit_count the number of octets in the unit
 * @param octets     the buffer to write to
 * @param room       the size of the buffer, in octets
 * @return the length of the frame, which is 6 more than the number of octets that the segment carries. The call fails
 * with #TCRX_NULL, #TCRX_BAD_FLAG if a flag of the header is neither 0 nor 1, #TCRX_BAD_FIELD if an id of the header is
 * over its bound or the header is that of a Type-C frame, #TCRX_BAD_MAP if the MAP is over 63, #TCRX_BAD_SIZE if `size`
 * isn't 1 to 1,018, #TCRX_EMPTY_DATA if the unit is empty, #TCRX_LONG_UNIT if it has more than 65,542 octets,
 * #TCRX_NO_SEGMENT if the unit has no segment at this place, or #TCRX_NO_ROOM if the buffer is too short.
 */
static inline tcrx_written tcrx_write_segment(tcrx_header header, uint8_t map, uint16_t size, uint32_t place, const uint8_t *unit,
                                              size_t unit_count, uint8_t *octets, size_t room) {
    if (unit == NULL || octets == NULL) {
        const tcrx_written refused = {TCRX_NULL, 0};
        return refused;
    }
    return tcrx_write_segment_at(header, map, size, place, unit, unit_count, octets, room);
}

/**
 * Writes the Type-BC frame with a control command to the front of a buffer. The N(S) of the frame is 0.
 *
 * @param scid   the spacecraft id, 0 to 1,023
 * @param vcid   the virtual channel id, 0 to 63
 * @param kind   #TCRX_UNLOCK or #TCRX_SET_VR
 * @param number the new V(R) for #TCRX_SET_VR, or any number for #TCRX_UNLOCK
 * @param octets the buffer to write to
 * @param room   the size of the buffer, in octets
 * @return the length of the frame, 6 or 8. The call fails with #TCRX_NULL, #TCRX_BAD_FIELD if an id is over its bound,
 * #TCRX_BAD_COMMAND if the kind is another one, or #TCRX_NO_ROOM if the buffer is too short.
 */
static inline tcrx_written tcrx_write_command(uint16_t scid, uint8_t vcid, uint8_t kind, uint8_t number, uint8_t *octets,
                                              size_t room) {
    if (octets == NULL) {
        const tcrx_written refused = {TCRX_NULL, 0};
        return refused;
    }
    return tcrx_write_command_at(scid, vcid, kind, number, octets, room);
}

/**
 * Adds a frame error control field to a frame, and writes the frame to the front of a buffer. The written frame is two
 * octets longer, and its length field counts them.
 *
 * @param frame       the frame, with nothing after it
 * @param frame_count the number of octets in the frame
 * @param octets      the buffer to write to
 * @param room        the size of the buffer, in octets
 * @return the length of the frame with the field. The call fails with #TCRX_NULL, #TCRX_SHORT to #TCRX_TRUNCATED if the
 * octets don't begin with a frame, #TCRX_FILL if octets follow the frame, #TCRX_LONG_FRAME if the frame has more than
 * 1,022 octets, or #TCRX_NO_ROOM if the buffer is too short.
 */
static inline tcrx_written tcrx_add_fecf(const uint8_t *frame, size_t frame_count, uint8_t *octets, size_t room) {
    if (frame == NULL || octets == NULL) {
        const tcrx_written refused = {TCRX_NULL, 0};
        return refused;
    }
    return tcrx_add_fecf_at(frame, frame_count, octets, room);
}

/**
 * Checks the frame error control field with which a frame ends, and writes the frame without the field to the front of
 * a buffer. The written frame is the one from which tcrx_add_fecf() makes these octets. Pass it to
 * tcrx_channel_frame().
 *
 * @param frame       the frame with its field, with nothing after it
 * @param frame_count the number of octets in the frame
 * @param octets      the buffer to write to
 * @param room        the size of the buffer, in octets
 * @return the length of the frame without the field. The call fails with #TCRX_NULL, #TCRX_SHORT to #TCRX_TRUNCATED if
 * the octets don't begin with a frame, #TCRX_FILL if octets follow the frame, #TCRX_NO_FECF if the frame has fewer than
 * 8 octets, #TCRX_WRONG_FECF if the field is wrong, or #TCRX_NO_ROOM if the buffer is too short.
 */
static inline tcrx_written tcrx_check_fecf(const uint8_t *frame, size_t frame_count, uint8_t *octets, size_t room) {
    if (frame == NULL || octets == NULL) {
        const tcrx_written refused = {TCRX_NULL, 0};
        return refused;
    }
    return tcrx_check_fecf_at(frame, frame_count, octets, room);
}

/**
 * Writes a packet to the front of a buffer. The packet consists of its primary header and a packet data field of 1 to
 * 65,536 octets.
 *
 * @param header      the header
 * @param field       the packet data field, of 1 to 65,536 octets
 * @param field_count the number of octets in the packet data field
 * @param octets      the buffer to write to
 * @param room        the size of the buffer, in octets
 * @return the length of the packet, which is 6 more than that of its packet data field. The call fails with #TCRX_NULL,
 * #TCRX_BAD_FLAG if a flag of the header is neither 0 nor 1, #TCRX_BAD_FIELD if another field of the header is over its
 * bound, #TCRX_EMPTY_DATA if the packet data field is empty, #TCRX_LONG_PACKET if it has more than 65,536 octets, or
 * #TCRX_NO_ROOM if the buffer is too short.
 */
static inline tcrx_written tcrx_write_packet(tcrx_packet_header header, const uint8_t *field, size_t field_count, uint8_t *octets,
                                             size_t room) {
    if (field == NULL || octets == NULL) {
        const tcrx_written refused = {TCRX_NULL, 0};
        return refused;
    }
    return tcrx_write_packet_at(header, field, field_count, octets, room);
}

/**
 * Reads the primary header and the length of the packet at the front of octets. Octets that follow the packet don't
 * matter. The secondary header, the sequence flags and the sequence count may have any value.
 *
 * @param octets the octets to read
 * @param count  the number of octets
 * @return the header and the length. The call fails with #TCRX_NULL, then #TCRX_NO_PACKET if the octets don't begin
 * with a whole packet of version 0.
 */
static inline tcrx_packet tcrx_read_packet(const uint8_t *octets, size_t count) {
    if (octets == NULL) {
        const tcrx_packet refused = {TCRX_NULL, 0, 0, 0, 0, 0, 0};
        return refused;
    }
    return tcrx_read_packet_at(octets, count);
}

/**
 * Writes the CLTU (communications link transmission unit) that carries a frame to the front of a buffer. The CLTU
 * consists of the start sequence, the code blocks, with fill in the last one if it needs some, and the tail sequence.
 * Each code block has 8 octets and carries 7 octets of the frame. The start and tail sequences have 10 octets together.
 *
 * @param frame       the frame or other octets, 1 to 1,029 of them
 * @param frame_count the number of octets in the frame
 * @param octets      the buffer to write to
 * @param room        the size of the buffer, in octets
 * @return the length of the CLTU, at most 1,186. The call fails with #TCRX_NULL, #TCRX_EMPTY_DATA if there are no
 * octets, #TCRX_LONG_CLTU if there are more than 1,029, or #TCRX_NO_ROOM if the buffer is too short.
 */
static inline tcrx_written tcrx_write_cltu(const uint8_t *frame, size_t frame_count, uint8_t *octets, size_t room) {
    if (frame == NULL || octets == NULL) {
        const tcrx_written refused = {TCRX_NULL, 0};
        return refused;
    }
    return tcrx_write_cltu_at(frame, frame_count, octets, room);
}

/**
 * Gives a decoder the next octets of a stream. The decoder takes all octets, or those up to and including the first one
 * that ends a candidate frame. It looks for a start sequence, and then decodes code blocks until one is rejected. The
 * tail sequence is rejected, too. The octets that the accepted code blocks carried are a candidate frame, with fill
 * behind it. tcrx_rack_candidate() takes it in this form. A CLTU that carries more than 1,029 octets is counted, and
 * ends no candidate frame.
 *
 * Pass the returned record to the next call, with the octets that weren't taken yet, and with the same buffer. The whole
 * buffer belongs to the decoder.
 *
 * @param decoder the record of the decoder
 * @param octets  the next octets of the stream
 * @param count   the number of octets
 * @param frame   the buffer of the decoder, of #TCRX_DECODER_ROOM octets
 * @param room    the size of the buffer, in octets
 * @return the outcome for the octets. The call fails with #TCRX_NULL, #TCRX_BAD_FLAG if a flag of the decoder is
 * neither 0 nor 1, #TCRX_BAD_DECODER if no decoder has this record, or #TCRX_NO_ROOM if the buffer has fewer than
 * #TCRX_DECODER_ROOM octets.
 */
static inline tcrx_decoded tcrx_cltu_octets(tcrx_decoder decoder, const uint8_t *octets, size_t count, uint8_t *frame, size_t room) {
    if (octets == NULL || frame == NULL) {
        const tcrx_decoded refused = {TCRX_NULL, decoder, 0, 0, 0, 0, 0};
        return refused;
    }
    return tcrx_cltu_octets_at(decoder, octets, count, frame, room);
}

/**
 * Makes a decoder look for a start sequence anew, as after a loss of bit lock. Code blocks that it has taken since the
 * last start sequence end no candidate frame. If `decoding` was 1, the call cuts a CLTU short, or octets that only
 * began like one.
 *
 * @param decoder the record of the decoder
 * @return the record for the next call of tcrx_cltu_octets(), with 0 in all other fields. The call fails with
 * #TCRX_BAD_FLAG if a flag of the decoder is neither 0 nor 1, or #TCRX_BAD_DECODER if no decoder has this record.
 */
tcrx_decoded tcrx_cltu_search(tcrx_decoder decoder);

/**
 * Adds the random sequence to octets, and writes the result to the front of a buffer. If a mission randomises its
 * CLTUs, a sender calls this for each frame before tcrx_write_cltu(), and a receiver calls it for the octets that each
 * CLTU carried. Adding the sequence twice changes nothing.
 *
 * @param frame       the frame or other octets, 1 to 1,029 of them
 * @param frame_count the number of octets in the frame
 * @param octets      the buffer to write to
 * @param room        the size of the buffer, in octets
 * @return the number of octets. The call fails with #TCRX_NULL, #TCRX_EMPTY_DATA if there are no octets,
 * #TCRX_LONG_CLTU if there are more than 1,029, or #TCRX_NO_ROOM if the buffer is too short.
 */
static inline tcrx_written tcrx_randomise(const uint8_t *frame, size_t frame_count, uint8_t *octets, size_t room) {
    if (frame == NULL || octets == NULL) {
        const tcrx_written refused = {TCRX_NULL, 0};
        return refused;
    }
    return tcrx_randomise_at(frame, frame_count, octets, room);
}

/**
 * Writes a telemetry frame that carries a CLCW to the front of a buffer. All other data in the frame are idle.
 *
 * For the next frame of the virtual channel, add 1 to both counts of the header. For the next frame of another virtual
 * channel, add 1 to the master count. As `uint8_t` they count modulo 256.
 *
 * @param header the header
 * @param fecf   1 if the frame ends with a frame error control field, otherwise 0
 * @param clcw   the CLCW, as tcrx_clcw() returns it
 * @param size   the number of octets in the frame, 11 to 2,048, or 13 to 2,048 with a frame error control field
 * @param octets the buffer to write to
 * @param room   the size of the buffer, in octets
 * @return the length of the frame. The call fails with #TCRX_NULL, #TCRX_BAD_FLAG if `fecf` is neither 0 nor 1,
 * #TCRX_BAD_FIELD if an id of the header is over its bound, #TCRX_BAD_LENGTH if `size` is out of its range, or
 * #TCRX_NO_ROOM if the buffer is too short.
 */
static inline tcrx_written tcrx_write_tm(tcrx_tm_header header, uint8_t fecf, uint32_t clcw, uint16_t size, uint8_t *octets,
                                         size_t room) {
    if (octets == NULL) {
        const tcrx_written refused = {TCRX_NULL, 0};
        return refused;
    }
    return tcrx_write_tm_at(header, fecf, clcw, size, octets, room);
}

/**
 * Reads octets that are one telemetry frame. The call doesn't look into the frame's secondary header and packets.
 *
 * @param fecf   1 if the frame ends with a frame error control field, otherwise 0
 * @param octets the octets to read
 * @param count  the number of octets
 * @return the fields of the frame. The call fails with #TCRX_NULL, #TCRX_BAD_FLAG if `fecf` is neither 0 nor 1,
 * #TCRX_BAD_LENGTH if there aren't 11 to 2,048 octets, or 13 to 2,048 with a frame error control field,
 * #TCRX_BAD_VERSION if the version number isn't 0, #TCRX_NO_CONTROL if the frame has no operational control field, or
 * #TCRX_WRONG_FECF if the frame error control field is wrong.
 */
static inline tcrx_tm tcrx_read_tm(uint8_t fecf, const uint8_t *octets, size_t count) {
    if (octets == NULL) {
        const tcrx_tm refused = {TCRX_NULL, 0, {0, 0, 0, 0}, 0};
        return refused;
    }
    return tcrx_read_tm_at(fecf, octets, count);
}
/** @} */

/**
 * @defgroup tcrx_channels Calls of a channel
 *
 * Only the two calls that create a channel request memory. If a call fails, the channel stays as it was.
 * #TCRX_NO_CHANNEL means that no channel is held: it was never created, or it was freed.
 * @{
 */

/**
 * Computes how many bytes tcrx_channel_new() requests for these settings.
 *
 * The count doesn't include the bytes that the memory functions add to each block, the block of the channel itself,
 * and the copies of the two lists, which have 4 bytes for each entry. #TCRX_STORAGE_OF includes all of these.
 *
 * @param settings    the settings
 * @param queues      the packet queues, or null if there are none
 * @param queue_count the number of packet queues
 * @param maps        the chosen MAPs, or null if there are none
 * @param map_count   the number of chosen MAPs
 * @return the number of bytes. The call fails with #TCRX_NULL, then #TCRX_BAD_FLAG or the first fault of the settings,
 * as tcrx_channel_new() does.
 */
static inline tcrx_count tcrx_storage(tcrx_settings settings, const tcrx_queue *queues, size_t queue_count, const tcrx_map *maps,
                                      size_t map_count) {
    const tcrx_queue no_queue = {0, 0};
    const tcrx_map no_map = {0, 0};
    if ((queues == NULL && queue_count != 0) || (maps == NULL && map_count != 0)) {
        const tcrx_count refused = {TCRX_NULL, 0};
        return refused;
    }
    return tcrx_storage_at(settings, queues == NULL ? &no_queue : queues, queue_count, maps == NULL ? &no_map : maps, map_count);
}

/**
 * Computes how many bytes tcrx_channel_new_with_limits() requests for these settings and limits. The count doesn't
 * include the copy of the limits either, which has 8 bytes for each entry.
 *
 * @param settings    the settings
 * @param queues      the packet queues, or null if there are none
 * @param queue_count the number of packet queues
 * @param maps        the chosen MAPs, or null if there are none
 * @param map_count   the number of chosen MAPs
 * @param others      the limit of each MAP that isn't listed
 * @param limits      the limits of MAPs, or null if there are none
 * @param limit_count the number of limits
 * @return the number of bytes. The call fails with #TCRX_NULL, then #TCRX_BAD_FLAG or the first fault of the settings
 * or the limits, as tcrx_channel_new_with_limits() does.
 */
static inline tcrx_count tcrx_storage_with_limits(tcrx_settings settings, const tcrx_queue *queues, size_t queue_count,
                                                  const tcrx_map *maps, size_t map_count, uint32_t others,
                                                  const tcrx_limit *limits, size_t limit_count) {
    const tcrx_queue no_queue = {0, 0};
    const tcrx_map no_map = {0, 0};
    const tcrx_limit no_limit = {0, 0};
    if ((queues == NULL && queue_count != 0) || (maps == NULL && map_count != 0) || (limits == NULL && limit_count != 0)) {
        const tcrx_count refused = {TCRX_NULL, 0};
        return refused;
    }
    return tcrx_storage_with_limits_at(settings, queues == NULL ? &no_queue : queues, queue_count, maps == NULL ? &no_map : maps,
                                       map_count, others, limits == NULL ? &no_limit : limits, limit_count);
}

/**
 * Creates a channel, which is held until it is freed. A unit has at most 65,542 octets. All memory that the channel
 * ever uses is requested here.
 *
 * @param channel     the channel
 * @param settings    the settings
 * @param queues      the packet queues, or null if there are none
 * @param queue_count the number of packet queues
 * @param maps        the chosen MAPs, or null if there are none
 * @param map_count   the number of chosen MAPs
 * @return #TCRX_DONE. The call fails with #TCRX_NULL, #TCRX_IN_USE if a channel is already held, or #TCRX_BAD_FLAG if
 * `segmented` is neither 0 nor 1. After that it fails with the first fault of the settings: #TCRX_BAD_VCID,
 * #TCRX_BAD_WIDTH, #TCRX_BAD_BUFFER, #TCRX_BAD_APID, #TCRX_DOUBLE_APID, #TCRX_BAD_CAPACITY, #TCRX_BAD_MAP,
 * #TCRX_DOUBLE_MAP, #TCRX_BAD_UNITS or #TCRX_PLAIN_MAP. Last it fails with #TCRX_NO_MEMORY if there is too little
 * memory.
 */
TCRX_TO_BE_READ
static inline tcrx_status tcrx_channel_new(tcrx_channel *channel, tcrx_settings settings, const tcrx_queue *queues,
                                           size_t queue_count, const tcrx_map *maps, size_t map_count) {
    const tcrx_queue no_queue = {0, 0};
    const tcrx_map no_map = {0, 0};
    if (channel == NULL || (queues == NULL && queue_count != 0) || (maps == NULL && map_count != 0)) {
        return TCRX_NULL;
    }
    return tcrx_channel_new_at(channel, settings, queues == NULL ? &no_queue : queues, queue_count,
                               maps == NULL ? &no_map : maps, map_count);
}

/**
 * Creates a channel with a limit for the units of each MAP, so that it requests less memory. A unit that is longer than
 * its limit is dropped when it ends, and no reply reports that. Without limits, units of more than 65,542 octets are
 * dropped in this way.
 *
 * With segment headers, `others` may be 0. Then a MAP that isn't listed ends no unit except the empty one. Without
 * segment headers, no MAP may be listed, and `others` is the limit of each data field.
 *
 * @param channel     the channel
 * @param settings    the settings
 * @param queues      the packet queues, or null if there are none
 * @param queue_count the number of packet queues
 * @param maps        the chosen MAPs, or null if there are none
 * @param map_count   the number of chosen MAPs
 * @param others      the limit of each MAP that isn't listed
 * @param limits      the limits of MAPs, or null if there are none
 * @param limit_count the number of limits
 * @return #TCRX_DONE. The call fails as tcrx_channel_new() does. Between the faults of the settings and #TCRX_NO_MEMORY
 * it fails with the first fault of the limits: #TCRX_BAD_OTHERS, #TCRX_BAD_LIMIT_MAP, #TCRX_DOUBLE_LIMIT,
 * #TCRX_BAD_LIMIT, #TCRX_PLAIN_LIMIT or #TCRX_UNLISTED_MAP.
 */
TCRX_TO_BE_READ
static inline tcrx_status tcrx_channel_new_with_limits(tcrx_channel *channel, tcrx_settings settings, const tcrx_queue *queues,
                                                       size_t queue_count, const tcrx_map *maps, size_t map_count,
                                                       uint32_t others, const tcrx_limit *limits, size_t limit_count) {
    const tcrx_queue no_queue = {0, 0};
    const tcrx_map no_map = {0, 0};
    const tcrx_limit no_limit = {0, 0};
    if (channel == NULL || (queues == NULL && queue_count != 0) || (maps == NULL && map_count != 0)
        || (limits == NULL && limit_count != 0)) {
        return TCRX_NULL;
    }
    return tcrx_channel_new_with_limits_at(channel, settings, queues == NULL ? &no_queue : queues, queue_count,
                                           maps == NULL ? &no_map : maps, map_count, others, limits == NULL ? &no_limit : limits,
                                           limit_count);
}

/**
 * Brings the frame at the front of octets to the channel. Octets that follow the frame are fill. The data field of an
 * accepted Type-AD frame waits in the buffer. The unit that an accepted Type-BD frame ends is queued at once.
 *
 * The call doesn't look at the spacecraft id and the virtual channel id of the frame. tcrx_rack_frame() chooses a
 * channel by them.
 *
 * @param channel the channel
 * @param octets  the octets to read
 * @param count   the number of octets
 * @return the event of FARM-1, and the outcome for the unit. The call fails with #TCRX_NULL, #TCRX_NO_CHANNEL, or
 * #TCRX_SHORT to #TCRX_TRUNCATED if the octets don't begin with a frame.
 */
static inline tcrx_reply tcrx_channel_frame(tcrx_channel *channel, const uint8_t *octets, size_t count) {
    if (channel == NULL || octets == NULL) {
        const tcrx_reply refused = {TCRX_NULL, 0, 0, 0, 0, 0};
        return refused;
    }
    return tcrx_channel_frame_at(channel, octets, count);
}

/**
 * Releases the oldest data field from the buffer to reassembly. The unit that the data field ends is cut into packets,
 * which are queued. A unit of a chosen MAP is queued whole.
 *
 * @param channel the channel
 * @return the outcome for the unit. The call fails with #TCRX_NULL, #TCRX_NO_CHANNEL, or #TCRX_EMPTY if the buffer is
 * empty.
 */
static inline tcrx_delivery tcrx_channel_release(tcrx_channel *channel) {
    if (channel == NULL) {
        const tcrx_delivery refused = {TCRX_NULL, 0, 0, 0};
        return refused;
    }
    return tcrx_channel_release_at(channel);
}

/**
 * Takes the oldest packet out of a queue, and writes it, with its header, to the front of a buffer. A packet has 7 to
 * 65,542 octets. If the call fails, the packet stays in its queue.
 *
 * @param channel the channel
 * @param apid    the APID of the queue
 * @param octets  the buffer to write to
 * @param room    the size of the buffer, in octets
 * @return the length of the packet. The call fails with #TCRX_NULL, #TCRX_NO_CHANNEL, #TCRX_NO_QUEUE if no queue has
 * this APID, #TCRX_EMPTY if the queue is empty, or #TCRX_NO_ROOM if the buffer is too short.
 */
static inline tcrx_written tcrx_channel_take(tcrx_channel *channel, uint16_t apid, uint8_t *octets, size_t room) {
    if (channel == NULL || octets == NULL) {
        const tcrx_written refused = {TCRX_NULL, 0};
        return refused;
    }
    return tcrx_channel_take_at(channel, apid, octets, room);
}

/**
 * Takes the oldest unit out of the queue of a chosen MAP, and writes it to the front of a buffer. A unit may have no
 * octets. If the call fails, the unit stays in its queue.
 *
 * @param channel the channel
 * @param map     the MAP
 * @param octets  the buffer to write to
 * @param room    the size of the buffer, in octets
 * @return the length of the unit. The call fails with #TCRX_NULL, #TCRX_NO_CHANNEL, #TCRX_NO_MAP if the MAP isn't
 * chosen, #TCRX_EMPTY if its queue is empty, or #TCRX_NO_ROOM if the buffer is too short.
 */
static inline tcrx_written tcrx_channel_take_unit(tcrx_channel *channel, uint8_t map, uint8_t *octets, size_t room) {
    if (channel == NULL || octets == NULL) {
        const tcrx_written refused = {TCRX_NULL, 0};
        return refused;
    }
    return tcrx_channel_take_unit_at(channel, map, octets, room);
}

/**
 * Builds the CLCW of the channel, as tcrx_clcw() does for a record of FARM-1.
 *
 * @param channel     the channel
 * @param no_rf       the No RF Available flag of the link, 0 or 1
 * @param no_bit_lock the No Bit Lock flag of the link, 0 or 1
 * @return the CLCW. The call fails with #TCRX_NULL, #TCRX_NO_CHANNEL, or #TCRX_BAD_FLAG if a flag of the link is
 * neither 0 nor 1.
 */
static inline tcrx_clcw_answer tcrx_channel_clcw(tcrx_channel *channel, uint8_t no_rf, uint8_t no_bit_lock) {
    if (channel == NULL) {
        const tcrx_clcw_answer refused = {TCRX_NULL, 0};
        return refused;
    }
    return tcrx_channel_clcw_at(channel, no_rf, no_bit_lock);
}

/**
 * Reads the record of the channel's FARM-1, which tcrx_farm_step() and tcrx_clcw() can take.
 *
 * @param channel the channel
 * @return the record of FARM-1. The call fails with #TCRX_NULL, then #TCRX_NO_CHANNEL.
 */
static inline tcrx_farm_answer tcrx_channel_report(tcrx_channel *channel) {
    if (channel == NULL) {
        const tcrx_farm_answer refused = {TCRX_NULL, {0, 0, 0, 0, 0, 0, 0}};
        return refused;
    }
    return tcrx_channel_report_at(channel);
}

/**
 * Counts the data fields that wait in the buffer.
 *
 * @param channel the channel
 * @return the number of data fields. The call fails with #TCRX_NULL, then #TCRX_NO_CHANNEL.
 */
static inline tcrx_count tcrx_channel_buffered(tcrx_channel *channel) {
    if (channel == NULL) {
        const tcrx_count refused = {TCRX_NULL, 0};
        return refused;
    }
    return tcrx_channel_buffered_at(channel);
}

/**
 * Counts the packets that wait in a queue.
 *
 * @param channel the channel
 * @param apid    the APID of the queue
 * @return the number of packets. The call fails with #TCRX_NULL, #TCRX_NO_CHANNEL, or #TCRX_NO_QUEUE if no queue has
 * this APID.
 */
static inline tcrx_count tcrx_channel_queued(tcrx_channel *channel, uint16_t apid) {
    if (channel == NULL) {
        const tcrx_count refused = {TCRX_NULL, 0};
        return refused;
    }
    return tcrx_channel_queued_at(channel, apid);
}

/**
 * Counts the units that wait in the queue of a chosen MAP.
 *
 * @param channel the channel
 * @param map     the MAP
 * @return the number of units. The call fails with #TCRX_NULL, #TCRX_NO_CHANNEL, or #TCRX_NO_MAP if the MAP isn't
 * chosen.
 */
static inline tcrx_count tcrx_channel_units(tcrx_channel *channel, uint8_t map) {
    if (channel == NULL) {
        const tcrx_count refused = {TCRX_NULL, 0};
        return refused;
    }
    return tcrx_channel_units_at(channel, map);
}

/**
 * Counts the frames, releases and takes that the channel has done.
 *
 * @param channel the channel
 * @return the number of frames, releases and takes, or 2^64 - 1 if there are more. The call fails with #TCRX_NULL, then
 * #TCRX_NO_CHANNEL.
 */
static inline tcrx_count tcrx_channel_events(tcrx_channel *channel) {
    if (channel == NULL) {
        const tcrx_count refused = {TCRX_NULL, 0};
        return refused;
    }
    return tcrx_channel_events_at(channel);
}

/**
 * Frees the channel and everything that waits in it. Another channel can then be created in its place.
 *
 * @param channel the channel
 * @return #TCRX_DONE. The call fails with #TCRX_NULL, then #TCRX_NO_CHANNEL.
 */
static inline tcrx_status tcrx_channel_free(tcrx_channel *channel) {
    if (channel == NULL) {
        return TCRX_NULL;
    }
    return tcrx_channel_free_at(channel);
}
/** @} */

/**
 * @defgroup tcrx_racks Calls of a rack
 *
 * A rack is an array of channels in the caller's memory. It has all channels of a spacecraft. You create, query and
 * free them one by one by the calls of a channel. Places that hold no channel are skipped. Only one call at a time may
 * use a rack, and no other call may use one of its channels meanwhile. If a call fails, each channel stays as it was.
 * @{
 */

/**
 * Brings the frame at the front of octets to its channel, if the frame is for this spacecraft. That is the first
 * channel with the virtual channel id of the frame. If frames end with the frame error control field, the field is
 * checked first, and the channel gets the frame without it. If frames end with the field although `fecf` is 0, no
 * status reports that, because the field counts as data. Each control command is then event 9, and `rest` is 1 after
 * each packet that came in one frame.
 *
 * @param channels      the channels, or null if there are none
 * @param channel_count the number of channels
 * @param scid          the spacecraft id
 * @param fecf          1 if frames end with the frame error control field, otherwise 0. If it is 1, nothing may follow
 *                      the frame. If it is 0, octets that follow the frame are fill.
 * @param octets        the octets to read
 * @param count         the number of octets
 * @return the event of FARM-1, the outcome for the unit, and the channel. The call fails with #TCRX_NULL,
 * #TCRX_BAD_FLAG if `fecf` is neither 0 nor 1, #TCRX_SHORT to #TCRX_TRUNCATED if the octets don't begin with a frame,
 * #TCRX_FILL, #TCRX_NO_FECF or #TCRX_WRONG_FECF if `fecf` is 1 and tcrx_check_fecf() fails in this way,
 * #TCRX_OTHER_SPACECRAFT if the frame is for another spacecraft, or #TCRX_UNKNOWN_CHANNEL if no channel has the virtual
 * channel id of the frame.
 */
static inline tcrx_rack_reply tcrx_rack_frame(tcrx_channel *channels, size_t channel_count, uint16_t scid, uint8_t fecf,
                                              const uint8_t *octets, size_t count) {
    tcrx_channel no_channel = TCRX_HOLDS_NONE;
    if ((channels == NULL && channel_count != 0) || octets == NULL) {
        const tcrx_rack_reply refused = {TCRX_NULL, 0, 0, 0, 0, 0, 0};
        return refused;
    }
    return tcrx_rack_frame_at(channels == NULL ? &no_channel : channels, channel_count, scid, fecf, octets, count);
}

/**
 * Brings the frame at the front of a candidate to its channel, as tcrx_rack_frame() does. A candidate is the octets
 * that a CLTU carried. The length field of the frame is read first, and says where the frame ends. Then the frame error
 * control field is checked.
 *
 * The octets that follow the frame are fill, or the next frame. If a CLTU may carry several frames, pass the octets
 * behind the frame to this call again, as long as `more` is 1.
 *
 * @param channels      the channels, or null if there are none
 * @param channel_count the number of channels
 * @param scid          the spacecraft id
 * @param fecf          1 if frames end with the frame error control field, otherwise 0
 * @param octets        the candidate
 * @param count         the number of octets in the candidate
 * @return the event of FARM-1, the outcome for the unit, the channel, and the length of the frame. The call fails with
 * #TCRX_NULL, #TCRX_BAD_FLAG if `fecf` is neither 0 nor 1, #TCRX_SHORT to #TCRX_TRUNCATED if the octets don't begin
 * with a frame, #TCRX_NO_FECF if `fecf` is 1 and the frame has fewer than 8 octets, #TCRX_WRONG_FECF if `fecf` is 1 and
 * the frame error control field is wrong, #TCRX_OTHER_SPACECRAFT if the frame is for another spacecraft, or
 * #TCRX_UNKNOWN_CHANNEL if no channel has the virtual channel id of the frame.
 */
static inline tcrx_candidate_reply tcrx_rack_candidate(tcrx_channel *channels, size_t channel_count, uint16_t scid, uint8_t fecf,
                                                       const uint8_t *octets, size_t count) {
    tcrx_channel no_channel = TCRX_HOLDS_NONE;
    if ((channels == NULL && channel_count != 0) || octets == NULL) {
        const tcrx_candidate_reply refused = {TCRX_NULL, 0, 0, 0, 0, 0, 0, 0, 0};
        return refused;
    }
    return tcrx_rack_candidate_at(channels == NULL ? &no_channel : channels, channel_count, scid, fecf, octets, count);
}

/**
 * Finds the first channel with a virtual channel id.
 *
 * @param channels      the channels, or null if there are none
 * @param channel_count the number of channels
 * @param vcid          the virtual channel id
 * @return the place of the channel. The call fails with #TCRX_NULL, then #TCRX_UNKNOWN_CHANNEL if no channel has this
 * virtual channel id.
 */
static inline tcrx_place tcrx_rack_find(tcrx_channel *channels, size_t channel_count, uint8_t vcid) {
    tcrx_channel no_channel = TCRX_HOLDS_NONE;
    if (channels == NULL && channel_count != 0) {
        const tcrx_place refused = {TCRX_NULL, 0};
        return refused;
    }
    return tcrx_rack_find_at(channels == NULL ? &no_channel : channels, channel_count, vcid);
}
/** @} */

/**
 * @defgroup tcrx_static Memory in a static array
 *
 * These macros and functions are for a program that is linked with tcrx_static.c, on a machine of 64 bits.
 * @{
 */

/**
 * The number of bytes that a channel takes in the array, as a constant. It includes the bytes that
 * tcrx_storage_with_limits() returns, and everything that tcrx_storage_with_limits() doesn't count. `parts` is the sum
 * of the macros below that the channel needs for its settings, lists and limits. For several channels, add up their
 * numbers.
 *
 * For example, take a channel with a buffer for 8 data fields, one listed MAP of 1,024 octets, and four queues for 8
 * packets of up to 1,024 octets. Its `parts` are the sum of `TCRX_STORAGE_BUFFER(8)`, `TCRX_STORAGE_SEGMENTED(1024)`,
 * `TCRX_STORAGE_QUEUES(4, 8, 1024)` and `TCRX_STORAGE_LIMITS(1)`.
 */
#define TCRX_STORAGE_OF(parts) ((parts) + TCRX_OWN_STORAGE)

/** The part for a buffer that holds `fields` data fields. */
#define TCRX_STORAGE_BUFFER(fields) ((size_t)(fields) * 1051u)

/** The part for segment headers. `sum` is the sum of the limits of all 64 MAPs. Without limits it is 64 * 65542. */
#define TCRX_STORAGE_SEGMENTED(sum) ((size_t)(sum) * 2u + 5120u)

/**
 * The part for `count` packet queues that hold `capacity` packets each. `largest` is the largest limit of all MAPs.
 * Without limits it is 65542, and without segment headers at most 1019.
 */
#define TCRX_STORAGE_QUEUES(count, capacity, largest) ((size_t)(count) * ((size_t)(capacity) * (32u + (size_t)(largest)) + 68u))

/** The part for `count` chosen MAPs whose queues hold `capacity` units each. `largest` is as for the packet queues. */
#define TCRX_STORAGE_MAPS(count, capacity, largest) TCRX_STORAGE_QUEUES(count, capacity, largest)

/**
 * The part for a table by which queues are found. Add it if there are 8 packet queues or more, and add it once more if
 * 8 MAPs or more are chosen.
 */
#define TCRX_STORAGE_TABLE 4096u

/** The part for `count` limits of listed MAPs. */
#define TCRX_STORAGE_LIMITS(count) ((size_t)(count) * 8u)

/** The part that each channel takes for itself, which #TCRX_STORAGE_OF adds. */
#define TCRX_OWN_STORAGE 368u

/**
 * Defines the array with this number of bytes. Write it in one file of the program:
 * `TCRX_STATIC_STORAGE(TCRX_STORAGE_OF(..));`
 */
#define TCRX_STATIC_STORAGE(octets) \
    uint8_t tcrx_static_octets[octets]; \
    const size_t tcrx_static_size = sizeof tcrx_static_octets

/** The array from which tcrx_static.c allocates memory. */
extern uint8_t tcrx_static_octets[];
/** The number of bytes in the array. */
extern const size_t tcrx_static_size;

/**
 * Ends the start, and seals the array. After this call, each request for memory calls TCRX_STORAGE_TRAP() of
 * tcrx_static.c, which is a trap of the processor unless you define it otherwise. If TCRX_STORAGE_TRAP() returns, the
 * request fails.
 */
void tcrx_storage_seal(void);

/**
 * Reports how much of the array has been allocated.
 *
 * @return the number of bytes that have been allocated.
 */
size_t tcrx_storage_used(void);
/** @} */

#ifdef __cplusplus
}
#endif

#endif
