/*
 * Frames, CLCWs and packets with their fields, frames that calls write, and the steps of a channel with FARM-1 after
 * each, for fields.c and ends.cc. All of it was worked out by hand, from CCSDS 232.0-B, 4.1 and 4.2, CCSDS 133.0-B, 4.1,
 * and CCSDS 232.1-B, 6.3, except where a comment names another source. Fill follows each frame and packet that is read.
 *
 * The fields are plain numbers here, and not records of the header, so that the checks find a record in which two
 * fields have swapped names.
 */
#ifndef FIELDS_H
#define FIELDS_H

#include "../../dist/tcrx.h"

enum { MOST_OCTETS = 308, OF_FRAME = 8, OF_CLCW = 9, OF_PACKET = 6, OF_FARM = 7 };

/* Each row has the spacecraft id, virtual channel id, N(S), bypass flag, control command flag and length, and then the
 * kind and its number. */
typedef struct {
    uint8_t octets[MOST_OCTETS];
    size_t count;
    uint32_t fields[OF_FRAME];
} frame_row;

/* Type-BD has only the bypass flag, Type-BC has both flags (Unlock, and Set V(R) to 9), Type-AD has none, and Type-AC
 * has only the control command flag. */
static const frame_row frame_rows[] = {
    {{0x22, 0xa3, 0x94, 0x07, 0xc8, 0xc0, 0xaa, 0xbb, 0x55, 0x55}, 10, {675, 37, 200, 1, 0, 8, TCRX_BD, 0}},
    {{0x32, 0xa3, 0x30, 0x05, 0x11, 0x00, 0x55}, 7, {675, 12, 17, 1, 1, 6, TCRX_UNLOCK, 0}},
    {{0x32, 0xa3, 0x30, 0x07, 0x11, 0x82, 0x00, 0x09, 0x55}, 9, {675, 12, 17, 1, 1, 8, TCRX_SET_VR, 9}},
    {{0x02, 0xa3, 0xfd, 0x2b, 0xff}, 302, {675, 63, 255, 0, 0, 300, TCRX_AD, 255}},
    {{0x12, 0xa3, 0x00, 0x05, 0x80, 0x00, 0x55}, 7, {675, 0, 128, 0, 1, 6, TCRX_INVALID, 0}},
};

/* Each row has the status field, virtual channel id, No RF Available, No Bit Lock, Lockout, Wait, Retransmit, FARM-B
 * counter and report value. */
typedef struct {
    uint32_t word;
    uint32_t fields[OF_CLCW];
} clcw_row;

/* The rows have each flag alone, and the largest status field. */
static const clcw_row clcw_rows[] = {
    {0x019484b5, {0, 37, 1, 0, 0, 0, 0, 2, 181}}, {0x019444b5, {0, 37, 0, 1, 0, 0, 0, 2, 181}},
    {0x019424b5, {0, 37, 0, 0, 1, 0, 0, 2, 181}}, {0x019414b5, {0, 37, 0, 0, 0, 1, 0, 2, 181}},
    {0x01940cb5, {0, 37, 0, 0, 0, 0, 1, 2, 181}}, {0x1d9404b5, {7, 37, 0, 0, 0, 0, 0, 2, 181}},
};

/* Each row has the length, APID, sequence count, packet type, secondary header flag and sequence flags. */
typedef struct {
    uint8_t octets[MOST_OCTETS];
    size_t count;
    uint32_t fields[OF_PACKET];
} packet_row;

/* The rows have each value of the sequence flags, and the packet type and the secondary header flag each with and
 * without the other. */
static const packet_row packet_rows[] = {
    {{0x1d, 0xa5, 0x12, 0x34, 0x00, 0x02, 0xaa, 0xbb, 0xcc, 0x55}, 10, {9, 1445, 4660, 1, 1, 0}},
    {{0x00, 0x05, 0x40, 0x01, 0x00, 0x00, 0xaa, 0x55}, 8, {7, 5, 1, 0, 0, 1}},
    {{0x17, 0xfe, 0xbf, 0xff, 0x01, 0x2b}, 308, {306, 2046, 16383, 1, 0, 2}},
    {{0x08, 0x00, 0xea, 0xaa, 0x00, 0x00, 0xaa, 0x55}, 8, {7, 0, 10922, 0, 1, 3}},
};

/* A frame that a call writes. */
typedef struct {
    uint8_t octets[16];
    size_t count;
} made_row;

/*
 * These frames are for spacecraft 675. A unit is sent in segments of three octets for MAP 37, over Type-AD frames of
 * channel 37 from N(S) 255 on, and whole over one Type-BD frame with N(S) 200. Unlock and Set V(R) to 9 are sent for
 * channel 12. Then comes the first frame of frame_rows with its frame error control field, by the CRC of another
 * implementation (Python's binascii.crc_hqx, preset to ones).
 */
static const uint8_t made_unit[] = {1, 2, 3, 4, 5, 6, 7};
static const made_row segment_rows[] = {
    {{0x02, 0xa3, 0x94, 0x08, 0xff, 0x65, 1, 2, 3}, 9},
    {{0x02, 0xa3, 0x94, 0x08, 0x00, 0x25, 4, 5, 6}, 9},
    {{0x02, 0xa3, 0x94, 0x06, 0x01, 0xa5, 7}, 7},
};
static const made_row whole_row = {{0x22, 0xa3, 0x94, 0x0c, 0xc8, 0xe5, 1, 2, 3, 4, 5, 6, 7}, 13};
static const made_row command_rows[] = {
    {{0x32, 0xa3, 0x30, 0x05, 0x00, 0x00}, 6},
    {{0x32, 0xa3, 0x30, 0x07, 0x00, 0x82, 0x00, 0x09}, 8},
};
static const made_row fecf_row = {{0x22, 0xa3, 0x94, 0x09, 0xc8, 0xc0, 0xaa, 0xbb, 0x4c, 0x91}, 10};

/*
 * These are the frame of the first of frame_rows in a CLTU, and that frame with the random sequence added. The parity
 * bits were worked out by long division of the polynomials, and the sequence bit by bit, in Python, from CCSDS 231.0-B.
 * Then comes a CLCW (status field 7, virtual channel 37, No RF Available, FARM-B counter 2, V(R) 181) in telemetry
 * frames of 13 and 15 octets for spacecraft 675 and virtual channel 5, with counts 200 and 77 (CCSDS 132.0-B, 4.1).
 */
static const uint8_t cltu_octets[] = {0xeb, 0x90, 0x22, 0xa3, 0x94, 0x07, 0xc8, 0xc0, 0xaa, 0xf0, 0xbb, 0x55, 0x55,
                                      0x55, 0x55, 0x55, 0x55, 0x3e, 0xc5, 0xc5, 0xc5, 0xc5, 0xc5, 0xc5, 0xc5, 0x79};
static const made_row random_row = {{0xdd, 0x9a, 0x0a, 0x5d, 0xa0, 0x29, 0xac, 0x4e}, 8};
enum { TM_CLCW = 0x1d9484b5 };
static const made_row tm_row = {{0x2a, 0x3b, 0xc8, 0x4d, 0x1f, 0xfe, 0x55, 0x55, 0x55, 0x1d, 0x94, 0x84, 0xb5}, 13};
static const made_row tm_fecf_row = {{0x2a, 0x3b, 0xc8, 0x4d, 0x1f, 0xfe, 0x55, 0x55, 0x55, 0x1d, 0x94, 0x84, 0xb5, 0x7e, 0xe3}, 15};

/* The width, state, V(R), FARM-B counter, Lockout, Wait and Retransmit of FARM-1 after the frame. */
typedef struct {
    uint8_t octets[6];
    uint32_t fields[OF_FARM];
} step_row;

/*
 * Steps on virtual channel 1, whose buffer has room for one data field, from V(R) 250 on. The arrivals are a Type-AD
 * frame ahead of V(R) (E3), the expected one with room (E1) and without (E2), Unlock (E7), and a Type-AD frame outside
 * the window (E5).
 */
static const tcrx_settings step_settings = {1, 10, 1, 250, 1};
static const step_row step_rows[] = {
    {{0x00, 0x2a, 0x04, 0x05, 252, 0xc0}, {10, TCRX_OPEN, 250, 0, 0, 0, 1}},
    {{0x00, 0x2a, 0x04, 0x05, 250, 0xc0}, {10, TCRX_OPEN, 251, 0, 0, 0, 0}},
    {{0x00, 0x2a, 0x04, 0x05, 251, 0xc0}, {10, TCRX_WAIT, 251, 0, 0, 1, 1}},
    {{0x30, 0x2a, 0x04, 0x05, 0, 0x00}, {10, TCRX_OPEN, 251, 1, 0, 0, 0}},
    {{0x00, 0x2a, 0x04, 0x05, 100, 0xc0}, {10, TCRX_LOCKOUT, 251, 1, 1, 0, 0}},
};

/* The CLCW after the last step, with No RF Available alone, and with No Bit Lock alone. */
static const uint32_t link_words[] = {0x0104a2fb, 0x010462fb};

#endif
