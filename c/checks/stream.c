/*
 * Gives a stream of 32 CLTUs, which carry frames of 1,024 octets, to a decoder COUNT times, in pieces of 4,096 octets.
 * Prints how many candidate frames ended, and how many code blocks were corrected and rejected. With `sum` it checks
 * the frame error control field of a frame of 1,024 octets COUNT times.
 *
 *   stream COUNT MODE WRONG      MODE is detect or correct; in each CLTU, WRONG of the 147 code blocks have a wrong bit
 *   stream COUNT sum
 */
#include "../../dist/tcrx.h"

#include <stdio.h>
#include <stdlib.h>
#include <string.h>

enum { FRAME = 1024, BLOCKS = 147, CLTU = 8 * BLOCKS + 10, CLTUS = 32, PIECE = 4096 };

static uint8_t stream[CLTUS * CLTU], carried[TCRX_DECODER_ROOM];

/* Fills the stream with CLTUs that carry octets from a generator, and flips a bit in `wrong` code blocks of each CLTU.
 * Returns whether the CLTUs were written. */
static int fill_stream(unsigned long wrong) {
    uint8_t frame[FRAME];
    uint32_t number = 1;
    for (size_t i = 0; i < CLTUS; i++) {
        uint8_t *const cltu = stream + i * CLTU;
        for (size_t k = 0; k < FRAME; k++) {
            number = number * 1103515245u + 12345u;
            frame[k] = (uint8_t)(number >> 16);
        }
        if (tcrx_write_cltu(frame, FRAME, cltu, CLTU).status != TCRX_DONE) return 0;
        for (size_t k = 0; k < wrong && k < BLOCKS; k++) cltu[2 + 8 * k + k % 7] ^= (uint8_t)(1u << k % 8);
    }
    return 1;
}

static int check_sums(unsigned long times) {
    static uint8_t frame[FRAME - 2] = {0x00, 42, 4 | (FRAME - 3) >> 8, (FRAME - 3) & 0xff}, with_field[FRAME], checked[FRAME];
    if (tcrx_add_fecf(frame, sizeof frame, with_field, sizeof with_field).status != TCRX_DONE) return 1;
    for (unsigned long i = 0; i < times; i++) {
        if (tcrx_check_fecf(with_field, sizeof with_field, checked, sizeof checked).length != sizeof frame) return 1;
    }
    return 0;
}

int main(int count, char **words) {
    if (count == 3) return check_sums(strtoul(words[1], NULL, 10));
    if (count != 4 || !fill_stream(strtoul(words[3], NULL, 10))) return 2;
    const unsigned long times = strtoul(words[1], NULL, 10);
    tcrx_decoder decoder = {strcmp(words[2], "correct") == 0, 0, 0, 0, 0};
    unsigned long frames = 0, corrected = 0, rejected = 0;
    for (unsigned long i = 0; i < times; i++) {
        for (size_t at = 0; at < sizeof stream;) {
            const size_t left = sizeof stream - at;
            const tcrx_decoded answer = tcrx_cltu_octets(decoder, stream + at, left < PIECE ? left : PIECE, carried, sizeof carried);
            if (answer.status != TCRX_DONE) return 1;
            decoder = answer.decoder;
            at += (size_t)answer.taken;
            frames += answer.ended;
            corrected += (unsigned long)answer.corrected;
            rejected += (unsigned long)answer.rejected;
        }
    }
    printf("%lu frames, %lu code blocks corrected, %lu rejected\n", frames, corrected, rejected);
    return 0;
}
