/*
 * Decodes a stream of 32 CLTUs, which carry frames of 1,024 octets, COUNT times in pieces of 4,096 octets, by code
 * written by hand. Prints the line that c/checks/stream.c prints. With `sum` it computes the frame error control field
 * of 1,022 octets COUNT times.
 *
 *   streams COUNT MODE WRONG
 *   streams COUNT sum
 */
#include <stdbool.h>
#include <stdint.h>
#include <stdio.h>
#include <stdlib.h>
#include <string.h>

enum { FRAME = 1024, BLOCKS = 147, CLTU = 8 * BLOCKS + 10, CLTUS = 32, PIECE = 4096, MOST = 1029, NOWHERE = 63 };

typedef struct {
    bool corrects, decodes;
    uint8_t last, count;
    uint32_t carried;
} decoder;

static uint8_t left_of[7][256], places[128], stream[CLTUS * CLTU], carried[MOST + 8];
static uint16_t sums[8][256];
static unsigned long frames, corrected, rejected;

/* Fills the tables: the value that an octet adds to the parity bits by its place in a code block, the value that it adds
 * to the check sum by its place in eight octets, and the place of the wrong bit for each syndrome. */
static void fill_tables(void) {
    for (unsigned octet = 0; octet < 256; octet++) {
        unsigned left = octet << 7, sum = octet << 8;
        for (int place = 6; place >= 0; place--) {
            for (int k = 14; k >= 7; k--) left ^= (left >> k & 1) * (0xc5u << (k - 7));
            left_of[place][octet] = (uint8_t)left;
            left <<= 8;
        }
        for (int place = 7; place >= 0; place--) {
            for (int bit = 0; bit < 8; bit++) sum = sum << 1 ^ (sum >> 15 & 1) * 0x11021u;
            sums[place][octet] = (uint16_t)sum;
        }
    }
    memset(places, NOWHERE, sizeof places);
    for (unsigned place = 0; place < 56; place++) places[left_of[place / 8][0x80 >> place % 8]] = (uint8_t)place;
    for (unsigned place = 56; place < 63; place++) places[1 << (62 - place)] = (uint8_t)place;
}

static inline uint8_t parity(const uint8_t *o) {
    return 0x7f ^ left_of[0][o[0]] ^ left_of[1][o[1]] ^ left_of[2][o[2]] ^ left_of[3][o[3]] ^ left_of[4][o[4]] ^ left_of[5][o[5]] ^ left_of[6][o[6]];
}

/* Decodes up to the next candidate frame, or to the end of the piece. Returns how many octets were taken. */
static size_t decode(decoder *d, const uint8_t *octets, size_t count) {
    size_t at = 0;
    while (at < count) {
        if (!d->decodes) {
            const unsigned wrong = ((unsigned)d->last << 8 | octets[at]) ^ 0xeb90u;
            d->decodes = wrong == 0 || (d->corrects && (wrong & (wrong - 1)) == 0);
            d->last = octets[at++];
            d->count = 0;
            if (d->decodes) d->carried = 0;
            continue;
        }
        const uint8_t *block = octets + at;
        if (d->count == 0 && count - at >= 8) {
            at += 8;
        } else {
            carried[d->carried + d->count++] = octets[at++];
            if (d->count < 8) continue;
            block = carried + d->carried;
        }
        d->count = 0;
        uint8_t taken[8];
        memcpy(taken, block, 8);
        const uint8_t syndrome = parity(taken) ^ taken[7] >> 1;
        if (syndrome != 0) {
            const uint8_t place = d->corrects ? places[syndrome] : NOWHERE;
            if (place == NOWHERE) {
                rejected += memcmp(taken, "\xc5\xc5\xc5\xc5\xc5\xc5\xc5\x79", 8) != 0;
                d->decodes = false;
                d->last = 0;
                if (d->carried == 0) continue;
                frames++;
                return at;
            }
            corrected++;
            taken[place / 8] ^= 0x80 >> place % 8;
        }
        if (d->carried + 7 > MOST) {
            d->decodes = false;
            d->last = 0;
            continue;
        }
        memcpy(carried + d->carried, taken, 8);
        d->carried += 7;
    }
    return at;
}

static uint16_t sum_of(const uint8_t *o, size_t count) {
    uint16_t sum = 0xffff;
    for (; count >= 8; count -= 8, o += 8) {
        sum = sums[0][o[0] ^ sum >> 8] ^ sums[1][o[1] ^ (sum & 255)] ^ sums[2][o[2]] ^ sums[3][o[3]] ^ sums[4][o[4]] ^ sums[5][o[5]] ^ sums[6][o[6]] ^ sums[7][o[7]];
    }
    for (; count > 0; count--, o++) sum = (uint16_t)(sum << 8) ^ sums[7][sum >> 8 ^ *o];
    return sum;
}

static void fill_stream(unsigned long wrong) {
    uint32_t number = 1;
    for (size_t i = 0; i < CLTUS; i++) {
        uint8_t *const cltu = stream + i * CLTU;
        memcpy(cltu, "\xeb\x90", 2);
        for (size_t k = 0; k < BLOCKS * 7; k++) {
            number = k < FRAME ? number * 1103515245u + 12345u : number;
            cltu[2 + 8 * (k / 7) + k % 7] = k < FRAME ? (uint8_t)(number >> 16) : 0x55;
        }
        for (size_t k = 0; k < BLOCKS; k++) cltu[2 + 8 * k + 7] = (uint8_t)(parity(cltu + 2 + 8 * k) << 1);
        memcpy(cltu + 2 + 8 * BLOCKS, "\xc5\xc5\xc5\xc5\xc5\xc5\xc5\x79", 8);
        for (size_t k = 0; k < wrong && k < BLOCKS; k++) cltu[2 + 8 * k + k % 7] ^= (uint8_t)(1u << k % 8);
    }
}

int main(int count, char **words) {
    if (count < 3) return 2;
    const unsigned long times = strtoul(words[1], NULL, 10);
    decoder d = {strcmp(words[2], "correct") == 0, false, 0, 0, 0};
    fill_tables();
    fill_stream(count == 4 ? strtoul(words[3], NULL, 10) : 0);
    unsigned long all = 0;
    for (unsigned long i = 0; i < times; i++) {
        if (count == 3) {
            stream[9] = (uint8_t)i;
            all += sum_of(stream, 1022);
            continue;
        }
        for (size_t at = 0; at < sizeof stream;) {
            const size_t left = sizeof stream - at;
            at += decode(&d, stream + at, left < PIECE ? left : PIECE);
        }
    }
    if (count == 3) printf("%lu\n", all);
    else printf("%lu frames, %lu code blocks corrected, %lu rejected\n", frames, corrected, rejected);
    return 0;
}
