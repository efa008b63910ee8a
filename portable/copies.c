/*
 * The three functions that compiled code needs from a C library. They don't use WebAssembly's instructions for copying
 * and filling, because wasm2c of wabt 1.0.32 translates those for a big-endian machine in the wrong order. The file
 * also has the function that compiled code needs from a compiler's own library. It multiplies numbers of 128 bits, by
 * which the code detects whether a product of 64 bits overflows. This file is built with -fno-builtin, so that none of
 * them becomes a call of itself.
 */
#include <stddef.h>
#include <stdint.h>

typedef struct {
    uint64_t octets;
} __attribute__((packed, may_alias)) eight;

void *memmove(void *to, const void *from, size_t count);
void *memcpy(void *to, const void *from, size_t count);
void *memset(void *to, int value, size_t count);

static void copy_up(unsigned char *to, const unsigned char *from, size_t count) {
    for (; count >= 8; count -= 8, to += 8, from += 8) {
        ((eight *)to)->octets = ((const eight *)from)->octets;
    }
    for (; count > 0; count--) {
        *to++ = *from++;
    }
}

static void copy_down(unsigned char *to, const unsigned char *from, size_t count) {
    for (; count >= 8; count -= 8) {
        ((eight *)(to + count - 8))->octets = ((const eight *)(from + count - 8))->octets;
    }
    for (; count > 0; count--) {
        to[count - 1] = from[count - 1];
    }
}

void *memmove(void *to, const void *from, size_t count) {
    if ((uintptr_t)to - (uintptr_t)from >= count) {
        copy_up(to, from, count);
    } else {
        copy_down(to, from, count);
    }
    return to;
}

void *memcpy(void *to, const void *from, size_t count) {
    copy_up(to, from, count);
    return to;
}

void *memset(void *to, int value, size_t count) {
    unsigned char *at = to;
    const uint64_t all = (unsigned char)value * 0x0101010101010101u;
    for (; count >= 8; count -= 8, at += 8) {
        ((eight *)at)->octets = all;
    }
    for (; count > 0; count--) {
        *at++ = (unsigned char)value;
    }
    return to;
}

typedef unsigned __int128 wide;

wide __multi3(wide first, wide second);

wide __multi3(wide first, wide second) {
    const uint64_t a = (uint64_t)first, b = (uint64_t)second, low_half = 0xffffffffu;
    const uint64_t low = (a & low_half) * (b & low_half), left = (a >> 32) * (b & low_half), right = (a & low_half) * (b >> 32);
    const uint64_t middle = (low >> 32) + (left & low_half) + (right & low_half);
    const uint64_t high = (a >> 32) * (b >> 32) + (left >> 32) + (right >> 32) + (middle >> 32);
    const uint64_t crossed = (uint64_t)(first >> 64) * b + a * (uint64_t)(second >> 64);
    return (wide)(high + crossed) << 64 | (middle << 32 | (low & low_half));
}
