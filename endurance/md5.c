// MD5 (RFC 1321), for the answers to challenges. A text has at most 119 octets here, which is two blocks.
#include <math.h>
#include <stdint.h>
#include <stdio.h>
#include <string.h>

#include "leg.h"

static uint32_t rotated(uint32_t word, int by) { return word << by | word >> (32 - by); }

static uint32_t mixed(int round, uint32_t b, uint32_t c, uint32_t d) {
    switch (round) {
    case 0: return (b & c) | (~b & d);
    case 1: return (b & d) | (c & ~d);
    case 2: return b ^ c ^ d;
    default: return c ^ (b | ~d);
    }
}

static void block(uint32_t state[4], const unsigned char *octets) {
    static const int shifts[4][4] = {{7, 12, 17, 22}, {5, 9, 14, 20}, {4, 11, 16, 23}, {6, 10, 15, 21}};
    static const int factors[4] = {1, 5, 3, 7}, offsets[4] = {0, 1, 5, 0};
    uint32_t a = state[0], b = state[1], c = state[2], d = state[3];
    for (int step = 0; step < 64; step++) {
        int round = step / 16, place = (factors[round] * step + offsets[round]) % 16 * 4;
        uint32_t word = (uint32_t)octets[place] | (uint32_t)octets[place + 1] << 8 | (uint32_t)octets[place + 2] << 16 |
                        (uint32_t)octets[place + 3] << 24;
        uint32_t sine = (uint32_t)(fabs(sin(step + 1)) * 4294967296.0);
        uint32_t sum = a + mixed(round, b, c, d) + word + sine;
        a = d, d = c, c = b, b += rotated(sum, shifts[round][step % 4]);
    }
    state[0] += a, state[1] += b, state[2] += c, state[3] += d;
}

void md5_digits(const unsigned char *text, unsigned length, char digits[33]) {
    uint32_t state[4] = {0x67452301, 0xefcdab89, 0x98badcfe, 0x10325476};
    unsigned char octets[128] = {0};
    unsigned whole = length < 56 ? 64 : 128;
    memcpy(octets, text, length);
    octets[length] = 0x80;
    for (int place = 0; place < 4; place++) octets[whole - 8 + place] = (unsigned char)(length * 8 >> 8 * place);
    for (unsigned from = 0; from < whole; from += 64) block(state, octets + from);
    for (int place = 0; place < 16; place++) sprintf(digits + 2 * place, "%02x", state[place / 4] >> place % 4 * 8 & 255);
}
