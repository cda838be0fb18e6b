// A plain AES-256 in counter mode with four tables, as a yardstick for `qe_bench ctr`: 64 KiB, N times.
#include <stdint.h>
#include <stdio.h>
#include <stdlib.h>

static uint8_t sbox[256];
static uint32_t t0[256], t1[256], t2[256], t3[256];

static uint8_t times2(uint8_t x) { return (uint8_t)((x << 1) ^ ((x >> 7) * 0x1b)); }

static void make_tables(void) {
    uint8_t p = 1, q = 1;
    do {
        p = p ^ times2(p);
        q ^= q << 1;
        q ^= q << 2;
        q ^= q << 4;
        if (q & 0x80) q ^= 0x09;
        uint8_t x = q ^ (uint8_t)(q << 1 | q >> 7) ^ (uint8_t)(q << 2 | q >> 6) ^ (uint8_t)(q << 3 | q >> 5) ^ (uint8_t)(q << 4 | q >> 4);
        sbox[p] = x ^ 0x63;
    } while (p != 1);
    sbox[0] = 0x63;
    for (int i = 0; i < 256; i++) {
        uint8_t s = sbox[i], d = times2(s);
        t0[i] = (uint32_t)d << 24 | (uint32_t)s << 16 | (uint32_t)s << 8 | (uint8_t)(s ^ d);
        t1[i] = t0[i] >> 8 | t0[i] << 24;
        t2[i] = t0[i] >> 16 | t0[i] << 16;
        t3[i] = t0[i] >> 24 | t0[i] << 8;
    }
}

static uint32_t sub_word(uint32_t w) {
    return (uint32_t)sbox[w >> 24] << 24 | (uint32_t)sbox[w >> 16 & 255] << 16 | (uint32_t)sbox[w >> 8 & 255] << 8 | sbox[w & 255];
}

static void expand(const uint8_t key[32], uint32_t w[60]) {
    for (int i = 0; i < 8; i++) w[i] = (uint32_t)key[4 * i] << 24 | (uint32_t)key[4 * i + 1] << 16 | (uint32_t)key[4 * i + 2] << 8 | key[4 * i + 3];
    uint8_t rcon = 1;
    for (int i = 8; i < 60; i++) {
        uint32_t t = w[i - 1];
        if (i % 8 == 0) { t = sub_word(t << 8 | t >> 24) ^ (uint32_t)rcon << 24; rcon = times2(rcon); }
        else if (i % 8 == 4) t = sub_word(t);
        w[i] = w[i - 8] ^ t;
    }
}

static void encrypt(const uint32_t w[60], const uint32_t in[4], uint32_t out[4]) {
    uint32_t a = in[0] ^ w[0], b = in[1] ^ w[1], c = in[2] ^ w[2], d = in[3] ^ w[3];
    for (int r = 1; r < 14; r++) {
        uint32_t e = t0[a >> 24] ^ t1[b >> 16 & 255] ^ t2[c >> 8 & 255] ^ t3[d & 255] ^ w[4 * r];
        uint32_t f = t0[b >> 24] ^ t1[c >> 16 & 255] ^ t2[d >> 8 & 255] ^ t3[a & 255] ^ w[4 * r + 1];
        uint32_t g = t0[c >> 24] ^ t1[d >> 16 & 255] ^ t2[a >> 8 & 255] ^ t3[b & 255] ^ w[4 * r + 2];
        uint32_t h = t0[d >> 24] ^ t1[a >> 16 & 255] ^ t2[b >> 8 & 255] ^ t3[c & 255] ^ w[4 * r + 3];
        a = e; b = f; c = g; d = h;
    }
    uint32_t s[4] = {a, b, c, d};
    for (int i = 0; i < 4; i++)
        out[i] = ((uint32_t)sbox[s[i] >> 24] << 24 | (uint32_t)sbox[s[(i + 1) % 4] >> 16 & 255] << 16
                  | (uint32_t)sbox[s[(i + 2) % 4] >> 8 & 255] << 8 | sbox[s[(i + 3) % 4] & 255]) ^ w[56 + i];
}

int main(int argc, char **argv) {
    static uint8_t bytes[65536];
    uint8_t key[32];
    uint32_t w[60];
    long turns = argc > 1 ? atol(argv[1]) : 1;
    make_tables();
    for (int i = 0; i < 32; i++) key[i] = (uint8_t)i;
    for (long n = 0; n < turns; n++) {
        expand(key, w);
        uint32_t counter[4] = {0, 0, 0, 0}, stream[4];
        for (int at = 0; at < 65536; at += 16) {
            encrypt(w, counter, stream);
            for (int i = 0; i < 16; i++) bytes[at + i] ^= (uint8_t)(stream[i / 4] >> (24 - 8 * (i % 4)));
            for (int i = 3; i >= 0 && ++counter[i] == 0; i--) {}
        }
    }
    for (int i = 0; i < 16; i++) printf("%02x", bytes[65520 + i]);
    printf("\n");
    return 0;
}
