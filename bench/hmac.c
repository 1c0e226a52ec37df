#include "hmac.h"

#include <string.h>

enum { BLOCK = 64 };

typedef struct {
    uint32_t state[5];
    uint8_t block[BLOCK];
    uint64_t len;
} Sha1;

static inline uint32_t turn(uint32_t word, int bits) {
    return word << bits | word >> (32 - bits);
}

static void put_word(uint8_t *out, uint32_t word) {
    for (int byte = 0; byte < 4; byte++) out[byte] = (uint8_t)(word >> (24 - 8 * byte));
}

#define ROUNDS(from, mix, constant)                                                              \
    _Pragma("GCC unroll 20") for (int i = from; i < from + 20; i++) {                            \
        if (i >= 16) w[i & 15] = turn(w[(i + 13) & 15] ^ w[(i + 8) & 15] ^ w[(i + 2) & 15] ^ w[i & 15], 1); \
        uint32_t next = turn(a, 5) + (mix) + e + constant + w[i & 15];                           \
        e = d, d = c, c = turn(b, 30), b = a, a = next;                                          \
    }

static void compress(uint32_t state[5], const uint8_t block[BLOCK]) {
    uint32_t w[16], a = state[0], b = state[1], c = state[2], d = state[3], e = state[4];
    for (int i = 0; i < 16; i++) {
        const uint8_t *at = block + 4 * i;
        w[i] = (uint32_t)at[0] << 24 | (uint32_t)at[1] << 16 | (uint32_t)at[2] << 8 | at[3];
    }
    ROUNDS(0, d ^ (b & (c ^ d)), 0x5a827999)
    ROUNDS(20, b ^ c ^ d, 0x6ed9eba1)
    ROUNDS(40, (b & c) | (d & (b | c)), 0x8f1bbcdc)
    ROUNDS(60, b ^ c ^ d, 0xca62c1d6)
    state[0] += a, state[1] += b, state[2] += c, state[3] += d, state[4] += e;
}

/* A hash that has taken the padded key, each byte of it changed by `pad`. */
static void begin(Sha1 *sha, const uint8_t salt[SALT], uint8_t pad) {
    static const uint32_t START[5] = {0x67452301, 0xefcdab89, 0x98badcfe, 0x10325476, 0xc3d2e1f0};
    memcpy(sha->state, START, sizeof START);
    memset(sha->block, pad, BLOCK);
    for (int i = 0; i < SALT; i++) sha->block[i] ^= salt[i];
    compress(sha->state, sha->block);
    sha->len = BLOCK;
}

static void take(Sha1 *sha, const uint8_t *data, size_t len) {
    for (size_t i = 0; i < len; i++) {
        sha->block[sha->len++ % BLOCK] = data[i];
        if (sha->len % BLOCK == 0) compress(sha->state, sha->block);
    }
}

static void end(Sha1 *sha, uint8_t out[DIGEST]) {
    uint64_t bits = 8 * sha->len;
    size_t used = sha->len % BLOCK;
    sha->block[used++] = 0x80;
    memset(sha->block + used, 0, BLOCK - used);
    if (used > BLOCK - 8) {
        compress(sha->state, sha->block);
        memset(sha->block, 0, BLOCK);
    }
    put_word(sha->block + BLOCK - 8, (uint32_t)(bits >> 32));
    put_word(sha->block + BLOCK - 4, (uint32_t)bits);
    compress(sha->state, sha->block);
    for (int i = 0; i < 5; i++) put_word(out + 4 * i, sha->state[i]);
}

void hmac_sha1(const uint8_t salt[SALT], const uint8_t *data, size_t len, uint8_t out[DIGEST]) {
    Sha1 sha;
    begin(&sha, salt, 0x36);
    take(&sha, data, len);
    end(&sha, out);
    begin(&sha, salt, 0x5c);
    take(&sha, out, DIGEST);
    end(&sha, out);
}
