// The baseline for the benchmark of counter mode: AES-256 with tables in plain C. `counter_mode LEN
// TIMES` enciphers LEN zero bytes in place with an all-zero key, TIMES times over, and prints the
// last 16 bytes.
#include <stdint.h>
#include <stdio.h>
#include <stdlib.h>

enum { BLOCK_LEN = 16, WORDS = 60 };

static uint8_t s_box[256];
static uint32_t tables[4][256];

static uint8_t twice(uint8_t a) {
    return (uint8_t)(a << 1) ^ (a & 0x80 ? 0x1b : 0);
}

static uint32_t rotated(uint32_t word, unsigned by) {
    return word >> by | word << (32 - by);
}

// 3 generates the field's nonzero elements. p and q run through them, and q is the inverse of p.
static void make_s_box(void) {
    uint8_t p = 1, q = 1;
    do {
        p ^= twice(p);
        q ^= q << 1;
        q ^= q << 2;
        q ^= q << 4;
        if (q & 0x80) q ^= 0x09;
        uint32_t wide = q * 0x0101u;
        s_box[p] = (uint8_t)(wide ^ wide >> 4 ^ wide >> 5 ^ wide >> 6 ^ wide >> 7) ^ 0x63;
    } while (p != 1);
    s_box[0] = 0x63;
}

static void make_tables(void) {
    make_s_box();
    for (int x = 0; x < 256; x++) {
        uint32_t s = s_box[x], two = twice(s_box[x]);
        uint32_t word = two << 24 | s << 16 | s << 8 | (two ^ s);
        for (unsigned k = 0; k < 4; k++) tables[k][x] = k ? rotated(word, 8 * k) : word;
    }
}

static uint32_t sub_word(uint32_t word) {
    return (uint32_t)s_box[word >> 24] << 24 | (uint32_t)s_box[word >> 16 & 0xff] << 16 |
           (uint32_t)s_box[word >> 8 & 0xff] << 8 | s_box[word & 0xff];
}

static uint32_t load(const uint8_t *bytes) {
    return (uint32_t)bytes[0] << 24 | (uint32_t)bytes[1] << 16 | (uint32_t)bytes[2] << 8 | bytes[3];
}

static void store(uint8_t *bytes, uint32_t word) {
    bytes[0] = word >> 24, bytes[1] = word >> 16, bytes[2] = word >> 8, bytes[3] = word;
}

static void expand(const uint8_t key[32], uint32_t w[WORDS]) {
    uint32_t constant = 1;
    for (int i = 0; i < 8; i++) w[i] = load(key + 4 * i);
    for (int i = 8; i < WORDS; i++) {
        uint32_t word = w[i - 1];
        if (i % 8 == 0) {
            word = sub_word(rotated(word, 24)) ^ constant << 24;
            constant *= 2;
        } else if (i % 8 == 4) {
            word = sub_word(word);
        }
        w[i] = w[i - 8] ^ word;
    }
}

static inline uint32_t mixed(uint32_t a, uint32_t b, uint32_t c, uint32_t d, uint32_t key) {
    return tables[0][a >> 24] ^ tables[1][b >> 16 & 0xff] ^ tables[2][c >> 8 & 0xff] ^
           tables[3][d & 0xff] ^ key;
}

static inline uint32_t last(uint32_t a, uint32_t b, uint32_t c, uint32_t d, uint32_t key) {
    return ((uint32_t)s_box[a >> 24] << 24 | (uint32_t)s_box[b >> 16 & 0xff] << 16 |
            (uint32_t)s_box[c >> 8 & 0xff] << 8 | s_box[d & 0xff]) ^ key;
}

#define ROUND(n)                                                                                   \
    e = mixed(a, b, c, d, w[4 * (n)]), f = mixed(b, c, d, a, w[4 * (n) + 1]),                      \
    g = mixed(c, d, a, b, w[4 * (n) + 2]), h = mixed(d, a, b, c, w[4 * (n) + 3]), a = e, b = f,    \
    c = g, d = h

static void encipher(const uint32_t w[WORDS], const uint8_t in[BLOCK_LEN], uint8_t out[BLOCK_LEN]) {
    uint32_t a = load(in) ^ w[0], b = load(in + 4) ^ w[1], c = load(in + 8) ^ w[2];
    uint32_t d = load(in + 12) ^ w[3], e, f, g, h;
    ROUND(1), ROUND(2), ROUND(3), ROUND(4), ROUND(5), ROUND(6), ROUND(7);
    ROUND(8), ROUND(9), ROUND(10), ROUND(11), ROUND(12), ROUND(13);
    store(out, last(a, b, c, d, w[56]));
    store(out + 4, last(b, c, d, a, w[57]));
    store(out + 8, last(c, d, a, b, w[58]));
    store(out + 12, last(d, a, b, c, w[59]));
}

static void increment(uint8_t counter[BLOCK_LEN]) {
    for (int i = BLOCK_LEN - 1; i >= 0 && ++counter[i] == 0; i--) {
    }
}

static void apply(const uint32_t w[WORDS], uint8_t *bytes, size_t len) {
    uint8_t counter[BLOCK_LEN] = {0}, stream[BLOCK_LEN];
    for (; len >= BLOCK_LEN; bytes += BLOCK_LEN, len -= BLOCK_LEN) {
        encipher(w, counter, stream);
        for (int i = 0; i < BLOCK_LEN; i++) bytes[i] ^= stream[i];
        increment(counter);
    }
    if (len > 0) {
        encipher(w, counter, stream);
        for (size_t i = 0; i < len; i++) bytes[i] ^= stream[i];
    }
}

int main(int argc, char **argv) {
    if (argc != 3) return 1;
    size_t len = strtoull(argv[1], NULL, 10), times = strtoull(argv[2], NULL, 10);
    uint8_t *bytes = calloc(len + 1, 1);
    if (bytes == NULL) return 1;
    uint8_t key[32] = {0};
    uint32_t w[WORDS];
    make_tables();
    expand(key, w);
    for (size_t i = 0; i < times; i++) apply(w, bytes, len);
    for (size_t i = len < BLOCK_LEN ? 0 : len - BLOCK_LEN; i < len; i++) printf("%02x", bytes[i]);
    printf("\n");
    free(bytes);
    return 0;
}
