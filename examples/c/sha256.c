/* SHA-256 of some texts, as FIPS 180-4 has it. */
#include <stdint.h>
#include <stdio.h>
#include <string.h>

struct hash {
    uint32_t state[8];
    uint8_t block[64];
    uint64_t length;
};

static const uint32_t constants[64] = {
    0x428a2f98, 0x71374491, 0xb5c0fbcf, 0xe9b5dba5, 0x3956c25b, 0x59f111f1, 0x923f82a4, 0xab1c5ed5,
    0xd807aa98, 0x12835b01, 0x243185be, 0x550c7dc3, 0x72be5d74, 0x80deb1fe, 0x9bdc06a7, 0xc19bf174,
    0xe49b69c1, 0xefbe4786, 0x0fc19dc6, 0x240ca1cc, 0x2de92c6f, 0x4a7484aa, 0x5cb0a9dc, 0x76f988da,
    0x983e5152, 0xa831c66d, 0xb00327c8, 0xbf597fc7, 0xc6e00bf3, 0xd5a79147, 0x06ca6351, 0x14292967,
    0x27b70a85, 0x2e1b2138, 0x4d2c6dfc, 0x53380d13, 0x650a7354, 0x766a0abb, 0x81c2c92e, 0x92722c85,
    0xa2bfe8a1, 0xa81a664b, 0xc24b8b70, 0xc76c51a3, 0xd192e819, 0xd6990624, 0xf40e3585, 0x106aa070,
    0x19a4c116, 0x1e376c08, 0x2748774c, 0x34b0bcb5, 0x391c0cb3, 0x4ed8aa4a, 0x5b9cca4f, 0x682e6ff3,
    0x748f82ee, 0x78a5636f, 0x84c87814, 0x8cc70208, 0x90befffa, 0xa4506ceb, 0xbef9a3f7, 0xc67178f2,
};

static uint32_t rotate(uint32_t word, unsigned count)
{
    return word >> count | word << (32 - count);
}

static void expand(const uint8_t *block, uint32_t *schedule)
{
    for (int at = 0; at < 16; at++)
        schedule[at] = (uint32_t)block[4 * at] << 24 | (uint32_t)block[4 * at + 1] << 16
                     | (uint32_t)block[4 * at + 2] << 8 | block[4 * at + 3];
    for (int at = 16; at < 64; at++) {
        uint32_t near = schedule[at - 2], far = schedule[at - 15];
        schedule[at] = schedule[at - 16] + schedule[at - 7]
                     + (rotate(far, 7) ^ rotate(far, 18) ^ far >> 3)
                     + (rotate(near, 17) ^ rotate(near, 19) ^ near >> 10);
    }
}

static void compress(uint32_t *state, const uint8_t *block)
{
    uint32_t schedule[64], v[8];
    expand(block, schedule);
    memcpy(v, state, sizeof v);
    for (int round = 0; round < 64; round++) {
        uint32_t e = v[4], a = v[0];
        uint32_t first = v[7] + (rotate(e, 6) ^ rotate(e, 11) ^ rotate(e, 25)) + ((e & v[5]) ^ (~e & v[6]))
                       + constants[round] + schedule[round];
        uint32_t second = (rotate(a, 2) ^ rotate(a, 13) ^ rotate(a, 22)) + ((a & v[1]) ^ (a & v[2]) ^ (v[1] & v[2]));
        for (int at = 7; at > 0; at--)
            v[at] = v[at - 1];
        v[4] += first;
        v[0] = first + second;
    }
    for (int at = 0; at < 8; at++)
        state[at] += v[at];
}

static void start(struct hash *hash)
{
    static const uint32_t initial[8] = {
        0x6a09e667, 0xbb67ae85, 0x3c6ef372, 0xa54ff53a, 0x510e527f, 0x9b05688c, 0x1f83d9ab, 0x5be0cd19,
    };
    memcpy(hash->state, initial, sizeof initial);
    hash->length = 0;
}

static void add_byte(struct hash *hash, uint8_t byte)
{
    hash->block[hash->length++ % 64] = byte;
    if (hash->length % 64 == 0)
        compress(hash->state, hash->block);
}

static void finish(struct hash *hash, uint8_t *digest)
{
    uint64_t bits = hash->length * 8;
    add_byte(hash, 0x80);
    while (hash->length % 64 != 56)
        add_byte(hash, 0);
    for (int shift = 56; shift >= 0; shift -= 8)
        add_byte(hash, bits >> shift);
    for (int at = 0; at < 32; at++)
        digest[at] = hash->state[at / 4] >> (24 - at % 4 * 8);
}

static void show(const char *text, unsigned times)
{
    struct hash hash;
    uint8_t digest[32];
    start(&hash);
    for (unsigned time = 0; time < times; time++)
        for (const char *at = text; *at; at++)
            add_byte(&hash, *at);
    finish(&hash, digest);
    for (int at = 0; at < 32; at++)
        printf("%02x", digest[at]);
    printf("  %u times \"%s\"\n", times, text);
}

int main(void)
{
    show("", 1);
    show("abc", 1);
    show("a", 10000);
    return 0;
}
