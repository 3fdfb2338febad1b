/* Hashes the file `image` with SHA-256, SHA-384 and SHA-512, in plain C that follows the text of FIPS 180-4. Prints for each round the
   nanoseconds of each, and then the first eight bytes of each digest as a number. */
#include <stdint.h>
#include <stdio.h>
#include <stdlib.h>
#include <string.h>
#include <time.h>

#define ROUNDS 20

static const uint64_t K[80] = {
    0x428a2f98d728ae22, 0x7137449123ef65cd, 0xb5c0fbcfec4d3b2f, 0xe9b5dba58189dbbc, 0x3956c25bf348b538,
    0x59f111f1b605d019, 0x923f82a4af194f9b, 0xab1c5ed5da6d8118, 0xd807aa98a3030242, 0x12835b0145706fbe,
    0x243185be4ee4b28c, 0x550c7dc3d5ffb4e2, 0x72be5d74f27b896f, 0x80deb1fe3b1696b1, 0x9bdc06a725c71235,
    0xc19bf174cf692694, 0xe49b69c19ef14ad2, 0xefbe4786384f25e3, 0x0fc19dc68b8cd5b5, 0x240ca1cc77ac9c65,
    0x2de92c6f592b0275, 0x4a7484aa6ea6e483, 0x5cb0a9dcbd41fbd4, 0x76f988da831153b5, 0x983e5152ee66dfab,
    0xa831c66d2db43210, 0xb00327c898fb213f, 0xbf597fc7beef0ee4, 0xc6e00bf33da88fc2, 0xd5a79147930aa725,
    0x06ca6351e003826f, 0x142929670a0e6e70, 0x27b70a8546d22ffc, 0x2e1b21385c26c926, 0x4d2c6dfc5ac42aed,
    0x53380d139d95b3df, 0x650a73548baf63de, 0x766a0abb3c77b2a8, 0x81c2c92e47edaee6, 0x92722c851482353b,
    0xa2bfe8a14cf10364, 0xa81a664bbc423001, 0xc24b8b70d0f89791, 0xc76c51a30654be30, 0xd192e819d6ef5218,
    0xd69906245565a910, 0xf40e35855771202a, 0x106aa07032bbd1b8, 0x19a4c116b8d2d0c8, 0x1e376c085141ab53,
    0x2748774cdf8eeb99, 0x34b0bcb5e19b48a8, 0x391c0cb3c5c95a63, 0x4ed8aa4ae3418acb, 0x5b9cca4f7763e373,
    0x682e6ff3d6b2b8a3, 0x748f82ee5defb2fc, 0x78a5636f43172f60, 0x84c87814a1f0ab72, 0x8cc702081a6439ec,
    0x90befffa23631e28, 0xa4506cebde82bde9, 0xbef9a3f7b2c67915, 0xc67178f2e372532b, 0xca273eceea26619c,
    0xd186b8c721c0c207, 0xeada7dd6cde0eb1e, 0xf57d4f7fee6ed178, 0x06f067aa72176fba, 0x0a637dc5a2c898a6,
    0x113f9804bef90dae, 0x1b710b35131c471b, 0x28db77f523047d84, 0x32caab7b40c72493, 0x3c9ebe0a15c9bebc,
    0x431d67c49c100d4c, 0x4cc5d4becb3e42b6, 0x597f299cfc657e2a, 0x5fcb6fab3ad6faec, 0x6c44198c4a475817};

static const uint64_t H384[8] = {0xcbbb9d5dc1059ed8, 0x629a292a367cd507, 0x9159015a3070dd17, 0x152fecd8f70e5939,
                                 0x67332667ffc00b31, 0x8eb44a8768581511, 0xdb0c2e0d64f98fa7, 0x47b5481dbefa4fa4};

static const uint64_t H512[8] = {0x6a09e667f3bcc908, 0xbb67ae8584caa73b, 0x3c6ef372fe94f82b, 0xa54ff53a5f1d36f1,
                                 0x510e527fade682d1, 0x9b05688c2b3e6c1f, 0x1f83d9abfb41bd6b, 0x5be0cd19137e2179};

/* SHA-256 uses the upper halves of the first of the words above. */
static uint32_t upper(uint64_t word) { return (uint32_t)(word >> 32); }

static uint32_t turn32(uint32_t x, int n) { return x >> n | x << (32 - n); }
static uint64_t turn64(uint64_t x, int n) { return x >> n | x << (64 - n); }

static void block256(uint32_t h[8], const uint8_t *block)
{
    uint32_t w[64], a = h[0], b = h[1], c = h[2], d = h[3], e = h[4], f = h[5], g = h[6], last = h[7];
    for (int t = 0; t < 16; t++)
        w[t] = (uint32_t)block[4 * t] << 24 | (uint32_t)block[4 * t + 1] << 16 | (uint32_t)block[4 * t + 2] << 8 | block[4 * t + 3];
    for (int t = 16; t < 64; t++) {
        uint32_t s0 = turn32(w[t - 15], 7) ^ turn32(w[t - 15], 18) ^ w[t - 15] >> 3;
        uint32_t s1 = turn32(w[t - 2], 17) ^ turn32(w[t - 2], 19) ^ w[t - 2] >> 10;
        w[t] = s1 + w[t - 7] + s0 + w[t - 16];
    }
    for (int t = 0; t < 64; t++) {
        uint32_t one = last + (turn32(e, 6) ^ turn32(e, 11) ^ turn32(e, 25)) + ((e & f) ^ (~e & g)) + upper(K[t]) + w[t];
        uint32_t two = (turn32(a, 2) ^ turn32(a, 13) ^ turn32(a, 22)) + ((a & b) ^ (a & c) ^ (b & c));
        last = g, g = f, f = e, e = d + one, d = c, c = b, b = a, a = one + two;
    }
    h[0] += a, h[1] += b, h[2] += c, h[3] += d, h[4] += e, h[5] += f, h[6] += g, h[7] += last;
}

static void block512(uint64_t h[8], const uint8_t *block)
{
    uint64_t w[80], a = h[0], b = h[1], c = h[2], d = h[3], e = h[4], f = h[5], g = h[6], last = h[7];
    for (int t = 0; t < 16; t++) {
        w[t] = 0;
        for (int i = 0; i < 8; i++)
            w[t] = w[t] << 8 | block[8 * t + i];
    }
    for (int t = 16; t < 80; t++) {
        uint64_t s0 = turn64(w[t - 15], 1) ^ turn64(w[t - 15], 8) ^ w[t - 15] >> 7;
        uint64_t s1 = turn64(w[t - 2], 19) ^ turn64(w[t - 2], 61) ^ w[t - 2] >> 6;
        w[t] = s1 + w[t - 7] + s0 + w[t - 16];
    }
    for (int t = 0; t < 80; t++) {
        uint64_t one = last + (turn64(e, 14) ^ turn64(e, 18) ^ turn64(e, 41)) + ((e & f) ^ (~e & g)) + K[t] + w[t];
        uint64_t two = (turn64(a, 28) ^ turn64(a, 34) ^ turn64(a, 39)) + ((a & b) ^ (a & c) ^ (b & c));
        last = g, g = f, f = e, e = d + one, d = c, c = b, b = a, a = one + two;
    }
    h[0] += a, h[1] += b, h[2] += c, h[3] += d, h[4] += e, h[5] += f, h[6] += g, h[7] += last;
}

/* Writes the last one or two blocks to `end`: the bytes that are left, a one bit, zeros, and the length in bits. Returns how many bytes
   these are. */
static size_t padded(uint8_t *end, const uint8_t *bytes, size_t length, size_t block)
{
    size_t left = length % block, room = left + 1 + block / 8 <= block ? block : 2 * block;
    uint64_t bits = (uint64_t)length * 8;
    memset(end, 0, 2 * block);
    memcpy(end, bytes + length - left, left);
    end[left] = 0x80;
    for (int i = 0; i < 8; i++)
        end[room - 1 - i] = (uint8_t)(bits >> (8 * i));
    return room;
}

/* These return the first eight bytes of the digests. */
static uint64_t sha256(const uint8_t *bytes, size_t length)
{
    uint32_t h[8];
    uint8_t end[128];
    for (int i = 0; i < 8; i++)
        h[i] = upper(H512[i]);
    for (size_t i = 0; i + 64 <= length; i += 64)
        block256(h, bytes + i);
    size_t room = padded(end, bytes, length, 64);
    for (size_t i = 0; i < room; i += 64)
        block256(h, end + i);
    return (uint64_t)h[0] << 32 | h[1];
}

static uint64_t sha512(const uint64_t *first, const uint8_t *bytes, size_t length)
{
    uint64_t h[8];
    uint8_t end[256];
    memcpy(h, first, sizeof h);
    for (size_t i = 0; i + 128 <= length; i += 128)
        block512(h, bytes + i);
    size_t room = padded(end, bytes, length, 128);
    for (size_t i = 0; i < room; i += 128)
        block512(h, end + i);
    return h[0];
}

static uint64_t now(void)
{
    struct timespec time;
    clock_gettime(CLOCK_MONOTONIC, &time);
    return (uint64_t)time.tv_sec * 1000000000u + (uint64_t)time.tv_nsec;
}

int main(void)
{
    size_t room = 1 << 24;
    uint8_t *bytes = malloc(room);
    FILE *image = fopen("image", "rb");
    if (!bytes || !image)
        return 1;
    size_t length = fread(bytes, 1, room, image);
    for (int i = 0; i < ROUNDS; i++) {
        uint64_t times[4], found[3];
        times[0] = now();
        found[0] = sha256(bytes, length);
        times[1] = now();
        found[1] = sha512(H384, bytes, length);
        times[2] = now();
        found[2] = sha512(H512, bytes, length);
        times[3] = now();
        for (int way = 0; way < 3; way++)
            printf("%llu ", (unsigned long long)(times[way + 1] - times[way]));
        printf("%llu %llu %llu\n", (unsigned long long)found[0], (unsigned long long)found[1], (unsigned long long)found[2]);
    }
    return 0;
}
