// What the keys of one circuit cost by plain means: the words drawn by ChaCha20, a plain product for each row of the boot
// key, and the SHA-256 of as many bytes as the file of evaluation keys has. Prints milliseconds and a check word.
#include <stdint.h>
#include <stdio.h>
#include <stdlib.h>
#include <string.h>
#include <time.h>

// the parameters of the table with a ring of 1,024
enum { N = 1024, ONES = 32, SMALL = 128, BOOT_LEVEL = 2, SWITCH_LEVEL = 4 };
enum { BOOT_ROWS = SMALL * 2 * BOOT_LEVEL, SWITCH_ROWS = N * SWITCH_LEVEL };
enum { FILE_WORDS = BOOT_ROWS * 2 * N + SWITCH_ROWS * (SMALL + 1) };

static uint32_t state[16], block[16];
static int used = 16;

static uint32_t rotated(uint32_t word, int by) { return word << by | word >> (32 - by); }

static void quarter(uint32_t *x, int a, int b, int c, int d) {
    x[a] += x[b]; x[d] = rotated(x[d] ^ x[a], 16);
    x[c] += x[d]; x[b] = rotated(x[b] ^ x[c], 12);
    x[a] += x[b]; x[d] = rotated(x[d] ^ x[a], 8);
    x[c] += x[d]; x[b] = rotated(x[b] ^ x[c], 7);
}

static uint64_t next_u64(void) {
    if (used == 16) {
        memcpy(block, state, sizeof block);
        for (int round = 0; round < 10; round++) {
            quarter(block, 0, 4, 8, 12); quarter(block, 1, 5, 9, 13);
            quarter(block, 2, 6, 10, 14); quarter(block, 3, 7, 11, 15);
            quarter(block, 0, 5, 10, 15); quarter(block, 1, 6, 11, 12);
            quarter(block, 2, 7, 8, 13); quarter(block, 3, 4, 9, 14);
        }
        for (int at = 0; at < 16; at++) block[at] += state[at];
        state[12]++;
        used = 0;
    }
    uint64_t low = block[used], high = block[used + 1];
    used += 2;
    return low | high << 32;
}

static const uint32_t K[64] = {
    0x428a2f98, 0x71374491, 0xb5c0fbcf, 0xe9b5dba5, 0x3956c25b, 0x59f111f1, 0x923f82a4, 0xab1c5ed5,
    0xd807aa98, 0x12835b01, 0x243185be, 0x550c7dc3, 0x72be5d74, 0x80deb1fe, 0x9bdc06a7, 0xc19bf174,
    0xe49b69c1, 0xefbe4786, 0x0fc19dc6, 0x240ca1cc, 0x2de92c6f, 0x4a7484aa, 0x5cb0a9dc, 0x76f988da,
    0x983e5152, 0xa831c66d, 0xb00327c8, 0xbf597fc7, 0xc6e00bf3, 0xd5a79147, 0x06ca6351, 0x14292967,
    0x27b70a85, 0x2e1b2138, 0x4d2c6dfc, 0x53380d13, 0x650a7354, 0x766a0abb, 0x81c2c92e, 0x92722c85,
    0xa2bfe8a1, 0xa81a664b, 0xc24b8b70, 0xc76c51a3, 0xd192e819, 0xd6990624, 0xf40e3585, 0x106aa070,
    0x19a4c116, 0x1e376c08, 0x2748774c, 0x34b0bcb5, 0x391c0cb3, 0x4ed8aa4a, 0x5b9cca4f, 0x682e6ff3,
    0x748f82ee, 0x78a5636f, 0x84c87814, 0x8cc70208, 0x90befffa, 0xa4506ceb, 0xbef9a3f7, 0xc67178f2,
};

static void hash_block(uint32_t *h, const uint8_t *bytes) {
    uint32_t w[64], s[8];
    for (int at = 0; at < 16; at++)
        w[at] = (uint32_t)bytes[4 * at] << 24 | bytes[4 * at + 1] << 16 | bytes[4 * at + 2] << 8 | bytes[4 * at + 3];
    for (int at = 16; at < 64; at++) {
        uint32_t low = rotated(w[at - 15], 25) ^ rotated(w[at - 15], 14) ^ w[at - 15] >> 3;
        uint32_t high = rotated(w[at - 2], 15) ^ rotated(w[at - 2], 13) ^ w[at - 2] >> 10;
        w[at] = w[at - 16] + low + w[at - 7] + high;
    }
    memcpy(s, h, sizeof s);
    for (int at = 0; at < 64; at++) {
        uint32_t big = rotated(s[4], 26) ^ rotated(s[4], 21) ^ rotated(s[4], 7);
        uint32_t first = s[7] + big + ((s[4] & s[5]) ^ (~s[4] & s[6])) + K[at] + w[at];
        uint32_t small = rotated(s[0], 30) ^ rotated(s[0], 19) ^ rotated(s[0], 10);
        uint32_t second = small + ((s[0] & s[1]) ^ (s[0] & s[2]) ^ (s[1] & s[2]));
        memmove(s + 1, s, 7 * sizeof *s);
        s[4] += first;
        s[0] = first + second;
    }
    for (int at = 0; at < 8; at++) h[at] += s[at];
}

static void mul_add(uint64_t *restrict into, const uint64_t *restrict a, const uint64_t *restrict b) {
    for (size_t i = 0; i < N; i++) {
        uint64_t factor = a[i];
        for (size_t j = 0; j < N - i; j++) into[i + j] += factor * b[j];
        for (size_t j = N - i; j < N; j++) into[i + j - N] -= factor * b[j];
    }
}

int main(void) {
    uint64_t *file = malloc(FILE_WORDS * 8ul), *key = calloc(N, 8);
    if (!file || !key) return 1;
    struct timespec start, end;
    clock_gettime(CLOCK_MONOTONIC, &start);
    for (int at = 0; at < 16; at++) state[at] = at;
    for (int at = 0; at < ONES; at++) key[next_u64() % N] = 1;
    uint64_t *row = file;
    for (int r = 0; r < SWITCH_ROWS; r++, row += SMALL + 1)
        for (int at = 0; at <= SMALL; at++) row[at] = next_u64();
    for (int r = 0; r < BOOT_ROWS; r++, row += 2 * N) {
        for (int at = 0; at < N; at++) row[at] = next_u64();
        for (int at = 0; at < N; at++) row[N + at] = next_u64() % 262145 - 131072;
        mul_add(row + N, row, key);
    }
    uint32_t h[8] = {0};
    for (size_t at = 0; at + 64 <= FILE_WORDS * 8ul; at += 64) hash_block(h, (const uint8_t *)file + at);
    clock_gettime(CLOCK_MONOTONIC, &end);
    printf("%.0f %u\n", (end.tv_sec - start.tv_sec) * 1e3 + (end.tv_nsec - start.tv_nsec) / 1e6, h[0]);
    return 0;
}
