// One external product by plain loops, timed: k 1, N 1024, digits of 12 bits, 2 of them. Prints nanoseconds a product
// and a word of the result.
#include <stdint.h>
#include <stdio.h>
#include <stdlib.h>
#include <string.h>
#include <time.h>

enum { PARTS = 2, N = 1024, BASE = 12, LEVEL = 2, ROUNDS = 200 };

static uint64_t rows[PARTS][LEVEL][PARTS][N], c[PARTS][N], out[PARTS][N], digit[N];

static void mul_add(uint64_t *restrict into, const uint64_t *restrict a, const uint64_t *restrict b) {
    for (size_t i = 0; i < N; i++) {
        uint64_t factor = a[i];
        for (size_t j = 0; j < N - i; j++) into[i + j] += factor * b[j];
        for (size_t j = N - i; j < N; j++) into[i + j - N] -= factor * b[j];
    }
}

static void digits(uint64_t *restrict into, const uint64_t *restrict words, int t) {
    uint64_t halves = 0;
    for (int s = 0; s <= LEVEL; s++) halves += (uint64_t)1 << (63 - BASE * s);
    for (size_t i = 0; i < N; i++)
        into[i] = (((words[i] + halves) >> (64 - BASE * t)) & (((uint64_t)1 << BASE) - 1)) - ((uint64_t)1 << (BASE - 1));
}

static void external(void) {
    memset(out, 0, sizeof out);
    for (int j = 0; j < PARTS; j++)
        for (int t = 1; t <= LEVEL; t++) {
            digits(digit, c[j], t);
            for (int i = 0; i < PARTS; i++) mul_add(out[i], digit, rows[j][t - 1][i]);
        }
}

static void fill(uint64_t words[PARTS][N], uint64_t word) {
    for (size_t i = 0; i < PARTS; i++)
        for (size_t a = 0; a < N; a++) words[i][a] = word = word * 6364136223846793005u + 1442695040888963407u;
}

int main(void) {
    for (int j = 0; j < PARTS; j++)
        for (int t = 0; t < LEVEL; t++) fill(rows[j][t], j * LEVEL + t + 1);
    fill(c, 0);
    struct timespec start, end;
    clock_gettime(CLOCK_MONOTONIC, &start);
    for (int round = 0; round < ROUNDS; round++) {
        external();
        // what was computed may be read here
        __asm__ volatile("" : : "r"(out) : "memory");
    }
    clock_gettime(CLOCK_MONOTONIC, &end);
    double nanoseconds = (end.tv_sec - start.tv_sec) * 1e9 + (end.tv_nsec - start.tv_nsec);
    printf("%.0f %llu\n", nanoseconds / ROUNDS, (unsigned long long)out[PARTS - 1][N - 1]);
    return 0;
}
