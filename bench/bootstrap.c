// One bootstrap by plain loops, timed: the same steps on the same words, with products by plain double loops. The shape is
// given to the compiler: LOG_N, DIM (bits of the small key), BASE, LEVEL and ROUNDS, with one mask polynomial. Prints
// nanoseconds a bootstrap and a check word of the result.
#include <stdint.h>
#include <stdio.h>
#include <stdlib.h>
#include <string.h>
#include <time.h>

enum { PARTS = 2, N = 1 << LOG_N };

static uint64_t rows[DIM][PARTS][LEVEL][PARTS][N], acc[PARTS][N], turned[PARTS][N], digit[N], test[N], c[DIM + 1];
static uint64_t out[N + 1];

static void mul_add(uint64_t *restrict into, const uint64_t *restrict a, const uint64_t *restrict b) {
    for (size_t i = 0; i < N; i++) {
        uint64_t factor = a[i];
        for (size_t j = 0; j < N - i; j++) into[i + j] += factor * b[j];
        for (size_t j = N - i; j < N; j++) into[i + j - N] -= factor * b[j];
    }
}

static void digits(uint64_t *restrict into, const uint64_t *restrict words, int t) {
    uint64_t halves = 0;
    for (int s = 0; s <= LEVEL; s++) halves += (uint64_t)1 << (63 - BASE * s);
    for (size_t i = 0; i < N; i++)
        into[i] = (((words[i] + halves) >> (64 - BASE * t)) & (((uint64_t)1 << BASE) - 1)) - ((uint64_t)1 << (BASE - 1));
}

static void rotate(uint64_t *restrict into, const uint64_t *restrict a, size_t by) {
    for (size_t i = 0; i < N; i++) {
        size_t at = (i + by) % (2 * N);
        if (at < N) into[at] = a[i]; else into[at - N] = -a[i];
    }
}

static size_t switched(uint64_t word) {
    return (word + ((uint64_t)1 << (62 - LOG_N))) >> (63 - LOG_N);
}

static void step(uint64_t g[PARTS][LEVEL][PARTS][N], size_t by) {
    for (int i = 0; i < PARTS; i++) rotate(turned[i], acc[i], by);
    for (int i = 0; i < PARTS; i++)
        for (size_t a = 0; a < N; a++) turned[i][a] -= acc[i][a];
    for (int j = 0; j < PARTS; j++)
        for (int t = 1; t <= LEVEL; t++) {
            digits(digit, turned[j], t);
            for (int i = 0; i < PARTS; i++) mul_add(acc[i], digit, g[j][t - 1][i]);
        }
}

static void bootstrap(void) {
    memset(acc, 0, sizeof acc);
    rotate(acc[PARTS - 1], test, (2 * N - switched(c[DIM])) % (2 * N));
    for (int i = 0; i < DIM; i++) step(rows[i], switched(c[i]));
    out[0] = acc[0][0];
    for (size_t i = 1; i < N; i++) out[i] = -acc[0][N - i];
    out[N] = acc[PARTS - 1][0];
}

static uint64_t fill(uint64_t *words, size_t number, uint64_t word) {
    for (size_t a = 0; a < number; a++) words[a] = word = word * 6364136223846793005u + 1442695040888963407u;
    return word;
}

int main(void) {
    for (uint64_t i = 0; i < DIM; i++)
        for (uint64_t j = 0; j < PARTS; j++)
            for (uint64_t t = 0; t < LEVEL; t++) fill(&rows[i][j][t][0][0], PARTS * N, (i * PARTS + j) * LEVEL + t + 1);
    fill(test, N, 5);
    fill(c, DIM + 1, 9);
    struct timespec start, end;
    clock_gettime(CLOCK_MONOTONIC, &start);
    for (int round = 0; round < ROUNDS; round++) {
        bootstrap();
        // what was computed may be read here
        __asm__ volatile("" : : "r"(out) : "memory");
    }
    clock_gettime(CLOCK_MONOTONIC, &end);
    double nanoseconds = (end.tv_sec - start.tv_sec) * 1e9 + (end.tv_nsec - start.tv_nsec);
    printf("%.0f %llu\n", nanoseconds / ROUNDS, (unsigned long long)(out[0] ^ out[N]));
    return 0;
}
