// A key switch by plain loops, timed: prints nanoseconds a switch. The shape is given to the compiler: D (the dimension of
// what is switched), N (that of the result), BASE, LEVEL and ROUNDS.
#include <stdint.h>
#include <stdio.h>
#include <stdlib.h>
#include <time.h>

static void digits_into(int64_t *out, uint64_t word, int base, int level) {
    uint64_t halves = 0;
    for (int t = 0; t <= level; t++) halves += (uint64_t)1 << (63 - base * t);
    for (int t = 1; t <= level; t++) {
        uint64_t raised = ((word + halves) >> (64 - base * t)) & (((uint64_t)1 << base) - 1);
        out[t - 1] = (int64_t)raised - ((int64_t)1 << (base - 1));
    }
}

static void switch_into(uint64_t *restrict out, const uint64_t *restrict rows, const uint64_t *restrict c, size_t d,
                        size_t n, int base, int level) {
    int64_t digits[63];
    for (size_t k = 0; k < n; k++) out[k] = 0;
    out[n] = c[d];
    for (size_t i = 0; i < d; i++) {
        digits_into(digits, c[i], base, level);
        for (int t = 0; t < level; t++) {
            uint64_t factor = 0 - (uint64_t)digits[t];
            const uint64_t *row = rows + (i * level + t) * (n + 1);
            for (size_t k = 0; k <= n; k++) out[k] += factor * row[k];
        }
    }
}

static uint64_t next(uint64_t word) { return word * 6364136223846793005u + 1442695040888963407u; }

int main(void) {
    size_t words = (size_t)D * LEVEL * (N + 1);
    uint64_t *rows = malloc(words * 8), *c = malloc((D + 1) * 8), *out = calloc(N + 1, 8);
    if (!rows || !c || !out) return 1;
    uint64_t word = 1;
    for (size_t at = 0; at < words; at++) rows[at] = word = next(word);
    for (size_t at = 0; at <= D; at++) c[at] = word = next(word);
    struct timespec start, end;
    clock_gettime(CLOCK_MONOTONIC, &start);
    uint64_t check = 0;
    for (int round = 0; round < ROUNDS; round++) {
        switch_into(out, rows, c, D, N, BASE, LEVEL);
        // what was computed may be read here
        __asm__ volatile("" : : "r"(out) : "memory");
        check ^= out[0] + out[N];
        c[0] += 1;
    }
    clock_gettime(CLOCK_MONOTONIC, &end);
    double nanoseconds = (end.tv_sec - start.tv_sec) * 1e9 + (end.tv_nsec - start.tv_nsec);
    printf("%.0f %llu\n", nanoseconds / ROUNDS, (unsigned long long)check);
    return 0;
}
