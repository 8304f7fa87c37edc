// A plain double loop of the sums of one negacyclic product of N words, timed: prints nanoseconds a product.
#include <stdint.h>
#include <stdio.h>
#include <stdlib.h>
#include <string.h>
#include <time.h>

enum { ROUNDS = 2048 * 1024 / N };

static void mul_add(uint64_t *restrict into, const uint64_t *restrict a, const uint64_t *restrict b, size_t n) {
    for (size_t i = 0; i < n; i++) {
        uint64_t factor = a[i];
        for (size_t j = 0; j < n - i; j++) into[i + j] += factor * b[j];
        for (size_t j = n - i; j < n; j++) into[i + j - n] -= factor * b[j];
    }
}

static void fill(uint64_t *words, size_t n, uint64_t word) {
    for (size_t i = 0; i < n; i++) {
        word = word * 6364136223846793005u + 1442695040888963407u;
        words[i] = word;
    }
}

int main(void) {
    uint64_t *a = malloc(N * 8), *b = malloc(N * 8), *into = calloc(N, 8);
    if (!a || !b || !into) return 1;
    fill(a, N, 1);
    fill(b, N, 2);
    struct timespec start, end;
    clock_gettime(CLOCK_MONOTONIC, &start);
    for (int round = 0; round < ROUNDS; round++) {
        memset(into, 0, N * 8);
        mul_add(into, a, b, N);
        // what was computed may be read here
        __asm__ volatile("" : : "r"(into) : "memory");
    }
    clock_gettime(CLOCK_MONOTONIC, &end);
    double nanoseconds = (end.tv_sec - start.tv_sec) * 1e9 + (end.tv_nsec - start.tv_nsec);
    printf("%.0f %llu\n", nanoseconds / ROUNDS, (unsigned long long)into[N - 1]);
    return 0;
}
