// Words per second of this repository's Reed-Solomon coder and of libfec, in one run. See run.sh.
#include <fec.h>
#include <stdint.h>
#include <stdio.h>
#include <stdlib.h>
#include <string.h>
#include <time.h>

size_t bench_encode(uint8_t *message, size_t k, uint8_t *word, size_t n, size_t count);
size_t bench_decode(uint8_t *received, size_t n, uint8_t *message, size_t k, size_t count);

static double now(void) {
    struct timespec t;
    clock_gettime(CLOCK_MONOTONIC, &t);
    return t.tv_sec + 1e-9 * t.tv_nsec;
}

static uint64_t state = 7;

static uint32_t random_number(uint32_t below) {
    state = state * 6364136223846793005u + 1442695040888963407u;
    return (uint32_t)(state >> 33) % below;
}

static void fec_encode(void *rs, uint8_t *word, int k, int n, size_t count) {
    for (size_t i = 0; i < count; i++) {
        encode_rs_char(rs, word, word + k);
        word[0] ^= word[n - 1];
    }
}

static size_t fec_decode(void *rs, const uint8_t *received, int n, size_t count) {
    uint8_t copy[255];
    size_t repaired = 0;
    for (size_t i = 0; i < count; i++) {
        memcpy(copy, received, n);
        repaired += decode_rs_char(rs, copy, NULL, 0);
    }
    return repaired;
}

static void report(const char *what, int n, int k, size_t count, double ours, double theirs) {
    printf("(%d, %d) %-14s ours %9.0f/s  libfec %9.0f/s  ratio %.2f\n", n, k, what, count / ours, count / theirs, theirs / ours);
}

static void one_size(int n, int k, size_t count) {
    int r = n - k;
    uint8_t message[255], word[255], received[255], out[255];
    void *rs = init_rs_char(8, 0x11d, 0, 1, r, 255 - n);
    for (int i = 0; i < k; i++) message[i] = word[i] = random_number(256);
    double a = now();
    size_t done = bench_encode(message, k, word, n, count);
    double b = now();
    fec_encode(rs, word, k, n, count);
    double c = now();
    if (done != count) exit(1);
    report("encode", n, k, count, b - a, c - b);
    encode_rs_char(rs, word, word + k);
    for (int errors = 0; errors <= r / 2; errors += r / 2) {
        memcpy(received, word, n);
        for (int i = 0; i < errors; i++) received[(i * (n / errors) + 3) % n] ^= 1 + random_number(255);
        a = now();
        size_t ours = bench_decode(received, n, out, k, count);
        b = now();
        size_t theirs = fec_decode(rs, received, n, count);
        c = now();
        if (ours != theirs || memcmp(out, word, k) != 0) exit(1);
        report(errors ? "decode t errors" : "decode clean", n, k, count, b - a, c - b);
    }
    free_rs_char(rs);
}

int main(void) {
    int sizes[][2] = {{144, 128}, {240, 224}, {255, 239}};
    for (int i = 0; i < 3; i++) one_size(sizes[i][0], sizes[i][1], 100000);
    return 0;
}
