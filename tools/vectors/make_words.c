// Reed-Solomon words and damaged words, made with libfec (Debian: libfec-dev), a coder by other hands.
// Build and run: see README.md beside this file. Lines go to standard output, in the form that docs/vectors.md describes.
#include <fec.h>
#include <stdint.h>
#include <stdio.h>
#include <stdlib.h>
#include <string.h>

static uint64_t state = 20261118;

static uint32_t random_number(uint32_t below) {
    state = state * 6364136223846793005u + 1442695040888963407u;
    return (uint32_t)(state >> 33) % below;
}

static void print_hex(const uint8_t *octets, int n) {
    for (int i = 0; i < n; i++) printf("%02x", octets[i]);
}

static int differing(const uint8_t *a, const uint8_t *b, int n) {
    int d = 0;
    for (int i = 0; i < n; i++) d += a[i] != b[i];
    return d;
}

// Changes `count` different octets of a word to other values.
static void spoil(uint8_t *word, int n, int count) {
    uint8_t hit[255] = {0};
    while (count > 0) {
        int place = random_number(n);
        if (hit[place]) continue;
        hit[place] = 1;
        word[place] ^= 1 + random_number(255);
        count--;
    }
}

// libfec looks for places in the octets that a shortened word lacks too, so its answer counts only if it is a word near enough.
static void print_decoding(void *rs, int k, int r, const uint8_t *received) {
    int n = k + r;
    uint8_t mended[255], again[255];
    memcpy(mended, received, n);
    int count = decode_rs_char(rs, mended, NULL, 0);
    memcpy(again, mended, k);
    encode_rs_char(rs, again, again + k);
    printf("decode 0 %d %d ", k, r);
    print_hex(received, n);
    if (count >= 0 && memcmp(again, mended, n) == 0 && differing(mended, received, n) <= r / 2) {
        printf(" repaired %d ", differing(mended, received, n));
        print_hex(mended, k);
        printf("\n");
    } else {
        printf(" lost\n");
    }
}

static void one_size(int k, int r) {
    int n = k + r;
    uint8_t word[255], received[255];
    void *rs = init_rs_char(8, 0x11d, 0, 1, r, 255 - n);
    if (!rs) exit(1);
    for (int i = 0; i < k; i++) word[i] = random_number(256);
    encode_rs_char(rs, word, word + k);
    printf("word 0 %d %d ", k, r);
    print_hex(word, k);
    printf(" ");
    print_hex(word, n);
    printf("\n");
    for (int errors = 0; errors <= r / 2 + 2 && errors <= n; errors++) {
        memcpy(received, word, n);
        spoil(received, n, errors);
        print_decoding(rs, k, r, received);
    }
    free_rs_char(rs);
}

int main(void) {
    for (int r = 2; r <= 16; r += 2) {
        int frames[] = {3, 4, 11, 60, 128, 255 - r};
        for (int i = 0; i < 6; i++) one_size(frames[i], r);
    }
    // short words, where words past repair are often near another word
    for (int i = 0; i < 20; i++) one_size(3, 2);
    return 0;
}
