/* The same checksum in C, for comparison: four words of 64 bits side by side over sixteen tables.
   Prints the bytes that it takes in a microsecond. */
#include <stdint.h>
#include <stdio.h>
#include <stdlib.h>
#include <string.h>
#include <time.h>

static const int zeros_of[16] = {0, 1, 2, 3, 4, 5, 6, 7, 24, 25, 26, 27, 28, 29, 30, 31};
/* Entry b of table k is the register after the byte b and zeros_of[k] bytes of 0. */
static uint32_t tables[16][256];

static void fill_tables(void) {
    for (uint32_t byte = 0; byte < 256; byte++) {
        uint32_t reg = byte;
        for (int bit = 0; bit < 8; bit++) reg = (reg >> 1) ^ (0x82F63B78u * (reg & 1));
        tables[0][byte] = reg;
    }
    for (int k = 1; k < 16; k++)
        for (int byte = 0; byte < 256; byte++) {
            uint32_t reg = tables[0][byte];
            for (int i = 0; i < zeros_of[k]; i++) reg = tables[0][reg & 0xff] ^ (reg >> 8);
            tables[k][byte] = reg;
        }
}

/* A word moved on by itself (from 7) or by a stride (from 15). */
#define MOVED(word, from)                                                                          \
    (tables[from][(word) & 0xff] ^ tables[from - 1][((word) >> 8) & 0xff] ^                        \
     tables[from - 2][((word) >> 16) & 0xff] ^ tables[from - 3][((word) >> 24) & 0xff] ^           \
     tables[from - 4][((word) >> 32) & 0xff] ^ tables[from - 5][((word) >> 40) & 0xff] ^           \
     tables[from - 6][((word) >> 48) & 0xff] ^ tables[from - 7][(word) >> 56])

static inline uint64_t word_at(const uint8_t *bytes) {
    uint64_t word;
    memcpy(&word, bytes, 8);
    return word;
}

__attribute__((noinline)) static uint32_t crc32c(const uint8_t *bytes, size_t len) {
    uint32_t reg = 0xffffffffu;
    if (len >= 32) {
        uint64_t a = word_at(bytes) ^ reg, b = word_at(bytes + 8), c = word_at(bytes + 16), d = word_at(bytes + 24);
        bytes += 32;
        len -= 32;
        while (len >= 32) {
            a = MOVED(a, 15) ^ word_at(bytes);
            b = MOVED(b, 15) ^ word_at(bytes + 8);
            c = MOVED(c, 15) ^ word_at(bytes + 16);
            d = MOVED(d, 15) ^ word_at(bytes + 24);
            bytes += 32;
            len -= 32;
        }
        reg = MOVED(a, 7);
        b ^= reg;
        reg = MOVED(b, 7);
        c ^= reg;
        reg = MOVED(c, 7);
        d ^= reg;
        reg = MOVED(d, 7);
    }
    while (len >= 8) {
        uint64_t word = word_at(bytes) ^ reg;
        reg = MOVED(word, 7);
        bytes += 8;
        len -= 8;
    }
    while (len--) reg = tables[0][(reg ^ *bytes++) & 0xff] ^ (reg >> 8);
    return ~reg;
}

static uint64_t micros(void) {
    struct timespec now;
    clock_gettime(CLOCK_MONOTONIC, &now);
    return (uint64_t)now.tv_sec * 1000000 + (uint64_t)now.tv_nsec / 1000;
}

int main(void) {
    static const size_t lens[3] = {64, 4096, 1048576}, times[3] = {65536, 1024, 4};
    size_t size = 1048576 + 16;
    uint8_t *text = malloc(size);
    if (!text) return 1;
    fill_tables();
    for (uint32_t i = 0; i < size; i++) text[i] = (uint8_t)((i * 2654435761u) >> 24);
    if (crc32c((const uint8_t *)"123456789", 9) != 0xe3069283u) return 1;
    for (int k = 0; k < 3; k++) {
        uint64_t least = UINT64_MAX;
        volatile uint32_t kept = 0;
        for (int run = 0; run < 200; run++) {
            uint64_t from = micros();
            uint32_t shown = 0;
            for (size_t i = 0; i < times[k]; i++) shown ^= crc32c(text + (i & 15), lens[k]);
            kept = shown;
            uint64_t took = micros() - from;
            if (took < least) least = took;
        }
        (void)kept;
        printf("c %zu %llu\n", lens[k], (unsigned long long)(4194304 / (least ? least : 1)));
    }
    return 0;
}
