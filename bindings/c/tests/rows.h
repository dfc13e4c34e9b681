/* What the programs have in common that make rows of random tries and indexes, and that read them. */
#include <stdbool.h>
#include <stdint.h>
#include <stdio.h>
#include <stdlib.h>

static unsigned long long answers, differ;

static uint64_t state = 88172645463325252u;

static inline uint64_t next(void) {
    state ^= state << 13;
    state ^= state >> 7;
    state ^= state << 17;
    return state >> 8;
}

static inline size_t below(size_t limit) {
    return (size_t)(next() % limit);
}

static inline void put(uint64_t number) {
    for (int i = 0; i < 8; i++)
        putchar((int)(number >> (8 * i) & 0xFF));
}

static inline void put_bytes(const uint8_t *bytes, size_t len) {
    put(len);
    fwrite(bytes, 1, len, stdout);
}

static inline void same(bool is) {
    answers++;
    differ += !is;
}

static inline uint64_t take(void) {
    uint64_t number = 0;
    for (int i = 0; i < 8; i++) {
        const int byte = getchar();
        if (byte == EOF)
            exit(3);
        number |= (uint64_t)byte << (8 * i);
    }
    return number;
}

/* Bytes in a block of their own, so that a sanitizer sees each read outside them. */
static inline uint8_t *take_bytes(size_t *len) {
    uint8_t *bytes;
    *len = (size_t)take();
    bytes = malloc(*len ? *len : 1);
    if (!bytes || fread(bytes, 1, *len, stdin) != *len)
        exit(3);
    if (*len == 0) {
        free(bytes);
        return NULL;
    }
    return bytes;
}
