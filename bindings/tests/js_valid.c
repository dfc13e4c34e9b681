/* Writes whether bytes are a trie, for js_valid.mjs: '1' or '0' for each kind and each string of at most
 * six of six bytes, and then hashed tables with any parameters, as rows: the answer, and the bytes
 * with their length in front. The argument is how many tables. */
#include "zerotrie.h"
#include <stdio.h>
#include <stdlib.h>
#include <string.h>

static const uint32_t kinds[] = { ZEROTRIE_SIMPLE_ASCII, ZEROTRIE_PERFECT_HASH,
                                  ZEROTRIE_EXTENDED_CAPACITY, ZEROTRIE_IGNORE_CASE };
static uint64_t state = 88172645463325252u;

static uint8_t next(void) {
    state ^= state << 13;
    state ^= state >> 7;
    state ^= state << 17;
    return (uint8_t)(state >> 8);
}

static void short_strings(uint32_t kind) {
    uint8_t bytes[6];
    for (size_t len = 0, count = 1; len <= 6; len++, count *= 6)
        for (size_t number = 0; number < count; number++) {
            for (size_t at = 0, rest = number; at < len; at++, rest /= 6)
                bytes[at] = (uint8_t) "\x61\x62\x01\x81\xA1\xC2"[rest % 6];
            putchar(zerotrie_is_well_formed(kind, bytes, len) ? '1' : '0');
        }
}

/* The place of a byte in a hashed table, by FORMAT.md. */
static size_t place_of(uint8_t byte, const uint8_t *table, size_t n) {
    const uint8_t p = table[0];
    const uint8_t q = table[1 + (p ? byte ^ p ^ byte >> p % 8 : byte) % n];
    uint8_t x = byte ^ q;
    for (int i = 95; i < q; i++)
        x = (uint8_t)(x ^ x << 1 ^ x >> 1);
    return x % n;
}

/* A branch of n edges whose table has any p and q, and at each place the last byte that belongs
 * there; now and then one edge is another. Each target is a value of its own. */
static void hashed_table(size_t n) {
    uint8_t bytes[2048] = { 0 }, *table = bytes + (n < 32 ? 1 : 2), *at;
    size_t len;
    bytes[0] = (uint8_t)(n < 32 ? 0xC0 + n : 0xE0 + (n - 32) / 128);
    if (n >= 32)
        bytes[1] = (n - 32) % 128;
    for (size_t i = 0; i <= n; i++)
        table[i] = next();
    at = table + 1 + n;
    for (int byte = 0; byte < 256; byte++)
        at[place_of((uint8_t)byte, table, n)] = (uint8_t)byte;
    if (next() % 4 == 0)
        at[next() % n] ^= next() % 8;
    at += n;
    for (size_t i = 1; i < n; i++)
        *at++ = (uint8_t)i;
    memset(at, 0x80, n);
    len = (size_t)(at - bytes) + n;
    putchar(zerotrie_is_well_formed(ZEROTRIE_PERFECT_HASH, bytes, len) ? '1' : '0');
    putchar((int)(len & 0xFF));
    putchar((int)(len >> 8));
    fwrite(bytes, 1, len, stdout);
}

int main(int count, char **words) {
    if (count < 2)
        return 2;
    for (size_t i = 0; i < 4; i++)
        short_strings(kinds[i]);
    for (unsigned long left = strtoul(words[1], NULL, 10); left; left--)
        hashed_table(16 + next() % 100);
    return fflush(stdout) != 0;
}
