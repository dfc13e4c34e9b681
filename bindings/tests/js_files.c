/* Writes rows for js_files.mjs: sealed and tagged bytes, some of them changed, and what the library
 * finds in them. Arguments: how many, and a seed. Each row is the status, the kind, the place of the
 * trie, its length and that of the file, four bytes each with the lowest first, and the file. */
#include "zerotrie.h"
#include <stdio.h>
#include <stdlib.h>

enum { CONTENT = 60, FILE_LEN = ZEROTRIE_SEAL_LEN + CONTENT + 8 };

static uint64_t state = 88172645463325252u;

static size_t below(size_t limit) {
    state ^= state << 13;
    state ^= state >> 7;
    state ^= state << 17;
    return (size_t)((state >> 8) % limit);
}

static void put(size_t number) {
    for (int i = 0; i < 4; i++)
        putchar((int)(number >> (8 * i) & 0xFF));
}

static size_t random_file(uint8_t *file) {
    static const zerotrie_kind kinds[] = { ZEROTRIE_SIMPLE_ASCII, ZEROTRIE_PERFECT_HASH,
                                           ZEROTRIE_EXTENDED_CAPACITY, ZEROTRIE_IGNORE_CASE };
    uint8_t content[CONTENT];
    size_t content_len = below(CONTENT + 1), len = 0;
    const zerotrie_kind kind = kinds[below(4)];
    for (size_t i = 0; i < content_len; i++)
        content[i] = (uint8_t)below(256);
    if ((below(4) ? zerotrie_seal(kind, content, content_len, file, FILE_LEN, &len)
                  : zerotrie_tagged(kind, content, content_len, file, FILE_LEN, &len))
        != ZEROTRIE_DONE)
        exit(3);
    return len;
}

/* Changes a bit, or one in the header; or the length. */
static size_t damage(uint8_t *file, size_t len) {
    switch (below(8)) {
    case 0:
    case 1:
        file[below(len)] ^= (uint8_t)(1u << below(8));
        return len;
    case 2:
        file[below(len < ZEROTRIE_SEAL_LEN ? len : ZEROTRIE_SEAL_LEN)] = (uint8_t)below(18);
        return len;
    case 3:
        return below(len + 1);
    case 4:
        file[len] = (uint8_t)below(256);
        return len + 1;
    default:
        return len;
    }
}

int main(int count, char **words) {
    static uint8_t file[FILE_LEN];
    if (count < 2)
        return 2;
    if (count > 2)
        state ^= strtoull(words[2], NULL, 10) * 0x9E3779B97F4A7C15u;
    for (unsigned long long left = strtoull(words[1], NULL, 10); left; left--) {
        const size_t len = damage(file, random_file(file));
        uint32_t kind = 0;
        size_t at = 0, trie_len = 0;
        put(zerotrie_open(file, len, &kind, &at, &trie_len));
        put(kind);
        put(at);
        put(trie_len);
        put(len);
        fwrite(file, 1, len, stdout);
    }
    return fflush(stdout) != 0;
}
