/* zerotrie_read_open() opens the same files as zerotrie_open() of the library, and zerotrie_read_open_index() the same as
 * zerotrie_open_index(): whole ones, and those with a byte changed, cut off or added. */
#include "zerotrie.h"
#include "zerotrie_read.h"
#include <stdio.h>
#include <stdlib.h>

static size_t compared, opened;

/* Whether both do the same with a file, in memory of exactly its length. */
static bool alike(const uint8_t *bytes, size_t len) {
    uint8_t *file = (uint8_t *)malloc(len + 1);
    const uint8_t *trie = NULL;
    uint32_t kind = 99, their_kind = 99;
    size_t trie_len = 0, at = 0, their_len = 0;
    memcpy(file + 1, bytes, len);
    const bool done = zerotrie_read_open(file + 1, len, &kind, &trie, &trie_len);
    const bool same = done == (zerotrie_open(file + 1, len, &their_kind, &at, &their_len) == ZEROTRIE_DONE) && kind == their_kind
                      && trie_len == their_len && (!done || trie == file + 1 + at);
    free(file);
    compared++;
    opened += done;
    return same;
}

/* The same of the file of an index. */
static bool alike_as_index(const uint8_t *bytes, size_t len) {
    uint8_t *file = (uint8_t *)malloc(len + 1);
    const uint8_t *index = NULL;
    size_t index_len = 0, at = 0, their_len = 0;
    memcpy(file + 1, bytes, len);
    const bool done = zerotrie_read_open_index(file + 1, len, &index, &index_len);
    const bool same = done == (zerotrie_open_index(file + 1, len, &at, &their_len) == ZEROTRIE_DONE) && index_len == their_len
                      && (!done || index == file + 1 + at);
    free(file);
    compared++;
    opened += done;
    return same;
}

/* An index in blocks, whose bytes need not be one. */
static bool indexes_alike(const uint8_t *index, size_t index_len, uint8_t *file, size_t room, size_t changes) {
    size_t len = 0;
    if (zerotrie_seal_index(index, index_len, file, room, &len) != ZEROTRIE_DONE) return false;
    bool same = alike_as_index(file, len) && alike(file, len) && alike_as_index(file, (size_t)rand() % len)
                && alike_as_index(file, len - 1) && alike_as_index(file, len + 1) && alike_as_index(file + 1, len - 1);
    for (size_t i = 0; i < changes; i++) {
        const size_t at = changes < len ? (size_t)rand() % len : i % len;
        const uint8_t before = file[at];
        file[at] = (uint8_t)(before ^ 1 << rand() % 8);
        same = same && alike_as_index(file, len);
        file[at] = before;
    }
    return same;
}

int main(void) {
    static const uint32_t kinds[] = { 0, 3, 7, 8 };
    static uint8_t many[140000], blocks[140100];
    uint8_t trie[40], file[80];
    bool same = alike((const uint8_t *)"", 0);
    srand(1);
    for (int round = 0; round < 2000; round++) {
        const size_t trie_len = (size_t)rand() % (sizeof trie + 1);
        size_t len = 0;
        for (size_t i = 0; i < trie_len; i++) trie[i] = (uint8_t)rand();
        const zerotrie_kind kind = (zerotrie_kind)kinds[rand() % 4];
        if (zerotrie_seal(kind, trie, trie_len, file, sizeof file, &len) != ZEROTRIE_DONE) return 1;
        same = same && alike(file, len) && alike(file, (size_t)rand() % len) && alike(file, len + 1) && alike(file + 1, len - 1);
        for (size_t i = 0; i < len; i++) {
            const uint8_t before = file[i];
            file[i] = (uint8_t)(before ^ 1 << rand() % 8);
            same = same && alike(file, len);
            file[i] = before;
        }
        if (zerotrie_tagged(kind, trie, trie_len, file, sizeof file, &len) != ZEROTRIE_DONE) return 1;
        same = same && alike(file, len);
        file[0] = (uint8_t)rand();
        same = same && alike(file, len);
        same = same && indexes_alike(trie, trie_len, file, sizeof file - 1, trie_len + 36);
    }
    for (size_t i = 0; i < sizeof many; i++) many[i] = (uint8_t)rand();
    for (size_t i = 0; i < 5; i++)
        same = same && indexes_alike(many, 65535 + i * 16384 + i % 2, blocks, sizeof blocks - 1, 20);
    uint32_t kind;
    const uint8_t *at;
    size_t len;
    uint64_t value;
    same = same && !zerotrie_read_open(NULL, 100, &kind, &at, &len) && !zerotrie_read_get(0, NULL, 100, "a", 1, &value);
    same = same && zerotrie_read_get(0, (const uint8_t *)"\x81", 1, NULL, 100, &value) && value == 1;
    printf("reader, files: %zu, of which %zu are opened: %s\n", compared, opened, same ? "0 differ" : "one differs");
    return !same;
}
