/* Holds the calls of zerotrie_read.h for indexes against the rows of index_rows.c, which it reads
 * from standard input, and against the example of FORMAT.md. Of bytes that are no index, only what
 * holds of any bytes is tested; build it with sanitizers for that. */
#include "rows.h"
#include "zerotrie_read.h"

static unsigned long long indexes, valid;

/* The sealed file of a content, in a block of exactly its length. */
static uint8_t *sealed(uint8_t number, const uint8_t *content, size_t len) {
    static const uint8_t front[] = { 0x7A, 0x74, 0x72, 0x69, 0x89, 0x8A, 0x0D, 0x0A, 1, 0 };
    uint8_t *file = calloc(1, 24 + len);
    uint32_t sum;
    if (!file)
        exit(3);
    memcpy(file, front, sizeof front);
    file[10] = number;
    for (int i = 0; i < 8; i++)
        file[12 + i] = (uint8_t)((uint64_t)len >> (8 * i));
    if (len != 0)
        memcpy(file + 24, content, len);
    sum = zerotrie_read_checksum(zerotrie_read_checksum(0, file, 20), file + 24, len);
    for (int i = 0; i < 4; i++)
        file[20 + i] = (uint8_t)(sum >> (8 * i));
    return file;
}

static bool is_opened(const uint8_t *file, size_t len) {
    const uint8_t *index = NULL;
    size_t index_len = 99;
    const bool is = zerotrie_read_open_index(file, len, &index, &index_len);
    same(is ? index == file + 24 && index_len == len - 24 : !index && index_len == 99);
    return is;
}

/* A whole file is opened; one that is cut, longer, changed or of a trie is not. */
static void compare_files(const uint8_t *bytes, size_t len) {
    uint8_t *file = sealed(24, bytes, len), *trie = sealed(3, bytes, len);
    uint8_t *other = sealed(16, bytes, len);
    const size_t at = 8 + (size_t)indexes % (16 + len);
    uint32_t kind;
    const uint8_t *found;
    size_t found_len;
    same(is_opened(file, 24 + len));
    same(!is_opened(file, 23 + len) && !is_opened(trie, 24 + len));
    same(!is_opened(other, 24 + len));
    same(!zerotrie_read_open(file, 24 + len, &kind, &found, &found_len));
    file[at] ^= (uint8_t)(1u << indexes % 8);
    same(!is_opened(file, 24 + len));
    free(file);
    free(trie);
    free(other);
}

static void row(void) {
    size_t len, key_len;
    const bool is_index = take() != 0;
    uint8_t *bytes = take_bytes(&len);
    const uint64_t keys = take();
    indexes++;
    valid += is_index;
    for (uint64_t i = 0; i < keys; i++) {
        uint8_t *key = take_bytes(&key_len);
        uint64_t value = 5;
        const bool is = zerotrie_read_index_get(bytes, len, key, key_len, &value);
        same(is || value == 5);
        if (is_index) {
            same((take() != 0) == is);
            same(take() == (is ? value : 0));
        }
        free(key);
    }
    compare_files(bytes, len);
    free(bytes);
}

/* The example of FORMAT.md, of the keys "ad" 22 and "adef" 33, and its two hashes. */
static void compare_example(void) {
    static const uint8_t index[] = {
        0x00, 0x00, 0x00, 0x00, 0x00, 0x00, 0x00, 0x00, 0x04, 0x00, 0x00, 0x00,
        0x00, 0x00, 0x00, 0x00, 0x40, 0x00, 0x00, 0x00, 0x00, 0x00, 0x00, 0x00,
        0x00, 0x40, 0x00, 0x00, 0x0B, 0x00, 0x00, 0x00, 0x00, 0x00, 0x00, 0x00,
        0x18, 0x00, 0x00, 0x00, 0x00, 0x00, 0x00, 0x00, 0x18, 0x00, 0x00, 0x00,
        0x00, 0x00, 0x00, 0x00, 0x18, 0x00, 0x00, 0x00, 0x02, 0x16, 0x00, 0x00,
        0x00, 0x00, 0x00, 0x00, 0x00, 0x61, 0x64, 0x04, 0x21, 0x00, 0x00, 0x00,
        0x00, 0x00, 0x00, 0x00, 0x61, 0x64, 0x65, 0x66
    };
    uint64_t value;
    same(zerotrie_read_index_get(index, sizeof index, "ad", 2, &value) && value == 22);
    same(zerotrie_read_index_get(index, sizeof index, "adef", 4, &value) && value == 33);
    same(!zerotrie_read_index_get(index, sizeof index, "a", 1, &value));
    same(!zerotrie_read_index_get(index, sizeof index, NULL, 9, &value));
    same(!zerotrie_read_index_get(NULL, sizeof index, "ad", 2, &value) && !is_opened(NULL, 99));
    same(zerotrie_read_hash(0, (const uint8_t *)"adef", 4) == UINT64_C(0x4378AF771912CE2E));
    same(zerotrie_read_hash(1, (const uint8_t *)"https://example.org/", 20) == UINT64_C(0x32EECB065348F7EA));
}

int main(void) {
    int first;
    compare_example();
    while ((first = getchar()) != EOF) {
        ungetc(first, stdin);
        row();
    }
    printf("%llu indexes, %llu of them valid, %llu answers: %llu differ\n", indexes, valid, answers,
           differ);
    return differ != 0 || valid == 0;
}
