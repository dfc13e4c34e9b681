/* What reader_rows.c writes with BY_READER: the answers of zerotrie_read.h, which it has to any
 * bytes. */
#include "zerotrie_read.h"

static bool is_answered(uint32_t kind, const uint8_t *bytes, size_t len) {
    (void)kind, (void)bytes, (void)len;
    return true;
}

static void put_answers(uint32_t kind, const uint8_t *bytes, size_t len, const uint8_t *text,
                        size_t text_len) {
    zerotrie_read_cursor cursor = zerotrie_read_start(kind, bytes, len);
    uint64_t value = 0;
    size_t key_len = 0, at = 0;
    bool is = zerotrie_read_get(kind, bytes, len, text, text_len, &value);
    put(is);
    put(is ? value : 0);
    is = zerotrie_read_longest_prefix(kind, bytes, len, text, text_len, &key_len, &value);
    put(is);
    put(is ? key_len : 0);
    put(is ? value : 0);
    do {
        uint8_t edge = 0;
        is = zerotrie_read_take_value(&cursor, &value);
        put(is);
        put(is ? value : 0);
        if (at == text_len)
            break;
        is = zerotrie_read_step(&cursor, text[at++], &edge);
        put(is);
        put(is ? edge : 0);
    } while (is);
}

static bool count_pair(void *count, const uint8_t *key, size_t key_len, uint64_t value) {
    (void)key, (void)key_len, (void)value;
    ++*(uint64_t *)count;
    return true;
}

static bool put_pair(void *context, const uint8_t *key, size_t key_len, uint64_t value) {
    (void)context;
    put_bytes(key, key_len);
    put(value);
    return true;
}

static void list(uint32_t kind, const uint8_t *bytes, size_t len, const uint8_t *prefix,
                 size_t prefix_len, zerotrie_read_each *each, void *context) {
    static uint8_t room[1 << 24];
    if (zerotrie_read_list(kind, bytes, len, prefix, prefix_len, room, sizeof room, each, context)
        != ZEROTRIE_READ_DONE)
        exit(3);
}

static void put_listing(uint32_t kind, const uint8_t *bytes, size_t len, const uint8_t *prefix,
                        size_t prefix_len) {
    uint64_t count = 0;
    list(kind, bytes, len, prefix, prefix_len, count_pair, &count);
    put(count);
    list(kind, bytes, len, prefix, prefix_len, put_pair, NULL);
}
