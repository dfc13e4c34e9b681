/* Writes rows for reader_index.c and js_index.mjs: indexes, keys, and what the library answers.
 * Arguments: how many indexes, and a seed. Numbers have eight bytes, the lowest first. A row is
 * whether the bytes are an index, the bytes with their length in front, the number of keys, and each
 * key with its length in front; of an index also whether it has the key, and its value or 0. Half of
 * the indexes have some bytes changed. */
#include "rows.h"
#include "zerotrie.h"
#include <string.h>

enum { KEYS = 400, KEY = 60, INDEX = 1 << 16, ASKED = 16 };

/* Of each length that the hash takes apart in another way. */
static size_t random_key(uint8_t *key) {
    const size_t len = below(4) ? below(20) : below(KEY);
    const unsigned style = (unsigned)below(3);
    for (size_t i = 0; i < len; i++)
        key[i] = (uint8_t)(style == 0 ? 'a' : style == 1 ? (uint64_t)"abAB"[below(4)] : next());
    return len;
}

static size_t random_value(void) {
    static const size_t edges[] = { 0, 1, SIZE_MAX, SIZE_MAX >> 1, SIZE_MAX >> 11, (SIZE_MAX >> 11) + 1 };
    return below(2) ? edges[below(6)] : (size_t)next() >> below(56);
}

/* Pairs without a key twice; the keys lie in `keys`. */
static size_t random_pairs(zerotrie_pair *pairs, uint8_t keys[KEYS][KEY]) {
    static const size_t counts[] = { 0, 1, 2, 3, 5, 8, 20, 60 };
    const size_t want = below(64) == 0 ? KEYS : counts[below(8)];
    size_t count = 0;
    for (size_t i = 0; i < want; i++) {
        const size_t len = random_key(keys[count]);
        bool is_new = true;
        for (size_t j = 0; j < count && is_new; j++)
            is_new = pairs[j].key.len != len || memcmp(pairs[j].key.ptr, keys[count], len) != 0;
        if (is_new) {
            pairs[count].key = zerotrie_bytes_of(keys[count], len);
            pairs[count++].value = random_value();
        }
    }
    return count;
}

/* Changes some bytes, or none; half of them in the seed, the number of buckets and the entries. */
static size_t damage(uint8_t *bytes, size_t len) {
    for (size_t changes = below(2) ? 0 : 1 + below(3); changes && len; changes--) {
        const size_t at = below(below(2) || len < 64 ? len : 64);
        switch (below(4)) {
        case 0:
            bytes[at] ^= (uint8_t)(1u << below(8));
            break;
        case 1:
            bytes[at] = (uint8_t)next();
            break;
        case 2:
            len = below(8) ? len : at;
            break;
        default:
            bytes[at] = 0;
        }
    }
    return len;
}

static void put_key(const uint8_t *bytes, size_t len, bool is_index, const uint8_t *key,
                    size_t key_len) {
    size_t value = 0;
    put_bytes(key, key_len);
    if (is_index) {
        const bool is = zerotrie_index_get(bytes, len, key, key_len, &value);
        put(is);
        put(is ? value : 0);
    }
}

static void random_row(void) {
    static uint8_t keys[KEYS][KEY], bytes[INDEX];
    static zerotrie_pair pairs[KEYS];
    const size_t count = random_pairs(pairs, keys);
    const uint64_t seed = below(2) ? below(3) : next() << 20 ^ next();
    uint8_t key[KEY + 1];
    size_t len = 0;
    bool is_index;
    if (zerotrie_index_build(seed, pairs, count, bytes, sizeof bytes, &len) != ZEROTRIE_DONE)
        exit(3);
    len = damage(bytes, len);
    is_index = zerotrie_index_is_valid(bytes, len);
    put(is_index);
    put_bytes(bytes, len);
    put(ASKED);
    for (size_t i = 0; i < ASKED; i++) {
        size_t key_len = random_key(key);
        if (count && i % 3) {
            const zerotrie_bytes from = pairs[below(count)].key;
            memcpy(key, from.ptr, key_len = from.len);
            if (key_len && i % 3 == 2)
                key[below(key_len)] ^= (uint8_t)below(2);
            if (i % 9 == 8)
                key[key_len++] = (uint8_t)next();
        }
        put_key(bytes, len, is_index, key, key_len);
    }
}

int main(int count, char **words) {
    if (count < 2)
        return 2;
    if (count > 2)
        state ^= strtoull(words[2], NULL, 10) * 0x9E3779B97F4A7C15u;
    for (unsigned long long left = strtoull(words[1], NULL, 10); left; left--)
        random_row();
    return fflush(stdout) != 0;
}
