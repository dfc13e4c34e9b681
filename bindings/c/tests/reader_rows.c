/* Writes rows for reader.c: tries, what they are asked, and what the library answers. Arguments:
 * how many tries, and a seed; or a file of keys, a line each, of which it makes a trie of each
 * kind. Numbers have eight bytes, the lowest first, so that reader.c reads them on another
 * processor. Of bytes that are no trie there are no answers.
 *
 * Compiled with BY_READER it writes the answers of zerotrie_read.h, to all bytes. */
#include "rows.h"
#include "zerotrie.h"
#include <string.h>

enum { KEYS = 700, KEY = 48, TRIE = 1 << 17, ASKED = 24 };

static const uint32_t kinds[] = { ZEROTRIE_SIMPLE_ASCII, ZEROTRIE_PERFECT_HASH,
                                  ZEROTRIE_EXTENDED_CAPACITY, ZEROTRIE_IGNORE_CASE };
/* A byte that a trie is likely to have. */
static uint8_t likely(void) {
    switch (below(8)) {
    case 0:
        return (uint8_t)(0x80 + below(32));
    case 1:
        return (uint8_t)(0xC0 + below(8));
    case 2:
        return (uint8_t)(0xE0 + below(8));
    case 3:
        return (uint8_t)(0xA0 + below(6));
    case 4:
        return (uint8_t)below(16);
    case 5:
        return (uint8_t)next();
    default:
        return (uint8_t) "abAB\xC3\xA5/Z"[below(8)];
    }
}

static size_t random_key(uint32_t kind, unsigned style, uint8_t *key) {
    const bool ascii = kind == ZEROTRIE_SIMPLE_ASCII || kind == ZEROTRIE_IGNORE_CASE;
    const char *few =
        ascii ? kind == ZEROTRIE_IGNORE_CASE ? "abcdef" : "abcABC" : "abc\xC3\xA5\xB8";
    const size_t len = style == 3 ? below(KEY) : below(7);
    for (size_t i = 0; i < len; i++) {
        if (style == 0)
            key[i] = (uint8_t)few[below(6)];
        else if (style == 1)
            key[i] = (uint8_t)(next() & (ascii ? 0x3F : 0xFF));
        else if (style == 2)
            key[i] = (uint8_t)(i == 0 ? next() & (ascii ? 0x3F : 0xFF) : (uint64_t)few[below(2)]);
        else
            key[i] = (uint8_t)few[i * 5 / KEY + below(2)];
    }
    return len;
}

static size_t random_value(void) {
    static const size_t edges[] = {
        0, 5, 15, 16, 2063, 2064, 264207, 264208, SIZE_MAX - 1, SIZE_MAX
    };
    return below(2) ? edges[below(10)] : (size_t)next() >> below(56);
}

/* A key for each byte that one can begin with, so that a branch has as many edges as it can. */
static size_t all_first_bytes(uint32_t kind, zerotrie_pair *pairs, uint8_t keys[KEYS][KEY]) {
    const bool ascii = kind == ZEROTRIE_SIMPLE_ASCII || kind == ZEROTRIE_IGNORE_CASE;
    const size_t bytes = (ascii ? 128 : 256) - below(2);
    size_t count = 0;
    for (size_t byte = 0; byte < bytes; byte++) {
        if (kind == ZEROTRIE_IGNORE_CASE && byte >= 'A' && byte <= 'Z')
            continue;
        keys[count][0] = (uint8_t)byte;
        keys[count][1] = 'x';
        pairs[count].key = zerotrie_bytes_of(keys[count], 1 + below(2));
        pairs[count++].value = random_value();
    }
    return count;
}

/* Pairs without a key twice; the keys lie in `keys`. */
static size_t random_pairs(uint32_t kind, unsigned style, zerotrie_pair *pairs,
                           uint8_t keys[KEYS][KEY]) {
    static const size_t counts[] = { 0, 1, 2, 3, 5, 8, 20, 60 };
    const size_t want = below(64) == 0 ? KEYS : counts[below(8)];
    size_t count = 0;
    if (below(64) == 0)
        return all_first_bytes(kind, pairs, keys);
    for (size_t i = 0; i < want; i++) {
        const size_t len = random_key(kind, style, keys[count]);
        bool is_new = true;
        for (size_t j = 0; j < count && is_new; j++)
            is_new = pairs[j].key.len != len || memcmp(pairs[j].key.ptr, keys[count], len) != 0;
        if (is_new) {
            pairs[count].key = zerotrie_bytes_of(keys[count], len);
            pairs[count++].value = random_value();
        }
    }
    return count;
}

/* Changes some bytes, or none. */
static size_t damage(uint8_t *bytes, size_t len) {
    for (size_t changes = below(2) ? 0 : 1 + below(3); changes && len; changes--) {
        const size_t at = below(len);
        switch (below(5)) {
        case 0:
            bytes[at] ^= (uint8_t)(1u << below(8));
            break;
        case 1:
            bytes[at] = likely();
            break;
        case 2:
            len = at;
            break;
        case 3:
            memmove(bytes + at + 1, bytes + at, len++ - at);
            bytes[at] = likely();
            break;
        default:
            memmove(bytes + at, bytes + at + 1, --len - at);
        }
    }
    return len;
}

#ifdef BY_READER
#include "reader_answers.h"
#else
static bool is_answered(uint32_t kind, const uint8_t *bytes, size_t len) {
    return zerotrie_is_well_formed(kind, bytes, len);
}

/* The answers to one text: its value, its prefixes that are keys, and what each step along it
 * tells. */
static void put_answers(uint32_t kind, const uint8_t *bytes, size_t len, const uint8_t *text,
                        size_t text_len) {
    zerotrie_cursor cursor = zerotrie_cursor_new(bytes, len);
    size_t value = 0, key_len = 0, at = 0;
    bool is = zerotrie_get(kind, bytes, len, text, text_len, &value);
    put(is);
    put(is ? value : 0);
    is = zerotrie_longest_prefix(kind, bytes, len, text, text_len, &key_len, &value);
    put(is);
    put(is ? key_len : 0);
    put(is ? value : 0);
    do {
        uint8_t edge = 0;
        is = zerotrie_cursor_take_value(bytes, len, &cursor, &value);
        put(is);
        put(is ? value : 0);
        if (at == text_len)
            break;
        is = zerotrie_cursor_step(kind, bytes, len, &cursor, text[at++], &edge);
        put(is);
        put(is ? edge : 0);
    } while (is);
}

static void put_listing(uint32_t kind, const uint8_t *bytes, size_t len, const uint8_t *prefix,
                        size_t prefix_len) {
    size_t key_bytes = 0, count = 0, from = 0;
    uint8_t none = 0;
    size_t no_number = 0;
    uint32_t status = zerotrie_list(kind, bytes, len, prefix, prefix_len, &none, 0, &no_number, 0,
                                    &no_number, 0, &key_bytes, &count);
    uint8_t *keys = malloc(key_bytes + 1);
    size_t *ends = malloc((count + 1) * sizeof *ends),
           *values = malloc((count + 1) * sizeof *values);
    if (status == ZEROTRIE_OUT_OF_MEMORY || !keys || !ends || !values)
        exit(3);
    if (zerotrie_list(kind, bytes, len, prefix, prefix_len, keys, key_bytes, ends, count, values,
                      count, &key_bytes, &count)
        != ZEROTRIE_DONE)
        exit(3);
    put(count);
    for (size_t i = 0; i < count; from = ends[i++]) {
        put_bytes(keys + from, ends[i] - from);
        put(values[i]);
    }
    free(keys);
    free(ends);
    free(values);
}
#endif

static void put_text(uint32_t kind, const uint8_t *bytes, size_t len, bool is_trie,
                     const uint8_t *text, size_t text_len) {
    put_bytes(text, text_len);
    if (is_trie)
        put_answers(kind, bytes, len, text, text_len);
}

static void put_prefix(uint32_t kind, const uint8_t *bytes, size_t len, bool is_trie,
                       const uint8_t *prefix, size_t prefix_len) {
    put_bytes(prefix, prefix_len);
    if (is_trie)
        put_listing(kind, bytes, len, prefix, prefix_len);
}

static bool put_trie(uint32_t kind, const uint8_t *bytes, size_t len) {
    const bool is_trie = is_answered(kind, bytes, len);
    put(kind);
    put(is_trie);
    put_bytes(bytes, len);
    return is_trie;
}

static void random_row(void) {
    static uint8_t keys[KEYS][KEY], bytes[TRIE];
    static zerotrie_pair pairs[KEYS];
    const uint32_t kind = kinds[below(4)];
    const unsigned style = (unsigned)below(4);
    const size_t count = random_pairs(kind, style, pairs, keys);
    size_t len = 0;
    bool is_trie;
    if (zerotrie_build(kind, pairs, count, bytes, sizeof bytes - 8, &len) != ZEROTRIE_DONE
        || below(16) == 0) {
        len = below(40);
        for (size_t i = 0; i < len; i++)
            bytes[i] = likely();
    }
    len = damage(bytes, len);
    is_trie = put_trie(kind, bytes, len);
    put(ASKED);
    for (size_t i = 0; i < ASKED; i++) {
        uint8_t text[KEY + 2];
        size_t text_len = 0;
        if (count && i % 3) {
            const zerotrie_bytes key = pairs[below(count)].key;
            memcpy(text, key.ptr, text_len = key.len);
            if (text_len && i % 3 == 1 && kind == ZEROTRIE_IGNORE_CASE)
                text[below(text_len)] &= 0xDF;
            if (text_len && i % 3 == 2)
                text[below(text_len)] = likely();
            if (i % 2)
                text[text_len++] = likely();
        } else {
            text_len = random_key(kind, style, text);
        }
        put_text(kind, bytes, len, is_trie, text, text_len);
        if (i == 0)
            put_prefix(kind, bytes, len, is_trie, text, 0);
        else if (i < 4)
            put_prefix(kind, bytes, len, is_trie, text, below(text_len + 1));
    }
}

/* The lines of a file, each once; `lines` is where they lie. */
static size_t lines_of(const char *path, zerotrie_pair **pairs, uint8_t **lines) {
    FILE *file = fopen(path, "rb");
    size_t size, count = 0, room = 1;
    if (!file || fseek(file, 0, SEEK_END))
        exit(3);
    size = (size_t)ftell(file);
    rewind(file);
    *lines = malloc(size + 1);
    if (!*lines || fread(*lines, 1, size, file) != size)
        exit(3);
    fclose(file);
    for (size_t i = 0; i < size; i++)
        room += (*lines)[i] == '\n';
    *pairs = malloc(room * sizeof **pairs);
    for (uint8_t *at = *lines, *end;
         at < *lines + size && (end = memchr(at, '\n', (size_t)(*lines + size - at)));
         at = end + 1) {
        (*pairs)[count].key = zerotrie_bytes_of(at, (size_t)(end - at));
        (*pairs)[count].value = count;
        count++;
    }
    return count;
}

static void rows_of_lines(const char *path) {
    zerotrie_pair *pairs;
    uint8_t *lines, *bytes;
    const size_t count = lines_of(path, &pairs, &lines);
    for (size_t k = 0; k < 4; k++) {
        size_t len = 0, room = 16 * count + 4096;
        bool is_trie;
        bytes = malloc(room);
        if (!bytes || zerotrie_build(kinds[k], pairs, count, bytes, room, &len) != ZEROTRIE_DONE) {
            fprintf(stderr, "the lines have no trie of kind %u\n", (unsigned)kinds[k]);
            free(bytes);
            continue;
        }
        is_trie = put_trie(kinds[k], bytes, len);
        put(2 * count);
        for (size_t i = 0; i < 2 * count; i++) {
            const zerotrie_bytes key = pairs[i / 2].key;
            uint8_t text[300];
            const size_t text_len = key.len < 298 ? key.len : 298;
            memcpy(text, key.ptr, text_len);
            text[text_len] = '!';
            if (i % 2 && text_len)
                text[below(text_len)] = likely();
            put_text(kinds[k], bytes, len, is_trie, text, text_len + i % 2);
            if (i < 4)
                put_prefix(kinds[k], bytes, len, is_trie, text, i % 4 == 0 ? 0 : text_len / 2);
        }
        free(bytes);
    }
    free(pairs);
    free(lines);
}

int main(int count, char **words) {
    if (count < 2)
        return 2;
    if (words[1][0] < '0' || words[1][0] > '9') {
        rows_of_lines(words[1]);
        return fflush(stdout) != 0;
    }
    if (count > 2)
        state ^= strtoull(words[2], NULL, 10) * 0x9E3779B97F4A7C15u;
    for (unsigned long long left = strtoull(words[1], NULL, 10); left; left--)
        random_row();
    return fflush(stdout) != 0;
}
