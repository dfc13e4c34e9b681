/* Runs the tests of the library in C: those whose names have the argument in them, or all. It exits with 1 at the first wrong answer. */
#include "test.h"

bool get(uint32_t kind, zerotrie_bytes trie, const char *key, size_t *value) {
    return zerotrie_get(kind, trie.ptr, trie.len, (const uint8_t *)key, strlen(key), value);
}

/* in 3, into 4. */
const uint8_t letters[6] = { 'i', 'n', 0x83, 't', 'o', 0x84 };

static uint64_t seed;

/* The next of a row of numbers that look like chance. */
uint64_t chance(void) {
    seed = seed * 6364136223846793005 + 1442695040888963407;
    return seed >> 33;
}

/* Whether the ends do not fall, and none is beyond the room for keys. */
bool ascend(const size_t *ends, size_t count, size_t keys_len) {
    for (size_t n = 0; n < count; n++)
        if (ends[n] > keys_len || (n > 0 && ends[n] < ends[n - 1]))
            return false;
    return true;
}

/* Whether all bytes from this place on are still as they were made. */
bool is_left(const void *room, size_t from, size_t len) {
    for (; from < len; from++)
        if (((const uint8_t *)room)[from] != 0xEE)
            return false;
    return true;
}

/* The checksum of sealed files, bit by bit. */
uint32_t crc32c(const uint8_t *bytes, size_t len, uint32_t before) {
    uint32_t sum = ~before;
    for (size_t n = 0; n < len; n++) {
        sum ^= bytes[n];
        for (int bit = 0; bit < 8; bit++)
            sum = sum & 1 ? sum >> 1 ^ 0x82F63B78u : sum >> 1;
    }
    return ~sum;
}

/* What a search finds, by other means. */
static bool follows(const zerotrie_bytes *of, const uint8_t *key, size_t len) {
    size_t n = 0;
    for (size_t i = 0; i < len; i++)
        n += n < of->len && of->ptr[n] == key[i];
    return n == of->len;
}

static size_t least(size_t a, size_t b) {
    return a < b ? a : b;
}

static size_t distance(const zerotrie_bytes *word, const uint8_t *key, size_t len) {
    size_t cells[9][9];
    for (size_t i = 0; i <= word->len; i++)
        for (size_t k = 0; k <= len; k++) {
            cells[i][k] = i + k;
            if (i > 0 && k > 0)
                cells[i][k] = least(cells[i - 1][k - 1] + (word->ptr[i - 1] != key[k - 1]),
                                    1 + least(cells[i - 1][k], cells[i][k - 1]));
        }
    return cells[word->len][len];
}

static bool matches(const uint8_t *pattern, size_t pattern_len, const uint8_t *key, size_t len) {
    if (pattern_len == 0)
        return len == 0;
    if (*pattern == '*')
        return matches(pattern + 1, pattern_len - 1, key, len) || (len > 0 && matches(pattern, pattern_len, key + 1, len - 1));
    if (len == 0)
        return false;
    if (*pattern == '[') /* [!b] */
        return *key != 'b' && matches(pattern + 4, pattern_len - 4, key + 1, len - 1);
    return (*pattern == '?' || *pattern == *key) && matches(pattern + 1, pattern_len - 1, key + 1, len - 1);
}

static bool is_within_bound(zerotrie_bound bound, const zerotrie_bytes *of, const uint8_t *key, size_t len, int side) {
    int order = memcmp(of->ptr, key, least(of->len, len));
    order = order ? order : (of->len > len) - (of->len < len);
    return bound == ZEROTRIE_UNBOUNDED || (order == 0 ? bound == ZEROTRIE_INCLUDED : (order < 0) == (side < 0));
}

static bool is_found(const zerotrie_search *search, const uint8_t *key, size_t len) {
    switch (search->by) {
    case ZEROTRIE_BY_RANGE:
        return is_within_bound(search->from_bound, &search->text, key, len, -1) && is_within_bound(search->to_bound, &search->to, key, len, 1);
    case ZEROTRIE_BY_GLOB:
    case ZEROTRIE_BY_CHAR_GLOB: return matches(search->text.ptr, search->text.len, key, len);
    case ZEROTRIE_BY_SUBSEQUENCE: return follows(&search->text, key, len);
    default: return distance(&search->text, key, len) <= search->edits;
    }
}

bool is_sought(const zerotrie_search *search, const uint8_t *key, size_t len) {
    for (size_t n = search->beginnings ? 0 : len; n <= len; n++)
        if (is_found(search, key, n))
            return true;
    return false;
}

/* A text of a few letters. */
size_t some_letters(uint8_t *text, size_t most) {
    const size_t len = chance() % (most + 1);
    for (size_t n = 0; n < len; n++)
        text[n] = (uint8_t)('a' + chance() % 3);
    return len;
}

/* A trie of those keys from 00 to 99 that are chosen, and their values. */
zerotrie_trie some_of(zerotrie_kind kind, uint64_t chosen, size_t from, size_t values[100], uint8_t *out, size_t room) {
    static uint8_t keys[100][2];
    zerotrie_pair pairs[100];
    size_t count = 0, len = 0;
    for (size_t i = 0; i < 100; i++) {
        keys[i][0] = (uint8_t)('0' + i / 10), keys[i][1] = (uint8_t)('0' + i % 10);
        values[i] = SIZE_MAX;
        if (chosen >> (i * 7 % 64) & 1) continue;
        values[i] = from + i % 3;
        pairs[count].key = zerotrie_bytes_of(keys[i], 2);
        pairs[count++].value = values[i];
    }
    CHECK(zerotrie_build(kind, pairs, count, out, room, &len) == ZEROTRIE_DONE);
    return zerotrie_trie_of(kind, out, len);
}

int main(int count, char **arguments) {
    static const struct {
        const char *name;
        void (*run)(void);
    } tests[] = {
#define ROW(name) { #name, test_##name },
        TESTS(ROW)
#undef ROW
    };
    unsigned ran = 0;
    for (size_t n = 0; n < sizeof tests / sizeof *tests; n++)
        if (count < 2 || strstr(tests[n].name, arguments[1])) {
            seed = 1;
            tests[n].run();
            ran++;
        }
    printf("c: %u tests ok\n", ran);
    return !ran;
}
