/* Holds zerotrie_read.h against the rows of reader_rows.c, which it reads from standard input: the
 * answers of the library, of which it needs nothing. Of bytes that are no trie, only what holds of
 * any bytes is tested; build it with sanitizers for that. */
#include "rows.h"
#include "zerotrie_read.h"

enum { TEXT = 512, ROOM = 1 << 16 };

static unsigned long long tries, well_formed;

/* What the library tells of a text, step by step. */
static void compare_steps(uint32_t kind, const uint8_t *bytes, size_t len, const uint8_t *text,
                          size_t text_len) {
    zerotrie_read_cursor cursor = zerotrie_read_start(kind, bytes, len), prefixes = cursor;
    size_t at = 0, prefix = 0;
    bool is;
    do {
        uint64_t want, value = 0;
        uint8_t edge = 0;
        is = take() != 0;
        want = take();
        same(zerotrie_read_take_value(&cursor, &value) == is && (!is || value == want));
        if (is)
            same(zerotrie_read_next_prefix(&prefixes, text, text_len, &prefix, &value)
                 && prefix == at && value == want);
        if (at == text_len)
            break;
        is = take() != 0;
        want = take();
        same(zerotrie_read_step(&cursor, text[at++], &edge) == is
             && (is ? edge == want : zerotrie_read_is_empty(cursor)));
    } while (is);
    same(!zerotrie_read_next_prefix(&prefixes, text, text_len, &prefix, &(uint64_t){ 0 }));
}

/* Steps go past values: along a whole key they lead to its value. */
static bool by_steps(uint32_t kind, const uint8_t *bytes, size_t len, const uint8_t *text,
                     size_t text_len, uint64_t *value) {
    zerotrie_read_cursor cursor = zerotrie_read_start(kind, bytes, len);
    for (size_t at = 0; at < text_len; at++) {
        if (!zerotrie_read_step(&cursor, text[at], NULL))
            return false;
    }
    return zerotrie_read_take_value(&cursor, value);
}

static void compare_text(uint32_t kind, const uint8_t *bytes, size_t len, const uint8_t *text,
                         size_t text_len) {
    uint64_t value = 0, want;
    size_t key_len = 0;
    bool is = take() != 0;
    want = take();
    same(zerotrie_read_get(kind, bytes, len, text, text_len, &value) == is
         && (!is || value == want));
    same(by_steps(kind, bytes, len, text, text_len, &value) == is && (!is || value == want));
    is = take() != 0;
    want = take();
    same(zerotrie_read_longest_prefix(kind, bytes, len, text, text_len, &key_len, &value) == is
         && (!is || key_len == want));
    want = take();
    same(!is || value == want);
    compare_steps(kind, bytes, len, text, text_len);
}

/* On any bytes: the calls return, and prefixes come in order and inside the text. */
static void try_text(uint32_t kind, const uint8_t *bytes, size_t len, const uint8_t *text,
                     size_t text_len) {
    zerotrie_read_cursor cursor = zerotrie_read_start(kind, bytes, len);
    uint64_t value = 0;
    size_t at = 0, calls = 0, key_len = 0;
    while (zerotrie_read_next_prefix(&cursor, text, text_len, &at, &value) && ++calls <= len)
        same(at <= text_len);
    same(calls <= len);
    same(zerotrie_read_longest_prefix(kind, bytes, len, text, text_len, &key_len, &value)
             == (calls != 0)
         && key_len <= text_len);
    (void)zerotrie_read_get(kind, bytes, len, text, text_len, &value);
    cursor = zerotrie_read_start(kind, bytes, len);
    for (at = 0; at < text_len && zerotrie_read_step(&cursor, text[at], NULL); at++)
        same(!zerotrie_read_is_empty(cursor) || cursor.run == 0);
}

struct listed {
    bool wanted;
    uint64_t count;
    uint64_t left;
};

static bool compare_pair(void *context, const uint8_t *key, size_t key_len, uint64_t value) {
    struct listed *listed = context;
    listed->count++;
    if (listed->wanted) {
        size_t want_len;
        uint8_t *want;
        if (listed->left-- == 0)
            return false;
        want = take_bytes(&want_len);
        same(want_len == key_len && (key_len == 0 || memcmp(want, key, key_len) == 0));
        free(want);
        same(take() == value);
    }
    return true;
}

static bool first_pair(void *context, const uint8_t *key, size_t key_len, uint64_t value) {
    (void)key, (void)key_len, (void)value;
    return ++*(size_t *)context < 2;
}

static void listing(uint32_t kind, const uint8_t *bytes, size_t len, bool wanted) {
    static uint8_t room[ROOM];
    size_t prefix_len, few = 0, small = (size_t)(tries % 400);
    uint8_t *prefix = take_bytes(&prefix_len);
    struct listed listed = { wanted, 0, wanted ? take() : 0 };
    struct listed unasked = { false, 0, 0 };
    const uint64_t want = listed.left;
    uint8_t *close_room = malloc(small ? small : 1);
    same(zerotrie_read_list(kind, bytes, len, prefix, prefix_len, room, sizeof room, compare_pair,
                            &listed)
         == ZEROTRIE_READ_DONE);
    same(wanted ? listed.left == 0 && listed.count == want : listed.count <= len);
    (void)zerotrie_read_list(kind, bytes, len, prefix, prefix_len, close_room, small, compare_pair,
                             &unasked);
    same(unasked.count <= listed.count);
    same((zerotrie_read_list(kind, bytes, len, prefix, prefix_len, room, sizeof room, first_pair,
                             &few)
          == ZEROTRIE_READ_STOPPED)
         == (listed.count >= 2));
    free(close_room);
    free(prefix);
}

static void row(uint32_t kind) {
    size_t len, text_len;
    const bool is_trie = take() != 0;
    uint8_t *bytes = take_bytes(&len);
    const uint64_t texts = take();
    uint64_t value;
    tries++;
    well_formed += is_trie;
    for (uint64_t i = 0; i < texts; i++) {
        uint8_t *text = take_bytes(&text_len);
        if (is_trie)
            compare_text(kind, bytes, len, text, text_len);
        else
            try_text(kind, bytes, len, text, text_len);
        same(!zerotrie_read_get(5, bytes, len, text, text_len, &value));
        free(text);
        if (i < 4)
            listing(kind, bytes, len, is_trie);
    }
    free(bytes);
}

int main(void) {
    int first;
    while ((first = getchar()) != EOF) {
        ungetc(first, stdin);
        row((uint32_t)take());
    }
    printf("%llu tries, %llu of them well-formed, %llu answers: %llu differ\n", tries, well_formed,
           answers, differ);
    return differ != 0 || well_formed == 0;
}
