/* Passes NULL in place of each pointer that a length follows, to each export, with the lengths 0, 1 and 100. The call then does
 * what it does for an array of no elements. It is C, and C++ too. Exits with 1 at the first call that does something else. */
#include "zerotrie.h"
#include <stdio.h>
#include <string.h>

#define EACH (-1)
#define ROOM 64

/* What a call returns and writes. */
typedef struct did {
    size_t returned, numbers[4], ends[ROOM], values[ROOM], distances[ROOM];
    zerotrie_change changes[ROOM];
    uint32_t places[ROOM];
    uint32_t kind;
    uint16_t siblings;
    uint8_t edge, out[ROOM];
    zerotrie_cursor cursor;
    zerotrie_bytes bytes;
} did;

static const uint8_t trie[] = { 0xc2, 'b', 'f', 10, 'a', 0xc2, 'r', 'z', 1, 0x82, 'z', 'o', 'o', 0x83, 'o', 'o', 0x81 };
static const uint8_t tagged[] = { 0, 'a', 0x81 };
static const uint8_t text[] = { 'b', 'a', 'r' };
/* the index of no bytes, sealed in blocks */
static const uint8_t sealed[] = { 'z', 't', 'r', 'i', 0x89, 0x8a, '\r', '\n', 1, 0, 25, 0, 8, 0, 0, 0, 0, 0, 0, 0, 0xf1, 0x13, 0x56, 0xe3, 0, 0,
                                  0, 0, 0, 0, 0, 0 };
static const size_t three[] = { 1, 2, 3 };
static const uint32_t places[] = { 8, 9, 14 };

/* Array number `i` of a call. In place of array `at`, or of each, there is NULL or an array, of n elements. */
#define ARRAY(i, array, len)                                                                                                  \
    (at == (i) || at == EACH) && null ? NULL : (array), at == (i) || at == EACH ? n : (len)
#define TRIE ARRAY(0, trie, sizeof trie)
#define TEXT(i) ARRAY(i, text, sizeof text)
#define THREE(i) ARRAY(i, three, 3)
#define OUT(i) ARRAY(i, it.out, ROOM)
#define ENDS(i) ARRAY(i, it.ends, ROOM)
#define VALUES(i) ARRAY(i, it.values, ROOM)
#define PAIRS ARRAY(0, pairs, 2)
#define CALL(name, ...)                                                                                                       \
    case __LINE__: *called = #name; it.returned = (size_t)name(__VA_ARGS__); break
#define MAKE(name, made, ...)                                                                                                 \
    case __LINE__: *called = #name; made = name(__VA_ARGS__); break

/* Makes the call on a line below, and says which. */
static did call(int line, int at, bool null, size_t n, const char **called) {
    const zerotrie_kind kind = ZEROTRIE_SIMPLE_ASCII;
    const zerotrie_pair pairs[] = { { ZEROTRIE_TEXT("a"), 1 }, { ZEROTRIE_TEXT("b"), 2 } };
    const zerotrie_search search = zerotrie_glob(text, 3);
    const zerotrie_trie tries[] = { zerotrie_trie_of(kind, trie, sizeof trie), zerotrie_trie_of(kind, tagged + 1, 2) };
    did it;
    memset(&it, 0, sizeof it);
    it.cursor.end = it.cursor.trie = sizeof trie;
    *called = NULL;
    switch (line) {
    CALL(zerotrie_is_well_formed, kind, TRIE);
    CALL(zerotrie_get, kind, TRIE, TEXT(1), it.numbers);
    CALL(zerotrie_get_many, kind, TRIE, TEXT(1), THREE(2), 7, VALUES(3));
    CALL(zerotrie_longest_prefix, kind, TRIE, TEXT(1), it.numbers, it.numbers + 1);
    CALL(zerotrie_longest_prefix_at, kind, TRIE, TEXT(1), TEXT(2), it.numbers, it.numbers + 1);
    CALL(zerotrie_common_prefixes, kind, TRIE, TEXT(1), ENDS(2), VALUES(3));
    MAKE(zerotrie_cursor_new, it.cursor, TRIE);
    MAKE(zerotrie_with_prefix, it.cursor, kind, TRIE, TEXT(1));
    CALL(zerotrie_cursor_step, kind, TRIE, &it.cursor, 'b', &it.edge);
    CALL(zerotrie_cursor_take_value, TRIE, &it.cursor, it.numbers);
    CALL(zerotrie_cursor_probe, kind, TRIE, &it.cursor, 0, &it.edge, &it.siblings);
    CALL(zerotrie_tagged_kind, ARRAY(0, tagged, 3), &it.kind);
    CALL(zerotrie_untagged, ARRAY(0, tagged, 3), &it.kind, &it.bytes);
    CALL(zerotrie_open, ARRAY(0, tagged, 3), &it.kind, it.numbers, it.numbers + 1);
    CALL(zerotrie_first_fault, kind, TRIE, it.numbers);
    CALL(zerotrie_build, kind, PAIRS, OUT(1), it.numbers);
    CALL(zerotrie_build_sorted, kind, PAIRS, OUT(1), it.numbers);
    CALL(zerotrie_build_many, kind, TEXT(0), THREE(1), THREE(2), OUT(3), it.numbers);
    CALL(zerotrie_combine, ZEROTRIE_UNION, ZEROTRIE_FIRST, ARRAY(0, tries, 2), kind, OUT(1), it.numbers);
    CALL(zerotrie_encoded_len, kind, PAIRS, it.numbers);
    CALL(zerotrie_why_refused, kind, PAIRS, it.numbers, it.numbers + 1);
    CALL(zerotrie_auto_kind, PAIRS);
    CALL(zerotrie_tagged, kind, TRIE, OUT(1), it.numbers);
    CALL(zerotrie_seal, kind, TRIE, OUT(1), it.numbers);
    CALL(zerotrie_dense_get, TRIE, TEXT(1), TEXT(2), it.numbers);
    CALL(zerotrie_dense_build, TEXT(0), THREE(1), TEXT(2), THREE(3), THREE(4), '-', OUT(5), it.numbers);
    CALL(zerotrie_list, kind, TRIE, TEXT(1), OUT(2), ENDS(3), VALUES(4), it.numbers, it.numbers + 1);
    CALL(zerotrie_list_some, kind, TRIE, TEXT(1), true, TEXT(2), OUT(3), ENDS(4), VALUES(5), it.numbers, it.numbers + 1);
    CALL(zerotrie_search_some, kind, TRIE, TEXT(1), &search, true, TEXT(2), OUT(3), ENDS(4), VALUES(5), it.numbers,
         it.numbers + 1);
    CALL(zerotrie_sorted_some, kind, TRIE, ZEROTRIE_INCLUDED, TEXT(1), ZEROTRIE_EXCLUDED, TEXT(2), OUT(3), ENDS(4), VALUES(5),
         it.numbers, it.numbers + 1);
    CALL(zerotrie_last_within, kind, TRIE, ZEROTRIE_INCLUDED, TEXT(1), ZEROTRIE_UNBOUNDED, TEXT(2), OUT(3), it.numbers,
         it.numbers + 1);
    CALL(zerotrie_nearest, kind, TRIE, ZEROTRIE_BY_SWAPS, TEXT(1), 2, OUT(2), ENDS(3), VALUES(4), ARRAY(5, it.distances, ROOM),
         it.numbers, it.numbers + 1);
    CALL(zerotrie_first_key_of, kind, TRIE, 2, OUT(1), it.numbers);
    CALL(zerotrie_diff_some, tries, tries + 1, ZEROTRIE_INCLUDED, TEXT(0), ZEROTRIE_UNBOUNDED, TEXT(1), OUT(2),
         ARRAY(3, it.changes, ROOM), it.numbers, it.numbers + 1);
    CALL(zerotrie_reverse_places, kind, TRIE, ARRAY(1, it.places, ROOM), it.numbers);
    CALL(zerotrie_reverse_key, kind, TRIE, ARRAY(1, places, 3), 2, OUT(2), it.numbers);
    CALL(zerotrie_index_get, TRIE, TEXT(1), it.numbers);
    CALL(zerotrie_index_get_many, TRIE, TEXT(1), THREE(2), 7, VALUES(3));
    CALL(zerotrie_index_is_valid, TRIE);
    CALL(zerotrie_index_build, 1, PAIRS, OUT(1), it.numbers);
    CALL(zerotrie_index_build_many, 1, TEXT(0), THREE(1), THREE(2), OUT(3), it.numbers);
    CALL(zerotrie_open_index, ARRAY(0, sealed, sizeof sealed), it.numbers, it.numbers + 1);
    CALL(zerotrie_seal_index, TRIE, OUT(1), it.numbers);
    default: break;
    }
    return it;
}

/* A listing whose rooms are NULL has no part. */
static bool lists(zerotrie_trie of, size_t n) {
    zerotrie_listing part = zerotrie_listing_of(of, NULL, n, NULL, n, NULL, NULL, n);
    return zerotrie_listing_next(&part) != ZEROTRIE_STUCK || part.count != 0 || part.status != ZEROTRIE_BUFFER_TOO_SMALL;
}

int main(void) {
    static const size_t lens[] = { 0, 1, 100 };
    const char *called;
    size_t calls = 0;
    if (!zerotrie_is_well_formed(ZEROTRIE_SIMPLE_ASCII, trie, sizeof trie)) return 1;
    for (size_t i = 0; i < 3; i++)
        if (lists(zerotrie_trie_of(ZEROTRIE_SIMPLE_ASCII, trie, sizeof trie), lens[i])
            || zerotrie_trie_of(ZEROTRIE_SIMPLE_ASCII, NULL, lens[i]).bytes.len != 0) {
            fprintf(stderr, "a listing or a trie of NULL and the length %zu\n", lens[i]);
            return 1;
        }
    for (int line = 1; line < __LINE__; line++)
        for (int at = EACH; at < 6; at++) {
            const did wanted = call(line, at, false, 0, &called);
            for (size_t i = 0; called && i < 3; i++, calls++) {
                const did it = call(line, at, true, lens[i], &called);
                if (memcmp(&it, &wanted, sizeof it) != 0) {
                    fprintf(stderr, "%s: array %d is NULL with the length %zu\n", called, at, lens[i]);
                    return 1;
                }
            }
        }
    printf("null: %zu calls\n", calls);
    return 0;
}
