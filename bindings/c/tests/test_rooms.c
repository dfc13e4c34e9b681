/* What is only written to, NULL with the length 0, and memory that comes back. */
#define _DEFAULT_SOURCE
#include "test.h"
#include <sys/resource.h>

#if defined(__SANITIZE_ADDRESS__)
#define SANITIZED
#elif defined(__has_feature)
#if __has_feature(address_sanitizer)
#define SANITIZED
#endif
#endif

/* NULL with the length 0, in each function. */
void test_nulls(void) {
    zerotrie_cursor at = zerotrie_cursor_new(NULL, 0);
    uint8_t edge, byte = 0;
    uint16_t siblings;
    uint32_t kind;
    size_t value, len, count, number = 0;
    zerotrie_bytes bytes;
    zerotrie_trie trie = zerotrie_trie_of(ZEROTRIE_SIMPLE_ASCII, NULL, 0);
    for (uint32_t k = 0; k < 9; k++) {
        const bool known = k == 0 || k == 3 || k >= 7;
        const zerotrie_status done = known ? ZEROTRIE_DONE : ZEROTRIE_UNKNOWN_KIND;
        CHECK(zerotrie_is_well_formed(k, NULL, 0) == known);
        CHECK(!zerotrie_get(k, NULL, 0, NULL, 0, &value) && !zerotrie_longest_prefix(k, NULL, 0, NULL, 0, &len, &value));
        CHECK(!zerotrie_longest_prefix_at(k, NULL, 0, NULL, 0, NULL, 0, &len, &value));
        CHECK(zerotrie_common_prefixes(k, NULL, 0, NULL, 0, NULL, 0, NULL, 0) == 0);
        CHECK(zerotrie_get_many(k, NULL, 0, NULL, 0, NULL, 0, 7, NULL, 0) == done);
        CHECK(!zerotrie_cursor_step(k, NULL, 0, &at, 'a', &edge) && !zerotrie_cursor_probe(k, NULL, 0, &at, 0, &edge, &siblings));
        CHECK(zerotrie_cursor_is_empty(zerotrie_with_prefix(k, NULL, 0, NULL, 0)));
        CHECK(zerotrie_build(k, NULL, 0, NULL, 0, &len) == done && zerotrie_build_sorted(k, NULL, 0, NULL, 0, &len) == done);
        CHECK(zerotrie_build_many(k, NULL, 0, NULL, 0, NULL, 0, NULL, 0, &len) == done);
        CHECK(zerotrie_encoded_len(k, NULL, 0, &len) == done && zerotrie_why_refused(k, NULL, 0, &len, &count) == done);
        CHECK(zerotrie_first_fault(k, NULL, 0, &len) == (known ? ZEROTRIE_NO_FAULT : ZEROTRIE_FAULT_OF_NO_KIND));
        CHECK(zerotrie_tagged(k, NULL, 0, NULL, 0, &len) == (known ? ZEROTRIE_BUFFER_TOO_SMALL : ZEROTRIE_UNKNOWN_KIND));
        CHECK(zerotrie_list(k, NULL, 0, NULL, 0, NULL, 0, NULL, 0, NULL, 0, &len, &count) == done);
        CHECK(zerotrie_list_some(k, NULL, 0, NULL, 0, true, NULL, 0, NULL, 0, NULL, 0, NULL, 0, &count, &len) == done);
        const zerotrie_search all = zerotrie_range(ZEROTRIE_UNBOUNDED, NULL, 0, ZEROTRIE_UNBOUNDED, NULL, 0);
        CHECK(zerotrie_search_some(k, NULL, 0, NULL, 0, &all, true, NULL, 0, NULL, 0, NULL, 0, NULL, 0, &count, &len) == done);
        CHECK(zerotrie_sorted_some(k, NULL, 0, ZEROTRIE_EXCLUDED, NULL, 0, ZEROTRIE_INCLUDED, NULL, 0, NULL, 0, NULL, 0, NULL, 0, &count,
                                   &len) == done);
    }
    CHECK(zerotrie_index_get_many(NULL, 0, NULL, 0, NULL, 0, 7, NULL, 0) == ZEROTRIE_DONE);
    CHECK(!zerotrie_cursor_take_value(NULL, 0, &at, &value) && zerotrie_auto_kind(NULL, 0) == ZEROTRIE_SIMPLE_ASCII);
    CHECK(zerotrie_tagged_kind(NULL, 0, &kind) == ZEROTRIE_NO_TAG && zerotrie_untagged(NULL, 0, &kind, &bytes) == ZEROTRIE_NO_TAG);
    CHECK(zerotrie_trie_from_tagged(NULL, 0, &trie) == ZEROTRIE_NO_TAG && trie.bytes.len == 0);
    CHECK(zerotrie_dense_get(NULL, 0, NULL, 0, NULL, 0, &value) == ZEROTRIE_RECORD_TRUNCATED);
    CHECK(zerotrie_dense_build(NULL, 0, NULL, 0, NULL, 0, NULL, 0, NULL, 0, '/', NULL, 0, &len) == ZEROTRIE_BUFFER_TOO_SMALL);
    CHECK(zerotrie_cursor_run(NULL, 0, at).len == 0 && zerotrie_cursor_trie(NULL, 0, at).len == 0);
    /* from a variable, where no compiler sees that it is null; and the idiom that asks for a length */
    zerotrie_pair pair = { ZEROTRIE_TEXT("a"), 1 };
    uint8_t *volatile null = NULL;
    CHECK(zerotrie_build(0, &pair, 1, null, 0, &len) == ZEROTRIE_BUFFER_TOO_SMALL && len == 2);
    CHECK(!zerotrie_get(0, null, 0, &byte, 0, &number) && number == 0);
    /* a function's address is the library's own */
    bool (*get_value)(zerotrie_kind_number, const uint8_t *, size_t, const uint8_t *, size_t, size_t *) = zerotrie_get;
    CHECK(get_value(ZEROTRIE_SIMPLE_ASCII, letters, 6, (const uint8_t *)"in", 2, &value) && value == 3);
}

/* What is only written to may hold anything before: here it is bytes of every sort, and an answer is the same whatever they are. */
void test_whatever_was_there(void) {
    for (int fill = 0; fill < 256; fill += 85) {
        uint32_t kind;
        zerotrie_bytes trie;
        zerotrie_cursor at;
        uint8_t edge, keys[6];
        uint16_t siblings;
        size_t len, value, count, key_bytes, next_len, ends[2], values[2];
        memset(&kind, fill, sizeof kind), memset(&trie, fill, sizeof trie), memset(&at, fill, sizeof at);
        memset(&edge, fill, sizeof edge), memset(&siblings, fill, sizeof siblings), memset(&len, fill, sizeof len);
        memset(&value, fill, sizeof value), memset(&count, fill, sizeof count), memset(&key_bytes, fill, sizeof key_bytes);
        memset(&next_len, fill, sizeof next_len), memset(ends, fill, sizeof ends), memset(values, fill, sizeof values);
        const zerotrie_bytes untouched = trie;
        CHECK(zerotrie_untagged(TEXT("\1"), &kind, &trie) == ZEROTRIE_INVALID_TAG);
        CHECK(memcmp(&trie, &untouched, sizeof trie) == 0);
        CHECK(zerotrie_untagged(TEXT("\3a\205"), &kind, &trie) == ZEROTRIE_DONE && kind == 3 && trie.len == 2);
        CHECK(zerotrie_get(kind, trie.ptr, trie.len, TEXT("a"), &value) && value == 5);
        CHECK(zerotrie_longest_prefix(kind, trie.ptr, trie.len, TEXT("ab"), &len, &value) && len == 1 && value == 5);
        CHECK(!zerotrie_cursor_take_value(letters, 6, &at, &value));
        zerotrie_trie whole;
        zerotrie_listing part;
        size_t first, second, fault_at;
        memset(&whole, fill, sizeof whole), memset(&part, fill, sizeof part), memset(&first, fill, sizeof first);
        memset(&second, fill, sizeof second), memset(&fault_at, fill, sizeof fault_at);
        CHECK(zerotrie_trie_from_tagged(TEXT("\3a\205"), &whole) == ZEROTRIE_DONE && zerotrie_trie_get(whole, TEXT("a"), &value));
        CHECK(zerotrie_trie_longest_prefix_at(whole, TEXT("a"), TEXT("-"), &len, &value) && len == 1 && value == 5);
        CHECK(zerotrie_trie_common_prefixes(whole, TEXT("ab"), ends, 2, values, 2) == 1 && ends[0] == 1 && values[0] == 5);
        const zerotrie_pair twice[2] = { { ZEROTRIE_TEXT("a"), 1 }, { ZEROTRIE_TEXT("a"), 2 } };
        CHECK(zerotrie_why_refused(0, twice, 2, &first, &second) == ZEROTRIE_DUPLICATE_KEY && first == 0 && second == 1);
        CHECK(zerotrie_first_fault(0, TEXT("in"), &fault_at) == ZEROTRIE_FAULT_UNEXPECTED_END && fault_at == 2);
        part = zerotrie_listing_of(whole, NULL, 0, keys, 6, ends, values, 2);
        CHECK(zerotrie_listing_next(&part) && part.count == 1 && ends[0] == 1 && values[0] == 5 && !zerotrie_listing_next(&part));
        at = zerotrie_cursor_new(letters, 6);
        CHECK(zerotrie_cursor_probe(0, letters, 6, &at, 0, &edge, &siblings) && edge == 'i' && siblings == 1);
        CHECK(zerotrie_list(0, letters, 6, TEXT(""), keys, 6, ends, 2, values, 2, &key_bytes, &count) == ZEROTRIE_DONE);
        CHECK(key_bytes == 6 && count == 2 && ends[1] == 6 && values[1] == 4);
        CHECK(zerotrie_list_some(0, letters, 6, TEXT(""), false, TEXT(""), keys, 6, ends, 2, values, 2, &count, &next_len)
              == ZEROTRIE_DONE && count == 2 && next_len == 0);
        const zerotrie_search glob = zerotrie_glob(TEXT("*o"));
        memset(&count, fill, sizeof count), memset(&next_len, fill, sizeof next_len);
        CHECK(zerotrie_search_some(0, letters, 6, TEXT(""), &glob, false, TEXT(""), keys, 6, ends, 2, values, 2, &count, &next_len)
              == ZEROTRIE_DONE && count == 1 && next_len == 0 && values[0] == 4);
        memset(&count, fill, sizeof count), memset(&next_len, fill, sizeof next_len);
        CHECK(zerotrie_sorted_some(0, letters, 6, ZEROTRIE_EXCLUDED, TEXT("in"), ZEROTRIE_UNBOUNDED, TEXT(""), keys, 6, ends, 2, values, 2,
                                   &count, &next_len) == ZEROTRIE_DONE && count == 1 && next_len == 0 && values[0] == 4);
    }
}

/* Calls that take memory give all of it back: a million builds and listings take no more than some. */
void test_memory_comes_back(void) {
#ifdef SANITIZED
    /* what was given back is kept for a while here, and what was not is told at the end */
    const size_t turns = 20000;
#else
    const size_t turns = 1000000;
#endif
    zerotrie_pair pairs[3] = { { ZEROTRIE_TEXT("foo"), 1 }, { ZEROTRIE_TEXT("bar"), 2 }, { ZEROTRIE_TEXT("bazzoo"), 3 } };
    const size_t places[3] = { 2, 4, 6 };
    uint8_t out[256], keys[16];
    size_t len, count, key_bytes, next_len, ends[3], values[3];
    struct rusage before, after;
    for (size_t turn = 0; turn < turns; turn++) {
        CHECK(zerotrie_build(ZEROTRIE_PERFECT_HASH, pairs, 3, out, sizeof out, &len) == ZEROTRIE_DONE);
        CHECK(zerotrie_encoded_len(ZEROTRIE_SIMPLE_ASCII, pairs, 3, &len) == ZEROTRIE_UNSORTED);
        CHECK(zerotrie_build(ZEROTRIE_SIMPLE_ASCII, pairs, 3, out, turn % 2 ? 5 : sizeof out, &len) != ZEROTRIE_OUT_OF_MEMORY);
        CHECK(zerotrie_list(ZEROTRIE_SIMPLE_ASCII, letters, 6, TEXT(""), keys, 16, ends, 3, values, 3, &key_bytes, &count)
              == ZEROTRIE_DONE);
        CHECK(zerotrie_list_some(ZEROTRIE_SIMPLE_ASCII, letters, 6, TEXT(""), true, TEXT("in"), keys, 3, ends, 3, values, 3, &count,
                                 &next_len) == ZEROTRIE_BUFFER_TOO_SMALL);
        CHECK(zerotrie_build_many(ZEROTRIE_SIMPLE_ASCII, TEXT("dedeen"), places, 3, places, 3, out, sizeof out, &len)
              == ZEROTRIE_DUPLICATE_KEY);
        CHECK(zerotrie_why_refused(ZEROTRIE_SIMPLE_ASCII, pairs, 3, &len, &count) == ZEROTRIE_DONE);
        CHECK(zerotrie_first_fault(ZEROTRIE_SIMPLE_ASCII, letters, 5, &len) == ZEROTRIE_FAULT_UNEXPECTED_END);
        if (turn % 16 == 0)
            CHECK(zerotrie_dense_build(TEXT("dedeen"), places, 3, TEXT("ATCHUS"), places, 3, places, 3, '/', out, sizeof out, &len)
                  == ZEROTRIE_DONE);
        CHECK(zerotrie_index_build(turn, pairs, 3, out, turn % 2 ? 5 : sizeof out, &len) != ZEROTRIE_OUT_OF_MEMORY);
        const zerotrie_search near = zerotrie_fuzzy(TEXT("int"), 1);
        CHECK(zerotrie_search_some(ZEROTRIE_SIMPLE_ASCII, letters, 6, TEXT(""), &near, false, TEXT(""), keys, 3, ends, 3, values, 3,
                                   &count, &next_len) == ZEROTRIE_BUFFER_TOO_SMALL);
        CHECK(zerotrie_sorted_some(ZEROTRIE_SIMPLE_ASCII, letters, 6, ZEROTRIE_INCLUDED, TEXT("in"), ZEROTRIE_UNBOUNDED, NULL, 0, keys, 3,
                                   ends, 3, values, 3, &count, &next_len) == ZEROTRIE_BUFFER_TOO_SMALL);
        if (turn == turns / 100)
            CHECK(getrusage(RUSAGE_SELF, &before) == 0);
    }
    CHECK(getrusage(RUSAGE_SELF, &after) == 0);
#ifndef SANITIZED
    /* in kilobytes: a byte for each turn would take more */
    CHECK(after.ru_maxrss - before.ru_maxrss < 1000);
#else
    (void)before, (void)after;
#endif
}
