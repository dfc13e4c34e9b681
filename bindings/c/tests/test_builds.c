/* Builds, and what they return an error for. */
#include "test.h"

/* foo 1, bar 2, bazzoo 3, in 17 bytes. */
void test_builds(void) {
    zerotrie_pair pairs[3] = { { ZEROTRIE_TEXT("foo"), 1 }, { ZEROTRIE_TEXT("bar"), 2 }, { ZEROTRIE_TEXT("bazzoo"), 3 } };
    uint8_t out[64];
    size_t len = 99, value = 77;
    memset(out, 0xEE, sizeof out);
    CHECK(zerotrie_build(ZEROTRIE_SIMPLE_ASCII, pairs, 3, out, 16, &len) == ZEROTRIE_BUFFER_TOO_SMALL && len == 17);
    CHECK(out[0] == 0xEE);
    CHECK(zerotrie_build(ZEROTRIE_SIMPLE_ASCII, pairs, 3, out, sizeof out, &len) == ZEROTRIE_DONE && len == 17);
    CHECK(out[17] == 0xEE);
    zerotrie_bytes trie = { out, len };
    CHECK(zerotrie_is_well_formed(ZEROTRIE_SIMPLE_ASCII, trie.ptr, trie.len));
    CHECK(!zerotrie_is_well_formed(ZEROTRIE_SIMPLE_ASCII, trie.ptr, 16));
    CHECK(!zerotrie_is_well_formed(1, trie.ptr, trie.len) && !zerotrie_is_well_formed(256, trie.ptr, trie.len));
    CHECK(get(ZEROTRIE_SIMPLE_ASCII, trie, "bar", &value) && value == 2);
    CHECK(get(ZEROTRIE_SIMPLE_ASCII, trie, "bazzoo", &value) && value == 3);
    CHECK(!get(ZEROTRIE_SIMPLE_ASCII, trie, "unknown", &value) && value == 3);
    CHECK(!get(ZEROTRIE_SIMPLE_ASCII, trie, "BAR", &value));
    CHECK(get(ZEROTRIE_IGNORE_CASE, trie, "BAR", &value) && value == 2);
    CHECK(!get(5, trie, "bar", &value));

    /* the same sorted: one text, whose length is told beforehand */
    uint8_t again[17];
    zerotrie_pair sorted[3] = { pairs[1], pairs[2], pairs[0] };
    len = 99;
    CHECK(zerotrie_build_sorted(ZEROTRIE_SIMPLE_ASCII, pairs, 3, again, 17, &len) == ZEROTRIE_UNSORTED && len == 99);
    CHECK(zerotrie_encoded_len(ZEROTRIE_SIMPLE_ASCII, pairs, 3, &len) == ZEROTRIE_UNSORTED && len == 99);
    CHECK(zerotrie_encoded_len(ZEROTRIE_SIMPLE_ASCII, sorted, 3, &len) == ZEROTRIE_DONE && len == 17);
    CHECK(zerotrie_build_sorted(ZEROTRIE_SIMPLE_ASCII, sorted, 3, again, 17, &len) == ZEROTRIE_DONE && len == 17);
    CHECK(memcmp(again, out, 17) == 0);
    CHECK(zerotrie_auto_kind(pairs, 3) == ZEROTRIE_SIMPLE_ASCII);

    /* tagged bytes, and back */
    uint8_t tagged[18];
    uint32_t kind = 99;
    zerotrie_bytes after = zerotrie_bytes_of(NULL, 3);
    CHECK(after.len == 0);
    CHECK(zerotrie_tagged(ZEROTRIE_IGNORE_CASE, out, 17, tagged, 17, &len) == ZEROTRIE_BUFFER_TOO_SMALL && len == 18);
    CHECK(zerotrie_tagged(9, out, 17, tagged, 18, &len) == ZEROTRIE_UNKNOWN_KIND);
    CHECK(zerotrie_tagged(ZEROTRIE_IGNORE_CASE, out, 17, tagged, 18, &len) == ZEROTRIE_DONE && len == 18);
    CHECK(zerotrie_untagged(TEXT(""), &kind, &after) == ZEROTRIE_NO_TAG && kind == 99);
    CHECK(zerotrie_tagged_kind(tagged, 18, &kind) == ZEROTRIE_DONE && kind == ZEROTRIE_IGNORE_CASE);
    CHECK(zerotrie_tagged_kind(TEXT("\1a"), &kind) == ZEROTRIE_INVALID_TAG && kind == ZEROTRIE_IGNORE_CASE);
    kind = 99;
    CHECK(zerotrie_untagged(TEXT("\1a"), &kind, &after) == ZEROTRIE_INVALID_TAG && kind == 99 && after.len == 0);
    CHECK(zerotrie_untagged(tagged, 18, &kind, &after) == ZEROTRIE_DONE && kind == ZEROTRIE_IGNORE_CASE);
    CHECK(after.ptr == tagged + 1 && after.len == 17);
}

void test_refusals(void) {
    uint8_t out[64];
    size_t len = 99, value = 0;
    zerotrie_pair pairs[2] = { { ZEROTRIE_TEXT("a"), 1 }, { ZEROTRIE_TEXT("a"), 2 } };
    CHECK(zerotrie_build(99, pairs, 2, out, sizeof out, &len) == ZEROTRIE_UNKNOWN_KIND);
    CHECK(zerotrie_build(ZEROTRIE_SIMPLE_ASCII, pairs, 2, out, sizeof out, &len) == ZEROTRIE_DUPLICATE_KEY);
    CHECK(zerotrie_build_sorted(ZEROTRIE_SIMPLE_ASCII, pairs, 2, out, sizeof out, &len) == ZEROTRIE_UNSORTED);
    pairs[1].key = zerotrie_bytes_of("\xC3\xA9", 2);
    CHECK(zerotrie_build(ZEROTRIE_SIMPLE_ASCII, pairs, 2, out, sizeof out, &len) == ZEROTRIE_NON_ASCII && len == 99);
    CHECK(zerotrie_auto_kind(pairs, 2) == ZEROTRIE_PERFECT_HASH);
    zerotrie_pair cases[2] = { { ZEROTRIE_TEXT("DAV"), 1 }, { ZEROTRIE_TEXT("Date"), 2 } };
    CHECK(zerotrie_build(ZEROTRIE_IGNORE_CASE, cases, 2, out, sizeof out, &len) == ZEROTRIE_MIXED_CASE);
    CHECK(strcmp(zerotrie_status_text(ZEROTRIE_UNSORTED), "Keys are not in strictly ascending order: sort the keys by their bytes, each once") == 0);
    /* the empty key, the greatest value, and no pairs */
    zerotrie_pair empty = { { NULL, 0 }, SIZE_MAX };
    empty.key = zerotrie_bytes_of(NULL, 0);
    for (uint32_t kind = 0; kind < 9; kind++) {
        bool known = kind == 0 || kind == 3 || kind >= 7;
        CHECK(zerotrie_build(kind, &empty, 1, out, sizeof out, &len) == (known ? ZEROTRIE_DONE : ZEROTRIE_UNKNOWN_KIND));
        zerotrie_bytes trie = { out, len };
        CHECK(!known || (get(kind, trie, "", &value) && value == SIZE_MAX));
        CHECK(!known || (zerotrie_build(kind, &empty, 0, out, 0, &len) == ZEROTRIE_DONE && len == 0));
    }
}

/* Keys that are one after another, and the bound of a build. */
void test_flat_builds(void) {
    const size_t ends[4] = { 3, 6, 12, 12 }, values[3] = { 1, 2, 3 };
    uint8_t out[64], again[64];
    size_t len = 99, again_len, value;
    zerotrie_pair pairs[3] = { { ZEROTRIE_TEXT("foo"), 1 }, { ZEROTRIE_TEXT("bar"), 2 }, { ZEROTRIE_TEXT("bazzoo"), 3 } };
    memset(out, 0xEE, sizeof out);
    CHECK(zerotrie_build_many(0, TEXT("foobarbazzoo"), ends, 4, values, 3, out, 16, &len) == ZEROTRIE_BUFFER_TOO_SMALL && len == 17);
    CHECK(zerotrie_build_many(0, TEXT("foobarbazzoo"), ends, 4, values, 3, NULL, 0, &len) == ZEROTRIE_BUFFER_TOO_SMALL && len == 17);
    CHECK(zerotrie_build_many(0, TEXT("foobarbazzoo"), ends, 4, values, 3, out, 64, &len) == ZEROTRIE_DONE && out[17] == 0xEE);
    CHECK(zerotrie_build(0, pairs, 3, again, 64, &again_len) == ZEROTRIE_DONE && len == again_len && memcmp(out, again, len) == 0);
    len = 99;
    CHECK(zerotrie_build_many(1, TEXT("foo"), ends, 1, values, 1, out, 64, &len) == ZEROTRIE_UNKNOWN_KIND && len == 99);
    const size_t twice[2] = { 1, 2 };
    CHECK(zerotrie_build_many(0, TEXT("aa"), twice, 2, values, 2, out, 64, &len) == ZEROTRIE_DUPLICATE_KEY && len == 99);
    /* an end past all bytes, and one that falls */
    const size_t odd[2] = { 70, 1 };
    CHECK(zerotrie_build_many(0, TEXT("foo"), odd, 2, values, 2, out, 64, &len) == ZEROTRIE_DONE);
    CHECK(zerotrie_get(0, out, len, TEXT("foo"), &value) && value == 1 && zerotrie_get(0, out, len, TEXT(""), &value) && value == 2);
    CHECK(zerotrie_build_bound(3, 12) == 84 && zerotrie_build_bound(0, 0) == 0);
    CHECK(zerotrie_build_bound(SIZE_MAX, 1) == SIZE_MAX && zerotrie_build_bound(1, SIZE_MAX) == SIZE_MAX);
    /* builds of all kinds have room in their bound */
    for (size_t turn = 0; turn < 2000; turn++) {
        static const uint32_t kinds[2] = { ZEROTRIE_PERFECT_HASH, ZEROTRIE_EXTENDED_CAPACITY };
        uint8_t keys[200], room[1000];
        size_t places[40], numbers[40];
        const size_t count = chance() % 40;
        size_t used = 0;
        for (size_t n = 0; n < count; n++) {
            for (size_t more = chance() % 6; more > 0 && used < sizeof keys; more--)
                keys[used++] = (uint8_t)(turn % 2 ? chance() : chance() % 4 + 'a');
            places[n] = used, numbers[n] = (size_t)(chance() << 31) >> chance() % 64;
        }
        const size_t bound = zerotrie_build_bound(count, used);
        CHECK(bound <= 1200);
        const uint32_t status = zerotrie_build_many(kinds[turn % 4 / 2], keys, used, places, count, numbers, count, room,
                                                    bound < sizeof room ? bound : sizeof room, &len);
        CHECK(status == ZEROTRIE_DONE || status == ZEROTRIE_DUPLICATE_KEY || bound > sizeof room);
    }
}

/* Which keys, which byte. */
void test_causes(void) {
    zerotrie_pair pairs[4] = { { ZEROTRIE_TEXT("to"), 1 }, { ZEROTRIE_TEXT("in"), 2 }, { ZEROTRIE_TEXT("at"), 3 }, { ZEROTRIE_TEXT("in"), 4 } };
    size_t first = 77, second = 88, at = 99;
    CHECK(zerotrie_why_refused(ZEROTRIE_SIMPLE_ASCII, pairs, 3, &first, &second) == ZEROTRIE_DONE && first == 77 && second == 88);
    CHECK(zerotrie_why_refused(5, pairs, 4, &first, &second) == ZEROTRIE_UNKNOWN_KIND && first == 77 && second == 88);
    CHECK(zerotrie_why_refused(ZEROTRIE_SIMPLE_ASCII, pairs, 4, &first, &second) == ZEROTRIE_DUPLICATE_KEY && first == 1 && second == 3);
    pairs[3].key = zerotrie_bytes_of("\xC3\xA9", 2);
    CHECK(zerotrie_why_refused(ZEROTRIE_SIMPLE_ASCII, pairs, 4, &first, &second) == ZEROTRIE_NON_ASCII && first == 3 && second == 3);
    CHECK(zerotrie_why_refused(ZEROTRIE_PERFECT_HASH, pairs, 4, &first, &second) == ZEROTRIE_DONE && first == 3);
    pairs[3].key = zerotrie_bytes_of("IN", 2);
    CHECK(zerotrie_why_refused(ZEROTRIE_IGNORE_CASE, pairs, 4, &first, &second) == ZEROTRIE_MIXED_CASE && first == 1 && second == 3);

    /* the faults in the order of their numbers, as the library's documentation has them */
    static const struct { const char *bytes; size_t len, at; } malformed[10] = {
        { "ab\x90", 3, 2 }, { "a\xA1\xC3\x85", 4, 1 }, { "ab", 2, 2 }, { "a\x81\x82", 3, 2 }, { "\xA1\xC3\xA1\xA4\x85", 5, 2 },
        { "\xA0\x85", 2, 0 }, { "\xA1" "a\x85", 3, 0 }, { "a\xC2" "cb\x01\x81\x82", 7, 1 },
        { "a\xE1\x62" "bc\x00\x01\x81\x82", 9, 1 }, { "a\xC2" "bc\x02\x81\x82", 7, 1 }
    };
    for (uint32_t rule = 1; rule <= 10; rule++) {
        const uint8_t *const bytes = (const uint8_t *)malformed[rule - 1].bytes;
        const uint32_t kind = rule == ZEROTRIE_FAULT_NO_SPANS ? ZEROTRIE_SIMPLE_ASCII : ZEROTRIE_PERFECT_HASH;
        CHECK(zerotrie_first_fault(kind, bytes, malformed[rule - 1].len, &at) == rule && at == malformed[rule - 1].at);
    }
    at = 99;
    CHECK(zerotrie_first_fault(ZEROTRIE_PERFECT_HASH, TEXT("a\x85"), &at) == ZEROTRIE_NO_FAULT && at == 99);
    CHECK(zerotrie_first_fault(6, TEXT("a\x85"), &at) == ZEROTRIE_FAULT_OF_NO_KIND && at == 99);
    CHECK(strcmp(zerotrie_fault_text(ZEROTRIE_FAULT_EMPTY_SPAN), "a span is empty") == 0);
    CHECK(zerotrie_version() == ZEROTRIE_VERSION && ZEROTRIE_VERSION == 3000);
}
