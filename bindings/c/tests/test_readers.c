/* Look-ups, prefixes and cursors. */
#include "test.h"

/* The key C3 A9 with 5, and one that goes on with A5: the first is a span. */
void test_spans(void) {
    static const uint8_t span[] = { 0xA2, 0xC3, 0xA9, 0xC2, 0xA5, 0xB8, 0x01, 0x81, 0x82 };
    const size_t len = sizeof span;
    uint8_t edge = 0;
    uint16_t siblings = 0;
    size_t value = 0;
    CHECK(zerotrie_is_well_formed(ZEROTRIE_PERFECT_HASH, span, len));
    zerotrie_cursor at = zerotrie_cursor_new(span, len);
    CHECK(at.run == at.trie && at.end - at.trie == len && !zerotrie_cursor_is_empty(at));
    CHECK(zerotrie_cursor_step(ZEROTRIE_PERFECT_HASH, span, len, &at, 0xC3, &edge) && edge == 0xC3);
    const zerotrie_bytes run = zerotrie_cursor_run(span, len, at), trie = zerotrie_cursor_trie(span, len, at);
    CHECK(run.ptr == span + 2 && run.len == 1 && trie.ptr == span + 3 && trie.len == 6);
    CHECK(!zerotrie_cursor_take_value(span, len, &at, &value));
    CHECK(zerotrie_cursor_probe(ZEROTRIE_PERFECT_HASH, span, len, &at, 0, &edge, &siblings) && edge == 0xA9 && siblings == 1);
    CHECK(zerotrie_cursor_run(span, len, at).len == 0);
    CHECK(zerotrie_cursor_probe(ZEROTRIE_PERFECT_HASH, span, len, &at, 1, &edge, &siblings) && edge == 0xB8 && siblings == 2);
    CHECK(zerotrie_cursor_take_value(span, len, &at, &value) && value == 2 && zerotrie_cursor_is_empty(at));
    CHECK(!zerotrie_cursor_probe(ZEROTRIE_PERFECT_HASH, span, len, &at, 0, &edge, &siblings) && edge == 0xB8);
    CHECK(at.run == 0 && at.trie == 0 && at.end == 0);
    at = zerotrie_with_prefix(ZEROTRIE_EXTENDED_CAPACITY, span, len, TEXT("\xC3"));
    CHECK(*zerotrie_cursor_run(span, len, at).ptr == 0xA9);
    at = zerotrie_with_prefix(ZEROTRIE_EXTENDED_CAPACITY, span, len, TEXT("\xC4"));
    CHECK(at.run == 0 && at.trie == 0 && at.end == 0);
    CHECK(zerotrie_cursor_is_empty(zerotrie_with_prefix(5, span, len, TEXT(""))));
}

void test_readers(void) {
    size_t value = 0, len = 77, values[5] = { 1, 1, 1, 1, 1 };
    const size_t ends[4] = { 2, 6, 6, 70 };
    CHECK(zerotrie_get_many(ZEROTRIE_SIMPLE_ASCII, letters, 6, TEXT("ininto?"), ends, 4, 1000, values, 5) == ZEROTRIE_DONE);
    CHECK(values[0] == 3 && values[1] == 4 && values[2] == 1000 && values[3] == 1000 && values[4] == 1);
    CHECK(zerotrie_get_many(4, letters, 6, TEXT("in"), ends, 1, 0, values, 1) == ZEROTRIE_UNKNOWN_KIND && values[0] == 3);
    CHECK(zerotrie_longest_prefix(ZEROTRIE_SIMPLE_ASCII, letters, 6, TEXT("intone"), &len, &value) && len == 4 && value == 4);
    CHECK(zerotrie_longest_prefix(ZEROTRIE_IGNORE_CASE, letters, 6, TEXT("INTER"), &len, &value) && len == 2 && value == 3);
    CHECK(!zerotrie_longest_prefix(ZEROTRIE_SIMPLE_ASCII, letters, 6, TEXT("i"), &len, &value) && len == 2);

    uint8_t edge = 0;
    zerotrie_cursor cursor = zerotrie_cursor_new(letters, 6);
    CHECK(zerotrie_cursor_step(ZEROTRIE_IGNORE_CASE, letters, 6, &cursor, 'I', &edge) && edge == 'i');
    CHECK(zerotrie_cursor_step(ZEROTRIE_SIMPLE_ASCII, letters, 6, &cursor, 'n', &edge) && edge == 'n');
    zerotrie_cursor copy = cursor;
    CHECK(zerotrie_cursor_take_value(letters, 6, &cursor, &value) && value == 3);
    CHECK(!zerotrie_cursor_take_value(letters, 6, &cursor, &value));
    CHECK(!zerotrie_cursor_step(ZEROTRIE_SIMPLE_ASCII, letters, 6, &cursor, 'x', &edge) && edge == 'n');
    CHECK(zerotrie_cursor_is_empty(cursor));
    CHECK(zerotrie_cursor_step(ZEROTRIE_SIMPLE_ASCII, letters, 6, &copy, 't', &edge));
    CHECK(zerotrie_cursor_step(ZEROTRIE_SIMPLE_ASCII, letters, 6, &copy, 'o', &edge));
    CHECK(zerotrie_cursor_take_value(letters, 6, &copy, &value) && value == 4);
}

/* The keys that a text begins with. */
void test_prefixes(void) {
    static const uint8_t trie[] = { 0x80, 'e', 'n', 0x81, '-', 'G', 'B', 0x82 }; /* "" 0, en 1, en-GB 2 */
    size_t lens[4] = { 77, 77, 77, 77 }, values[4] = { 88, 88, 88, 88 }, len = 77, value = 88;
    CHECK(zerotrie_is_well_formed(ZEROTRIE_SIMPLE_ASCII, trie, sizeof trie));
    CHECK(zerotrie_common_prefixes(0, trie, sizeof trie, TEXT("en-GB-x"), lens, 4, values, 2) == 3);
    CHECK(lens[0] == 0 && lens[1] == 2 && lens[2] == 5 && lens[3] == 77 && values[0] == 0 && values[1] == 1 && values[2] == 88);
    CHECK(zerotrie_common_prefixes(0, trie, sizeof trie, TEXT("en-GB-x"), NULL, 0, NULL, 0) == 3);
    CHECK(zerotrie_common_prefixes(ZEROTRIE_IGNORE_CASE, trie, sizeof trie, TEXT("EN"), lens, 4, values, 4) == 2 && lens[1] == 2);
    lens[0] = values[0] = 99;
    CHECK(zerotrie_common_prefixes(4, trie, sizeof trie, TEXT("en"), lens, 4, values, 4) == 0 && lens[0] == 99 && values[0] == 99);
    CHECK(zerotrie_longest_prefix_at(0, trie, sizeof trie, TEXT("en-GB-x"), TEXT("-_"), &len, &value) && len == 5 && value == 2);
    CHECK(zerotrie_longest_prefix_at(0, trie, sizeof trie, TEXT("en_GB"), TEXT("-_"), &len, &value) && len == 2 && value == 1);
    CHECK(zerotrie_longest_prefix_at(0, trie, sizeof trie, TEXT("english"), TEXT("-"), &len, &value) && len == 0 && value == 0);
    len = 77, value = 88;
    CHECK(!zerotrie_longest_prefix_at(0, trie + 1, sizeof trie - 1, TEXT("english"), TEXT("-"), &len, &value) && len == 77);
    CHECK(!zerotrie_longest_prefix_at(2, trie, sizeof trie, TEXT("en"), TEXT("-"), &len, &value) && len == 77 && value == 88);
    CHECK(zerotrie_longest_prefix_at(0, trie, sizeof trie, TEXT("en"), NULL, 0, &len, &value) && len == 2 && value == 1);
}

/* A trie as one value, and its listing in parts. */
void test_one_value(void) {
    uint8_t edge = 0, room[12], keys[6];
    uint16_t siblings = 0;
    size_t value = 0, len = 0, at = 77, count, key_bytes, ends[2] = { 0, 0 }, values[2] = { 0, 0 };
    zerotrie_trie trie;
    CHECK(zerotrie_trie_from_tagged(TEXT("\1in\203"), &trie) == ZEROTRIE_INVALID_TAG);
    CHECK(zerotrie_trie_from_tagged(TEXT("\0in\203to\204"), &trie) == ZEROTRIE_DONE && trie.kind == ZEROTRIE_SIMPLE_ASCII);
    CHECK(trie.bytes.len == 6 && zerotrie_trie_is_well_formed(trie));
    CHECK(zerotrie_trie_first_fault(trie, &at) == ZEROTRIE_NO_FAULT && at == 77);
    CHECK(zerotrie_trie_get(trie, TEXT("into"), &value) && value == 4);
    CHECK(zerotrie_trie_longest_prefix(trie, TEXT("inter"), &len, &value) && len == 2 && value == 3);
    CHECK(zerotrie_trie_longest_prefix_at(trie, TEXT("in-to"), TEXT("-"), &len, &value) && len == 2 && value == 3);
    CHECK(zerotrie_trie_common_prefixes(trie, TEXT("into"), ends, 2, values, 2) == 2 && ends[1] == 4 && values[1] == 4);
    CHECK(zerotrie_trie_list(trie, TEXT("in"), keys, 6, ends, 2, values, 2, &key_bytes, &count) == ZEROTRIE_DONE && count == 2);
    zerotrie_cursor cursor = zerotrie_trie_cursor(trie);
    CHECK(zerotrie_trie_step(trie, &cursor, 'i', &edge) && zerotrie_trie_probe(trie, &cursor, 0, &edge, &siblings) && edge == 'n');
    CHECK(zerotrie_trie_take_value(trie, &cursor, &value) && value == 3);
    CHECK(!zerotrie_cursor_is_empty(zerotrie_trie_with_prefix(trie, TEXT("int"))));

    /* parts of one pair each, whose rooms held anything before */
    zerotrie_listing part = zerotrie_listing_of(trie, TEXT("in"), room, 12, ends, values, 1);
    CHECK(zerotrie_listing_next(&part) && part.count == 1 && values[0] == 3 && zerotrie_listing_key(&part, 0).len == 2);
    const zerotrie_bytes first = zerotrie_listing_key(&part, 0);
    CHECK(zerotrie_listing_next(&part) && part.count == 1 && values[0] == 4 && memcmp(zerotrie_listing_key(&part, 0).ptr, "into", 4) == 0);
    CHECK(memcmp(first.ptr, "in", 2) == 0);
    CHECK(!zerotrie_listing_next(&part) && part.status == ZEROTRIE_DONE && part.count == 0 && part.listed == 2);
    CHECK(!zerotrie_listing_next(&part));
    /* a key that has no room, and then more room */
    part = zerotrie_listing_of(trie, NULL, 0, room, 7, ends, values, 2);
    CHECK(zerotrie_listing_next(&part) && part.count == 1);
    CHECK(zerotrie_listing_next(&part) == ZEROTRIE_STUCK && part.status == ZEROTRIE_BUFFER_TOO_SMALL && part.next_len == 4);
    CHECK(zerotrie_listing_next(&part) == ZEROTRIE_STUCK && part.count == 0);
    uint8_t more[8];
    part.room = more, part.room_len = 8;
    CHECK(zerotrie_listing_next(&part) && part.count == 1 && values[0] == 4 && !zerotrie_listing_next(&part));
    part = zerotrie_listing_of(zerotrie_trie_of(ZEROTRIE_SIMPLE_ASCII, NULL, 0), NULL, 0, NULL, 0, NULL, NULL, 0);
    CHECK(!zerotrie_listing_next(&part) && part.status == ZEROTRIE_DONE);
    /* C strings, and rooms of the usual size */
    static zerotrie_rooms rooms;
    const char *const into = "into";
    CHECK(zerotrie_trie_gets(trie, into, &value) && value == 4 && !zerotrie_trie_gets(trie, "i", &value));
    CHECK(zerotrie_bytes_of_string(into).len == 4 && zerotrie_get(trie.kind, trie.bytes.ptr, trie.bytes.len, into, 2, &value) && value == 3);
    CHECK(zerotrie_trie_get(trie, ZEROTRIE_LITERAL("into"), &value) && value == 4 && !zerotrie_trie_get(trie, ZEROTRIE_LITERAL("int"), &value));
    CHECK(zerotrie_get(trie.kind, trie.bytes.ptr, trie.bytes.len, ZEROTRIE_LITERAL("in"), &value) && value == 3);
    CHECK(!zerotrie_trie_get(trie, ZEROTRIE_LITERAL(""), &value) && zerotrie_bytes_of(ZEROTRIE_LITERAL("a\0b")).len == 3);
    const zerotrie_listing listings[] = {
        zerotrie_listing_in(trie, "in", &rooms), zerotrie_listing_found(trie, zerotrie_glob(ZEROTRIE_LITERAL("in*")), &rooms),
        zerotrie_listing_between(trie, zerotrie_range(ZEROTRIE_INCLUDED, "in", 2, ZEROTRIE_UNBOUNDED, NULL, 0), &rooms)
    };
    for (size_t i = 0; i < 3; i++) {
        part = listings[i];
        CHECK(zerotrie_listing_next(&part) == ZEROTRIE_PART && part.count == 2 && part.values == rooms.values && rooms.values[1] == 4);
        CHECK(zerotrie_listing_next(&part) == ZEROTRIE_END && zerotrie_listing_next(&part) == ZEROTRIE_END);
    }
    /* the keys of a prefix as a range: what is above it */
    uint8_t above[3];
    zerotrie_search range = zerotrie_range_of_prefix("in", 2, above);
    part = zerotrie_listing_between(trie, range, &rooms);
    CHECK(range.to.ptr == above && range.to.len == 2 && memcmp(above, "io", 2) == 0);
    CHECK(zerotrie_listing_next(&part) == ZEROTRIE_PART && part.count == 2 && zerotrie_listing_next(&part) == ZEROTRIE_END);
    part = zerotrie_listing_between(trie, zerotrie_range_of_prefix("int", 3, above), &rooms);
    CHECK(zerotrie_listing_next(&part) == ZEROTRIE_PART && part.count == 1 && part.values[0] == 4);
    range = zerotrie_range_of_prefix("a\xFF\xFF", 3, above);
    CHECK(range.from_bound == ZEROTRIE_INCLUDED && range.text.len == 3 && range.to_bound == ZEROTRIE_EXCLUDED && range.to.len == 1 && above[0] == 'b');
    range = zerotrie_range_of_prefix("\xFF\xFF", 2, above);
    CHECK(range.from_bound == ZEROTRIE_INCLUDED && range.text.len == 2 && range.to_bound == ZEROTRIE_UNBOUNDED);
    range = zerotrie_range_of_prefix(NULL, 9, above);
    CHECK(range.text.len == 0 && range.to_bound == ZEROTRIE_UNBOUNDED);
    /* malformed bytes whose parts would repeat: two edges with one byte */
    static const uint8_t round[] = { 0xC2, 'a', 'a', 0x01, 0x81, 0x82 };
    part = zerotrie_listing_of(zerotrie_trie_of(ZEROTRIE_SIMPLE_ASCII, round, sizeof round), NULL, 0, room, 2, ends, values, 1);
    for (count = 0; zerotrie_listing_next(&part); count++)
        CHECK(count < 100);
    CHECK(part.status == ZEROTRIE_DONE);
}
