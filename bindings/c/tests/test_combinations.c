/* Unions and the like, changes, and the first key of each value. */
#include "test.h"

/* Unions and the like of three tries: "a" is in all, "b" in the first and the last, "c" in the second, and "d" in the last two. */
void test_combinations(void) {
    static const zerotrie_pair pairs[] = { { ZEROTRIE_TEXT("a"), 5 }, { ZEROTRIE_TEXT("b"), 1 }, { ZEROTRIE_TEXT("a"), 7 },
                                           { ZEROTRIE_TEXT("c"), 2 }, { ZEROTRIE_TEXT("d"), 3 }, { ZEROTRIE_TEXT("a"), 6 },
                                           { ZEROTRIE_TEXT("b"), 8 }, { ZEROTRIE_TEXT("d"), 4 } };
    static const size_t from[] = { 0, 2, 5, 8 };
    static const zerotrie_kind kinds[] = { ZEROTRIE_SIMPLE_ASCII, ZEROTRIE_PERFECT_HASH, ZEROTRIE_EXTENDED_CAPACITY };
    /* the values of a, b, c and d by selection and rule; 0: not there */
    static const size_t wanted[4][5][4] = {
        { { 5, 1, 2, 3 }, { 6, 8, 2, 4 }, { 18, 9, 2, 7 }, { 5, 1, 2, 3 }, { 7, 8, 2, 4 } },
        { { 5 }, { 6 }, { 18 }, { 5 }, { 7 } },
        { { 0 }, { 0 }, { 0 }, { 0 }, { 0 } },
        { { 5, 0, 2 }, { 6, 0, 2 }, { 18, 0, 2 }, { 5, 0, 2 }, { 7, 0, 2 } },
    };
    uint8_t bytes[3][64], out[64];
    zerotrie_trie tries[3];
    size_t len = 99;
    memset(out, 0xEE, sizeof out);
    for (size_t n = 0; n < 3; n++) {
        CHECK(zerotrie_build(kinds[n], pairs + from[n], from[n + 1] - from[n], bytes[n], 64, &len) == ZEROTRIE_DONE);
        tries[n] = zerotrie_trie_of(kinds[n], bytes[n], len);
    }
#define COMBINE(selection, rule, count, kind, room) \
    zerotrie_combine((zerotrie_selection)(selection), (zerotrie_rule)(rule), tries, count, kind, out, room, &len)
    for (size_t selection = 0; selection < 4; selection++)
        for (size_t rule = 0; rule < 5; rule++)
            for (size_t kind = 0; kind < 3; kind++) {
                size_t pair = 0, got = 0;
                memset(out, 0xEE, sizeof out);
                CHECK(COMBINE(selection, rule, 3, kinds[kind], 64) == ZEROTRIE_DONE && is_left(out, len, 64));
                CHECK(zerotrie_is_well_formed(kinds[kind], out, len));
                for (const char *key = "abcd"; *key; key++, pair++)
                    CHECK(zerotrie_get(kinds[kind], out, len, key, 1, &got) ? got == wanted[selection][rule][pair]
                                                                           : wanted[selection][rule][pair] == 0);
            }
    CHECK(COMBINE(ZEROTRIE_DIFFERENCE, ZEROTRIE_REFUSE, 1, ZEROTRIE_SIMPLE_ASCII, 64) == ZEROTRIE_DONE);
    CHECK(len == tries[0].bytes.len && memcmp(out, bytes[0], len) == 0);
    CHECK(COMBINE(ZEROTRIE_UNION, ZEROTRIE_SUM, 0, ZEROTRIE_SIMPLE_ASCII, 64) == ZEROTRIE_DONE && len == 0);
    /* values that are equal, and those of a key that is not taken */
    const zerotrie_trie others[] = { tries[1], tries[2] };
    tries[1] = tries[2] = tries[0];
    CHECK(COMBINE(ZEROTRIE_UNION, ZEROTRIE_EQUAL, 3, ZEROTRIE_SIMPLE_ASCII, 64) == ZEROTRIE_DONE);
    CHECK(len == tries[0].bytes.len && memcmp(out, bytes[0], len) == 0);
    tries[1] = others[0], tries[2] = others[1];
    CHECK(COMBINE(ZEROTRIE_DIFFERENCE, ZEROTRIE_EQUAL, 3, ZEROTRIE_SIMPLE_ASCII, 64) == ZEROTRIE_DONE && len == 0);
    /* what writes nothing, but the length for too small a room */
    memset(out, 0xEE, sizeof out);
    CHECK(COMBINE(ZEROTRIE_UNION, ZEROTRIE_SUM, 3, ZEROTRIE_SIMPLE_ASCII, 5) == ZEROTRIE_BUFFER_TOO_SMALL && len > 5);
    len = 99;
    CHECK(COMBINE(4, 0, 3, ZEROTRIE_SIMPLE_ASCII, 64) == ZEROTRIE_UNKNOWN_SELECTION);
    CHECK(COMBINE(0, 7, 3, ZEROTRIE_SIMPLE_ASCII, 64) == ZEROTRIE_UNKNOWN_SELECTION);
    CHECK(COMBINE(4, 7, 3, (zerotrie_kind)5, 64) == ZEROTRIE_UNKNOWN_KIND);
    CHECK(COMBINE(ZEROTRIE_UNION, ZEROTRIE_REFUSE, 3, ZEROTRIE_SIMPLE_ASCII, 64) == ZEROTRIE_DUPLICATE_KEY);
    CHECK(COMBINE(ZEROTRIE_UNION, ZEROTRIE_EQUAL, 3, ZEROTRIE_SIMPLE_ASCII, 64) == ZEROTRIE_DUPLICATE_KEY);
    tries[1].kind = (zerotrie_kind)5;
    CHECK(COMBINE(ZEROTRIE_UNION, ZEROTRIE_SUM, 3, ZEROTRIE_SIMPLE_ASCII, 64) == ZEROTRIE_UNKNOWN_KIND);
    tries[1] = zerotrie_trie_of(ZEROTRIE_SIMPLE_ASCII, "into", 4);
    CHECK(COMBINE(ZEROTRIE_UNION, ZEROTRIE_SUM, 3, ZEROTRIE_SIMPLE_ASCII, 64) == ZEROTRIE_MALFORMED_TRIE);
    CHECK(is_left(out, 0, sizeof out) && len == 99);
    /* the sum is too large, and the greatest that is not */
    static const zerotrie_pair large = { ZEROTRIE_TEXT("a"), SIZE_MAX - 6 };
    CHECK(zerotrie_build(ZEROTRIE_SIMPLE_ASCII, &large, 1, bytes[0], 64, &len) == ZEROTRIE_DONE);
    tries[0] = zerotrie_trie_of(ZEROTRIE_SIMPLE_ASCII, bytes[0], len);
    tries[1] = tries[2];
    CHECK(COMBINE(ZEROTRIE_INTERSECTION, ZEROTRIE_SUM, 2, ZEROTRIE_SIMPLE_ASCII, 64) == ZEROTRIE_DONE && out[0] == 'a');
    tries[1] = tries[0];
    len = 99;
    CHECK(COMBINE(ZEROTRIE_INTERSECTION, ZEROTRIE_SUM, 2, ZEROTRIE_SIMPLE_ASCII, 64) == ZEROTRIE_SUM_TOO_LARGE && len == 99);
    CHECK(COMBINE(ZEROTRIE_DIFFERENCE, ZEROTRIE_SUM, 2, ZEROTRIE_SIMPLE_ASCII, 64) == ZEROTRIE_DONE && len == 0);
#undef COMBINE
}

void test_diffs(void) {
    uint8_t first[2000], second[2000], room[64];
    size_t before[100], after[100];
    zerotrie_change changes[8];
    for (int turn = 0; turn < 300; turn++) {
        const zerotrie_trie a = some_of(ZEROTRIE_SIMPLE_ASCII, chance() & chance(), 5, before, first, sizeof first);
        const zerotrie_trie b = some_of(ZEROTRIE_PERFECT_HASH, chance() & chance(), 5 + chance() % 2, after, second, sizeof second);
        const zerotrie_search range = zerotrie_range((zerotrie_bound)(turn % 3), "15", 2, (zerotrie_bound)(turn / 3 % 3), "71", 2);
        const size_t from = range.from_bound == ZEROTRIE_UNBOUNDED ? 0 : range.from_bound == ZEROTRIE_INCLUDED ? 15 : 16;
        const size_t to = range.to_bound == ZEROTRIE_UNBOUNDED ? 100 : range.to_bound == ZEROTRIE_INCLUDED ? 72 : 71;
        const size_t half = 2 + chance() % 30;
        zerotrie_diff part = zerotrie_diff_of(a, b, range, room, 2 * half, changes, 1 + chance() % 8);
        size_t i = from;
        zerotrie_next next;
        while ((next = zerotrie_diff_next(&part)) == ZEROTRIE_PART) {
            CHECK(part.count > 0 && part.count <= part.places && changes[part.count - 1].key_end <= half);
            for (size_t n = 0; n < part.count; n++, i++) {
                const zerotrie_bytes key = zerotrie_diff_key(&part, n);
                while (i < to && before[i] == after[i]) i++;
                CHECK(i < to && key.len == 2 && key.ptr[0] == '0' + i / 10 && key.ptr[1] == '0' + i % 10);
                CHECK(changes[n].how == (before[i] == SIZE_MAX ? ZEROTRIE_ADDED : after[i] == SIZE_MAX ? ZEROTRIE_REMOVED : ZEROTRIE_CHANGED));
                CHECK(changes[n].before == (before[i] == SIZE_MAX ? 0 : before[i]));
                CHECK(changes[n].after == (after[i] == SIZE_MAX ? 0 : after[i]));
            }
        }
        while (i < to && before[i] == after[i]) i++;
        CHECK(next == ZEROTRIE_END && i == to && part.status == ZEROTRIE_DONE && zerotrie_diff_next(&part) == ZEROTRIE_END);
    }
    zerotrie_diff_rooms rooms;
    const zerotrie_trie in = zerotrie_trie_of(ZEROTRIE_SIMPLE_ASCII, letters, 6), none = zerotrie_trie_of(ZEROTRIE_IGNORE_CASE, NULL, 0);
    zerotrie_diff part = zerotrie_diff_in(in, none, &rooms);
    CHECK(zerotrie_diff_next(&part) == ZEROTRIE_PART && part.count == 2 && rooms.changes[1].how == ZEROTRIE_REMOVED && part.listed == 2);
    CHECK(zerotrie_diff_key(&part, 1).len == 4 && zerotrie_diff_next(&part) == ZEROTRIE_END);
    part = zerotrie_diff_of(none, in, zerotrie_range(ZEROTRIE_EXCLUDED, "in", 2, ZEROTRIE_UNBOUNDED, NULL, 0), room, 6, changes, 8);
    CHECK(zerotrie_diff_next(&part) == ZEROTRIE_STUCK && part.status == ZEROTRIE_BUFFER_TOO_SMALL && part.next_len == 4);

    /* what is refused writes nothing */
    size_t count = 77, next_len = 88;
    const zerotrie_trie bad = zerotrie_trie_of(ZEROTRIE_SIMPLE_ASCII, letters, 5), no_kind = zerotrie_trie_of((zerotrie_kind)5, letters, 6);
#define DIFF(a, b, bound)                                                                                                     \
    zerotrie_diff_some(&(a), &(b), (zerotrie_bound)(bound), NULL, 0, ZEROTRIE_UNBOUNDED, NULL, 0, room, sizeof room, changes, 8, &count, &next_len)
    CHECK(DIFF(in, bad, 0) == ZEROTRIE_MALFORMED_TRIE && DIFF(bad, in, 0) == ZEROTRIE_MALFORMED_TRIE);
    CHECK(DIFF(in, no_kind, 0) == ZEROTRIE_UNKNOWN_KIND && DIFF(no_kind, in, 0) == ZEROTRIE_UNKNOWN_KIND);
    CHECK(DIFF(in, none, 3) == ZEROTRIE_UNKNOWN_SEARCH && count == 77 && next_len == 88);
    CHECK(DIFF(in, in, 0) == ZEROTRIE_DONE && count == 0 && next_len == 0);
}

/* The first key of each value, by a table, beside a scan. */
void test_reverse(void) {
    uint8_t out[2000], key[8], other[8];
    uint32_t places[100];
    size_t values[100], count, key_len, other_len;
    for (int turn = 0; turn < 200; turn++) {
        const zerotrie_kind kind = turn % 2 ? ZEROTRIE_SIMPLE_ASCII : ZEROTRIE_PERFECT_HASH;
        const zerotrie_trie trie = some_of(kind, chance() & chance(), chance() % 1000, values, out, sizeof out);
        const zerotrie_bytes at = trie.bytes;
        size_t pairs = 0;
        for (size_t i = 0; i < 100; i++) pairs += values[i] != SIZE_MAX;
        count = 77;
        if (pairs > 0) {
            CHECK(zerotrie_reverse_places(kind, at.ptr, at.len, NULL, 100, &count) == ZEROTRIE_BUFFER_TOO_SMALL && count == pairs);
            CHECK(zerotrie_reverse_places(kind, at.ptr, at.len, places, pairs - 1, &count) == ZEROTRIE_BUFFER_TOO_SMALL && count == pairs);
        }
        CHECK(zerotrie_reverse_places(kind, at.ptr, at.len, places, 100, &count) == ZEROTRIE_DONE && count == pairs);
        for (size_t value = 0; value < 1010; value += 1 + value % 3) {
            key_len = other_len = 99;
            const zerotrie_status wanted = zerotrie_first_key_of(kind, at.ptr, at.len, value, other, sizeof other, &other_len);
            CHECK(zerotrie_reverse_key(kind, at.ptr, at.len, places, count, value, key, sizeof key, &key_len) == wanted && key_len == other_len);
            CHECK(wanted == ZEROTRIE_NO_ENTRY || (wanted == ZEROTRIE_DONE && memcmp(key, other, key_len) == 0));
            CHECK(zerotrie_reverse_key(kind, at.ptr, at.len, NULL, 0, value, key, sizeof key, &key_len) == wanted && key_len == other_len);
            CHECK(wanted != ZEROTRIE_DONE || zerotrie_reverse_key(kind, at.ptr, at.len, places, count, value, key, 1, &key_len) == ZEROTRIE_BUFFER_TOO_SMALL);
        }
        /* other places do no harm */
        for (size_t i = 0; i < 100; i++) places[i] = (uint32_t)chance() >> chance() % 32;
        const zerotrie_status some = zerotrie_reverse_key(kind, at.ptr, at.len, places, 100, values[0], key, sizeof key, &key_len);
        CHECK(some == ZEROTRIE_DONE || some == ZEROTRIE_NO_ENTRY || some == ZEROTRIE_BUFFER_TOO_SMALL);
    }
    count = 77, key_len = 88;
    CHECK(zerotrie_reverse_places((zerotrie_kind)5, letters, 6, places, 100, &count) == ZEROTRIE_UNKNOWN_KIND && count == 77);
    CHECK(zerotrie_reverse_key((zerotrie_kind)5, letters, 6, places, 2, 3, key, 8, &key_len) == ZEROTRIE_UNKNOWN_KIND && key_len == 88);
    for (size_t len = 0; len < 6; len++) CHECK(zerotrie_reverse_places(ZEROTRIE_SIMPLE_ASCII, letters, len, places, 100, &count) == ZEROTRIE_DONE && count <= len);
}
