/* Listings: in parts, in order, from the last key on, and single keys. */
#include "test.h"

void test_listings(void) {
    uint8_t keys[6] = { 0 };
    size_t ends[2], values[2], key_bytes, count;
    CHECK(zerotrie_list(ZEROTRIE_SIMPLE_ASCII, letters, 6, TEXT(""), keys, 0, ends, 0, values, 0, &key_bytes, &count)
          == ZEROTRIE_BUFFER_TOO_SMALL && key_bytes == 6 && count == 2);
    CHECK(zerotrie_list(ZEROTRIE_SIMPLE_ASCII, letters, 6, TEXT(""), keys, 5, ends, 2, values, 2, &key_bytes, &count)
          == ZEROTRIE_BUFFER_TOO_SMALL && key_bytes == 6 && count == 2 && keys[0] == 0);
    CHECK(zerotrie_list(ZEROTRIE_SIMPLE_ASCII, letters, 6, TEXT(""), keys, 6, ends, 2, values, 2, &key_bytes, &count)
          == ZEROTRIE_DONE);
    CHECK(memcmp(keys, "ininto", 6) == 0 && ends[0] == 2 && ends[1] == 6 && values[0] == 3 && values[1] == 4);
    CHECK(zerotrie_list(ZEROTRIE_IGNORE_CASE, letters, 6, TEXT("InT"), keys, 6, ends, 2, values, 2, &key_bytes, &count)
          == ZEROTRIE_DONE && key_bytes == 4 && count == 1 && ends[0] == 4 && values[0] == 4 && keys[3] == 'o');
    CHECK(zerotrie_list(2, letters, 6, TEXT(""), keys, 6, ends, 2, values, 2, &key_bytes, &count) == ZEROTRIE_UNKNOWN_KIND);
    size_t next_len;
    count = key_bytes = next_len = 99;
    CHECK(zerotrie_list(2, letters, 6, TEXT(""), keys, 6, ends, 2, values, 2, &key_bytes, &count) == ZEROTRIE_UNKNOWN_KIND);
    CHECK(zerotrie_list_some(2, letters, 6, TEXT(""), false, TEXT(""), keys, 6, ends, 2, values, 2, &count, &next_len)
          == ZEROTRIE_UNKNOWN_KIND && count == 99 && key_bytes == 99 && next_len == 99);
    CHECK(zerotrie_list_some(ZEROTRIE_SIMPLE_ASCII, letters, 6, TEXT(""), false, TEXT(""), keys, 5, ends, 2, values, 2, &count,
                             &next_len) == ZEROTRIE_BUFFER_TOO_SMALL && count == 1 && next_len == 4 && ends[0] == 2);
    CHECK(zerotrie_list_some(ZEROTRIE_SIMPLE_ASCII, letters, 6, TEXT(""), true, TEXT("in"), keys, 5, ends, 2, values, 2, &count,
                             &next_len) == ZEROTRIE_DONE && count == 1 && ends[0] == 4 && values[0] == 4
          && memcmp(keys, "into", 4) == 0);
    CHECK(zerotrie_list_some(ZEROTRIE_SIMPLE_ASCII, letters, 6, TEXT(""), true, TEXT("into"), keys, 5, ends, 2, values, 2, &count,
                             &next_len) == ZEROTRIE_DONE && count == 0 && next_len == 0);
}

/* Sorted listings between bounds of every sort, against the keys in their order, where tables are hashed: 36 edges. */
void test_sorted_listings(void) {
    static const uint32_t kinds[4] = { ZEROTRIE_SIMPLE_ASCII, ZEROTRIE_PERFECT_HASH, ZEROTRIE_EXTENDED_CAPACITY, ZEROTRIE_IGNORE_CASE };
    static const char edges[] = "0123456789abcdefghijklmnopqrstuvwxyz";
    static uint8_t trie[4][16384], texts[2000][3], room[64];
    static zerotrie_pair pairs[2000], given[2000];
    size_t ends[64], values[64], lens[4], count = 0, found = 0;
    for (size_t n = 0; n < 37 * 37; n++) {
        const size_t len = n < 37 ? 0 : n % 37 ? 2 : 1;
        if (chance() % 3 == 0 || (n > 0 && n < 37))
            continue;
        texts[count][0] = (uint8_t)edges[n / 37 ? n / 37 - 1 : 0], texts[count][1] = (uint8_t)edges[n % 37 ? n % 37 - 1 : 0];
        pairs[count].key = zerotrie_bytes_of(texts[count], len);
        pairs[count].value = n;
        count++;
    }
    /* the build gets them in another order */
    memcpy(given, pairs, sizeof pairs);
    for (size_t n = count; n > 1; n--) {
        const size_t other = chance() % n;
        const zerotrie_pair last = given[n - 1];
        given[n - 1] = given[other], given[other] = last;
    }
    for (size_t k = 0; k < 4; k++)
        CHECK(zerotrie_build(kinds[k], given, count, trie[k], sizeof trie[k], &lens[k]) == ZEROTRIE_DONE);
    for (size_t turn = 0; turn < 2000; turn++) {
        const size_t k = chance() % 4, places = 1 + chance() % 60;
        uint8_t from[2], to[2];
        for (size_t n = 0; n < 2; n++)
            from[n] = (uint8_t)edges[chance() % 36], to[n] = (uint8_t)edges[chance() % 36];
        const zerotrie_search range = zerotrie_range((zerotrie_bound)(chance() % 3), from, chance() % 3, (zerotrie_bound)(chance() % 3), to,
                                                     chance() % 3);
        const zerotrie_trie whole = zerotrie_trie_of((zerotrie_kind)kinds[k], trie[k], lens[k]);
        zerotrie_listing part = zerotrie_listing_sorted(whole, range, room, sizeof room, ends, values, places);
        size_t n = 0;
        while (zerotrie_listing_next(&part))
            for (size_t i = 0; i < part.count; i++, n++, found++) {
                const zerotrie_bytes key = zerotrie_listing_key(&part, i);
                while (n < count && !is_sought(&range, pairs[n].key.ptr, pairs[n].key.len))
                    n++;
                CHECK(n < count && values[i] == pairs[n].value && key.len == pairs[n].key.len);
                CHECK(memcmp(key.ptr, pairs[n].key.ptr, key.len) == 0);
            }
        CHECK(part.status == ZEROTRIE_DONE && part.next_len == 0);
        for (; n < count; n++)
            CHECK(!is_sought(&range, pairs[n].key.ptr, pairs[n].key.len));
    }
    CHECK(found > 100000);
    /* the first from a key on, and after it; a key that has no room */
    uint8_t keys[9];
    size_t next_len = 98;
    memset(keys, 0xEE, sizeof keys), memset(ends, 0xEE, sizeof ends), memset(values, 0xEE, sizeof values);
#define SORTED(kind, bound, key, room, places) \
    zerotrie_sorted_some(kind, letters, 6, bound, TEXT(key), ZEROTRIE_UNBOUNDED, NULL, 0, keys, room, ends, places, values, 2, &count, &next_len)
    count = 99;
    CHECK(SORTED(5, ZEROTRIE_INCLUDED, "in", 9, 2) == ZEROTRIE_UNKNOWN_KIND);
    CHECK(SORTED(0, (zerotrie_bound)3, "in", 9, 2) == ZEROTRIE_UNKNOWN_SEARCH);
    CHECK(SORTED(5, (zerotrie_bound)3, "in", 9, 2) == ZEROTRIE_UNKNOWN_KIND);
    CHECK(zerotrie_sorted_some(0, letters, 6, ZEROTRIE_INCLUDED, TEXT("in"), (zerotrie_bound)3, NULL, 0, keys, 9, ends, 2, values, 2, &count,
                               &next_len) == ZEROTRIE_UNKNOWN_SEARCH);
    CHECK(is_left(keys, 0, sizeof keys) && is_left(ends, 0, sizeof ends) && is_left(values, 0, sizeof values));
    CHECK(count == 99 && next_len == 98);
    CHECK(SORTED(0, ZEROTRIE_INCLUDED, "in", 9, 1) == ZEROTRIE_BUFFER_TOO_SMALL && count == 1 && values[0] == 3 && next_len == 4);
    CHECK(SORTED(0, ZEROTRIE_EXCLUDED, "in", 9, 1) == ZEROTRIE_DONE && count == 1 && values[0] == 4 && ends[0] == 4 && next_len == 0);
    CHECK(SORTED(0, ZEROTRIE_INCLUDED, "io", 9, 1) == ZEROTRIE_DONE && count == 0);
    CHECK(SORTED(0, ZEROTRIE_EXCLUDED, "in", 3, 1) == ZEROTRIE_BUFFER_TOO_SMALL && count == 0 && next_len == 4);
#undef SORTED
}

/* The last key between two bounds, and the first key of a value, against a scan; what is told where there is none. */
void test_single_keys(void) {
    zerotrie_pair pairs[300];
    static uint8_t words[300][5], trie[16384];
    size_t len, value = 97, key_len = 98;
    uint8_t key[8];
    for (size_t round = 0; round < 400; round++) {
        static const zerotrie_kind kinds[] = { ZEROTRIE_SIMPLE_ASCII, ZEROTRIE_PERFECT_HASH, ZEROTRIE_EXTENDED_CAPACITY, ZEROTRIE_IGNORE_CASE };
        const zerotrie_kind kind = kinds[round % 4];
        const size_t count = chance() % 300, letters_of = chance() % 2 ? 2 : 26;
        for (size_t n = 0; n < count; n++) {
            const size_t word_len = chance() % 6;
            for (size_t i = 0; i < word_len; i++) words[n][i] = (uint8_t)('a' + chance() % letters_of);
            pairs[n].key = zerotrie_bytes_of(words[n], word_len);
            pairs[n].value = chance() % 50;
        }
        size_t kept = 0;
        for (size_t n = 0; n < count; n++) {
            bool twice = false;
            for (size_t m = 0; m < kept; m++)
                twice = twice || (pairs[m].key.len == pairs[n].key.len && memcmp(pairs[m].key.ptr, pairs[n].key.ptr, pairs[n].key.len) == 0);
            if (!twice) pairs[kept++] = pairs[n];
        }
        CHECK(zerotrie_build(kind, pairs, kept, trie, sizeof trie, &len) == ZEROTRIE_DONE);
        const uint8_t sought[2] = { (uint8_t)('a' + chance() % letters_of), (uint8_t)('a' + chance() % letters_of) };
        const zerotrie_search range = zerotrie_range((zerotrie_bound)(chance() % 3), sought, 1, (zerotrie_bound)(chance() % 3), sought + 1, chance() % 2);
        const zerotrie_pair *last = NULL;
        for (size_t n = 0; n < kept; n++) {
            if (!is_sought(&range, pairs[n].key.ptr, pairs[n].key.len)) continue;
            const size_t shorter = last && last->key.len < pairs[n].key.len ? last->key.len : pairs[n].key.len;
            const int order = last ? memcmp(last->key.ptr, pairs[n].key.ptr, shorter) : -1;
            if (order < 0 || (order == 0 && last->key.len < pairs[n].key.len)) last = pairs + n;
        }
        memset(key, 0xEE, sizeof key);
        key_len = 98, value = 97;
        const zerotrie_status status = zerotrie_last_within(kind, trie, len, range.from_bound, range.text.ptr, range.text.len, range.to_bound,
                                                            range.to.ptr, range.to.len, key, sizeof key, &key_len, &value);
        CHECK(status == (last ? ZEROTRIE_DONE : ZEROTRIE_NO_ENTRY) && is_left(key, last ? key_len : 0, sizeof key));
        CHECK(last ? key_len == last->key.len && value == last->value && memcmp(key, last->key.ptr, key_len) == 0 : key_len == 98 && value == 97);
        /* the first key of a value in the order of the listing */
        static uint8_t keys[2048];
        static size_t ends[300], values[300];
        size_t key_bytes, listed, first = 0;
        const size_t wanted = chance() % 60;
        CHECK(zerotrie_list(kind, trie, len, NULL, 0, keys, sizeof keys, ends, 300, values, 300, &key_bytes, &listed) == ZEROTRIE_DONE);
        while (first < listed && values[first] != wanted) first++;
        memset(key, 0xEE, sizeof key);
        key_len = 98;
        const zerotrie_status found = zerotrie_first_key_of(kind, trie, len, wanted, key, sizeof key, &key_len);
        const size_t from = first > 0 ? ends[first - 1] : 0;
        CHECK(found == (first < listed ? ZEROTRIE_DONE : ZEROTRIE_NO_ENTRY) && is_left(key, first < listed ? key_len : 0, sizeof key));
        CHECK(first < listed ? key_len == ends[first] - from && memcmp(key, keys + from, key_len) == 0 : key_len == 98);
    }
    /* a key that has no room, and numbers of nothing */
    memset(key, 0xEE, sizeof key);
    key_len = 98, value = 97;
#define LAST(kind, bound, room) \
    zerotrie_last_within(kind, letters, 6, ZEROTRIE_UNBOUNDED, NULL, 0, bound, TEXT("into"), key, room, &key_len, &value)
    CHECK(LAST(5, ZEROTRIE_INCLUDED, 8) == ZEROTRIE_UNKNOWN_KIND && LAST(0, (zerotrie_bound)3, 8) == ZEROTRIE_UNKNOWN_SEARCH);
    CHECK(zerotrie_first_key_of((zerotrie_kind)5, letters, 6, 3, key, 8, &key_len) == ZEROTRIE_UNKNOWN_KIND);
    CHECK(zerotrie_first_key_of(ZEROTRIE_SIMPLE_ASCII, letters, 6, 5, key, 8, &key_len) == ZEROTRIE_NO_ENTRY);
    CHECK(key_len == 98 && value == 97 && is_left(key, 0, sizeof key));
    CHECK(LAST(0, ZEROTRIE_INCLUDED, 3) == ZEROTRIE_BUFFER_TOO_SMALL && key_len == 4 && value == 4 && is_left(key, 0, sizeof key));
    CHECK(LAST(0, ZEROTRIE_EXCLUDED, 2) == ZEROTRIE_DONE && key_len == 2 && value == 3 && is_left(key, 2, sizeof key));
    CHECK(zerotrie_first_key_of(ZEROTRIE_SIMPLE_ASCII, letters, 6, 4, key, 3, &key_len) == ZEROTRIE_BUFFER_TOO_SMALL && key_len == 4);
#undef LAST
}

/* Listings from the last key on, beside those from the first on. */
void test_reversed_listings(void) {
    uint8_t out[2000], room[64], keys[400];
    size_t values[100], ends[16], listed[16];
    for (int turn = 0; turn < 200; turn++) {
        const zerotrie_kind kind = turn % 2 ? ZEROTRIE_SIMPLE_ASCII : ZEROTRIE_EXTENDED_CAPACITY;
        const zerotrie_trie trie = some_of(kind, chance() & chance(), 1, values, out, sizeof out);
        const zerotrie_search range = zerotrie_range((zerotrie_bound)(turn % 3), "15", 2, (zerotrie_bound)(turn / 3 % 3), "71", 2);
        const size_t from = range.from_bound == ZEROTRIE_UNBOUNDED ? 0 : range.from_bound == ZEROTRIE_INCLUDED ? 15 : 16;
        size_t i = range.to_bound == ZEROTRIE_UNBOUNDED ? 100 : range.to_bound == ZEROTRIE_INCLUDED ? 72 : 71;
        const size_t places = 1 + chance() % 16, half = 2 + chance() % 30;
        zerotrie_listing part = zerotrie_listing_reversed(trie, range, room, 2 * half, ends, listed, places);
        zerotrie_next next;
        while ((next = zerotrie_listing_next(&part)) == ZEROTRIE_PART)
            for (size_t n = 0; n < part.count; n++) {
                const zerotrie_bytes key = zerotrie_listing_key(&part, n);
                while (i > from && values[i - 1] == SIZE_MAX) i--;
                CHECK(i-- > from && listed[n] == values[i] && key.len == 2 && key.ptr[0] == '0' + i / 10 && key.ptr[1] == '0' + i % 10);
            }
        while (i > from && values[i - 1] == SIZE_MAX) i--;
        CHECK(next == ZEROTRIE_END && i == from && zerotrie_listing_next(&part) == ZEROTRIE_END);
    }
    zerotrie_rooms rooms;
    const zerotrie_trie in = zerotrie_trie_of(ZEROTRIE_SIMPLE_ASCII, letters, 6);
    const zerotrie_search all = zerotrie_range(ZEROTRIE_UNBOUNDED, NULL, 0, ZEROTRIE_UNBOUNDED, NULL, 0);
    zerotrie_listing part = zerotrie_listing_down(in, all, &rooms);
    CHECK(zerotrie_listing_next(&part) == ZEROTRIE_PART && part.count == 2 && rooms.values[0] == 4 && rooms.values[1] == 3);
    CHECK(zerotrie_listing_next(&part) == ZEROTRIE_END);
    part = zerotrie_listing_reversed(in, all, keys, 6, ends, listed, 16);
    CHECK(zerotrie_listing_next(&part) == ZEROTRIE_STUCK && part.status == ZEROTRIE_BUFFER_TOO_SMALL && part.next_len == 4);
    part = zerotrie_listing_reversed(in, all, NULL, 6, NULL, NULL, 16);
    CHECK(zerotrie_listing_next(&part) == ZEROTRIE_STUCK && part.status == ZEROTRIE_BUFFER_TOO_SMALL && part.count == 0);
    /* of malformed bytes too the parts end */
    for (int turn = 0; turn < 2000; turn++) {
        for (size_t i = 0; i < 40; i++) out[i] = (uint8_t)chance();
        part = zerotrie_listing_down(zerotrie_trie_of((zerotrie_kind)(turn % 4 == 0 ? 0 : turn % 4 == 1 ? 3 : turn % 4 == 2 ? 7 : 8), out, 40), all, &rooms);
        size_t parts = 0;
        while (zerotrie_listing_next(&part) == ZEROTRIE_PART) CHECK(++parts < 50);
    }
}
