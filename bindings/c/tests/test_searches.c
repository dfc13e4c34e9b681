/* Searches beside all keys, one by one; their order; the nearest keys; and searches that are none. */
#include "test.h"

/* Searches of keys of three letters, against all keys one by one: whole, in parts, within a prefix, and by beginnings. */
void test_searches(void) {
    static const uint32_t kinds[4] = { ZEROTRIE_SIMPLE_ASCII, ZEROTRIE_PERFECT_HASH, ZEROTRIE_EXTENDED_CAPACITY, ZEROTRIE_IGNORE_CASE };
    static uint8_t trie[4][4096], keys[4096], room[64];
    static size_t ends[400], values[400], part_ends[64], part_values[64];
    static zerotrie_pair pairs[364];
    static uint8_t texts[364][6];
    size_t lens[4], count = 0, found = 0, passed = 0;
    for (size_t len = 0, power = 1; len < 6; len++, power *= 3)
        for (size_t n = 0; n < power; n++) {
            size_t rest = n;
            for (size_t i = 0; i < len; i++, rest /= 3)
                texts[count][i] = (uint8_t)('a' + rest % 3);
            if (chance() % 3) {
                pairs[count].key = zerotrie_bytes_of(texts[count], len);
                pairs[count].value = n;
                count++;
            }
        }
    for (size_t k = 0; k < 4; k++)
        CHECK(zerotrie_build(kinds[k], pairs, count, trie[k], sizeof trie[k], &lens[k]) == ZEROTRIE_DONE);
    for (size_t turn = 0; turn < 20000; turn++) {
        const size_t k = chance() % 4;
        uint8_t text[20], to[6], prefix[2];
        size_t key_bytes, all, text_len = some_letters(text, 5);
        const size_t to_len = some_letters(to, 5), prefix_len = chance() % 2 ? some_letters(prefix, 2) : 0, places = 1 + chance() % 60;
        zerotrie_search search;
        switch (chance() % 5) {
        case 0:
            search = zerotrie_range((zerotrie_bound)(chance() % 3), text, text_len, (zerotrie_bound)(chance() % 3), to, to_len);
            break;
        case 1:
            for (size_t n = 0; n < text_len; n++)
                if (chance() % 2)
                    text[n] = chance() % 2 ? '*' : '?';
            if (chance() % 2)
                memcpy(text + text_len, "[!b]*", 5), text_len += 4 + chance() % 2;
            search = chance() % 2 ? zerotrie_glob(text, text_len) : zerotrie_glob_chars(text, text_len);
            break;
        case 2: search = zerotrie_subsequence(text, text_len); break;
        case 3: search = zerotrie_fuzzy(text, text_len, (uint32_t)(chance() % 4)); break;
        default: search = zerotrie_fuzzy_chars(text, text_len, (uint32_t)(chance() % 4)); break;
        }
        search.beginnings = chance() % 3 == 0;
        CHECK(zerotrie_list(kinds[k], trie[k], lens[k], prefix, prefix_len, keys, sizeof keys, ends, 400, values, 400, &key_bytes, &all)
              == ZEROTRIE_DONE);
        zerotrie_listing part = zerotrie_listing_by(zerotrie_trie_of((zerotrie_kind)kinds[k], trie[k], lens[k]), search, room, sizeof room,
                                                    part_ends, part_values, places);
        part.prefix = zerotrie_bytes_of(prefix, prefix_len);
        size_t n = 0;
        while (zerotrie_listing_next(&part))
            for (size_t i = 0; i < part.count; i++, n++, found++) {
                const zerotrie_bytes key = zerotrie_listing_key(&part, i);
                for (; n < all; n++, passed++) {
                    const size_t from = n ? ends[n - 1] : 0;
                    if (is_sought(&search, keys + from, ends[n] - from))
                        break;
                }
                CHECK(n < all && values[n] == part_values[i] && key.len == ends[n] - (n ? ends[n - 1] : 0));
                CHECK(memcmp(key.ptr, keys + ends[n] - key.len, key.len) == 0);
            }
        CHECK(part.status == ZEROTRIE_DONE && part.next_len == 0);
        for (; n < all; n++, passed++)
            CHECK(!is_sought(&search, keys + (n ? ends[n - 1] : 0), ends[n] - (n ? ends[n - 1] : 0)));
    }
    CHECK(found > 100000 && passed > 100000);
}

/* Searches that are refused, with nothing written, and the greatest that are not. */
void test_refused_searches(void) {
    uint8_t keys[9], many[64];
    size_t ends[2], values[2], count = 99, next_len = 98;
    zerotrie_search search = zerotrie_glob(TEXT("*n"));
    memset(keys, 0xEE, sizeof keys), memset(ends, 0xEE, sizeof ends), memset(values, 0xEE, sizeof values);
    memset(many, 'a', sizeof many);
#define SEARCH(kind) zerotrie_search_some(kind, letters, 6, NULL, 0, &search, false, NULL, 0, keys, 9, ends, 2, values, 2, &count, &next_len)
    CHECK(SEARCH(5) == ZEROTRIE_UNKNOWN_KIND);
    search.by = (zerotrie_search_by)8;
    CHECK(SEARCH(0) == ZEROTRIE_UNKNOWN_SEARCH && SEARCH(5) == ZEROTRIE_UNKNOWN_KIND);
    search = zerotrie_range((zerotrie_bound)3, TEXT("a"), ZEROTRIE_UNBOUNDED, NULL, 0);
    CHECK(SEARCH(0) == ZEROTRIE_UNKNOWN_SEARCH);
    search = zerotrie_range(ZEROTRIE_INCLUDED, TEXT("a"), (zerotrie_bound)3, NULL, 0);
    CHECK(SEARCH(0) == ZEROTRIE_UNKNOWN_SEARCH);
    static const char *const malformed[] = { "[", "[a", "[]", "[!]", "a\\", "*[a-" };
    for (size_t n = 0; n < sizeof malformed / sizeof *malformed; n++) {
        search = zerotrie_glob((const uint8_t *)malformed[n], strlen(malformed[n]));
        CHECK(SEARCH(0) == ZEROTRIE_MALFORMED_SEARCH);
        search.by = ZEROTRIE_BY_CHAR_GLOB;
        CHECK(SEARCH(0) == ZEROTRIE_MALFORMED_SEARCH);
    }
    search = zerotrie_glob(TEXT("\xFF*"));
    CHECK(SEARCH(0) == ZEROTRIE_DONE && count == 0 && next_len == 0);
    count = 99, next_len = 98;
    search = zerotrie_glob_chars(TEXT("\xFF*"));
    CHECK(SEARCH(0) == ZEROTRIE_MALFORMED_SEARCH && zerotrie_search_check(&search) == ZEROTRIE_MALFORMED_SEARCH);
    search = zerotrie_fuzzy_chars(TEXT("\xFF"), 1);
    CHECK(SEARCH(0) == ZEROTRIE_MALFORMED_SEARCH);
    for (size_t by = ZEROTRIE_BY_GLOB; by <= ZEROTRIE_BY_CHAR_EDITS; by++) {
        search = zerotrie_search_for((zerotrie_search_by)by, many, 64);
        CHECK(by == ZEROTRIE_BY_SUBSEQUENCE || SEARCH(0) == ZEROTRIE_SEARCH_TOO_LONG);
    }
    search = zerotrie_glob_chars(many, 64);
    CHECK(SEARCH(0) == ZEROTRIE_SEARCH_TOO_LONG);
    search = zerotrie_fuzzy(TEXT("a"), 255);
    CHECK(SEARCH(0) == ZEROTRIE_TOO_MANY_EDITS);
    search.edits = 256;
    CHECK(SEARCH(0) == ZEROTRIE_TOO_MANY_EDITS);
    search = zerotrie_fuzzy_chars(TEXT("a"), UINT32_MAX);
    CHECK(SEARCH(0) == ZEROTRIE_TOO_MANY_EDITS && is_left(keys, 0, sizeof keys) && is_left(ends, 0, sizeof ends));
    CHECK(is_left(values, 0, sizeof values) && next_len == 98);
    for (size_t by = ZEROTRIE_BY_GLOB; by <= ZEROTRIE_BY_CHAR_EDITS; by++) {
        search = zerotrie_search_for((zerotrie_search_by)by, many, 63);
        search.edits = by >= ZEROTRIE_BY_EDITS ? 254 : UINT32_MAX;
        CHECK(SEARCH(0) == ZEROTRIE_DONE && count == (by >= ZEROTRIE_BY_EDITS ? 2 : 0) && next_len == 0);
    }
    search = zerotrie_glob_chars(many, 63);
    CHECK(SEARCH(0) == ZEROTRIE_DONE && count == 0 && next_len == 0);
    search = zerotrie_glob(TEXT("*n"));
    CHECK(SEARCH(0) == ZEROTRIE_DONE && count == 1 && ends[0] == 2 && values[0] == 3 && memcmp(keys, "in", 2) == 0);
    search.beginnings = true;
    CHECK(SEARCH(0) == ZEROTRIE_DONE && count == 2 && ends[1] == 6 && values[1] == 4);
#undef SEARCH
    /* the same without a trie */
    CHECK(zerotrie_search_check(&search) == ZEROTRIE_DONE);
    search = zerotrie_glob(TEXT("[a"));
    CHECK(zerotrie_search_check(&search) == ZEROTRIE_MALFORMED_SEARCH);
    search = zerotrie_fuzzy(TEXT("a"), 255);
    CHECK(zerotrie_search_check(&search) == ZEROTRIE_TOO_MANY_EDITS);
    search.by = (zerotrie_search_by)8;
    CHECK(zerotrie_search_check(&search) == ZEROTRIE_UNKNOWN_SEARCH);
    /* characters: an edit changes two bytes here */
    static const uint8_t umlaut[] = { 'k', 0xA2, 0xC3, 0xB6, 0x81 };
    for (uint32_t edits = 0; edits < 3; edits++)
        for (size_t by = ZEROTRIE_BY_EDITS; by <= ZEROTRIE_BY_CHAR_EDITS; by++) {
            search = zerotrie_search_for((zerotrie_search_by)by, TEXT("ko"));
            search.edits = edits;
            CHECK(zerotrie_search_some(ZEROTRIE_PERFECT_HASH, umlaut, 5, NULL, 0, &search, false, NULL, 0, keys, 9, ends, 2, values, 2,
                                       &count, &next_len) == ZEROTRIE_DONE);
            CHECK(count == (edits >= (by == ZEROTRIE_BY_EDITS ? 2 : 1)));
        }
    /* a pattern takes them whole, and finds no key that is not UTF-8 */
    static const uint8_t half[] = { 'k', 0xA1, 0xC3, 0x81 };
    static const char *const patterns[] = { "k?", "k[\xC3\xB6]", "k[!a]", "k\xC3\xB6", "k*" };
    for (size_t n = 0; n < sizeof patterns / sizeof *patterns; n++)
        for (size_t chars = 0; chars < 2; chars++) {
            search = (chars ? zerotrie_glob_chars : zerotrie_glob)(patterns[n], strlen(patterns[n]));
            CHECK(zerotrie_search_some(ZEROTRIE_PERFECT_HASH, umlaut, 5, NULL, 0, &search, false, NULL, 0, keys, 9, ends, 2, values, 2,
                                       &count, &next_len) == ZEROTRIE_DONE);
            CHECK(count == (chars || n > 2));
            CHECK(zerotrie_search_some(ZEROTRIE_EXTENDED_CAPACITY, half, 4, NULL, 0, &search, false, NULL, 0, keys, 9, ends, 2, values, 2,
                                       &count, &next_len) == ZEROTRIE_DONE);
            CHECK(count == (!chars && n != 3));
        }
}

/* In every kind the order of bytes, also in small parts: where large tables are hashed, and where capitals are among small letters. */
void test_searches_in_order(void) {
    static const uint32_t kinds[4] = { ZEROTRIE_SIMPLE_ASCII, ZEROTRIE_PERFECT_HASH, ZEROTRIE_EXTENDED_CAPACITY, ZEROTRIE_IGNORE_CASE };
    const zerotrie_search all = zerotrie_range(ZEROTRIE_UNBOUNDED, NULL, 0, ZEROTRIE_UNBOUNDED, NULL, 0);
    const zerotrie_search searches[] = { all, zerotrie_glob("*n", 2), zerotrie_glob_chars("?[m-o]", 6), zerotrie_subsequence("n", 1),
                                         zerotrie_fuzzy("nn", 2, 1), zerotrie_fuzzy_chars("n", 1, 1), zerotrie_swaps("n", 1, 1) };
    static const size_t many_places[] = { 1, 3, 26 };
    for (size_t k = 0; k < 4; k++) {
        uint8_t trie[512], keys[52], room[104], texts[26][2];
        size_t len, ends[26], values[26], key_bytes, count, next_len, fallen = 0;
        zerotrie_pair pairs[26];
        for (size_t i = 0; i < 26; i++) {
            texts[i][0] = (uint8_t)((kinds[k] == ZEROTRIE_IGNORE_CASE && i % 3 == 0 ? 'A' : 'a') + i), texts[i][1] = 'n';
            pairs[i].key = zerotrie_bytes_of(texts[i], 2), pairs[i].value = i;
        }
        CHECK(zerotrie_build(kinds[k], pairs, 26, trie, sizeof trie, &len) == ZEROTRIE_DONE);
        CHECK(zerotrie_list(kinds[k], trie, len, NULL, 0, keys, sizeof keys, ends, 26, values, 26, &key_bytes, &count) == ZEROTRIE_DONE);
        for (size_t i = 1; i < count; i++)
            fallen += keys[2 * i] < keys[2 * i - 2];
        CHECK(count == 26 && (fallen > 0) == (kinds[k] != ZEROTRIE_SIMPLE_ASCII));
        for (size_t n = 0; n < 3 * sizeof searches / sizeof *searches; n++) {
            const size_t places = many_places[n % 3];
            zerotrie_listing part = zerotrie_listing_by(zerotrie_trie_of((zerotrie_kind)kinds[k], trie, len), searches[n / 3], room, 4 * places,
                                                        ends, values, places);
            uint8_t before = 0;
            size_t found = 0;
            while (zerotrie_listing_next(&part) == ZEROTRIE_PART)
                for (size_t i = 0; i < part.count; i++, found++) {
                    const zerotrie_bytes key = zerotrie_listing_key(&part, i);
                    CHECK(key.len == 2 && key.ptr[0] > before && (key.ptr[0] | 32) == 'a' + (int)part.values[i]);
                    before = key.ptr[0];
                }
            CHECK(part.status == ZEROTRIE_DONE && found == 26);
        }
        /* from what is no key on, and below a prefix in another case */
        CHECK(zerotrie_search_some(kinds[k], trie, len, NULL, 0, &searches[1], true, TEXT("xo"), keys, 4, ends, 2, values, 2, &count, &next_len)
              == ZEROTRIE_DONE && count == (kinds[k] == ZEROTRIE_IGNORE_CASE ? 1 : 2) && keys[2 * count - 2] == 'z');
        CHECK(zerotrie_search_some(kinds[k], trie, len, TEXT("Z"), &searches[1], false, NULL, 0, keys, 4, ends, 2, values, 2, &count, &next_len)
              == ZEROTRIE_DONE && count == (kinds[k] == ZEROTRIE_IGNORE_CASE));
    }
}

/* The nearest first. */
void test_nearest(void) {
    zerotrie_pair pairs[] = { { ZEROTRIE_TEXT("trial"), 1 }, { ZEROTRIE_TEXT("trie"), 2 }, { ZEROTRIE_TEXT("tries"), 3 }, { ZEROTRIE_TEXT("tire"), 4 } };
    uint8_t out[64], keys[32];
    size_t len, ends[4], values[4], far[4], count = 77, next_len = 88;
    CHECK(zerotrie_build(ZEROTRIE_SIMPLE_ASCII, pairs, 4, out, sizeof out, &len) == ZEROTRIE_DONE);
#define NEAREST(by, edits, room, places)                                                                                      \
    zerotrie_nearest(ZEROTRIE_SIMPLE_ASCII, out, len, (zerotrie_search_by)(by), "trie", 4, edits, keys, room, ends, places, values, places, far, 4, &count, &next_len)
    CHECK(NEAREST(ZEROTRIE_BY_SWAPS, 1, 32, 4) == ZEROTRIE_DONE && count == 3 && next_len == 0);
    CHECK(values[0] == 2 && values[1] == 4 && values[2] == 3 && far[0] == 0 && far[1] == 1 && far[2] == 1 && memcmp(keys, "trietiretries", 13) == 0);
    CHECK(NEAREST(ZEROTRIE_BY_EDITS, 1, 32, 4) == ZEROTRIE_DONE && count == 2 && ends[1] == 9);
    CHECK(NEAREST(ZEROTRIE_BY_CHAR_EDITS, 2, 32, 2) == ZEROTRIE_BUFFER_TOO_SMALL && count == 2 && next_len == 4);
    CHECK(NEAREST(ZEROTRIE_BY_CHAR_SWAPS, 1, 10, 4) == ZEROTRIE_BUFFER_TOO_SMALL && count == 2 && next_len == 5);
    count = 77, next_len = 88;
    CHECK(NEAREST(ZEROTRIE_BY_SWAPS, 8, 32, 4) == ZEROTRIE_TOO_MANY_EDITS && NEAREST(ZEROTRIE_BY_GLOB, 1, 32, 4) == ZEROTRIE_UNKNOWN_SEARCH);
    CHECK(NEAREST(ZEROTRIE_BY_CHAR_GLOB, 1, 32, 4) == ZEROTRIE_UNKNOWN_SEARCH && NEAREST(8, 1, 32, 4) == ZEROTRIE_UNKNOWN_SEARCH);
    CHECK(count == 77 && next_len == 88);
    zerotrie_rooms rooms;
    zerotrie_listing part = zerotrie_listing_found(zerotrie_trie_of(ZEROTRIE_SIMPLE_ASCII, out, len), zerotrie_swaps("tire", 4, 1), &rooms);
    CHECK(zerotrie_listing_next(&part) == ZEROTRIE_PART && part.count == 2);
    part = zerotrie_listing_found(zerotrie_trie_of(ZEROTRIE_SIMPLE_ASCII, out, len), zerotrie_swaps_chars("\xff", 1, 1), &rooms);
    CHECK(zerotrie_listing_next(&part) == ZEROTRIE_STUCK && part.status == ZEROTRIE_MALFORMED_SEARCH);
}

/* In a trie that ignores case, keys and texts are compared in lower case, and a letter of a pattern is taken in both cases. */
void test_any_case_searches(void) {
    zerotrie_pair pairs[] = { { ZEROTRIE_TEXT("Content-Type"), 1 }, { ZEROTRIE_TEXT("ETag"), 2 } };
    uint8_t out[64], keys[32];
    size_t len, ends[2], values[2], far[2], count, next_len;
    CHECK(zerotrie_build(ZEROTRIE_IGNORE_CASE, pairs, 2, out, sizeof out, &len) == ZEROTRIE_DONE);
    const struct {
        zerotrie_search search;
        size_t value;
    } rows[] = {
        { zerotrie_glob("content-*", 9), 1 },
        { zerotrie_glob("[A-_]tag", 8), 2 },
        { zerotrie_glob_chars("[A-\xC3\x89]tAG", 9), 2 },
        { zerotrie_subsequence("CT", 2), 1 },
        { zerotrie_fuzzy("etag", 4, 0), 2 },
        { zerotrie_swaps_chars("ETGA", 4, 1), 2 },
        { zerotrie_range(ZEROTRIE_INCLUDED, "c", 1, ZEROTRIE_EXCLUDED, "d", 1), 1 },
        { zerotrie_range(ZEROTRIE_EXCLUDED, "D", 1, ZEROTRIE_INCLUDED, "ETAG", 4), 2 },
    };
    for (size_t n = 0; n < sizeof rows / sizeof *rows; n++) {
        CHECK(zerotrie_search_some(ZEROTRIE_IGNORE_CASE, out, len, NULL, 0, &rows[n].search, false, NULL, 0, keys, sizeof keys, ends, 2, values, 2,
                                   &count, &next_len) == ZEROTRIE_DONE);
        CHECK(count == 1 && next_len == 0 && values[0] == rows[n].value);
    }
    CHECK(zerotrie_nearest(ZEROTRIE_IGNORE_CASE, out, len, ZEROTRIE_BY_SWAPS, "etga", 4, 1, keys, sizeof keys, ends, 2, values, 2, far, 2, &count,
                           &next_len) == ZEROTRIE_DONE);
    CHECK(count == 1 && values[0] == 2 && far[0] == 1 && ends[0] == 4 && memcmp(keys, "ETag", 4) == 0);
}
