/* Indexes and dense tables. */
#define _DEFAULT_SOURCE
#include "test.h"
#include <sys/mman.h>
#include <unistd.h>

/* Many keys of an index of foo 1, bar 2, "" 3 and bazzoo SIZE_MAX: as many values as there are ends and room. */
static void many_at_once(const uint8_t *index, size_t len) {
    static const size_t ends[4] = { 3, 6, 6, 12 };
    /* with an end below the one before it, and one past all bytes */
    static const size_t any_ends[6] = { 3, 4, 3, 7, 6, 99 };
    size_t values[7] = { 5, 5, 5, 5, 5, 5, 5 };
    CHECK(zerotrie_index_get_many(index, len, TEXT("fooxbarbazzoo"), any_ends, 6, 77, values, 7) == ZEROTRIE_DONE);
    CHECK(values[0] == 1 && values[1] == 77 && values[2] == 3 && values[3] == 77 && values[4] == 3 && values[5] == 77 && values[6] == 5);
    CHECK(zerotrie_index_get_many(index, len, TEXT("foobarbazzoo"), ends, 4, 77, values, 3) == ZEROTRIE_DONE);
    CHECK(values[0] == 1 && values[1] == 2 && values[2] == 3 && values[3] == 77);
    CHECK(zerotrie_index_get_many(index, len, TEXT("foobarbazzoo"), ends, 4, 77, values, 7) == ZEROTRIE_DONE);
    CHECK(values[3] == SIZE_MAX && values[4] == 3);
}

/* Indexes: what they have, what is refused, and bytes that are none. */
void test_indexes(void) {
    static const size_t ends[4] = { 3, 6, 6, 12 }, values[4] = { 1, 2, 3, SIZE_MAX };
    zerotrie_pair pairs[4] = { { ZEROTRIE_TEXT("foo"), 1 }, { ZEROTRIE_TEXT("bar"), 2 }, { ZEROTRIE_TEXT(""), 3 },
                               { ZEROTRIE_TEXT("bazzoo"), SIZE_MAX } };
    uint8_t index[256], again[256];
    size_t len = 99, whole, value = 77;
    memset(index, 0xEE, sizeof index);
    CHECK(zerotrie_index_build(0, pairs, 4, index, 20, &len) == ZEROTRIE_BUFFER_TOO_SMALL && len > 20 && index[0] == 0xEE);
    whole = len;
    CHECK(zerotrie_index_build(0, pairs, 4, index, sizeof index, &len) == ZEROTRIE_DONE && len == whole && index[len] == 0xEE);
    CHECK(zerotrie_index_is_valid(index, len));
    for (size_t n = 0; n < 4; n++)
        CHECK(zerotrie_index_get(index, len, pairs[n].key.ptr, pairs[n].key.len, &value) && value == pairs[n].value);
    CHECK(!zerotrie_index_get(index, len, TEXT("ba"), &value) && !zerotrie_index_get(index, len, TEXT("BAR"), &value));
    CHECK(!zerotrie_index_get(index, len, TEXT("bazzooo"), &value) && value == SIZE_MAX);
    many_at_once(index, len);
    CHECK(zerotrie_index_build_many(0, TEXT("foobarbazzoo"), ends, 4, values, 4, again, sizeof again, &len) == ZEROTRIE_DONE);
    CHECK(len == whole && memcmp(index, again, len) == 0);
    /* another seed is in the bytes, and its index has the same */
    CHECK(zerotrie_index_build(UINT64_MAX, pairs, 4, again, sizeof again, &len) == ZEROTRIE_DONE && memcmp(index, again, 8) != 0);
    CHECK(zerotrie_index_get(again, len, TEXT("bar"), &value) && value == 2 && zerotrie_index_is_valid(again, len));
    /* refusals, and no pairs */
    len = 99;
    pairs[2] = pairs[0];
    CHECK(zerotrie_index_build(0, pairs, 4, again, sizeof again, &len) == ZEROTRIE_DUPLICATE_KEY && len == 99);
    CHECK(zerotrie_index_build_many(0, TEXT("aa"), values, 2, values, 4, again, sizeof again, &len) == ZEROTRIE_DUPLICATE_KEY && len == 99);
    CHECK(zerotrie_index_build(0, NULL, 0, again, sizeof again, &len) == ZEROTRIE_DONE && zerotrie_index_is_valid(again, len));
    CHECK(!zerotrie_index_get(again, len, NULL, 0, &value));
    CHECK(zerotrie_index_build_many(0, NULL, 0, NULL, 0, NULL, 0, NULL, 0, &len) == ZEROTRIE_BUFFER_TOO_SMALL);
    CHECK(!zerotrie_index_is_valid(NULL, 0) && !zerotrie_index_get(NULL, 0, NULL, 0, &value) && value == 2);
    /* each cut, and bytes of every sort, at the end of a page */
    for (size_t cut = 0; cut < whole; cut++)
        CHECK(!zerotrie_index_is_valid(index, cut));
    size_t valid = 0, found = 0;
    const size_t page = (size_t)sysconf(_SC_PAGESIZE);
    uint8_t *const pages = mmap(NULL, 2 * page, PROT_NONE, MAP_PRIVATE | MAP_ANONYMOUS, -1, 0);
    CHECK(pages != MAP_FAILED && mprotect(pages, page, PROT_READ | PROT_WRITE) == 0);
    for (size_t turn = 0; turn < 300000; turn++) {
        const size_t some = chance() % 3 ? whole : chance() % (whole + 1);
        uint8_t *const bytes = pages + page - some;
        memcpy(bytes, index, some);
        for (size_t changes = some ? chance() % 4 : 0; changes > 0; changes--)
            bytes[chance() % some] = (uint8_t)(chance() % 2 ? chance() : chance() % 4);
        value = 77;
        const bool has = zerotrie_index_get(bytes, some, pairs[turn % 4].key.ptr, pairs[turn % 4].key.len, &value);
        CHECK(has || value == 77);
        size_t one = 99;
        const zerotrie_bytes asked = pairs[turn % 4].key;
        CHECK(zerotrie_index_get_many(bytes, some, asked.ptr, asked.len, &asked.len, 1, 77, &one, 1) == ZEROTRIE_DONE && one == value);
        found += has, valid += zerotrie_index_is_valid(bytes, some);
    }
    CHECK(valid > 10000 && valid < 290000 && found > 10000);
    CHECK(munmap(pages, 2 * page) == 0);
    /* many keys, each twice as long as the one before it or so */
    static uint8_t texts[4000], many[60000];
    static size_t places[1000];
    size_t at = 0;
    for (size_t n = 0; n < 1000; n++) {
        texts[at++] = (uint8_t)n, texts[at++] = (uint8_t)(n >> 8);
        for (size_t more = n % 3; more > 0; more--)
            texts[at++] = (uint8_t)chance();
        places[n] = at;
    }
    CHECK(zerotrie_index_build_many(7, texts, at, places, 1000, places, 1000, many, sizeof many, &len) == ZEROTRIE_DONE);
    CHECK(zerotrie_index_is_valid(many, len));
    static size_t found_all[1000];
    CHECK(zerotrie_index_get_many(many, len, texts, at, places, 1000, 0, found_all, 1000) == ZEROTRIE_DONE);
    CHECK(memcmp(found_all, places, sizeof places) == 0);
    for (size_t n = 0; n < 1000; n++) {
        const size_t from = n ? places[n - 1] : 0;
        CHECK(zerotrie_index_get(many, len, texts + from, places[n] - from, &value) && value == places[n]);
        texts[from + 1] ^= 0x80;
        CHECK(!zerotrie_index_get(many, len, texts + from, places[n] - from, &value));
    }
}

/* de-AT 8, de-CH 9, en-US 5. */
void test_dense(void) {
    const size_t prefix_ends[3] = { 2, 4, 6 }, suffix_ends[3] = { 2, 4, 6 }, values[3] = { 8, 9, 5 };
    uint8_t record[256];
    size_t len = 99, whole, value = 77;
    memset(record, 0xEE, sizeof record);
    CHECK(zerotrie_dense_build(TEXT("dedeen"), prefix_ends, 3, TEXT("ATCHUS"), suffix_ends, 3, values, 3, '/', record, 20, &len)
          == ZEROTRIE_BUFFER_TOO_SMALL && len > 27 && record[0] == 0xEE);
    whole = len;
    len = 99;
    CHECK(zerotrie_dense_build(TEXT("dedeen"), prefix_ends, 3, TEXT("ATCHUS"), suffix_ends, 3, values, 3, '/', record,
                               sizeof record, &len) == ZEROTRIE_DONE && len == whole && record[len] == 0xEE);
    CHECK(zerotrie_dense_get(record, len, TEXT("de"), TEXT("AT"), &value) == ZEROTRIE_DONE && value == 8);
    CHECK(zerotrie_dense_get(record, len, TEXT("de"), TEXT("CH"), &value) == ZEROTRIE_DONE && value == 9);
    CHECK(zerotrie_dense_get(record, len, TEXT("en"), TEXT("US"), &value) == ZEROTRIE_DONE && value == 5);
    CHECK(zerotrie_dense_get(record, len, TEXT("AT"), TEXT("de"), &value) == ZEROTRIE_NO_ENTRY && value == 5);
    CHECK(zerotrie_dense_get(record, len, TEXT("en"), TEXT("AT"), &value) == ZEROTRIE_NO_ENTRY && value == 5);
    CHECK(zerotrie_dense_get(record, len, TEXT("de"), TEXT("\xFF"), &value) == ZEROTRIE_NO_ENTRY && value == 5);
    CHECK(zerotrie_dense_get(record, len - 1, TEXT("de"), TEXT("AT"), &value) == ZEROTRIE_RECORD_TRUNCATED && value == 5);
    CHECK(zerotrie_dense_get(record, len + 1, TEXT("de"), TEXT("AT"), &value) == ZEROTRIE_TRAILING_BYTES && value == 5);

    /* the refusals, and nothing is written */
    const size_t one[1] = { 1 }, twice[2] = { 2, 4 }, falling[2] = { 2, 4 };
    len = 99;
    memset(record, 0xEE, sizeof record);
    CHECK(zerotrie_dense_build(TEXT("ende"), twice, 2, TEXT("USAT"), falling, 2, values, 2, '/', record, sizeof record, &len)
          == ZEROTRIE_UNSORTED && len == 99);
    CHECK(zerotrie_dense_build(TEXT("dede"), twice, 2, TEXT("ATAT"), falling, 2, values, 2, '/', record, sizeof record, &len)
          == ZEROTRIE_UNSORTED && len == 99);
    CHECK(zerotrie_dense_build(TEXT("d"), one, 1, TEXT("/"), one, 1, values, 1, '/', record, sizeof record, &len)
          == ZEROTRIE_ILLEGAL_DELIMITER && len == 99);
    CHECK(zerotrie_dense_build(TEXT("d"), one, 1, TEXT("\xFF"), one, 1, values, 1, '/', record, sizeof record, &len)
          == ZEROTRIE_NON_ASCII && len == 99);
    CHECK(zerotrie_dense_build(TEXT("d"), one, 1, TEXT("a"), one, 1, values, 1, 200, record, sizeof record, &len)
          == ZEROTRIE_NON_ASCII && len == 99 && record[0] == 0xEE);
    /* as many entries as the shortest list has: none */
    CHECK(zerotrie_dense_build(TEXT("d"), one, 1, TEXT("a"), one, 1, values, 0, '/', record, sizeof record, &len) == ZEROTRIE_DONE);
    CHECK(zerotrie_dense_get(record, len, TEXT("d"), TEXT("a"), &value) == ZEROTRIE_NO_ENTRY && value == 5);
}
