/* Sealed files of tries and of indexes. */
#include "test.h"

/* Sealed files: each cut, each byte more and each bit that changes is told. */
void test_files(void) {
    static const uint8_t front[20] = { 'z', 't', 'r', 'i', 0x89, 0x8A, '\r', '\n', 1, 0, 0, 0, 6 };
    uint8_t file[40], again[40];
    uint32_t kind = 99;
    size_t len = 99, at = 99, trie_len = 99;
    zerotrie_trie trie = zerotrie_trie_of(ZEROTRIE_IGNORE_CASE, NULL, 0);
    memset(file, 0xEE, sizeof file);
    CHECK(zerotrie_seal(ZEROTRIE_SIMPLE_ASCII, letters, 6, file, 29, &len) == ZEROTRIE_BUFFER_TOO_SMALL && len == 30 && file[0] == 0xEE);
    len = 99;
    CHECK(zerotrie_seal(9, letters, 6, file, sizeof file, &len) == ZEROTRIE_UNKNOWN_KIND && len == 99 && file[0] == 0xEE);
    CHECK(zerotrie_seal(ZEROTRIE_SIMPLE_ASCII, letters, 6, file, sizeof file, &len) == ZEROTRIE_DONE && len == 30 && file[30] == 0xEE);
    CHECK(ZEROTRIE_SEAL_LEN == 24 && memcmp(file, front, 20) == 0 && memcmp(file + 24, letters, 6) == 0);
    const uint32_t sum = crc32c(letters, 6, crc32c(front, 20, 0));
    for (int n = 0; n < 4; n++)
        CHECK(file[20 + n] == (uint8_t)(sum >> 8 * n));
    CHECK(crc32c(TEXT("123456789"), 0) == 0xE3069283u);
    CHECK(zerotrie_open(file, 30, &kind, &at, &trie_len) == ZEROTRIE_DONE && kind == 0 && at == 24 && trie_len == 6);
    CHECK(zerotrie_trie_open(file, 30, &trie) == ZEROTRIE_DONE && trie.kind == ZEROTRIE_SIMPLE_ASCII && trie.bytes.ptr == file + 24);
    CHECK(trie.bytes.len == 6 && zerotrie_trie_is_well_formed(trie));
    /* tagged bytes, and what is neither */
    CHECK(zerotrie_open(TEXT("\3a\205"), &kind, &at, &trie_len) == ZEROTRIE_DONE && kind == 3 && at == 1 && trie_len == 2);
    CHECK(zerotrie_open(TEXT("\7"), &kind, &at, &trie_len) == ZEROTRIE_DONE && kind == 7 && at == 1 && trie_len == 0);
    kind = 99, at = trie_len = 98;
    CHECK(zerotrie_open(TEXT(""), &kind, &at, &trie_len) == ZEROTRIE_NO_TAG);
    CHECK(zerotrie_open(TEXT("in\203to\204"), &kind, &at, &trie_len) == ZEROTRIE_INVALID_TAG);
    CHECK(zerotrie_trie_open(file, 29, &trie) == ZEROTRIE_DAMAGED && trie.bytes.len == 6);
    for (size_t cut = 1; cut <= sizeof file; cut++)
        CHECK(cut == 30 || zerotrie_open(file, cut, &kind, &at, &trie_len) == (cut < 8 ? ZEROTRIE_INVALID_TAG : ZEROTRIE_DAMAGED));
    for (size_t bit = 0; bit < 8 * 30; bit++) {
        memcpy(again, file, 30);
        again[bit / 8] ^= (uint8_t)(1 << bit % 8);
        const zerotrie_status status = zerotrie_open(again, 30, &kind, &at, &trie_len);
        CHECK(bit / 8 > 0 && bit / 8 < 8   ? status == ZEROTRIE_INVALID_TAG
              : bit / 8 == 8 || bit / 8 == 9 ? status == ZEROTRIE_UNKNOWN_VERSION
              : bit / 8 >= 10               ? status == ZEROTRIE_DAMAGED
                                            : status == ZEROTRIE_INVALID_TAG);
    }
    CHECK(kind == 99 && at == 98 && trie_len == 98);
    CHECK(zerotrie_open(NULL, 0, &kind, &at, &trie_len) == ZEROTRIE_NO_TAG && zerotrie_trie_open(NULL, 0, &trie) == ZEROTRIE_NO_TAG);
    CHECK(zerotrie_seal(ZEROTRIE_PERFECT_HASH, NULL, 0, again, sizeof again, &len) == ZEROTRIE_DONE && len == 24);
    CHECK(zerotrie_open(again, 24, &kind, &at, &trie_len) == ZEROTRIE_DONE && kind == 3 && at == 24 && trie_len == 0);
    CHECK(zerotrie_seal(ZEROTRIE_PERFECT_HASH, NULL, 0, NULL, 0, &len) == ZEROTRIE_BUFFER_TOO_SMALL && len == 24);
    /* any bytes, most of which begin as a sealed file: what is told is within them */
    size_t opened = 0;
    for (size_t turn = 0; turn < 100000; turn++) {
        const size_t any_len = chance() % 33;
        for (size_t n = 0; n < any_len; n++)
            again[n] = n < 8 + turn % 17 && n < 24 ? file[n] : (uint8_t)chance();
        if (chance() % 4 == 0)
            again[0] = (uint8_t)(chance() % 9);
        const zerotrie_status status = zerotrie_open(again, any_len, &kind, &at, &trie_len);
        CHECK(status != ZEROTRIE_DONE || (at <= any_len && trie_len <= any_len - at && (again[0] != 'z' || any_len == 30)));
        opened += status == ZEROTRIE_DONE;
    }
    CHECK(opened > 5000);
}

/* A number in bytes of a file. */
static size_t number_at(const uint8_t *bytes, size_t len) {
    size_t number = 0;
    for (size_t n = len; n > 0; n--)
        number = number << 8 | bytes[n - 1];
    return number;
}

/* The file of an index as a whole, as earlier versions wrote it. */
static size_t as_a_whole(const uint8_t *index, size_t len, uint8_t *file) {
    CHECK(zerotrie_seal(ZEROTRIE_SIMPLE_ASCII, index, len, file, len + 24, &(size_t){ 0 }) == ZEROTRIE_DONE);
    file[10] = 24;
    const uint32_t sum = crc32c(index, len, crc32c(file, 20, 0));
    for (int n = 0; n < 4; n++)
        file[20 + n] = (uint8_t)(sum >> 8 * n);
    return len + 24;
}

/* Sealed files of indexes: their bytes, and each cut, each byte more and each bit that changes is told. */
void test_files_of_indexes(void) {
    static const uint8_t front[20] = { 'z', 't', 'r', 'i', 0x89, 0x8A, '\r', '\n', 1, 0, 25, 0, 12 };
    static const size_t lens[] = { 0, 1, 65535, 65536, 65537, 131072, 140000 };
    static uint8_t bytes[140000], big[140100];
    const zerotrie_pair pairs[2] = { { ZEROTRIE_TEXT("foo"), 1 }, { ZEROTRIE_TEXT("bar"), 2 } };
    uint8_t index[128], file[200], again[200];
    uint32_t kind = 99;
    size_t index_len = 99, whole, len = 99, at = 99, found = 99, value = 77;
    CHECK(zerotrie_index_build(0, pairs, 2, index, sizeof index, &index_len) == ZEROTRIE_DONE && index_len < 128);
    whole = index_len + 36;
    memset(file, 0xEE, sizeof file);
    CHECK(zerotrie_seal_index(index, index_len, file, whole - 1, &len) == ZEROTRIE_BUFFER_TOO_SMALL && len == whole && file[0] == 0xEE);
    len = 99;
    CHECK(zerotrie_seal_index(index, index_len, file, sizeof file, &len) == ZEROTRIE_DONE && len == whole && file[whole] == 0xEE);
    /* the header and the table, with their checksums, and the index */
    CHECK(memcmp(file, front, 20) == 0 && number_at(file + 20, 4) == crc32c(file + 24, 12, crc32c(front, 20, 0)));
    CHECK(number_at(file + 24, 8) == index_len && number_at(file + 32, 4) == crc32c(index, index_len, 0));
    CHECK(memcmp(file + 36, index, index_len) == 0);
    CHECK(zerotrie_open_index(file, whole, &at, &found) == ZEROTRIE_DONE && at == 36 && found == index_len);
    CHECK(zerotrie_index_is_valid(file + at, found) && zerotrie_index_get(file + at, found, TEXT("bar"), &value) && value == 2);
    /* as a whole, too */
    len = as_a_whole(index, index_len, again);
    CHECK(zerotrie_open_index(again, len, &at, &found) == ZEROTRIE_DONE && at == 24 && found == index_len);
    again[len - 1] ^= 1;
    at = found = 98;
    CHECK(zerotrie_open_index(again, len, &at, &found) == ZEROTRIE_DAMAGED);
    /* neither is the file of a trie, nor the other way round, and no bytes alone are a file */
    CHECK(zerotrie_open(file, whole, &kind, &len, &value) == ZEROTRIE_DAMAGED && kind == 99);
    CHECK(zerotrie_seal(ZEROTRIE_PERFECT_HASH, letters, 6, again, sizeof again, &len) == ZEROTRIE_DONE);
    CHECK(zerotrie_open_index(again, len, &at, &found) == ZEROTRIE_DAMAGED);
    CHECK(zerotrie_open_index(index, index_len, &at, &found) == ZEROTRIE_DAMAGED);
    CHECK(zerotrie_open_index(TEXT("\3a\205"), &at, &found) == ZEROTRIE_DAMAGED);
    CHECK(zerotrie_open_index(NULL, 0, &at, &found) == ZEROTRIE_DAMAGED);
    for (size_t cut = 0; cut <= whole + 1; cut++)
        CHECK(cut == whole || zerotrie_open_index(file, cut, &at, &found) == ZEROTRIE_DAMAGED);
    for (size_t bit = 0; bit < 8 * whole; bit++) {
        memcpy(again, file, whole);
        again[bit / 8] ^= (uint8_t)(1 << bit % 8);
        CHECK(zerotrie_open_index(again, whole, &at, &found)
              == (bit / 8 == 8 || bit / 8 == 9 ? ZEROTRIE_UNKNOWN_VERSION : ZEROTRIE_DAMAGED));
    }
    CHECK(at == 98 && found == 98);
    /* any number of blocks; the bytes need not be an index */
    for (size_t n = 0; n < sizeof bytes; n++)
        bytes[n] = (uint8_t)chance();
    for (size_t n = 0; n < sizeof lens / sizeof *lens; n++) {
        const size_t start = 32 + 4 * ((lens[n] + 65535) / 65536);
        CHECK(zerotrie_seal_index(bytes, lens[n], big, sizeof big, &len) == ZEROTRIE_DONE && len == start + lens[n]);
        CHECK(zerotrie_open_index(big, len, &at, &found) == ZEROTRIE_DONE && at == start && found == lens[n]);
        for (size_t from = 0; from < lens[n]; from += 65536) {
            const size_t block = lens[n] - from < 65536 ? lens[n] - from : 65536;
            CHECK(number_at(big + 32 + from / 16384, 4) == crc32c(bytes + from, block, 0));
            big[start + from + chance() % block] ^= 4;
            CHECK(zerotrie_open_index(big, len, &at, &found) == ZEROTRIE_DAMAGED);
            memcpy(big + start + from, bytes + from, block);
        }
        CHECK(memcmp(big + start, bytes, lens[n]) == 0);
    }
    CHECK(zerotrie_seal_index(NULL, 0, NULL, 0, &len) == ZEROTRIE_BUFFER_TOO_SMALL && len == 32);
    /* any bytes, most of which begin as the file: what is told is within them */
    size_t opened = 0;
    for (size_t turn = 0; turn < 100000; turn++) {
        const size_t any_len = chance() % 3 ? whole : chance() % (whole + 2);
        for (size_t n = 0; n < any_len; n++)
            again[n] = n < whole ? file[n] : (uint8_t)chance();
        for (size_t changes = any_len ? chance() % 3 : 0; changes > 0; changes--)
            again[chance() % any_len] = (uint8_t)chance();
        const zerotrie_status status = zerotrie_open_index(again, any_len, &at, &found);
        CHECK(status != ZEROTRIE_DONE || (any_len == whole && at == 36 && found == index_len && memcmp(again, file, whole) == 0));
        opened += status == ZEROTRIE_DONE;
    }
    CHECK(opened > 5000);
}
