/* What the tests of the library in C share. */
#ifndef TEST_H
#define TEST_H

#include "zerotrie.h"
#include <stdio.h>
#include <stdlib.h>
#include <string.h>

#define CHECK(what) do { if (!(what)) { fprintf(stderr, "%s:%d: %s\n", __FILE__, __LINE__, #what); exit(1); } } while (0)
#define TEXT(literal) (const uint8_t *)(literal), sizeof(literal) - 1

/* Each test, in its order: test_NAME of a file test_*.c */
#define TESTS(X) \
    X(builds) X(refusals) X(spans) X(readers) X(listings) X(causes) X(prefixes) X(flat_builds) X(nulls) \
    X(one_value) X(files) X(searches) X(refused_searches) X(searches_in_order) X(combinations) X(sorted_listings) X(single_keys) \
    X(diffs) X(nearest) X(any_case_searches) X(reversed_listings) X(reverse) X(indexes) X(files_of_indexes) \
    X(dense) X(any_bytes) X(forged_cursors) X(whatever_was_there) X(memory_comes_back)
#define DECLARED(name) void test_##name(void);
TESTS(DECLARED)
#undef DECLARED

bool get(uint32_t kind, zerotrie_bytes trie, const char *key, size_t *value);
/* in 3, into 4. */
extern const uint8_t letters[6];
/* The next of a row of numbers that look like chance, which each test begins anew. */
uint64_t chance(void);
/* Whether the ends do not fall, and none is beyond the room for keys. */
bool ascend(const size_t *ends, size_t count, size_t keys_len);
/* Whether all bytes from this place on are still as they were made. */
bool is_left(const void *room, size_t from, size_t len);
/* The checksum of sealed files, bit by bit. */
uint32_t crc32c(const uint8_t *bytes, size_t len, uint32_t before);
/* Whether a search is to find a key, by other means. */
bool is_sought(const zerotrie_search *search, const uint8_t *key, size_t len);
/* A text of a few letters. */
size_t some_letters(uint8_t *text, size_t most);
/* A trie of those keys from 00 to 99 that are chosen, and their values. */
zerotrie_trie some_of(zerotrie_kind kind, uint64_t chosen, size_t from, size_t values[100], uint8_t *out, size_t room);

#endif
