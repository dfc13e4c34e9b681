/* Bytes and numbers of every sort: what is told is within the rooms, and no read leaves the bytes. */
#define _DEFAULT_SOURCE
#include "test.h"
#include <sys/mman.h>
#include <unistd.h>

/* Bytes of every sort: what is told of a listing and of many keys is within its rooms, and the rest stays. */
void test_any_bytes(void) {
    static const uint32_t kinds[4] = { ZEROTRIE_SIMPLE_ASCII, ZEROTRIE_PERFECT_HASH, ZEROTRIE_EXTENDED_CAPACITY, ZEROTRIE_IGNORE_CASE };
    size_t listed = 0, searched = 0, in_order = 0, malformed = 0;
    for (size_t turn = 0; turn < 200000; turn++) {
        uint8_t bytes[24], keys[32], prefix[1];
        size_t ends[9], values[9], count = 99, key_bytes = 99, next_len = 99;
        const size_t len = chance() % 24, keys_len = chance() % 33, ends_len = chance() % 9, values_len = chance() % 9;
        const size_t prefix_len = chance() % 4 == 0;
        const uint32_t kind = kinds[chance() % 4];
        for (size_t n = 0; n < len; n++)
            bytes[n] = (uint8_t)(chance() % 3 == 0 ? 0x80 + chance() % 5 : chance());
        prefix[0] = (uint8_t)chance();
        memset(keys, 0xEE, sizeof keys), memset(ends, 0xEE, sizeof ends), memset(values, 0xEE, sizeof values);
        const uint32_t status = zerotrie_list(kind, bytes, len, prefix, prefix_len, keys, keys_len, ends, ends_len, values, values_len,
                                              &key_bytes, &count);
        const bool done = status == ZEROTRIE_DONE;
        CHECK(done || status == ZEROTRIE_BUFFER_TOO_SMALL);
        CHECK(done == (key_bytes <= keys_len && count <= ends_len && count <= values_len));
        CHECK(!done || (ascend(ends, count, keys_len) && key_bytes == (count ? ends[count - 1] : 0)));
        CHECK(is_left(keys, done ? key_bytes : keys_len, sizeof keys));
        CHECK(is_left(ends, sizeof *ends * (done ? count : ends_len), sizeof ends));
        CHECK(is_left(values, sizeof *values * (done ? count : values_len), sizeof values));

        memset(keys, 0xEE, sizeof keys), memset(ends, 0xEE, sizeof ends), memset(values, 0xEE, sizeof values);
        const uint32_t some = zerotrie_list_some(kind, bytes, len, prefix, prefix_len, chance() % 2, prefix, prefix_len, keys,
                                                 keys_len, ends, ends_len, values, values_len, &count, &next_len);
        CHECK(some == ZEROTRIE_DONE || some == ZEROTRIE_BUFFER_TOO_SMALL);
        CHECK(count <= ends_len && count <= values_len && ascend(ends, count, keys_len));
        CHECK(some == ZEROTRIE_BUFFER_TOO_SMALL || next_len == 0);
        CHECK(is_left(keys, count ? ends[count - 1] : 0, sizeof keys));
        CHECK(is_left(ends, sizeof *ends * count, sizeof ends) && is_left(values, sizeof *values * count, sizeof values));
        listed += count;

        const uint8_t sought[4] = { prefix[0], '*', (uint8_t)chance(), '?' };
        zerotrie_search search = zerotrie_search_for((zerotrie_search_by)(chance() % 7), sought, chance() % 5);
        search.edits = (uint32_t)(chance() % 8), search.beginnings = chance() % 2;
        memset(keys, 0xEE, sizeof keys), memset(ends, 0xEE, sizeof ends), memset(values, 0xEE, sizeof values);
        count = next_len = 99;
        const uint32_t part = zerotrie_search_some(kind, bytes, len, prefix, prefix_len, &search, chance() % 2, prefix, prefix_len,
                                                   keys, keys_len, ends, ends_len, values, values_len, &count, &next_len);
        const bool refused = part == ZEROTRIE_MALFORMED_SEARCH;
        CHECK(part == ZEROTRIE_DONE || part == ZEROTRIE_BUFFER_TOO_SMALL || (refused && count == 99 && next_len == 99));
        count = refused ? 0 : count;
        CHECK(count <= ends_len && count <= values_len && ascend(ends, count, keys_len));
        CHECK(is_left(keys, count ? ends[count - 1] : 0, sizeof keys));
        CHECK(is_left(ends, sizeof *ends * count, sizeof ends) && is_left(values, sizeof *values * count, sizeof values));
        /* each begins with the prefix and is found, whatever the bytes are */
        for (size_t i = 0; i < count && kind != ZEROTRIE_IGNORE_CASE; i++) {
            const size_t from = i ? ends[i - 1] : 0;
            CHECK(prefix_len == 0 || (ends[i] > from && keys[from] == prefix[0]));
            CHECK(search.by != ZEROTRIE_BY_SUBSEQUENCE || is_sought(&search, keys + from, ends[i] - from));
        }
        searched += count;

        size_t far[8];
        memset(keys, 0xEE, sizeof keys), memset(ends, 0xEE, sizeof ends), memset(values, 0xEE, sizeof values);
        count = next_len = 99;
        const uint32_t near = zerotrie_nearest(kind, bytes, len, (zerotrie_search_by)(3 + chance() % 4), sought, chance() % 5,
                                               (uint32_t)(chance() % 4), keys, keys_len, ends, ends_len, values, values_len, far, 8,
                                               &count, &next_len);
        CHECK(near == ZEROTRIE_DONE || near == ZEROTRIE_BUFFER_TOO_SMALL || (near == ZEROTRIE_MALFORMED_SEARCH && count == 99));
        count = near == ZEROTRIE_MALFORMED_SEARCH ? 0 : count;
        CHECK(count <= ends_len && count <= values_len && count <= 8 && ascend(ends, count, keys_len));
        CHECK(is_left(keys, count ? ends[count - 1] : 0, sizeof keys));
        for (size_t i = 0; i < count; i++) CHECK(far[i] < 4 && (i == 0 || far[i - 1] <= far[i]));

        memset(keys, 0xEE, sizeof keys), memset(ends, 0xEE, sizeof ends), memset(values, 0xEE, sizeof values);
        count = next_len = 99;
        const uint32_t sorted = zerotrie_sorted_some(kind, bytes, len, (zerotrie_bound)(chance() % 3), sought, chance() % 3,
                                                     (zerotrie_bound)(chance() % 3), prefix, 1, keys, keys_len, ends, ends_len, values,
                                                     values_len, &count, &next_len);
        CHECK(sorted == ZEROTRIE_DONE || sorted == ZEROTRIE_BUFFER_TOO_SMALL);
        CHECK(count <= ends_len && count <= values_len && ascend(ends, count, keys_len));
        CHECK(sorted == ZEROTRIE_BUFFER_TOO_SMALL || next_len == 0);
        CHECK(is_left(keys, count ? ends[count - 1] : 0, sizeof keys));
        CHECK(is_left(ends, sizeof *ends * count, sizeof ends) && is_left(values, sizeof *values * count, sizeof values));
        in_order += count;

        memset(keys, 0xEE, sizeof keys);
        size_t key_len = 99, key_value = 99;
        const uint32_t last = zerotrie_last_within(kind, bytes, len, (zerotrie_bound)(chance() % 3), sought, chance() % 3,
                                                   (zerotrie_bound)(chance() % 3), prefix, 1, keys, keys_len, &key_len, &key_value);
        CHECK(last == ZEROTRIE_DONE || last == ZEROTRIE_BUFFER_TOO_SMALL || (last == ZEROTRIE_NO_ENTRY && key_len == 99 && key_value == 99));
        CHECK(is_left(keys, last == ZEROTRIE_DONE ? key_len : 0, sizeof keys) && (last != ZEROTRIE_DONE || key_len <= keys_len));
        memset(keys, 0xEE, sizeof keys);
        key_len = 99;
        const uint32_t first = zerotrie_first_key_of(kind, bytes, len, chance() % 20, keys, keys_len, &key_len);
        CHECK(first == ZEROTRIE_DONE || first == ZEROTRIE_BUFFER_TOO_SMALL || (first == ZEROTRIE_NO_ENTRY && key_len == 99));
        CHECK(is_left(keys, first == ZEROTRIE_DONE ? key_len : 0, sizeof keys) && (first != ZEROTRIE_DONE || key_len <= keys_len));

        memset(ends, 0xEE, sizeof ends), memset(values, 0xEE, sizeof values);
        const size_t fronts = zerotrie_common_prefixes(kind, bytes, len, keys, keys_len, ends, ends_len, values, values_len);
        CHECK(fronts <= keys_len + 1 && is_left(ends, sizeof *ends * (fronts < ends_len ? fronts : ends_len), sizeof ends));
        CHECK(is_left(values, sizeof *values * (fronts < values_len ? fronts : values_len), sizeof values));
        for (size_t n = 0; n < fronts && n < ends_len; n++)
            CHECK(ends[n] <= keys_len);
        size_t prefix_end = 99, prefix_value = 99, fault_at = 99;
        const bool at_border = zerotrie_longest_prefix_at(kind, bytes, len, keys, keys_len, prefix, 1, &prefix_end, &prefix_value);
        CHECK(at_border ? prefix_end <= keys_len : prefix_end == 99 && prefix_value == 99);
        const uint32_t fault = zerotrie_first_fault(kind, bytes, len, &fault_at);
        CHECK(fault <= 10 && (fault == 0) == zerotrie_is_well_formed(kind, bytes, len) && (fault ? fault_at <= len : fault_at == 99));

        for (size_t n = 0; n < ends_len; n++)
            ends[n] = chance() % 40;
        memset(values, 0xEE, sizeof values);
        CHECK(zerotrie_get_many(kind, bytes, len, keys, keys_len, ends, ends_len, 7, values, values_len) == ZEROTRIE_DONE);
        CHECK(is_left(values, sizeof *values * (ends_len < values_len ? ends_len : values_len), sizeof values));
        malformed += !zerotrie_is_well_formed(kind, bytes, len);
    }
    CHECK(listed > 10000 && searched > 10000 && in_order > 10000 && malformed > 10000);
}

/* Whether the numbers of a cursor are within the bytes. */
static bool is_within(zerotrie_cursor at, size_t len) {
    return at.run <= at.trie && at.trie <= at.end && at.end <= len;
}

/* A number that is now and then beyond all bytes. */
static size_t any_number(void) {
    return chance() % 8 ? chance() % 40 : SIZE_MAX - chance() % 40;
}

/* Cursors that were made up, and those of other bytes, over bytes of every sort: what is told is within the bytes. No read leaves
 * them, as they begin or end where a page does, and the page before it and the one after it can't be read. */
void test_forged_cursors(void) {
    static const uint32_t kinds[5] = { ZEROTRIE_SIMPLE_ASCII, ZEROTRIE_PERFECT_HASH, ZEROTRIE_EXTENDED_CAPACITY, ZEROTRIE_IGNORE_CASE, 4 };
    const size_t page = (size_t)sysconf(_SC_PAGESIZE);
    uint8_t *const pages = mmap(NULL, 3 * page, PROT_NONE, MAP_PRIVATE | MAP_ANONYMOUS, -1, 0), *const room = pages + page;
    CHECK(pages != MAP_FAILED && mprotect(room, page, PROT_READ | PROT_WRITE) == 0);
    zerotrie_cursor at = { 0, 0, 0 };
    size_t steps = 0, probes = 0, taken = 0;
    for (size_t turn = 0; turn < 500000; turn++) {
        const size_t len = chance() % 33;
        const uint32_t kind = kinds[chance() % 5];
        uint8_t *const bytes = turn % 2 ? room : room + page - len, edge = 77;
        uint16_t siblings = 77;
        size_t value = 77;
        for (size_t n = 0; n < len; n++)
            bytes[n] = (uint8_t)(chance() % 2 ? chance() : 0x80 + chance() % 80);
        /* the one of the turn before is of other bytes */
        switch (chance() % 4) {
        case 0:
            memset(&at, (int)chance(), sizeof at);
            break;
        case 1:
            at.run = any_number(), at.trie = any_number(), at.end = any_number();
            break;
        case 2:
            at.end = chance() % (len + 2), at.trie = chance() % (at.end + 1);
            at.run = chance() % 2 ? at.trie : chance() % (at.trie + 1);
        }
        for (size_t more = chance() % 4; more > 0; more--) {
            const zerotrie_cursor before = at;
            const uint8_t byte = len ? bytes[chance() % len] : 0;
            switch (chance() % 3) {
            case 0:
                if (zerotrie_cursor_step(kind, bytes, len, &at, byte, &edge))
                    steps++;
                CHECK(is_within(at, len));
                break;
            case 1:
                if (zerotrie_cursor_probe(kind, bytes, len, &at, chance() % 3, &edge, &siblings))
                    probes++;
                CHECK(is_within(at, len));
                break;
            default:
                if (zerotrie_cursor_take_value(bytes, len, &at, &value)) {
                    taken++;
                    CHECK(is_within(at, len));
                } else {
                    CHECK(at.run == before.run && at.trie == before.trie && at.end == before.end && value == 77);
                }
                value = 77;
            }
            const zerotrie_bytes run = zerotrie_cursor_run(bytes, len, at), trie = zerotrie_cursor_trie(bytes, len, at);
            CHECK(run.len <= len && trie.len <= len && run.ptr + run.len <= bytes + len && trie.ptr + trie.len <= bytes + len);
        }
        CHECK(is_within(zerotrie_with_prefix(kind, bytes, len, bytes, len % 3), len));
        CHECK(is_within(zerotrie_cursor_new(bytes, len), len));
    }
    CHECK(steps > 1000 && probes > 1000 && taken > 1000 && munmap(pages, 3 * page) == 0);
}
