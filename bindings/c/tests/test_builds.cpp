// Builds: from what they take keys and values, what they keep, and what they throw.
#include "test.hpp"

#include <array>
#include <iterator>
#include <memory_resource>
#include <sstream>
#include <sys/mman.h>

// Routes of a build, and values that are too large or too small.
void test_builds() {
    const Map map{{"foo", 1}, {"bar", 2}, {"bazzoo", 3}};
    const std::string bytes = zerotrie::build(Kind::SimpleAscii, map);
    CHECK(zerotrie::build(Kind::SimpleAscii, {{"foo", 1}, {"bazzoo", 3}, {"bar", 2}}) == bytes);
    CHECK(zerotrie::build_sorted(Kind::SimpleAscii, map) == bytes && zerotrie::encoded_len(Kind::SimpleAscii, map) == bytes.size());
    try {
        CHECK(zerotrie::build_sorted(Kind::SimpleAscii, {{"b", 1}, {"a", 2}}).empty());
        CHECK(false);
    } catch (const zerotrie::Error &error) {
        CHECK(error.status == ZEROTRIE_UNSORTED);
    }
    const int below_zero = -1;
    for (const bool listed : {false, true}) {
        try {
            const std::map<std::string, int> pairs{{"a", below_zero}};
            const std::string made = listed ? zerotrie::build(Kind::SimpleAscii, {{"a", below_zero}})
                                            : zerotrie::build(Kind::SimpleAscii, pairs);
            CHECK(made.empty());
            CHECK(false);
        } catch (const std::out_of_range &) {
        }
    }
    static_assert(!std::is_convertible_v<double, zerotrie::Pair>);
}

// A line of text, as an std::istream_iterator has it: the object is the iterator's own.
struct Row {
    std::string key;
    int value = 0;
};
static std::istream &operator>>(std::istream &in, Row &row) { return in >> row.key >> row.value; }
struct Rows {
    std::istream &in;
    std::istream_iterator<Row> begin() const { return std::istream_iterator<Row>(in); }
    std::istream_iterator<Row> end() const { return {}; }
};

// An element whose get() makes the key.
struct Made {
    int number = 0;
    template <size_t I> auto get() const {
        if constexpr (I == 0) return "a key that is longer than most, " + std::to_string(number);
        else return number;
    }
};
template <> struct std::tuple_size<Made> : std::integral_constant<size_t, 2> {};
template <> struct std::tuple_element<0, Made> { using type = std::string; };
template <> struct std::tuple_element<1, Made> { using type = int; };

// Keys that would be gone once they were read are copied.
void test_keys_that_go() {
    const std::string numbered = zerotrie::build(Kind::SimpleAscii, std::vector<Made>{{1}, {2}, {3}});
    CHECK(zerotrie::Trie(Kind::SimpleAscii, numbered).get("a key that is longer than most, 2") == 2);
    const std::string want = zerotrie::build(Kind::SimpleAscii, {{"a key that is longer than most", 1}, {"b", 2}, {"c", 3}});
    std::istringstream text("b 2 c 3");
    CHECK(zerotrie::build(Kind::SimpleAscii, Rows{text}) == zerotrie::build(Kind::SimpleAscii, {{"b", 2}, {"c", 3}}));
    CHECK(zerotrie::build(Kind::SimpleAscii, zerotrie::Trie(Kind::SimpleAscii, want).items()) == want);
#ifdef HAS_RANGES
    const auto made = std::views::iota(0, 3) | std::views::transform([](int n) {
        return std::pair(n == 0 ? "a key that is longer than most"s : std::string(1, static_cast<char>('a' + n)), n + 1);
    });
    CHECK(zerotrie::build(Kind::SimpleAscii, made) == want);
    const Map map{{"a key that is longer than most", 1}, {"b", 2}, {"c", 3}};
    CHECK(zerotrie::build(Kind::SimpleAscii, map | std::views::filter([](const auto &) { return true; })) == want);
    static_assert(std::ranges::random_access_range<const zerotrie::Items>);
    const auto items = zerotrie::Trie(Kind::SimpleAscii, want).items();
    CHECK(std::ranges::max_element(items, {}, [](auto pair) { return pair.second; }) == items.end() - 1);
#endif
}

// What makes the bytes of a trie, and what does not, since it would be gone or end at its first zero.
void test_bytes_that_stay() {
    using zerotrie::Trie;
    static_assert(std::is_constructible_v<Trie, Kind, const std::string &>);
    static_assert(std::is_constructible_v<Trie, Kind, std::string_view>);
    static_assert(std::is_constructible_v<Trie, Kind, const std::pmr::string &>);
    static_assert(std::is_constructible_v<Trie, Kind, std::vector<uint8_t> &>);
    static_assert(std::is_constructible_v<Trie, Kind, const std::vector<std::byte> &>);
    static_assert(std::is_constructible_v<Trie, Kind, const std::array<uint8_t, 2> &>);
    static_assert(std::is_constructible_v<Trie, Kind, const uint8_t (&)[2]>);
    static_assert(!std::is_constructible_v<Trie, Kind, std::string>);
    static_assert(!std::is_constructible_v<Trie, Kind, const std::string>);
    static_assert(!std::is_constructible_v<Trie, Kind, std::pmr::string>);
    static_assert(!std::is_constructible_v<Trie, Kind, std::vector<uint8_t>>);
    static_assert(!std::is_constructible_v<Trie, Kind, std::array<uint8_t, 2>>);
    static_assert(!std::is_constructible_v<Trie, Kind, const char *>);
    static_assert(!std::is_constructible_v<Trie, Kind, const char (&)[2]>);
    static_assert(!std::is_constructible_v<Trie, Kind, const std::vector<int> &>);
    static_assert(!std::is_constructible_v<zerotrie::DenseTable, std::string>);
    // what braces would make of them
    static_assert(!std::is_constructible_v<zerotrie::Bytes, std::string>);
    static_assert(!std::is_constructible_v<zerotrie::Bytes, const char *>);
    static_assert(!std::is_constructible_v<zerotrie::Bytes, std::vector<uint8_t>>);
#if __cplusplus >= 202002L
    static_assert(std::is_constructible_v<Trie, Kind, std::span<const uint8_t>>);
    static_assert(std::is_constructible_v<Trie, Kind, std::span<const std::byte>>);
    static_assert(!std::is_constructible_v<Trie, Kind, const char8_t (&)[2]>);
#endif
    // the key "a" with the value 16, whose bytes hold a zero, and tagged bytes, which begin with one
    static const uint8_t array[] = {'a', 0x90, 0x00};
    static constexpr Trie trie(Kind::SimpleAscii, "a\x90\x00"sv);
    static_assert(noexcept(trie.get("a"sv)) && trie == Trie(Kind::SimpleAscii, "a\x90\x00"sv));
    CHECK(trie.get("a") == 16 && trie == Trie(Kind::SimpleAscii, array) && trie == Trie(Kind::SimpleAscii, {array, sizeof array}));
    CHECK(trie != Trie(Kind::PerfectHash, array) && trie != Trie(Kind::SimpleAscii, {}));
    CHECK(zerotrie::Trie::from_tagged("\0a\x90\x00"sv) == trie);
    // a Trie can be a member that is set later
    Trie later;
    CHECK(later.items().empty() && !later.get("") && !later.longest_prefix("a"sv) && later.cursor().is_empty());
    later = trie;
    CHECK(later.get("a") == 16);
    CHECK(zerotrie::Cursor(Kind::SimpleAscii, {}).is_empty() && !zerotrie::Cursor(Kind::SimpleAscii, array).is_empty());
}

// Errors name the keys and the place.
void test_causes() {
    using Places = std::pair<size_t, size_t>;
    const auto twice = thrown([] { CHECK(zerotrie::build(Kind::SimpleAscii, {{"to", 1}, {"a", 2}, {"to", 3}}).empty()); });
    CHECK(twice.status == ZEROTRIE_DUPLICATE_KEY && twice.pairs == Places(0, 2) && !twice.fault);
    CHECK(twice.what() == "The same key was given twice: give each key once (pair 0, \"to\"; pair 2, \"to\")"s);
    const auto foreign = thrown([] { CHECK(zerotrie::build(Kind::SimpleAscii, {{"to", 1}, {"\xC3\xA9", 2}}).empty()); });
    CHECK(foreign.status == ZEROTRIE_NON_ASCII && foreign.pairs == Places(1, 1));
    CHECK(std::string(foreign.what()).find("(pair 1, \"\\xc3\\xa9\")") != std::string::npos);
    const auto mixed = thrown([] { CHECK(zerotrie::Map(Kind::IgnoreCase, zerotrie::PairList{{"To", 1}, {"a", 2}, {"tea", 3}}).empty()); });
    CHECK(mixed.status == ZEROTRIE_MIXED_CASE && mixed.pairs == Places(0, 2));
    const auto falls = thrown([] { CHECK(zerotrie::build_sorted(Kind::SimpleAscii, {{"a", 1}, {"c", 2}, {"b", 3}}).empty()); });
    CHECK(falls.status == ZEROTRIE_UNSORTED && falls.pairs == Places(1, 2));
    const auto len = thrown([] { CHECK(zerotrie::encoded_len(Kind::SimpleAscii, {{"b", 1}, {"b", 3}}) == 0); });
    CHECK(len.status == ZEROTRIE_UNSORTED && len.pairs == Places(0, 1));
    const auto kind = thrown([] { CHECK(zerotrie::build(static_cast<Kind>(5), {{"b", 1}}).empty()); });
    CHECK(kind.status == ZEROTRIE_UNKNOWN_KIND && !kind.pairs);
    const auto cut = thrown([] { CHECK(zerotrie::Map::from_bytes(Kind::SimpleAscii, "ab").empty()); });
    CHECK(cut.fault && cut.fault->cause == ZEROTRIE_FAULT_UNEXPECTED_END && cut.fault->place == 2);
    CHECK(cut.what() == "the bytes end where a key has to go on, at byte 2"s);
    const auto bad = thrown([] { CHECK(zerotrie::Trie::valid(Kind::SimpleAscii, "a\x81\x82"sv).empty()); });
    CHECK(bad.fault && bad.fault->place == 2);
    CHECK(thrown([] { CHECK(zerotrie::Map::from_tagged("\1").empty()); }).status == ZEROTRIE_INVALID_TAG);
    CHECK(thrown([] { CHECK(zerotrie::Map::from_tagged({}).empty()); }).status == ZEROTRIE_NO_TAG);
    CHECK(thrown([] { CHECK(zerotrie::Trie::valid(static_cast<Kind>(5), {}).empty()); }).status == ZEROTRIE_UNKNOWN_KIND);
    static_assert(zerotrie::version == 1000000 * zerotrie::version_major + 1000 * zerotrie::version_minor + zerotrie::version_patch);
    CHECK(zerotrie::library_version() == zerotrie::version);
}

// A build keeps no more room than its bytes take, and takes little if its keys lie in one another.
void test_rooms() {
    Map map;
    for (size_t n = 0; n < 1000; n++) map[std::string(100, 'x') + std::to_string(n)] = n;
    const std::string bytes = zerotrie::build(Kind::SimpleAscii, map);
    CHECK(bytes.size() < 10000 && bytes.capacity() < 2 * bytes.size());
    // 64 keys of a terabyte in one, where a room for all of them can't be had
    const size_t len = size_t{1} << 40;
    void *const zeros = mmap(nullptr, len, PROT_READ, MAP_PRIVATE | MAP_ANONYMOUS | MAP_NORESERVE, -1, 0);
    CHECK(zeros != MAP_FAILED);
    std::vector<std::pair<std::string_view, size_t>> pairs(66, {{static_cast<const char *>(zeros), len}, 0});
    pairs[0].first = "b", pairs[1].first = "a";
    try {
        CHECK(zerotrie::build_sorted(Kind::SimpleAscii, pairs).empty());
        CHECK(false);
    } catch (const zerotrie::Error &error) {
        CHECK(error.status == ZEROTRIE_UNSORTED);
    }
    CHECK(munmap(zeros, len) == 0);
}
