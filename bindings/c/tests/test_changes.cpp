// Unions and the like, what changed from one map to another, and the nearest keys.
#include "test.hpp"

#include <algorithm>
#include <tuple>

// Unions and the like, of maps and of views, of any kinds.
void test_combinations() {
    using zerotrie::Rule;
    using Owned = zerotrie::Map;
    using Places = std::pair<size_t, size_t>;
    const Owned map{{"foo", 1}, {"bar", 2}, {"bazzoo", 3}};
    const Owned more(Kind::PerfectHash, {{"bar", 5}, {"to", 6}});
    CHECK(Owned::union_of(Kind::SimpleAscii, std::vector<Owned>{map, more}).items().size() == 4);
    const Owned sums = Owned::union_of(Kind::PerfectHash, {map.trie(), more.trie()}, Rule::Sum);
    CHECK(sums.size() == 4 && sums.kind() == Kind::PerfectHash && sums.get("bar") == 7 && sums.get("to") == 6);
    CHECK(Owned::intersection_of(Kind::SimpleAscii, {map.trie(), more.trie()}).get("bar") == 2);
    CHECK(Owned::intersection_of(Kind::SimpleAscii, {map.trie(), more.trie()}, Rule::Max).get("bar") == 5);
    CHECK(Owned::difference_of(Kind::SimpleAscii, {map.trie(), more.trie()}).size() == 2);
    CHECK(Owned::symmetric_difference_of(Kind::SimpleAscii, {map.trie(), more.trie()}).size() == 3);
    CHECK(Owned::union_of(Kind::SimpleAscii, std::vector<zerotrie::Trie>()).empty());
    try {
        CHECK(Owned::union_of(Kind::SimpleAscii, {map.trie(), more.trie()}, Rule::Refuse).empty());
    } catch (const zerotrie::Error &error) {
        CHECK(error.status == ZEROTRIE_DUPLICATE_KEY && error.pairs == Places(0, 1));
        CHECK(std::string(error.what()).find("(tries 0 and 1 have \"bar\")") != std::string::npos);
    }
    // values that have to be equal: the first trie, and the first one that has another value
    const Owned same{{"bar", 2}, {"to", 6}};
    CHECK(Owned::union_of(Kind::SimpleAscii, {map.trie(), same.trie()}, Rule::Equal).size() == 4);
    CHECK(Owned::intersection_of(Kind::SimpleAscii, {map.trie(), same.trie()}, Rule::Equal).size() == 1);
    try {
        CHECK(Owned::union_of(Kind::SimpleAscii, {same.trie(), map.trie(), more.trie()}, Rule::Equal).empty());
        CHECK(false);
    } catch (const zerotrie::Error &error) {
        CHECK(error.status == ZEROTRIE_DUPLICATE_KEY && error.pairs == Places(0, 2));
        CHECK(std::string(error.what()).find("(tries 0 and 2 have other values of \"bar\")") != std::string::npos);
    }
    // the first key that is an error, and not one that is not taken
    const Owned high{{"bar", SIZE_MAX}, {"to", SIZE_MAX}, {"zoo", 1}};
    try {
        CHECK(Owned::intersection_of(Kind::PerfectHash, std::vector<Owned>{Owned{{"to", 0}, {"zoo", 2}}, more}, Rule::Refuse).empty());
        CHECK(false);
    } catch (const zerotrie::Error &error) {
        CHECK(error.pairs == Places(0, 1) && std::string(error.what()).find("have \"to\")") != std::string::npos);
    }
    for (const auto &[tries, places] : std::vector<std::pair<std::vector<Owned>, Places>>{
             {{map, more, high}, {0, 1}}, {{more, high, map}, {0, 1}}, {{high, {{"zoo", 3}}, {{"to", 2}}}, {0, 2}}}) {
        try {
            CHECK(Owned::union_of(Kind::PerfectHash, tries, Rule::Sum).empty());
            CHECK(false);
        } catch (const zerotrie::Error &error) {
            CHECK(error.status == ZEROTRIE_SUM_TOO_LARGE && error.pairs == places);
        }
    }
    try {
        CHECK(Owned::union_of(Kind::SimpleAscii, {zerotrie::Trie(Kind::SimpleAscii, "into"sv)}).empty());
    } catch (const zerotrie::Error &error) {
        CHECK(error.status == ZEROTRIE_MALFORMED_TRIE);
    }
}

// What changed from one map to another, listings from the last pair on, and the first key of each value.
void test_changes() {
    for (const size_t most : {0, 1, 20, 4000}) {
        Map first, second;
        for (size_t n = 0; n < most; n++) first[key_of(true, 3)] = below(9), second[key_of(true, 3)] = below(9);
        const zerotrie::Map old(Kind::PerfectHash, first), fresh(Kind::SimpleAscii, second);
        Map keys = first;
        keys.insert(second.begin(), second.end());
        std::vector<std::tuple<std::string, std::optional<size_t>, std::optional<size_t>>> wanted, found;
        for (const auto &[key, value] : keys)
            if (old.get(key) != fresh.get(key)) wanted.emplace_back(key, old.get(key), fresh.get(key));
        for (const auto [key, before, after] : zerotrie::diff(old.trie(), fresh.trie())) found.emplace_back(key, before, after);
        CHECK(found == wanted);
        // what lasts: keys that outlive the iterator
        const zerotrie::Trie old_trie = old.trie(), fresh_trie = fresh.trie();
        const zerotrie::Diff all(old_trie, fresh_trie);
        const std::vector kept(all.begin(), all.end());
        CHECK(std::equal(kept.begin(), kept.end(), wanted.begin(), wanted.end(), [](const auto &one, const auto &row) {
            return std::tie(one.key, one.before, one.after) == row;
        }));
        found.clear();
        const zerotrie::Diff part(old.trie(), fresh.trie(), "b", "m");
        for (auto it = part.begin(); it != part.end(); ++it) found.emplace_back(it->key, it->before, it->after);
        wanted.erase(std::remove_if(wanted.begin(), wanted.end(), [](const auto &it) { return std::get<0>(it) < "b" || std::get<0>(it) >= "m"; }),
                     wanted.end());
        CHECK(found == wanted);
        auto back = first.rbegin();
        for (const auto [key, value] : old.reversed()) {
            CHECK(back->first == key && back->second == value);
            ++back;
        }
        CHECK(back == first.rend());
        std::vector<std::string> down;
        for (const auto [key, value] : fresh.reversed("b", "m")) down.emplace_back(key);
        std::vector<std::string> up;
        for (const auto [key, value] : fresh.range("b", "m")) up.emplace_back(key);
        CHECK(std::equal(down.begin(), down.end(), up.rbegin(), up.rend()));
        const zerotrie::Trie trie = old.trie();
        const zerotrie::Reverse names(trie), again(trie, names.places());
        CHECK(names.places().size() == first.size() && !names.contains(10));
        for (size_t value = 0; value < 10; value++) {
            CHECK(names.get(value) == trie.first_key_of(value) && again.get(value) == names.get(value));
        }
    }
    const zerotrie::Map words{{"trial", 1}, {"trie", 2}, {"tries", 3}, {"tire", 4}};
    const auto near = words.nearest("trie");
    CHECK(near.size() == 4 && near[0].key == "trie" && near[0].distance == 0 && near[1].key == "tire" && near[1].value == 4);
    CHECK(near[2].key == "tries" && near[2].distance == 1 && near[3].distance == 2 && words.nearest("trie", 2, 1).size() == 1);
    CHECK(words.nearest("x").empty() && words.nearest("trie", 7, SIZE_MAX).size() == 4);
    std::string swapped;
    for (const auto [key, value] : words.search(zerotrie::Search::swaps("tire"))) swapped += key;
    for (const auto [key, value] : words.search(zerotrie::Search::swaps_chars("tire"))) swapped += key;
    CHECK(swapped == "tiretrietiretrie");
    CHECK(thrown([&] { (void)words.nearest("trie", 8); }).status == ZEROTRIE_TOO_MANY_EDITS);
    const zerotrie::Map names(Kind::IgnoreCase, zerotrie::PairList{{"Content-Type", 1}, {"ETag", 2}});
    std::string found;
    for (const auto &what : {zerotrie::Search::glob("content-*"), zerotrie::Search::range("c", "d"), zerotrie::Search::glob("[A-_]tag"),
                             zerotrie::Search::glob_chars("?tAG"), zerotrie::Search::fuzzy("etag", 0),
                             zerotrie::Search::range("D", std::nullopt)})
        for (const auto [key, value] : names.search(what)) found += key;
    CHECK(found == "Content-TypeContent-TypeETagETagETagETag");
    const zerotrie::Map places{{"caf\xC3\xA9", 1}, {"cafe", 2}, {"caf\xC3", 3}};
    const auto sum_of = [&](const zerotrie::Search &what) {
        size_t sum = 0;
        for (const auto [key, value] : places.search(what)) sum += value;
        return sum;
    };
    CHECK(sum_of(zerotrie::Search::glob_chars("caf?")) == 3 && sum_of(zerotrie::Search::glob("caf?")) == 5);
    CHECK(sum_of(zerotrie::Search::glob_chars("caf[!e]*")) == 1 && sum_of(zerotrie::Search::glob("caf[!e]*")) == 4);
    CHECK(sum_of(zerotrie::Search::glob_chars("caf?").beginnings()) == 3 && sum_of(zerotrie::Search::glob("?").beginnings()) == 6);
    CHECK(sum_of(zerotrie::Search::glob_chars("*").within("caf\xC3")) == 1);
    CHECK(thrown([] { (void)zerotrie::Search::glob_chars("caf\xC3"); }).status == ZEROTRIE_MALFORMED_SEARCH);
    CHECK(thrown([] { (void)zerotrie::Search::glob_chars("[\xC3\xA9"); }).status == ZEROTRIE_MALFORMED_SEARCH);
    CHECK(names.nearest("etga", 1).size() == 1 && names.nearest("etga", 1)[0].key == "ETag" && names.nearest("etga", 1)[0].distance == 1);
    const zerotrie::Trie bad(Kind::SimpleAscii, "into"sv);
    CHECK(thrown([&] { (void)zerotrie::diff(bad, bad).begin(); }).status == ZEROTRIE_MALFORMED_TRIE);
    CHECK(zerotrie::Reverse(bad).places().empty());
}
