// Runs the tests in C++: those whose names have the third argument in them, or all. The first says how many calls are compared with a
// std::map, and the second how many rounds of searches with a scan.
#include "test.hpp"

#include <cstring>

Amounts amounts;
static std::mt19937_64 random_number;

size_t below(size_t n) { return random_number() % n; }
size_t random_value() { return random_number() >> below(64); }

std::string key_of(bool ascii, size_t letters) {
    std::string key;
    for (size_t left = below(7); left > 0; left--) key += static_cast<char>((ascii ? 'a' : 0xA0) + below(letters));
    return key;
}

// The longest key that the text begins with.
static Map::const_iterator longest(const Map &map, std::string text) {
    for (;; text.pop_back()) {
        const auto found = map.find(text);
        if (found != map.end() || text.empty()) return found;
    }
}

// All keys that the text begins with.
static std::vector<zerotrie::Entry> fronts(const Map &map, std::string_view text) {
    std::vector<zerotrie::Entry> found;
    for (size_t len = 0; len <= text.size(); len++) {
        const auto it = map.find(std::string(text.substr(0, len)));
        if (it != map.end()) found.emplace_back(text.substr(0, len), it->second);
    }
    return found;
}

static void one(zerotrie::Trie trie, const Map &map, const std::string &key) {
    const auto found = map.find(key);
    CHECK(trie.get(key) == (found == map.end() ? std::nullopt : std::optional(found->second)));
    const auto front = trie.longest_prefix(key);
    const auto best = longest(map, key);
    CHECK(front.has_value() == (best != map.end()));
    CHECK(!front || (front->first == best->first && front->second == best->second));
    const auto all = fronts(map, key);
    CHECK(trie.common_prefixes(key) == all);
    const std::string_view delimiters = key.empty() ? "" : std::string_view(key).substr(below(key.size()), 1);
    std::optional<zerotrie::Entry> at_border;
    for (const auto &[text, value] : all) {
        const bool ends = text.empty() || text.size() == key.size() || delimiters.find(key[text.size()]) != std::string_view::npos;
        if (ends) at_border.emplace(text, value);
    }
    CHECK(trie.longest_prefix_at(key, delimiters) == at_border);
    const auto after = map.lower_bound(key);
    const bool some = after != map.end() && after->first.compare(0, key.size(), key) == 0;
    auto cursor = trie.with_prefix(key);
    CHECK(cursor.has_value() == some);
    CHECK(!cursor || cursor->take_value() == trie.get(key));
}

void test_against_a_map() {
    for (size_t done = 0; done < amounts.calls;) {
        const Kind kind = kinds[below(4)];
        const bool ascii = kind == Kind::SimpleAscii || kind == Kind::IgnoreCase || below(2) == 0;
        const size_t letters = 1 + below(ascii ? 26 : 64);
        Map map;
        for (size_t left = below(300); left > 0; left--) map[key_of(ascii, letters)] = random_value();
        const std::string bytes = zerotrie::build(kind, map);
        const auto trie = zerotrie::Trie::checked(kind, bytes);
        CHECK(trie.has_value());
        Map listed;
        for (const auto [key, value] : trie->items()) listed.emplace(key, value);
        CHECK(listed == map);
        CHECK(trie->size() == map.size() && trie->empty() == map.empty());
        const std::string prefix = key_of(ascii, letters).substr(0, below(3));
        const auto items = trie->items(prefix);
        size_t count = 0;
        for (const auto [key, value] : trie->stream(prefix)) CHECK(items[count++] == zerotrie::Entry(key, value));
        CHECK(count == items.size());
        CHECK(!trie->first_fault());
        const zerotrie::Map owner(kind, map);
        CHECK(owner.bytes() == bytes && owner.size() == map.size() && zerotrie::Map::from_tagged(owner.tagged()) == owner);
        std::vector<std::string> keys;
        std::vector<size_t> want;
        for (size_t n = 0; n < 200; n++, done += 3) {
            const std::string key = key_of(ascii, letters);
            one(*trie, map, key);
            keys.push_back(key);
            want.push_back(trie->get(key).value_or(12345));
        }
        CHECK(trie->get_many(keys, 12345) == want);
        const std::string index_bytes = zerotrie::build_index(map);
        const auto index = zerotrie::Index::checked(index_bytes);
        for (size_t n = 0; n < keys.size(); n++) want[n] = index->get(keys[n]).value_or(12345);
        CHECK(index->get_many(keys, 12345) == want);
        done++;
    }
}

// A view, its listings, and bytes that are no trie.
void test_view() {
    const Map map{{"foo", 1}, {"bar", 2}, {"bazzoo", 3}};
    const std::string bytes = zerotrie::build(Kind::SimpleAscii, map);
    const auto trie = zerotrie::Trie::checked(Kind::SimpleAscii, bytes);
    CHECK(trie && bytes.size() == 17 && trie->get("bar") == 2 && !trie->contains("ba"));
    CHECK(!zerotrie::Trie::checked(Kind::SimpleAscii, "into"sv));
    CHECK(zerotrie::auto_kind(map) == Kind::SimpleAscii);
    const std::string tagged = zerotrie::tagged(Kind::SimpleAscii, bytes);
    CHECK(tagged.size() == 18 && zerotrie::Trie::from_tagged(tagged)->get("foo") == 1 && !zerotrie::Trie::from_tagged("\5"sv));
    const auto items = trie->items("ba");
    CHECK(items.size() == 2 && (*items.begin()).first == "bar" && items.begin()->second == 2 && items[1].second == 3);
    CHECK(items.begin()[1].first == "bazzoo" && items.end() - items.begin() == 2 && (items.end() - 1)->second == 3);
    std::string listed;
    trie->for_each([&](std::string_view key, size_t value) { listed += std::string(key) + std::to_string(value); }, "ba");
    CHECK(listed == "bar2bazzoo3");
    // an object that is called keeps what it counts: it is no copy of it that is called
    struct Counter {
        size_t pairs = 0;
        void operator()(std::string_view, size_t) { pairs++; }
    } counter;
    trie->for_each(counter);
    CHECK(counter.pairs == 3);
    CHECK(zerotrie::build(Kind::SimpleAscii, items) == zerotrie::build(Kind::SimpleAscii, Map{{"bar", 2}, {"bazzoo", 3}}));
    // bytes that are no trie, of which each byte is a value of the empty key: their listing ends
    const std::string hostile(300000, '\x81');
    CHECK(!zerotrie::Trie(Kind::SimpleAscii, hostile).items().empty());
    // nor two edges of one byte, so that the parts of a listing come round: it ends after about as many pairs as there are bytes
    Map twice;
    for (size_t n = 0; n < 6000; n++) twice[(n < 3000 ? "a" : "b") + std::string(110, 'x') + std::to_string(10000 + n % 3000)] = 1;
    std::string round = zerotrie::build(Kind::SimpleAscii, twice);
    round[round.find("ab") + 1] = 'a';
    size_t listed_pairs = 0;
    zerotrie::Trie(Kind::SimpleAscii, round).for_each([&](std::string_view, size_t) { listed_pairs++; });
    CHECK(!zerotrie::Trie::checked(Kind::SimpleAscii, round) && listed_pairs > 0 && listed_pairs < 10 * round.size());
    CHECK(zerotrie::Trie(Kind::SimpleAscii, {}).items().empty());
    CHECK((trie->get_many({"bar", "ba", ""}, 0) == std::vector<size_t>{2, 0, 0}));
    CHECK(trie->get_many(std::vector<std::string>{}, 0).empty());
    const std::string index_bytes = zerotrie::build_index(map);
    CHECK((zerotrie::Index(index_bytes).get_many({"bar", "ba", ""}, 0) == std::vector<size_t>{2, 0, 0}));
    try {
        CHECK(zerotrie::build(Kind::SimpleAscii, std::vector<std::pair<const char *, int>>{{"a", 1}, {"a", 2}}).empty());
        CHECK(false);
    } catch (const zerotrie::Error &error) {
        CHECK(error.status == ZEROTRIE_DUPLICATE_KEY);
    }
    // a cursor inside a span, the key C3 A9 with 5
    const std::string span = "\xA2\xC3\xA9\x85";
    auto inside = zerotrie::Trie(Kind::PerfectHash, span).with_prefix("\xC3");
    CHECK(inside && inside->run() == "\xA9" && !inside->take_value() && inside->step(0xA9) == 0xA9 && inside->run().empty());
    CHECK(inside->take_value() == 5 && inside->is_empty() && !inside->probe(0) && inside->run().empty());
}

// Whether longest_prefix takes a string that ends with the statement, into which it would hand out a view.
template <class T, class = void> struct takes_passing_text : std::false_type {};
template <class T>
struct takes_passing_text<T, std::void_t<decltype(std::declval<const T &>().longest_prefix(std::declval<std::string>()))>> : std::true_type {};

void test_dense() {
    const std::map<std::string, Map> rows{{"de", {{"AT", 8}, {"CH", 9}}}, {"en", {{"US", 5}}}};
    const std::string record = zerotrie::build_dense(rows, '/');
    const zerotrie::DenseTable table(record);
    CHECK(table.get("de", "CH") == 9 && table.get("en", "US") == 5 && !table.get("en", "AT") && !table.get("CH", "de"));
    const std::string no_rows = zerotrie::build_dense(std::map<std::string, Map>{}, '/');
    CHECK(!zerotrie::DenseTable(no_rows).get("", ""));
    static_assert(!takes_passing_text<zerotrie::Trie>::value);
    try {
        CHECK(!zerotrie::DenseTable(std::string_view(record).substr(1)).get("de", "CH"));
        CHECK(false);
    } catch (const zerotrie::Error &error) {
        CHECK(error.status == ZEROTRIE_RECORD_TRUNCATED || error.status == ZEROTRIE_TRAILING_BYTES);
    }
}

int main(int count, char **arguments) {
    static constexpr struct {
        const char *name;
        void (*run)();
    } tests[] = {
#define ROW(name) {#name, test_##name},
        TESTS(ROW)
#undef ROW
    };
    if (count > 2) amounts = {std::strtoul(arguments[1], nullptr, 10), std::strtoul(arguments[2], nullptr, 10)};
    size_t ran = 0;
    for (const auto &[name, run] : tests)
        if (count < 4 || std::strstr(name, arguments[3])) {
            random_number.seed(7);
            run();
            ran++;
        }
    std::printf("c++: %zu tests ok, %zu calls against a std::map, %zu rounds of searches against a scan\n", ran, amounts.calls,
                amounts.rounds);
    return ran == 0;
}
