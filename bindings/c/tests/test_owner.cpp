// A map that owns its bytes, and its files.
#include "test.hpp"

#include <fcntl.h>
#include <fstream>
#include <iterator>
#include <memory_resource>
#include <sys/stat.h>
#include <unistd.h>

// A map that owns its bytes, and what is listed before it is asked for.
void test_owner() {
    const Map many = [] {
        Map made;
        for (size_t n = 0; n < 100000; n++) made["key " + std::to_string(n)] = n;
        return made;
    }();
    const zerotrie::Map map(many);
    CHECK(map.kind() == Kind::PerfectHash && map.size() == 100000 && map.get("key 77") == 77 && map.at("key 1") == 1);
    CHECK(map.contains("key 5") && !map.contains("key") && Map(map.begin(), map.end()) == many);
    try {
        CHECK(map.at("none") == 1);
        CHECK(false);
    } catch (const std::out_of_range &why) {
        CHECK(why.what() == "the map does not have the key \"none\""s);
    }
    size_t calls = 0;
    CHECK(!map.for_each([&](std::string_view, size_t) { return ++calls < 3; }, "key 9") && calls == 3);
    CHECK(map.for_each([&](std::string_view, size_t) { calls++; }, "key 99999") && calls == 4);
    auto it = map.begin("key 9");
    const auto share = it;
    CHECK(it != map.end() && it->first.substr(0, 5) == "key 9" && share == it);
    ++it;
    CHECK(it->second >= 9 && std::distance(map.begin("key 9"), map.end()) == 11111);
    CHECK(map.begin("none") == map.end());
    // copies and moves
    zerotrie::Map copy = map, moved = std::move(copy);
    CHECK(moved == map && moved.trie() == map.trie() && copy.empty() && copy.begin() == copy.end()); // NOLINT: it is empty then
    copy = moved;
    moved = zerotrie::Map({{"foo", 1}, {"bar", 2}});
    CHECK(copy == map && copy != moved && moved.size() == 2 && moved.kind() == Kind::SimpleAscii && moved.items().size() == 2);
    CHECK(zerotrie::Map().empty() && zerotrie::Map().size() == 0 && !zerotrie::Map().get(""));
    const zerotrie::Map listed{{"en", 1}, {"en-Latn", 2}, {"", 3}};
    CHECK(listed.longest_prefix_at("en-Latn-US"sv, "-")->second == 2 && listed.longest_prefix_at("english"sv, "-")->second == 3);
    CHECK(listed.common_prefixes("en-Latn"sv).size() == 3 && listed.longest_prefix("en-L"sv)->first == "en");
    const std::string text(40, 'x');
    Map nested;
    for (size_t n = 0; n < 40; n++) nested[text.substr(0, n)] = n;
    CHECK(zerotrie::Map(nested).common_prefixes(text).size() == 40);
    const zerotrie::Map small{{"foo", 1}, {"bar", 2}, {"bazzoo", 3}};
    CHECK(small.count("bar") == 1 && small.count("ba") == 0 && small.find("bar")->second == 2 && (*small.find("bazzoo")).first == "bazzoo");
    CHECK(small.find("ba") == small.end() && zerotrie::Map(Kind::IgnoreCase, Map{{"bar", 2}}).find("BAR")->first == "bar");
    CHECK(small.get_many({"foo", "x"}, 9) == (std::vector<size_t>{1, 9}) && !small.first_fault());
    // what lasts: keys that outlive the iterator
    const std::vector kept(small.begin(), small.end());
    static_assert(std::is_same_v<decltype(kept)::value_type, std::pair<std::string, size_t>>);
    CHECK(kept.size() == 3 && kept[0].first == "bar" && kept[1].first == "bazzoo" && kept[2].second == 1);
    CHECK(Map(small.begin(), small.end()) == Map({{"foo", 1}, {"bar", 2}, {"bazzoo", 3}}));
    // a key that is a view is not kept past its iterator: std::vector<Entry>(small.begin(), small.end()) does not compile
    using At = std::iterator_traits<zerotrie::StreamIterator>::reference;
    static_assert(!std::is_constructible_v<zerotrie::Entry, At> && !std::is_convertible_v<At, std::pair<std::string_view, int>>);
    static_assert(std::is_convertible_v<At, std::pair<const std::string, size_t>> && std::is_convertible_v<At, std::pair<std::pmr::string, uint64_t>>);
    const std::vector<std::pair<std::string, size_t>> same_kept(small.stream("ba").begin(), small.end());
    CHECK(same_kept.size() == 2 && same_kept[0].first == "bar" && same_kept[1].first == "bazzoo");
    // values of an enum
    enum class Color : uint8_t { Red, Blue = 7 };
    enum Old { BelowZero = -1, One = 1 };
    const zerotrie::Map colors{{"red", Color::Red}, {"blue", Color::Blue}, {"one", One}};
    CHECK(colors.get("blue") == 7 && colors.at("one") == 1 && zerotrie::Map(std::map<std::string, Color>{{"a", Color::Blue}}).at("a") == 7);
    try {
        CHECK(zerotrie::build(Kind::SimpleAscii, {{"a", BelowZero}}).empty());
        CHECK(false);
    } catch (const std::out_of_range &why) {
        CHECK(why.what() == "a value is from 0 to 2^64 - 1: that of \"a\""s);
    }
    // a value that is refused has a row and a key
    try {
        CHECK(zerotrie::Map(std::vector<std::pair<std::string, int64_t>>{{"b", 1}, {"a", 2}, {"c\xff", -3}}).empty());
        CHECK(false);
    } catch (const std::out_of_range &why) {
        CHECK(why.what() == "a value is from 0 to 2^64 - 1: that of pair 2, \"c\\xff\""s);
    }
    try {
        CHECK(zerotrie::build_dense(std::map<std::string, std::map<std::string, int>>{{"de", {{"AT", 1}, {"CH", -1}}}}, '/').empty());
        CHECK(false);
    } catch (const std::out_of_range &why) {
        CHECK(why.what() == "a value is from 0 to 2^64 - 1: that of \"de\", \"CH\""s);
    }
    // keys and values alone
    const zerotrie::Map letters{{"bar", 2}, {"bazzoo", 3}, {"foo", 1}};
    std::string joined;
    size_t sum = 0;
    for (const std::string_view key : letters.keys("ba")) joined += key;
    for (const size_t value : letters.trie().values("ba")) sum += value;
    CHECK(joined == "barbazzoo" && sum == 5);
    const auto all = letters.keys();
    CHECK(std::vector<std::string>(all.begin(), all.end()).back() == "foo" && letters.keys("x").begin() == letters.keys().end());
    joined.clear();
    for (const auto [key, value] : letters.range("bar", "foo").reversed()) joined += key;
    for (const auto [key, value] : letters.sorted("ba").reversed()) joined += key;
    CHECK(joined == "bazzoobarbazzoobar");
#ifdef HAS_RANGES
    static_assert(std::ranges::input_range<const zerotrie::Map> && std::ranges::sized_range<const zerotrie::Map>);
    static_assert(std::ranges::input_range<const zerotrie::Stream> && std::ranges::input_range<const zerotrie::Keys> &&
                  std::ranges::input_range<const zerotrie::Values>);
    namespace views = std::views;
    std::string piped;
    size_t added = 0;
    for (const std::string_view key : small | views::keys | views::take(2)) piped += key;
    for (const size_t value : small.stream("ba") | views::values) added += value;
    for (const auto pair : small.range("bar", "foo") | views::reverse) piped += pair.first;
    for (const std::string_view key : small.range("foo") | views::keys) piped += key;
    for (const std::string_view key : small.trie() | views::keys | views::drop(2)) piped += key;
    CHECK(piped == "barbazzoobazzoobarfoofoo" && added == small.at("bar") + small.at("bazzoo"));
#endif
}

static mode_t mode_of(const std::string &path) {
    struct stat found;
    CHECK(lstat(path.c_str(), &found) == 0);
    return found.st_mode;
}

// Which errno save() fails with.
static int why_not_saved(const zerotrie::Map &map, const std::string &path) {
    try {
        map.save(path);
        return 0;
    } catch (const std::system_error &error) {
        return error.code().value();
    }
}

// A file that is replaced keeps its mode and the links to it; a pipe and an open file are written in place.
static void saves(const std::string &room, const std::string &path, const zerotrie::Map &map) {
    const zerotrie::Map other{{"other", 1}};
    const std::string link = room + "/link", fifo = room + "/fifo";
    const mode_t mask = umask(022);
    CHECK(std::remove(path.c_str()) == 0 && why_not_saved(map, path) == 0 && mode_of(path) == (S_IFREG | 0644));
    for (const mode_t mode : {0600u, 0640u, 0666u, 0755u, 06711u}) {
        CHECK(chmod(path.c_str(), mode) == 0 && why_not_saved(other, path) == 0);
        CHECK(mode_of(path) == (S_IFREG | (mode & 0777)) && zerotrie::Map::load(path) == other);
    }
    umask(mask);
    CHECK(symlink("names.trie", link.c_str()) == 0 && why_not_saved(map, link) == 0);
    CHECK(S_ISLNK(mode_of(link)) && zerotrie::Map::load(path) == map && mode_of(path) == (S_IFREG | 0711));
    CHECK(std::remove(link.c_str()) == 0 && symlink("nowhere", link.c_str()) == 0 && why_not_saved(map, link) == ENOENT);
    CHECK(S_ISLNK(mode_of(link)) && std::remove(link.c_str()) == 0);
    CHECK(why_not_saved(map, room) == EISDIR);
    if (geteuid() != 0) CHECK(chmod(path.c_str(), 0400) == 0 && why_not_saved(map, path) == EACCES);
    // what is written in place
    std::string read(1000, 0);
    CHECK(mkfifo(fifo.c_str(), 0600) == 0);
    const int end = open(fifo.c_str(), O_RDONLY | O_NONBLOCK);
    CHECK(why_not_saved(map, fifo) == 0 && S_ISFIFO(mode_of(fifo)));
    const ssize_t len = ::read(end, read.data(), read.size());
    CHECK(len > 0 && zerotrie::Map::open(std::string_view(read).substr(0, static_cast<size_t>(len))) == map);
    CHECK(close(end) == 0 && std::remove(fifo.c_str()) == 0);
    const int opened = open(link.c_str(), O_RDWR | O_CREAT, 0600);
    CHECK(why_not_saved(map, "/dev/fd/" + std::to_string(opened)) == 0 && ::read(opened, read.data(), read.size()) == len);
    CHECK(close(opened) == 0 && std::remove(link.c_str()) == 0);
    if (geteuid() != 0) CHECK(why_not_saved(map, "/dev/null") == 0 && why_not_saved(map, "/dev/full") == ENOSPC);
}

// What is saved is loaded, files of somebody else stay, and an error names the file.
void test_saves() {
    const zerotrie::Map small{{"foo", 1}, {"bar", 2}, {"bazzoo", 3}};
    char room[] = "/tmp/zerotrie-XXXXXX";
    CHECK(mkdtemp(room));
    const std::string path = room + "/names.trie"s;
    for (const auto &each : {small, zerotrie::Map(Kind::PerfectHash, zerotrie::PairList{{"\xc3\xa9", 7}}), zerotrie::Map()}) {
        each.save(path);
        CHECK(zerotrie::Map::load(path) == each);
        // files of somebody else stay
        for (const auto *name : {".new", ".new1"}) CHECK(std::fclose(std::fopen((path + name).c_str(), "wb")) == 0);
        each.save(path);
        CHECK(zerotrie::Map::load(path) == each);
        for (const auto *name : {".new", ".new1"}) CHECK(std::remove((path + name).c_str()) == 0);
        CHECK(std::fopen((path + ".new2").c_str(), "rb") == nullptr);
    }
    const std::string index_bytes = zerotrie::build_index({{"foo", 1}, {"bar", 2}});
    zerotrie::Index(index_bytes).save(path);
    std::ifstream stream(path, std::ios::binary);
    const std::string index_file{std::istreambuf_iterator<char>(stream), {}};
    CHECK(index_file == zerotrie::seal_index(index_bytes) && zerotrie::Index::open(index_file).get("bar") == 2);
    for (const std::string &none : {room + "/no/such"s, std::string(room)}) {
        try {
            CHECK(zerotrie::Map::load(none).empty());
            CHECK(false);
        } catch (const std::system_error &error) {
            CHECK(std::string(error.what()).find(none) == 0);
        }
        try {
            small.save(none);
            CHECK(false);
        } catch (const std::system_error &error) {
            CHECK(error.code().value() != 0);
        }
    }
    saves(room, path, small);
    CHECK(std::remove(path.c_str()) == 0 && rmdir(room) == 0);
}
