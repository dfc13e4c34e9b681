/// @file
/// @brief zerotrie for C++17 and later, over zerotrie.h, whose rules hold here too. Keys are
/// std::string_view, of any bytes; a literal with a zero in it is written "a\0b"sv.
///
///     const zerotrie::Map map{{"foo", 1}, {"bar", 2}, {"bazzoo", 3}};
///     map.get("bar"); // 2
///     for (const auto [key, value] : map) use(key, value);
///
/// A zerotrie::Map owns its bytes. A zerotrie::Trie reads bytes that are elsewhere, as in a file or
/// a constant:
///
///     const std::string bytes = zerotrie::build(zerotrie::Kind::SimpleAscii, pairs);
///     const zerotrie::Trie trie(zerotrie::Kind::SimpleAscii, bytes);
///
/// A file that the program `zerotrie build` wrote is sealed or tagged: Trie::open(file) reads it,
/// and Trie::checked(kind, file) would take what is before the trie for it. The table that
/// `zerotrie code --lang c --name names` wrote has a zero after it, which is no part of the trie:
/// Trie(Kind(names_kind), Bytes(names_bytes, names_len)).
///
/// Bytes, Trie, Cursor, Stream, Diff, Reverse, DenseTable and Index are views: copying one copies no bytes, and
/// the bytes that it was made of have to outlive it, as those of a std::string_view. clang warns of
/// some that do not. Map owns its bytes, Search its texts, and Items what it lists.
///
/// Errors are thrown as Error, a value below 0 or from 2^64 on as std::out_of_range, those of a file
/// as std::system_error, and out of memory as std::bad_alloc; what is noexcept throws nothing. With exceptions off (-fno-exceptions)
/// std::abort() ends the program instead: there zerotrie_build() and the other functions of
/// zerotrie.h return a status. Many threads may ask one Trie or Map at once; a Cursor, and an
/// iterator, is for one thread at a time.
#pragma once
#include "zerotrie.h"

#include <algorithm>
#include <array>
#include <cerrno>
#include <cstddef>
#include <cstdio>
#include <cstdlib>
#include <fcntl.h>
#include <initializer_list>
#include <iterator>
#include <memory>
#include <new>
#include <optional>
#include <stdexcept>
#include <string>
#include <string_view>
#include <sys/stat.h>
#include <system_error>
#include <tuple>
#include <type_traits>
#include <unistd.h>
#include <utility>
#include <vector>
#if __cplusplus >= 202002L
#include <span>
// clang before 16 can't read the ranges of libstdc++
#if !defined(__clang__) || __clang_major__ >= 16
#include <ranges>
#endif
#endif

/// @cond
#if defined(__has_cpp_attribute)
#if __has_cpp_attribute(clang::lifetimebound)
#define ZEROTRIE_LIFETIMEBOUND [[clang::lifetimebound]]
#endif
#endif
#ifndef ZEROTRIE_LIFETIMEBOUND
#define ZEROTRIE_LIFETIMEBOUND
#endif
#ifdef __clang__
#define ZEROTRIE_VIEW [[gsl::Pointer]]
#else
#define ZEROTRIE_VIEW
#endif
/// @endcond

/// Maps from byte strings to numbers, as flat bytes that are read in place.
namespace zerotrie {

/// The version of this header: its first number.
inline constexpr uint32_t version_major = ZEROTRIE_VERSION_MAJOR;
/// Its second number.
inline constexpr uint32_t version_minor = ZEROTRIE_VERSION_MINOR;
/// Its third number.
inline constexpr uint32_t version_patch = ZEROTRIE_VERSION_PATCH;
/// The same as one number, which is 1002003 in version 1.2.3.
inline constexpr uint32_t version = ZEROTRIE_VERSION;
/// Returns the version of the library, which may be a later one.
[[nodiscard]] inline uint32_t library_version() noexcept { return zerotrie_version(); }

/// The kind of a trie.
enum class Kind : uint32_t {
    /// ASCII keys
    SimpleAscii = ZEROTRIE_SIMPLE_ASCII,
    /// any bytes; a branch of 16 edges or more is a perfect hash
    PerfectHash = ZEROTRIE_PERFECT_HASH,
    /// the same, and a branch may reach 2^32 bytes
    ExtendedCapacity = ZEROTRIE_EXTENDED_CAPACITY,
    /// ASCII keys, whose letters are found in either case
    IgnoreCase = ZEROTRIE_IGNORE_CASE,
};

/// Which value a key gets that more than one trie has, as in Map::union_of().
enum class Rule : uint32_t {
    /// the value of the first trie that has the key
    First = ZEROTRIE_FIRST,
    /// the value of the last trie that has the key
    Last = ZEROTRIE_LAST,
    /// the sum of the values; an Error if it is 2^64 or more
    Sum = ZEROTRIE_SUM,
    /// the least value
    Min = ZEROTRIE_MIN,
    /// the greatest value
    Max = ZEROTRIE_MAX,
    /// none: an Error
    Refuse = ZEROTRIE_REFUSE,
    /// the value that all of them are; an Error if they differ
    Equal = ZEROTRIE_EQUAL,
};

/// Where bytes are malformed, and by which rule of the format.
struct Fault {
    zerotrie_fault cause; ///< the rule that fails first
    size_t place;         ///< the number of bytes before the node where it fails
};

/// Why a call fails. what() is the text of `status`, with the keys or the place that are the cause.
class Error : public std::runtime_error {
public:
    /// The error of a status.
    explicit Error(uint32_t number)
        : std::runtime_error(zerotrie_status_text(number)), status(number) {}
    /// The error of a build that pairs are the cause of.
    Error(uint32_t number, std::pair<size_t, size_t> cause, const std::string &keys)
        : std::runtime_error(std::string(zerotrie_status_text(number)) + " (" + keys + ")"),
          status(number), pairs(cause) {}
    /// The error of malformed bytes.
    explicit Error(const Fault &malformed)
        : std::runtime_error(std::string(zerotrie_fault_text(malformed.cause)) + ", at byte " +
                             std::to_string(malformed.place)),
          status(malformed.cause == ZEROTRIE_FAULT_OF_NO_KIND ? ZEROTRIE_UNKNOWN_KIND
                                                              : ZEROTRIE_DONE),
          fault(malformed) {}
    /// A zerotrie_status; ZEROTRIE_DONE for malformed bytes.
    uint32_t status;
    /// The places of the two pairs that are the cause among those that were given, from 0 on; equal
    /// if one is. Of Map::union_of() and the like the places of two tries.
    std::optional<std::pair<size_t, size_t>> pairs;
    /// Where bytes are malformed.
    std::optional<Fault> fault;
};

/// @cond
namespace detail {
template <class T> using Bare = std::remove_cv_t<std::remove_reference_t<T>>;
template <class T, class U> constexpr bool is = std::is_same_v<std::remove_cv_t<T>, U>;
template <class T>
constexpr bool is_byte = sizeof(T) == 1 && (std::is_integral_v<T> || is<T, std::byte>);
// An array of characters is mostly a string literal, whose last zero is no byte of a trie.
template <class T>
constexpr bool is_literal = std::is_array_v<T> && !is<std::remove_extent_t<T>, unsigned char> &&
                            !is<std::remove_extent_t<T>, std::byte>;
// What may end before the bytes that it shows.
template <class T> constexpr bool is_view = false;
#if __cplusplus >= 202002L
template <class T, size_t N> constexpr bool is_view<std::span<T, N>> = true;
#endif
// Whether a T && can lend the bytes of a trie.
template <class T, class = void> constexpr bool lends_bytes = false;
template <class T>
constexpr bool lends_bytes<T, std::void_t<decltype(std::data(std::declval<T &>())),
                                          decltype(std::size(std::declval<T &>()))>> =
    is_byte<std::remove_pointer_t<decltype(std::data(std::declval<T &>()))>> &&
    !is_literal<Bare<T>> && !is<Bare<T>, std::string_view> &&
    (std::is_lvalue_reference_v<T> || is_view<Bare<T>>);
// A text that may be gone after the statement, such as a std::string that a function returns.
template <class T>
using Passing =
    std::enable_if_t<!std::is_lvalue_reference_v<T> && std::is_convertible_v<T, std::string_view> &&
                     std::is_class_v<Bare<T>> && !is<Bare<T>, std::string_view>>;
} // namespace detail
/// @endcond

/// The bytes of a trie or of a table, which are elsewhere and have to outlive it. They are made of
/// a std::string_view; of a std::string, a std::vector<uint8_t>, an array of uint8_t or the like
/// that has a name; and of a pointer and a length. A temporary std::string does not make them, in
/// braces neither, as it would be gone, nor does a `const char *`, as it would end at its first
/// zero: write "..."sv.
class ZEROTRIE_VIEW Bytes {
public:
    /// No bytes.
    constexpr Bytes() noexcept = default;
    /// The bytes of a view.
    constexpr Bytes(std::string_view bytes ZEROTRIE_LIFETIMEBOUND) noexcept : bytes_(bytes) {}
    /// The bytes from a pointer on, which may be null if there are none.
    Bytes(const void *ptr ZEROTRIE_LIFETIMEBOUND, size_t len) noexcept
        : bytes_(static_cast<const char *>(ptr), len) {}
    /// The bytes of a container that has a name.
    template <class T, class = std::enable_if_t<detail::lends_bytes<T>>>
    Bytes(T &&bytes ZEROTRIE_LIFETIMEBOUND) noexcept : Bytes(std::data(bytes), std::size(bytes)) {}
    template <class T, class = detail::Passing<T>, class = void> Bytes(T &&) = delete;
    Bytes(const char *) = delete;
    /// The bytes as a view.
    [[nodiscard]] constexpr std::string_view view() const noexcept { return bytes_; }

private:
    std::string_view bytes_;
};

/// @cond
namespace detail {
inline zerotrie_bytes of(std::string_view text) noexcept {
    return zerotrie_bytes_of(text.data(), text.size());
}
inline std::string_view text_of(zerotrie_bytes bytes) noexcept {
    return {reinterpret_cast<const char *>(bytes.ptr), bytes.len};
}
inline uint8_t *room(std::string &text) noexcept {
    return reinterpret_cast<uint8_t *>(text.data());
}
// Throws, or ends the program if exceptions are off.
template <class Exception> [[noreturn]] void refuse([[maybe_unused]] const Exception &why) {
#ifdef __cpp_exceptions
    throw why;
#else
    std::abort();
#endif
}
// A value as C has it. where() says whose it is.
template <class T, class Where> size_t number_of(T value, Where where) {
    if constexpr (std::is_enum_v<T>) {
        return number_of(static_cast<std::underlying_type_t<T>>(value), where);
    } else {
        static_assert(std::is_integral_v<T>, "a value is a whole number");
        const size_t number = static_cast<size_t>(value);
        bool fits = static_cast<T>(number) == value;
        if constexpr (std::is_signed_v<T>) fits = fits && value >= 0;
        if (!fits) refuse(std::out_of_range("a value is from 0 to 2^64 - 1: that of " + where()));
        return number;
    }
}
struct Closing {
    void operator()(std::FILE *file) const noexcept { (void)std::fclose(file); }
    void operator()(char *text) const noexcept { std::free(text); }
};
using File = std::unique_ptr<std::FILE, Closing>;
[[noreturn]] inline void refuse_file(const std::string &path) {
    refuse(std::system_error(errno, std::generic_category(), path));
}
inline std::string read_file(const std::string &path) {
    const File file(std::fopen(path.c_str(), "rb"));
    if (!file) refuse_file(path);
    std::string bytes, part(1 << 16, '\0');
    while (const size_t len = std::fread(part.data(), 1, part.size(), file.get()))
        bytes.append(part, 0, len);
    if (std::ferror(file.get())) refuse_file(path);
    return bytes;
}
// A file that is open for writing. Null: errno says why not.
inline File writable(const std::string &path, int flags, mode_t mode = 0) {
    const int number = ::open(path.c_str(), O_WRONLY | O_CLOEXEC | flags, mode);
    File file(number < 0 ? nullptr : ::fdopen(number, "wb"));
    if (number >= 0 && !file) (void)::close(number);
    return file;
}
// Writes the bytes, to the disk too if the file is a new one, and closes it.
inline bool is_filled(File file, std::string_view bytes, bool is_new) {
    const bool written = std::fwrite(bytes.data(), 1, bytes.size(), file.get()) == bytes.size() &&
                         std::fflush(file.get()) == 0 &&
                         (!is_new || ::fsync(::fileno(file.get())) == 0);
    const int why = errno;
    const bool closed = std::fclose(file.release()) == 0;
    if (!written) errno = why;
    return written && closed;
}
// Replaces the file of a path at once by a new one, which has this mode.
inline bool is_replaced(const std::string &path, std::optional<mode_t> mode,
                        std::string_view bytes) {
    std::string beside = path + ".new";
    // nobody else may open it before it has its mode
    const mode_t first = mode ? 0600 : 0666;
    File file = writable(beside, O_CREAT | O_EXCL, first);
    // a file of that name is somebody else's
    for (int turn = 1; !file && errno == EEXIST && turn < 1000; turn++) {
        beside = path + ".new" + std::to_string(turn);
        file = writable(beside, O_CREAT | O_EXCL, first);
    }
    if (!file) return false;
    if ((!mode || ::fchmod(::fileno(file.get()), *mode & 0777) == 0) &&
        is_filled(std::move(file), bytes, true) && std::rename(beside.c_str(), path.c_str()) == 0)
        return true;
    const int why = errno;
    (void)std::remove(beside.c_str());
    errno = why;
    return false;
}
// Whether a path names an open file of a process, which is written to and not replaced.
inline bool names_open_file(const std::string &path) {
    return path.rfind("/dev/fd/", 0) == 0 || path.rfind("/dev/std", 0) == 0 ||
           path.rfind("/proc/", 0) == 0;
}
inline void save_file(const std::string &path, std::string_view bytes) {
    struct stat found;
    File old = writable(path, O_APPEND);
    if (!old) {
        // a link that leads nowhere is no new file
        if (errno != ENOENT || ::lstat(path.c_str(), &found) == 0 ||
            !is_replaced(path, std::nullopt, bytes))
            refuse_file(path);
        return;
    }
    if (::fstat(::fileno(old.get()), &found) != 0) refuse_file(path);
    if (!S_ISREG(found.st_mode) || names_open_file(path)) {
        if (!is_filled(std::move(old), bytes, false)) refuse_file(path);
        return;
    }
    // a link stays
    const std::unique_ptr<char, Closing> real(::realpath(path.c_str(), nullptr));
    if (!real || !is_replaced(real.get(), found.st_mode, bytes)) refuse_file(path);
}
inline void check(uint32_t status) {
    if (status == ZEROTRIE_OUT_OF_MEMORY) refuse(std::bad_alloc());
    if (status != ZEROTRIE_DONE) refuse(Error(status));
}
// A key as the text of an error shows it: its first bytes, those that are not ASCII as numbers.
inline std::string shown(zerotrie_bytes key) {
    const size_t most = 40;
    std::string text = "\"";
    for (size_t i = 0; i < std::min(key.len, most); i++) {
        const char *const digits = "0123456789abcdef";
        const uint8_t byte = key.ptr[i];
        if (byte >= ' ' && byte < 127)
            text += static_cast<char>(byte);
        else
            text += {'\\', 'x', digits[byte / 16], digits[byte % 16]};
    }
    return text + (key.len > most ? "..\"" : "\"");
}
// What a call writes into a room of this length, or else into one of the length that it asks for.
// Keys that overlap may have far more bytes together than their trie, so the first room has a
// limit. `fail` gets the status of an error.
template <class Call, class Fail> std::string written(size_t len, Call call, Fail fail) {
    std::string out;
    len = std::min<size_t>(len, 1 << 30);
    uint32_t status = ZEROTRIE_BUFFER_TOO_SMALL;
    for (int turn = 0; turn < 2 && status == ZEROTRIE_BUFFER_TOO_SMALL; turn++) {
        out.resize(len);
        status = call(room(out), out.size(), &len);
    }
    fail(status);
    out.resize(len);
    out.shrink_to_fit();
    return out;
}

// The key that a call writes, in a room that is made as large as it asks for. nullopt: there is no
// key.
template <class Call> std::optional<std::string> found(Call call) {
    uint32_t status = ZEROTRIE_NO_ENTRY;
    std::string key = written(64, [&](uint8_t *out, size_t len, size_t *made) {
        status = call(out, len, made);
        if (status == ZEROTRIE_NO_ENTRY) *made = 0;
        return status;
    }, [](uint32_t it) { if (it != ZEROTRIE_NO_ENTRY) check(it); });
    if (status == ZEROTRIE_NO_ENTRY) return std::nullopt;
    return key;
}

// Whether what an iterator leads to stays while the range is gone over: it is no object of the
// iterator's own, nor made as it goes.
template <class Iterator, class = void> constexpr bool stays = false;
template <class Iterator>
constexpr bool
    stays<Iterator, std::void_t<typename std::iterator_traits<Iterator>::iterator_category>> =
        std::is_base_of_v<std::forward_iterator_tag,
                          typename std::iterator_traits<Iterator>::iterator_category>
            &&std::is_lvalue_reference_v<decltype(*std::declval<Iterator &>())>;

// Whether a structured binding of an element calls a get() that is not the library's, and so may
// make the key as it goes.
template <class T, class = void> constexpr bool makes_key = false;
template <class T>
constexpr bool makes_key<T, std::void_t<decltype(std::tuple_size<T>::value)>> = true;
template <class A, class B> constexpr bool makes_key<std::pair<A, B>> = false;
template <class... A> constexpr bool makes_key<std::tuple<A...>> = false;
template <class T, size_t N> constexpr bool makes_key<std::array<T, N>> = false;

// Pairs as C has them, of a range whose elements have a key, which makes a std::string_view, and a
// value. Keys that would not stay are copied.
class Pairs {
public:
    template <class Range> explicit Pairs(Range &range) {
        using std::begin;
        static_assert(!std::is_convertible_v<decltype(*begin(range)), std::string_view>,
                      "these are keys without values: give pairs of a key and a value, as a "
                      "std::map or a std::vector of std::pair");
        constexpr bool keys_stay =
            stays<Bare<decltype(begin(range))>> && !makes_key<Bare<decltype(*begin(range))>>;
        for (auto &&[key, value] : range) {
            const std::string_view text(key);
            if constexpr (!keys_stay) texts_ += text;
            const size_t place = pairs_.size();
            pairs_.push_back({of(text), number_of(value, [&] {
                                  return "pair " + std::to_string(place) + ", " + shown(of(text));
                              })});
        }
        if constexpr (!keys_stay) lead_to_texts();
    }
    Pairs(const Pairs &) = delete;
    Pairs &operator=(const Pairs &) = delete;
    const zerotrie_pair *data() const noexcept { return pairs_.data(); }
    size_t size() const noexcept { return pairs_.size(); }
    // Throws the error of a build of these pairs in this kind, with the pairs that are the cause.
    void check(Kind kind, uint32_t status) const {
        if (status == ZEROTRIE_OUT_OF_MEMORY || status == ZEROTRIE_UNKNOWN_KIND)
            return detail::check(status);
        if (status == ZEROTRIE_DONE) return;
        size_t first = 0, second = 0;
        if (status == ZEROTRIE_UNSORTED)
            first = first_unsorted(), second = first + 1;
        else if (zerotrie_why_refused(static_cast<uint32_t>(kind), data(), size(), &first,
                                      &second) != status)
            detail::check(status);
        std::string keys = "pair " + std::to_string(first) + ", " + shown(pairs_[first].key);
        if (second != first)
            keys += "; pair " + std::to_string(second) + ", " + shown(pairs_[second].key);
        refuse(Error(status, {first, second}, keys));
    }
    // As many bytes as a build of the pairs takes as a rule.
    size_t most_bytes() const noexcept {
        size_t len = 16;
        for (const auto &pair : pairs_) len += pair.key.len + 4;
        return len;
    }

private:
    size_t first_unsorted() const noexcept {
        size_t at = 0;
        while (at + 2 < pairs_.size() && text_of(pairs_[at].key) < text_of(pairs_[at + 1].key))
            at++;
        return at;
    }
    void lead_to_texts() noexcept {
        const uint8_t *at = room(texts_);
        for (auto &pair : pairs_) pair.key.ptr = at, at += pair.key.len;
    }
    std::string texts_;
    std::vector<zerotrie_pair> pairs_;
};

// The values that a call finds of the keys of a range, which it gets one after another.
template <class Keys, class Call> std::vector<size_t> values_of(Keys &keys, Call call) {
    std::string text;
    std::vector<size_t> ends;
    for (auto &&key : keys) text += std::string_view(key), ends.push_back(text.size());
    std::vector<size_t> values(ends.size());
    check(call(of(text), ends.data(), values.data(), values.size()));
    return values;
}

class Parts;
} // namespace detail
/// @endcond

/// Which keys a search finds. In Kind::IgnoreCase, keys, bounds and words are compared in lower case,
/// and the letters of a pattern are taken in both cases. It owns its texts. Trie::search() lists what
/// it finds, in the order of bytes.
class Search {
public:
    /// All keys.
    Search() = default;
    /// The keys from one on and below another one. nullopt: there is no bound on this side.
    [[nodiscard]] static Search range(std::optional<std::string_view> from,
                                      std::optional<std::string_view> below) {
        Search made(ZEROTRIE_BY_RANGE, from.value_or(std::string_view()));
        made.to_ = below.value_or(std::string_view());
        made.from_bound_ = from ? ZEROTRIE_INCLUDED : ZEROTRIE_UNBOUNDED;
        made.to_bound_ = below ? ZEROTRIE_EXCLUDED : ZEROTRIE_UNBOUNDED;
        return made;
    }
    /// The keys that a pattern matches, as "s*ing": `*` is any number of bytes, `?` one byte, and
    /// `[a-z]` or `[!a-z]` a byte that is of a class or is not; `{a,bc}` is one of the patterns in it;
    /// a backslash takes the meaning of the byte after it. Throws Error if the pattern is malformed, or has more than 63 items.
    [[nodiscard]] static Search glob(std::string_view pattern) {
        return Search(ZEROTRIE_BY_GLOB, pattern).checked();
    }
    /// The same by characters of UTF-8: `?` is one of them, and so is what a class has. No key that is
    /// not UTF-8 is found. Throws Error for a pattern that is not UTF-8, too.
    [[nodiscard]] static Search glob_chars(std::string_view pattern) {
        return Search(ZEROTRIE_BY_CHAR_GLOB, pattern).checked();
    }
    /// The keys that have these bytes in this order, with any bytes before, between and after.
    [[nodiscard]] static Search subsequence(std::string_view letters) {
        return Search(ZEROTRIE_BY_SUBSEQUENCE, letters);
    }
    /// The keys that at most so many edits make of a word. An edit inserts, deletes or changes one
    /// byte. Throws Error if the word has more than 63 bytes, or for more than 254 edits.
    [[nodiscard]] static Search fuzzy(std::string_view word, uint32_t edits = 1) {
        return Search(ZEROTRIE_BY_EDITS, word, edits).checked();
    }
    /// The same by characters of UTF-8, of a word of at most 63. Throws Error for other words, too.
    [[nodiscard]] static Search fuzzy_chars(std::string_view word, uint32_t edits = 1) {
        return Search(ZEROTRIE_BY_CHAR_EDITS, word, edits).checked();
    }
    /// As fuzzy(), and an edit may also make two neighbours change places. Throws Error for more than 7
    /// edits.
    [[nodiscard]] static Search swaps(std::string_view word, uint32_t edits = 1) {
        return Search(ZEROTRIE_BY_SWAPS, word, edits).checked();
    }
    /// As fuzzy_chars(), with such edits.
    [[nodiscard]] static Search swaps_chars(std::string_view word, uint32_t edits = 1) {
        return Search(ZEROTRIE_BY_CHAR_SWAPS, word, edits).checked();
    }
    /// A search for all keys that begin with such a key: completions.
    [[nodiscard]] Search beginnings() const {
        Search made = *this;
        made.beginnings_ = true;
        return made;
    }
    /// A search for those of these keys that begin with a prefix.
    [[nodiscard]] Search within(std::string_view prefix) const {
        Search made = *this;
        made.prefix_ = prefix;
        return made;
    }

private:
    friend class detail::Parts;
    friend class Items;
    friend class Map;
    friend class Range;
    friend class Stream;
    friend class StreamIterator;
    friend class Trie;
    Search(zerotrie_search_by by, std::string_view text, uint32_t edits = 0)
        : text_(text), by_(by), edits_(edits) {}
    // All keys with a prefix, in the order of the trie.
    static Search stored_within(std::string_view prefix) {
        Search made = Search().within(prefix);
        made.stored_ = true;
        return made;
    }
    // A range that compares bytes as they are stored. Without the others' prefix.
    Search sorted() const {
        Search made = *this;
        made.sorted_ = true;
        return made;
    }
    // The same, from the last pair on.
    Search down() const {
        Search made = sorted();
        made.down_ = true;
        return made;
    }
    // The keys that begin with a prefix, as they are stored.
    static Search sorted_within(std::string_view prefix) {
        Search made;
        made.to_ = prefix;
        const zerotrie_search search =
            zerotrie_range_of_prefix(prefix.data(), prefix.size(), detail::room(made.to_));
        made.text_ = prefix;
        made.to_.resize(search.to.len);
        made.from_bound_ = search.from_bound, made.to_bound_ = search.to_bound;
        return made.sorted();
    }
    // The keys after this one.
    static Search after(std::string_view key) {
        Search made = range(key, std::nullopt).sorted();
        made.from_bound_ = ZEROTRIE_EXCLUDED;
        return made;
    }
    // As C has it, with pointers into the texts.
    zerotrie_search raw() const noexcept {
        zerotrie_search made = zerotrie_search_for(by_, detail::of(text_).ptr, text_.size());
        made.edits = edits_;
        made.from_bound = from_bound_;
        made.to_bound = to_bound_;
        made.to = detail::of(to_);
        made.beginnings = beginnings_;
        return made;
    }
    // Throws Error if it is none.
    Search checked() const {
        const zerotrie_search search = raw();
        detail::check(zerotrie_search_check(&search));
        return *this;
    }
    std::string text_, to_, prefix_;
    zerotrie_search_by by_ = ZEROTRIE_BY_RANGE;
    uint32_t edits_ = 0;
    zerotrie_bound from_bound_ = ZEROTRIE_UNBOUNDED, to_bound_ = ZEROTRIE_UNBOUNDED;
    bool beginnings_ = false, stored_ = false, sorted_ = false, down_ = false;
};

/// @cond
namespace detail {
// The parts of a listing, one after another. Each has twice the room of the one before, up to a
// megabyte, and places for keys as long as those so far.
class Parts {
public:
    Parts(Kind kind, Bytes bytes, Search search, size_t first_room = 4096)
        : kind_(static_cast<uint32_t>(kind)), trie_(of(bytes.view())), search_(std::move(search)),
          room_(first_room) {}
    // Goes on to the next part. false: none is left.
    bool next() {
        if (status_ != ZEROTRIE_BUFFER_TOO_SMALL) return false;
        size_t places = room_ / std::max<size_t>(listed_ == 0 ? 0 : bytes_listed_ / listed_, 4) + 1;
        // each pair is looked up by itself, so no more of them than are read
        if (search_.down_) places = std::min<size_t>(listed_ + 1, 64);
        keys_.resize(room_), ends_.resize(places), values_.resize(places);
        size_t next_len = 0;
        status_ = list(places, &next_len);
        if (status_ != ZEROTRIE_BUFFER_TOO_SMALL) check(status_);
        room_ = std::max(std::min<size_t>(2 * room_, 1 << 20), next_len);
        listed_ += count_, bytes_listed_ += keys().size();
        if (count_ > 0) last_ = (*this)[count_ - 1].first;
        // a trie has no more pairs than bytes: these bytes are none, and their parts may come round
        if (listed_ > trie_.len) status_ = ZEROTRIE_DONE;
        return true;
    }
    size_t size() const noexcept { return count_; }
    std::pair<std::string_view, size_t> operator[](size_t i) const noexcept {
        const size_t from = i == 0 ? 0 : ends_[i - 1];
        return {std::string_view(keys_).substr(from, ends_[i] - from), values_[i]};
    }
    // All keys of the part, one after another; where each ends; and their values.
    std::string_view keys() const noexcept {
        return std::string_view(keys_).substr(0, count_ == 0 ? 0 : ends_[count_ - 1]);
    }
    const size_t *ends() const noexcept { return ends_.data(); }
    const size_t *values() const noexcept { return values_.data(); }

private:
    // Lists a part with this many places.
    uint32_t list(size_t places, size_t *next_len) {
        const auto last = of(last_), prefix = of(search_.prefix_);
        if (search_.down_) return list_down(places, next_len);
        if (search_.sorted_) {
            const auto from = listed_ > 0 ? last : of(search_.text_), to = of(search_.to_);
            return zerotrie_sorted_some(kind_, trie_.ptr, trie_.len,
                                        listed_ > 0 ? ZEROTRIE_EXCLUDED : search_.from_bound_,
                                        from.ptr, from.len, search_.to_bound_, to.ptr, to.len,
                                        room(keys_), room_, ends_.data(), places, values_.data(),
                                        places, &count_, next_len);
        }
        if (search_.stored_)
            return zerotrie_list_some(kind_, trie_.ptr, trie_.len, prefix.ptr, prefix.len,
                                      listed_ > 0, last.ptr, last.len, room(keys_), room_,
                                      ends_.data(), places, values_.data(), places, &count_,
                                      next_len);
        const zerotrie_search search = search_.raw();
        return zerotrie_search_some(kind_, trie_.ptr, trie_.len, prefix.ptr, prefix.len, &search,
                                    listed_ > 0, last.ptr, last.len, room(keys_), room_,
                                    ends_.data(), places, values_.data(), places, &count_,
                                    next_len);
    }
    // The same from the last pair on.
    uint32_t list_down(size_t places, size_t *next_len) {
        const zerotrie_search range = search_.raw();
        zerotrie_listing part = zerotrie_listing_reversed(
            zerotrie_trie_of(static_cast<zerotrie_kind>(kind_), trie_.ptr, trie_.len), range,
            room(keys_), room_, ends_.data(), values_.data(), places);
        part.listed = listed_;
        part.last = of(last_);
        const uint32_t status = zerotrie_listing_back(&part, room(keys_), room_);
        count_ = part.count;
        *next_len = part.next_len;
        return status;
    }
    uint32_t kind_;
    zerotrie_bytes trie_;
    Search search_;
    uint32_t status_ = ZEROTRIE_BUFFER_TOO_SMALL;
    size_t room_, count_ = 0, listed_ = 0, bytes_listed_ = 0;
    std::string keys_, last_;
    std::vector<size_t> ends_, values_;
};

// What `->` of an iterator returns whose elements are made as it is read.
template <class Element> struct Pointer {
    Element element;
    const Element *operator->() const noexcept { return &element; }
};
} // namespace detail
/// @endcond

/// A place in a trie. A copy is another place. The trie's bytes have to outlive it.
class ZEROTRIE_VIEW Cursor {
public:
    /// Before all keys of a trie.
    Cursor(Kind kind, Bytes bytes ZEROTRIE_LIFETIMEBOUND) noexcept
        : kind_(kind), bytes_(bytes.view()) {
        const auto at = detail::of(bytes_);
        cursor_ = zerotrie_cursor_new(at.ptr, at.len);
    }
    /// Follows the edge for the byte, as the kind compares bytes, and returns the edge's byte.
    /// nullopt: there is none, and nothing is left.
    std::optional<uint8_t> step(uint8_t byte) noexcept {
        const auto at = detail::of(bytes_);
        uint8_t edge;
        if (!zerotrie_cursor_step(number(), at.ptr, at.len, &cursor_, byte, &edge))
            return std::nullopt;
        return edge;
    }
    /// Follows edge number `index`, from 0, and returns its byte and the number of edges. nullopt:
    /// there is none, and nothing is left.
    std::optional<std::pair<uint8_t, uint16_t>> probe(size_t index) noexcept {
        const auto at = detail::of(bytes_);
        uint8_t edge;
        uint16_t siblings;
        if (!zerotrie_cursor_probe(number(), at.ptr, at.len, &cursor_, index, &edge, &siblings))
            return std::nullopt;
        return std::pair(edge, siblings);
    }
    /// Takes the value of the key that ends here. nullopt: no key does, or it was taken.
    std::optional<size_t> take_value() noexcept {
        const auto at = detail::of(bytes_);
        size_t value;
        if (!zerotrie_cursor_take_value(at.ptr, at.len, &cursor_, &value)) return std::nullopt;
        return value;
    }
    /// What is left of the span that it is in: every key continues with it. Empty outside of spans.
    [[nodiscard]] std::string_view run() const noexcept {
        const auto at = detail::of(bytes_);
        return detail::text_of(zerotrie_cursor_run(at.ptr, at.len, cursor_));
    }
    /// Whether no key continues from here, and none ends here.
    [[nodiscard]] bool is_empty() const noexcept { return zerotrie_cursor_is_empty(cursor_); }

private:
    friend class Trie;
    Cursor(const zerotrie_cursor &cursor, Kind kind, std::string_view bytes) noexcept
        : kind_(kind), bytes_(bytes), cursor_(cursor) {}
    uint32_t number() const noexcept { return static_cast<uint32_t>(kind_); }
    Kind kind_;
    std::string_view bytes_;
    zerotrie_cursor cursor_;
};

/// The pairs of a trie, in the order of its bytes: a range whose elements are pairs of a
/// std::string_view and a value. All are listed when it is made. The views and the iterators are
/// valid while it stays where it is: a move ends them. Trie::begin() and Trie::for_each() have only
/// a part of the pairs at a time.
class Items {
public:
    /// @cond
    using value_type = std::pair<std::string_view, size_t>;
    using reference = value_type;
    using size_type = size_t;
    using difference_type = std::ptrdiff_t;
    class iterator {
    public:
        // before C++20 an iterator whose elements are made as it is read is no more
        using iterator_category = std::input_iterator_tag;
        using iterator_concept = std::random_access_iterator_tag;
        using value_type = Items::value_type;
        using difference_type = std::ptrdiff_t;
        using reference = value_type;
        using pointer = detail::Pointer<value_type>;
        iterator() = default;
        value_type operator*() const noexcept { return (*items_)[static_cast<size_t>(at_)]; }
        pointer operator->() const noexcept { return {**this}; }
        value_type operator[](difference_type n) const noexcept { return *(*this + n); }
        iterator &operator++() noexcept { return ++at_, *this; }
        iterator &operator--() noexcept { return --at_, *this; }
        iterator operator++(int) noexcept { return {items_, at_++}; }
        iterator operator--(int) noexcept { return {items_, at_--}; }
        iterator &operator+=(difference_type n) noexcept { return at_ += n, *this; }
        iterator &operator-=(difference_type n) noexcept { return at_ -= n, *this; }
        friend iterator operator+(iterator it, difference_type n) noexcept { return it += n; }
        friend iterator operator+(difference_type n, iterator it) noexcept { return it += n; }
        friend iterator operator-(iterator it, difference_type n) noexcept { return it -= n; }
        friend difference_type operator-(const iterator &a, const iterator &b) noexcept {
            return a.at_ - b.at_;
        }
        friend bool operator==(const iterator &a, const iterator &b) noexcept {
            return a.at_ == b.at_;
        }
        friend bool operator!=(const iterator &a, const iterator &b) noexcept {
            return a.at_ != b.at_;
        }
        friend bool operator<(const iterator &a, const iterator &b) noexcept {
            return a.at_ < b.at_;
        }
        friend bool operator>(const iterator &a, const iterator &b) noexcept {
            return a.at_ > b.at_;
        }
        friend bool operator<=(const iterator &a, const iterator &b) noexcept {
            return a.at_ <= b.at_;
        }
        friend bool operator>=(const iterator &a, const iterator &b) noexcept {
            return a.at_ >= b.at_;
        }

    private:
        friend class Items;
        iterator(const Items *items, difference_type at) noexcept : items_(items), at_(at) {}
        const Items *items_ = nullptr;
        difference_type at_ = 0;
    };
    using const_iterator = iterator;
    /// @endcond
    /// Lists the pairs of a trie whose keys begin with a prefix.
    Items(Kind kind, Bytes bytes, std::string_view prefix = {}) {
        for (detail::Parts parts(kind, bytes, Search::stored_within(prefix)); parts.next();) {
            const size_t from = keys_.size();
            keys_ += parts.keys();
            for (size_t i = 0; i < parts.size(); i++) ends_.push_back(from + parts.ends()[i]);
            values_.insert(values_.end(), parts.values(), parts.values() + parts.size());
        }
    }
    /// The number of pairs.
    [[nodiscard]] size_t size() const noexcept { return ends_.size(); }
    /// Whether there are none.
    [[nodiscard]] bool empty() const noexcept { return ends_.empty(); }
    /// The pair of this number, which is below size().
    [[nodiscard]] value_type operator[](size_t i) const noexcept ZEROTRIE_LIFETIMEBOUND {
        const size_t from = i == 0 ? 0 : ends_[i - 1];
        return {std::string_view(keys_).substr(from, ends_[i] - from), values_[i]};
    }
    /// The first pair.
    [[nodiscard]] iterator begin() const noexcept ZEROTRIE_LIFETIMEBOUND { return {this, 0}; }
    /// After the last.
    [[nodiscard]] iterator end() const noexcept ZEROTRIE_LIFETIMEBOUND {
        return {this, static_cast<difference_type>(size())};
    }

private:
    std::string keys_;
    std::vector<size_t> ends_, values_;
};

/// A pair of a key and a value, as it is read.
using Entry = std::pair<std::string_view, size_t>;

/// The pair that a StreamIterator is at. Its key is a view that is valid until the iterator is moved
/// on, so it makes no Entry, which could be kept, but a std::pair of a std::string.
struct StreamEntry {
    std::string_view first; ///< the key
    size_t second;          ///< its value
    /// A pair whose key is a copy, and no view: a view is trivially copyable.
    template <class Key, class Value,
              class = std::enable_if_t<std::is_constructible_v<Key, std::string_view> &&
                                       !std::is_trivially_copyable_v<std::remove_cv_t<Key>>>>
    operator std::pair<Key, Value>() const {
        return {Key(first), Value(second)};
    }
};

/// An iterator over the pairs of a trie, or over what a search finds. It lists a part of them at a
/// time, so the first few cost little. Copies share their place. A key is a view that is valid
/// until the iterator is moved on.
class StreamIterator {
public:
    /// @cond
    using iterator_category = std::input_iterator_tag;
    // what outlives the next step: std::vector(begin(), end()) copies the keys
    using value_type = std::pair<std::string, size_t>;
    using difference_type = std::ptrdiff_t;
    using reference = StreamEntry;
    using pointer = detail::Pointer<StreamEntry>;
    /// @endcond
    /// After the last pair.
    StreamIterator() noexcept = default;
    /// At the first pair whose key a search finds, in the order of bytes.
    StreamIterator(Kind kind, Bytes bytes, Search what)
        : parts_(std::make_shared<detail::Parts>(kind, bytes, std::move(what), 256)) {
        next_part();
    }
    /// At the first pair whose key begins with a prefix, in the order of the trie's bytes.
    StreamIterator(Kind kind, Bytes bytes, std::string_view prefix)
        : StreamIterator(kind, bytes, Search::stored_within(prefix)) {}
    /// The pair.
    StreamEntry operator*() const noexcept {
        const auto [key, value] = (*parts_)[at_];
        return {key, value};
    }
    /// The pair.
    pointer operator->() const noexcept { return {**this}; }
    /// Moves on to the next pair.
    StreamIterator &operator++() {
        if (++at_ == parts_->size()) next_part();
        return *this;
    }
    /// Moves on to the next pair.
    void operator++(int) { ++*this; }
    /// Whether both are after the last pair, or share their place.
    friend bool operator==(const StreamIterator &a, const StreamIterator &b) noexcept {
        return a.parts_ == b.parts_;
    }
    /// The contrary.
    friend bool operator!=(const StreamIterator &a, const StreamIterator &b) noexcept {
        return !(a == b);
    }

private:
    void next_part() {
        at_ = 0;
        while (parts_->next()) {
            if (parts_->size() > 0) return;
        }
        parts_.reset();
    }
    std::shared_ptr<detail::Parts> parts_;
    size_t at_ = 0;
};

/// The pairs of a trie whose keys a search finds, as a range that lists a part of them at a time.
/// The trie's bytes have to outlive it.
class ZEROTRIE_VIEW Stream {
public:
    /// The pairs of a trie whose keys a search finds, in the order of bytes.
    Stream(Kind kind, Bytes bytes ZEROTRIE_LIFETIMEBOUND, Search what)
        : kind_(kind), bytes_(bytes), what_(std::move(what)) {}
    /// The pairs of a trie whose keys begin with a prefix, in the order of its bytes.
    Stream(Kind kind, Bytes bytes ZEROTRIE_LIFETIMEBOUND, std::string_view prefix)
        : Stream(kind, bytes, Search::stored_within(prefix)) {}
    /// The first pair.
    [[nodiscard]] StreamIterator begin() const { return StreamIterator(kind_, bytes_, what_); }
    /// After the last.
    [[nodiscard]] StreamIterator end() const noexcept { return {}; }

private:
    friend class Range;
    Kind kind_;
    Bytes bytes_;
    Search what_;
};

/// The pairs between two bounds in the order of bytes: a Stream that can be reversed, also as
/// `range | std::views::reverse`.
class ZEROTRIE_VIEW Range : public Stream {
public:
    /// @cond
    using Stream::Stream;
    /// @endcond
    /// The same pairs from the last one on. Each costs about two look-ups.
    [[nodiscard]] Stream reversed() const { return Stream(kind_, bytes_, what_.down()); }
};

/// @cond
namespace detail {
// An iterator over the keys of pairs, or over their values.
template <bool Key> class PartIterator {
public:
    using iterator_category = std::input_iterator_tag;
    using value_type = std::conditional_t<Key, std::string, size_t>;
    using difference_type = std::ptrdiff_t;
    using reference = std::conditional_t<Key, std::string_view, size_t>;
    using pointer = Pointer<reference>;
    PartIterator() noexcept = default;
    explicit PartIterator(StreamIterator at) noexcept : at_(std::move(at)) {}
    reference operator*() const noexcept {
        const StreamEntry pair = *at_;
        if constexpr (Key)
            return pair.first;
        else
            return pair.second;
    }
    pointer operator->() const noexcept { return {**this}; }
    PartIterator &operator++() { return ++at_, *this; }
    void operator++(int) { ++at_; }
    friend bool operator==(const PartIterator &a, const PartIterator &b) noexcept {
        return a.at_ == b.at_;
    }
    friend bool operator!=(const PartIterator &a, const PartIterator &b) noexcept {
        return !(a == b);
    }

private:
    StreamIterator at_;
};
template <bool Key> class ZEROTRIE_VIEW PartStream {
public:
    using iterator = PartIterator<Key>;
    explicit PartStream(Stream pairs) : pairs_(std::move(pairs)) {}
    [[nodiscard]] iterator begin() const { return iterator(pairs_.begin()); }
    [[nodiscard]] iterator end() const noexcept { return {}; }

private:
    Stream pairs_;
};
} // namespace detail
/// @endcond

/// The keys of a Stream, as a range of std::string_view, each of which is valid until the iterator is
/// moved on.
using Keys = detail::PartStream<true>;

/// The values of a Stream, as a range.
using Values = detail::PartStream<false>;

/// A pair whose key few edits make of a word.
struct Near {
    std::string key; ///< the key
    size_t value;    ///< its value
    size_t distance; ///< how many edits make the key of the word
};

/// A trie over bytes that are elsewhere, which have to outlive it. It is a range of its pairs.
class ZEROTRIE_VIEW Trie {
public:
    /// @cond
    using value_type = StreamIterator::value_type;
    using iterator = StreamIterator;
    using const_iterator = StreamIterator;
    /// @endcond
    /// Without keys.
    constexpr Trie() noexcept = default;
    /// The bytes are not validated; if they are malformed, the result of each call is unspecified.
    constexpr Trie(Kind kind, Bytes bytes ZEROTRIE_LIFETIMEBOUND) noexcept
        : kind_(kind), bytes_(bytes.view()) {}
    /// Validates the bytes. nullopt: they are no trie of the kind.
    [[nodiscard]] static std::optional<Trie> checked(Kind kind,
                                                     Bytes bytes ZEROTRIE_LIFETIMEBOUND) noexcept {
        const auto at = detail::of(bytes.view());
        if (!zerotrie_is_well_formed(static_cast<uint32_t>(kind), at.ptr, at.len))
            return std::nullopt;
        return Trie(kind, bytes);
    }
    /// Validates the bytes. Throws Error with the place where they are malformed.
    [[nodiscard]] static Trie valid(Kind kind, Bytes bytes ZEROTRIE_LIFETIMEBOUND) {
        const Trie made(kind, bytes);
        if (const auto fault = made.first_fault()) detail::refuse(Error(*fault));
        return made;
    }
    /// Of tagged bytes, which say their kind; they are validated. nullopt: they have no tag of a
    /// kind, or are no trie of it.
    [[nodiscard]] static std::optional<Trie> from_tagged(
        Bytes tagged ZEROTRIE_LIFETIMEBOUND) noexcept {
        const auto at = detail::of(tagged.view());
        uint32_t kind;
        if (zerotrie_tagged_kind(at.ptr, at.len, &kind) != ZEROTRIE_DONE) return std::nullopt;
        return checked(static_cast<Kind>(kind), tagged.view().substr(1));
    }
    /// Of a file that is sealed or tagged. Throws Error if a sealed one is damaged, or if tagged
    /// bytes are malformed. Those of a sealed file are those that were sealed, and not validated.
    [[nodiscard]] static Trie open(Bytes file ZEROTRIE_LIFETIMEBOUND) {
        const auto at = detail::of(file.view());
        uint32_t kind = 0;
        size_t from = 0, len = 0;
        detail::check(zerotrie_open(at.ptr, at.len, &kind, &from, &len));
        const Bytes bytes = file.view().substr(from, len);
        return from == ZEROTRIE_SEAL_LEN ? Trie(static_cast<Kind>(kind), bytes)
                                         : valid(static_cast<Kind>(kind), bytes);
    }
    /// Where the bytes are malformed. nullopt: they are valid.
    [[nodiscard]] std::optional<Fault> first_fault() const {
        const auto at = detail::of(bytes_);
        size_t place = 0;
        const zerotrie_fault cause = zerotrie_first_fault(number(), at.ptr, at.len, &place);
        if (cause == ZEROTRIE_FAULT_UNKNOWN) detail::refuse(std::bad_alloc());
        if (cause == ZEROTRIE_NO_FAULT) return std::nullopt;
        return Fault{cause, place};
    }
    /// The kind.
    [[nodiscard]] constexpr Kind kind() const noexcept { return kind_; }
    /// The bytes.
    [[nodiscard]] constexpr std::string_view bytes() const noexcept { return bytes_; }
    /// The value of the key. nullopt: the trie does not have it.
    [[nodiscard]] std::optional<size_t> get(std::string_view key) const noexcept {
        const auto at = detail::of(bytes_), k = detail::of(key);
        size_t value = 0;
        if (!zerotrie_get(number(), at.ptr, at.len, k.ptr, k.len, &value)) return std::nullopt;
        return value;
    }
    /// Whether the trie has the key.
    [[nodiscard]] bool contains(std::string_view key) const noexcept {
        return get(key).has_value();
    }
    /// How many pairs have the key: 1 or 0.
    [[nodiscard]] size_t count(std::string_view key) const noexcept { return contains(key); }
    /// The pair of the key, or end(). ++ continues with the keys that begin with it.
    [[nodiscard]] StreamIterator find(std::string_view key) const {
        return contains(key) ? begin(key) : end();
    }
    /// The values of a range of keys, each of which makes a std::string_view, in its order, and
    /// `missing` for a key that the trie does not have. It copies the keys.
    template <class Keys = std::initializer_list<std::string_view>>
    [[nodiscard]] std::vector<size_t> get_many(Keys &&keys, size_t missing) const {
        const auto at = detail::of(bytes_);
        return detail::values_of(
            keys, [&](zerotrie_bytes texts, const size_t *ends, size_t *values, size_t count) {
                return zerotrie_get_many(number(), at.ptr, at.len, texts.ptr, texts.len, ends,
                                         count, missing, values, count);
            });
    }
    /// The longest key that the text begins with, as a view into the text, and its value. nullopt:
    /// it begins with no key.
    [[nodiscard]] std::optional<Entry> longest_prefix(
        std::string_view text ZEROTRIE_LIFETIMEBOUND) const noexcept {
        const auto at = detail::of(bytes_), t = detail::of(text);
        size_t len = 0, value = 0;
        if (!zerotrie_longest_prefix(number(), at.ptr, at.len, t.ptr, t.len, &len, &value))
            return std::nullopt;
        return Entry(text.substr(0, len), value);
    }
    template <class T, class = detail::Passing<T>>
    std::optional<Entry> longest_prefix(T &&) const = delete;
    template <class T> std::optional<Entry> longest_prefix(std::initializer_list<T>) const = delete;
    /// The longest key that the text begins with and after which the text ends or continues with
    /// one of the delimiters, as a view into the text, and its value. nullopt: there is none. The
    /// empty key counts whatever follows.
    [[nodiscard]] std::optional<Entry> longest_prefix_at(
        std::string_view text ZEROTRIE_LIFETIMEBOUND, std::string_view delimiters) const noexcept {
        const auto at = detail::of(bytes_), t = detail::of(text), d = detail::of(delimiters);
        size_t len = 0, value = 0;
        if (!zerotrie_longest_prefix_at(number(), at.ptr, at.len, t.ptr, t.len, d.ptr, d.len, &len,
                                        &value))
            return std::nullopt;
        return Entry(text.substr(0, len), value);
    }
    template <class T, class = detail::Passing<T>>
    std::optional<Entry> longest_prefix_at(T &&, std::string_view) const = delete;
    /// All keys that the text begins with, as views into the text, the shortest first, and their
    /// values.
    [[nodiscard]] std::vector<Entry> common_prefixes(
        std::string_view text ZEROTRIE_LIFETIMEBOUND) const {
        const auto at = detail::of(bytes_), t = detail::of(text);
        std::vector<size_t> lens(16), values(16);
        size_t count = 0;
        for (int turn = 0; turn < 2; turn++) {
            count = zerotrie_common_prefixes(number(), at.ptr, at.len, t.ptr, t.len, lens.data(),
                                             lens.size(), values.data(), values.size());
            if (count <= lens.size()) break;
            lens.resize(count), values.resize(count);
        }
        std::vector<Entry> found;
        for (size_t i = 0; i < count; i++) found.emplace_back(text.substr(0, lens[i]), values[i]);
        return found;
    }
    template <class T, class = detail::Passing<T>>
    std::vector<Entry> common_prefixes(T &&) const = delete;
    template <class T> std::vector<Entry> common_prefixes(std::initializer_list<T>) const = delete;
    /// A cursor before all keys.
    [[nodiscard]] Cursor cursor() const noexcept { return Cursor(kind_, bytes_); }
    /// A cursor after a prefix. nullopt: no key begins with it.
    [[nodiscard]] std::optional<Cursor> with_prefix(std::string_view prefix) const noexcept {
        const auto at = detail::of(bytes_), p = detail::of(prefix);
        const auto cursor = zerotrie_with_prefix(number(), at.ptr, at.len, p.ptr, p.len);
        if (zerotrie_cursor_is_empty(cursor)) return std::nullopt;
        return Cursor(cursor, kind_, bytes_);
    }
    /// The first pair whose key begins with a prefix. It lists a part of the pairs at a time.
    [[nodiscard]] StreamIterator begin(std::string_view prefix = {}) const {
        return StreamIterator(kind_, bytes_, prefix);
    }
    /// After the last pair.
    [[nodiscard]] StreamIterator end() const noexcept { return {}; }
    /// The pairs whose keys begin with a prefix, in the order of the trie's bytes, as a range that lists
    /// a part of them at a time.
    [[nodiscard]] Stream stream(std::string_view prefix = {}) const {
        return Stream(kind_, bytes_, prefix);
    }
    /// The keys of stream().
    [[nodiscard]] Keys keys(std::string_view prefix = {}) const { return Keys(stream(prefix)); }
    /// The values of stream().
    [[nodiscard]] Values values(std::string_view prefix = {}) const {
        return Values(stream(prefix));
    }
    /// The pairs whose keys a search finds, in the order of bytes in every kind, as a range that lists a
    /// part of them at a time.
    [[nodiscard]] Stream search(Search what) const {
        return Stream(kind_, bytes_, std::move(what));
    }
    /// The pairs whose keys are from one on and below another one, in the order of bytes in every
    /// kind, a part at a time. nullopt: there is no bound on this side. In Kind::IgnoreCase bytes are
    /// compared as they are stored, and search() of a Search::range() ignores case.
    [[nodiscard]] Range range(std::optional<std::string_view> from,
                              std::optional<std::string_view> below = std::nullopt) const {
        return Range(kind_, bytes_, Search::range(from, below).sorted());
    }
    /// The pairs whose keys begin with a prefix, as they are stored, in the order of bytes in every
    /// kind, a part at a time.
    [[nodiscard]] Range sorted(std::string_view prefix = {}) const {
        return Range(kind_, bytes_, Search::sorted_within(prefix));
    }
    /// The pairs of range() from the last one on, so that the first N are the N last ones. Each costs
    /// about two look-ups.
    [[nodiscard]] Stream reversed(std::optional<std::string_view> from = std::nullopt,
                                  std::optional<std::string_view> below = std::nullopt) const {
        return search(Search::range(from, below).down());
    }
    /// The first pair, in the order of bytes, whose key is not below this one. ++ continues in that
    /// order, up to end().
    [[nodiscard]] StreamIterator lower_bound(std::string_view key) const {
        return StreamIterator(kind_, bytes_, Search::range(key, std::nullopt).sorted());
    }
    /// The last pair, in the order of bytes, and its key as a std::string. nullopt: there is none.
    [[nodiscard]] std::optional<std::pair<std::string, size_t>> last() const {
        return last_within(ZEROTRIE_UNBOUNDED, {});
    }
    /// The last pair, in the order of bytes, whose key is before this one.
    [[nodiscard]] std::optional<std::pair<std::string, size_t>>
    last_before(std::string_view key) const {
        return last_within(ZEROTRIE_EXCLUDED, key);
    }
    /// The last pair, in the order of bytes, whose key is this one or before it.
    [[nodiscard]] std::optional<std::pair<std::string, size_t>>
    last_up_to(std::string_view key) const {
        return last_within(ZEROTRIE_INCLUDED, key);
    }
    /// The first key, in the order of the trie's bytes, that has this value. nullopt: no key has
    /// it. It reads the pairs up to that key; a Reverse does not.
    [[nodiscard]] std::optional<std::string> first_key_of(size_t value) const {
        const auto at = detail::of(bytes_);
        return detail::found([&](uint8_t *key, size_t room, size_t *len) {
            return zerotrie_first_key_of(number(), at.ptr, at.len, value, key, room, len);
        });
    }
    /// The first pair, in the order of bytes, whose key is after this one.
    [[nodiscard]] StreamIterator upper_bound(std::string_view key) const {
        return StreamIterator(kind_, bytes_, Search::after(key));
    }
    /// See Search::glob().
    [[nodiscard]] Stream glob(std::string_view pattern) const {
        return search(Search::glob(pattern));
    }
    /// See Search::fuzzy().
    [[nodiscard]] Stream fuzzy(std::string_view word, uint32_t edits = 1) const {
        return search(Search::fuzzy(word, edits));
    }
    /// The pairs whose keys at most so many edits make of a word in UTF-8, the nearest first, and those
    /// that are as near in the order of bytes: at most `most` of them. Edits are of characters, and
    /// neighbours that change places are one. In Kind::IgnoreCase letters are compared in lower case.
    /// Throws Error if the word is not UTF-8 or has more than 63 characters, or for more than 7 edits.
    [[nodiscard]] std::vector<Near> nearest(std::string_view word, uint32_t edits = 2,
                                            size_t most = 10) const {
        const auto at = detail::of(bytes_), w = detail::of(word);
        std::string keys(256, '\0');
        size_t count = 0, next_len = 0;
        // no more pairs than bytes have so few edits
        const size_t places = std::min(most, 8 * bytes_.size());
        std::vector<size_t> ends(places), values(places), distances(places);
        for (uint32_t status = ZEROTRIE_BUFFER_TOO_SMALL;;) {
            status = zerotrie_nearest(number(), at.ptr, at.len, ZEROTRIE_BY_CHAR_SWAPS, w.ptr, w.len,
                                      edits, detail::room(keys), keys.size(), ends.data(), places,
                                      values.data(), places, distances.data(), places, &count,
                                      &next_len);
            if (status != ZEROTRIE_BUFFER_TOO_SMALL) detail::check(status);
            if (status == ZEROTRIE_DONE || count == places) break;
            keys.resize(2 * keys.size() + next_len);
        }
        std::vector<Near> found;
        for (size_t i = 0; i < count; i++) {
            const size_t from = i == 0 ? 0 : ends[i - 1];
            found.push_back({keys.substr(from, ends[i] - from), values[i], distances[i]});
        }
        return found;
    }
    /// The pairs, or those whose keys begin with a prefix, all listed at once.
    [[nodiscard]] Items items(std::string_view prefix = {}) const {
        return Items(kind_, bytes_, prefix);
    }
    /// The number of pairs. It lists them.
    [[nodiscard]] size_t size() const {
        size_t count = 0;
        for (detail::Parts parts(kind_, bytes_, Search::stored_within({})); parts.next();)
            count += parts.size();
        return count;
    }
    /// Whether there is no pair.
    [[nodiscard]] bool empty() const noexcept { return bytes_.empty(); }
    /// Calls each(key, value) for these pairs in their order, until it returns false, if it returns
    /// a bool. They are listed a part at a time; a key is a view for the call alone. Returns
    /// whether no call returned false.
    template <class Each> bool for_each(Each &&each, std::string_view prefix = {}) const {
        for (detail::Parts parts(kind_, bytes_, Search::stored_within(prefix), 256);
             parts.next();) {
            for (size_t i = 0; i < parts.size(); i++) {
                const auto [key, value] = parts[i];
                if constexpr (std::is_same_v<decltype(each(key, value)), bool>) {
                    if (!each(key, value)) return false;
                } else {
                    each(key, value);
                }
            }
        }
        return true;
    }
    /// Whether kinds and bytes are the same. Well-formed tries of an ASCII kind are so exactly if
    /// their pairs are.
    friend constexpr bool operator==(const Trie &a, const Trie &b) noexcept {
        return a.kind_ == b.kind_ && a.bytes_ == b.bytes_;
    }
    /// The contrary.
    friend constexpr bool operator!=(const Trie &a, const Trie &b) noexcept { return !(a == b); }

private:
    uint32_t number() const noexcept { return static_cast<uint32_t>(kind_); }
    std::optional<std::pair<std::string, size_t>> last_within(zerotrie_bound bound,
                                                              std::string_view below) const {
        const auto at = detail::of(bytes_), to = detail::of(below);
        size_t value = 0;
        auto key = detail::found([&](uint8_t *out, size_t room, size_t *len) {
            return zerotrie_last_within(number(), at.ptr, at.len, ZEROTRIE_UNBOUNDED, at.ptr, 0,
                                        bound, to.ptr, to.len, out, room, len, &value);
        });
        if (!key) return std::nullopt;
        return std::pair(*std::move(key), value);
    }
    Kind kind_ = Kind::SimpleAscii;
    std::string_view bytes_;
};

/// The first key of each value of a trie, which has to outlive it: a table of four bytes for each
/// pair. It can be kept, as in a file, for the same bytes.
///
///     const Reverse names(trie);
///     names.get(3); // the first key that has the value 3
class ZEROTRIE_VIEW Reverse {
public:
    /// Makes the table. It lists all pairs, and sorts the places of their values.
    explicit Reverse(const Trie &trie ZEROTRIE_LIFETIMEBOUND) : trie_(trie) {
        const auto at = detail::of(trie_.bytes());
        size_t count = 16;
        uint32_t status = ZEROTRIE_BUFFER_TOO_SMALL;
        for (int turn = 0; turn < 2 && status == ZEROTRIE_BUFFER_TOO_SMALL; turn++) {
            places_.resize(count);
            status = zerotrie_reverse_places(number(), at.ptr, at.len, places_.data(),
                                             places_.size(), &count);
        }
        detail::check(status);
        places_.resize(count);
        places_.shrink_to_fit();
    }
    /// Takes the table that places() of another one of the same bytes returned. Of other places the
    /// keys are unspecified.
    Reverse(const Trie &trie ZEROTRIE_LIFETIMEBOUND, std::vector<uint32_t> places)
        : trie_(trie), places_(std::move(places)) {}
    /// The first key, in the order of the trie's bytes, that has this value. nullopt: no key has it.
    [[nodiscard]] std::optional<std::string> get(size_t value) const {
        const auto at = detail::of(trie_.bytes());
        return detail::found([&](uint8_t *key, size_t room, size_t *len) {
            return zerotrie_reverse_key(number(), at.ptr, at.len, places_.data(), places_.size(),
                                        value, key, room, len);
        });
    }
    /// Whether a key has this value.
    [[nodiscard]] bool contains(size_t value) const { return get(value).has_value(); }
    /// The table. Empty: the trie has no pairs, or 4 GiB or more, and get() reads the pairs.
    [[nodiscard]] const std::vector<uint32_t> &places() const noexcept { return places_; }

private:
    uint32_t number() const noexcept { return static_cast<uint32_t>(trie_.kind()); }
    Trie trie_;
    std::vector<uint32_t> places_;
};

/// A key that changed from one trie to another.
struct Change {
    std::string key;              ///< the key
    std::optional<size_t> before; ///< its value in the first trie; nullopt: the key was added
    std::optional<size_t> after;  ///< its value in the second trie; nullopt: the key was removed
};

/// What changed from one trie to another, as a range of Change in the order of bytes, whatever the
/// kinds are; diff() makes one. It lists a part at a time, for each of which both tries are validated.
/// The bytes of both have to outlive it.
class ZEROTRIE_VIEW Diff {
public:
    /// @cond
    class iterator {
    public:
        using iterator_category = std::input_iterator_tag;
        using value_type = Change;
        using difference_type = std::ptrdiff_t;
        using reference = Change;
        struct pointer {
            Change change;
            const Change *operator->() const noexcept { return &change; }
        };
        iterator() noexcept = default;
        explicit iterator(const Diff &diff) : parts_(std::make_shared<Parts>(diff)) { next_part(); }
        Change operator*() const {
            const auto &it = parts_->changes[at_];
            const size_t from = at_ == 0 ? 0 : parts_->changes[at_ - 1].key_end;
            Change made{parts_->keys.substr(from, it.key_end - from), {}, {}};
            if (it.how != ZEROTRIE_ADDED) made.before = it.before;
            if (it.how != ZEROTRIE_REMOVED) made.after = it.after;
            return made;
        }
        pointer operator->() const { return {**this}; }
        iterator &operator++() {
            if (++at_ == parts_->count) next_part();
            return *this;
        }
        void operator++(int) { ++*this; }
        friend bool operator==(const iterator &a, const iterator &b) noexcept {
            return a.parts_ == b.parts_;
        }
        friend bool operator!=(const iterator &a, const iterator &b) noexcept { return !(a == b); }

    private:
        struct Parts {
            explicit Parts(const Diff &diff)
                : first(diff.first_), second(diff.second_), from(diff.from_), to(diff.below_) {}
            // Goes on to the next part, of twice the room of the one before. false: none is left.
            bool next() {
                while (status == ZEROTRIE_BUFFER_TOO_SMALL) {
                    keys.resize(room), changes.resize(room / 16 + 1);
                    const auto lower = text_of(from), upper = text_of(to);
                    const zerotrie_bound from_bound = goes_on ? ZEROTRIE_EXCLUDED
                                                      : from  ? ZEROTRIE_INCLUDED
                                                              : ZEROTRIE_UNBOUNDED;
                    const zerotrie_trie one = raw(first), other = raw(second);
                    size_t next_len = 0;
                    status = zerotrie_diff_some(
                        &one, &other, from_bound, lower.ptr, lower.len,
                        to ? ZEROTRIE_EXCLUDED : ZEROTRIE_UNBOUNDED, upper.ptr, upper.len,
                        detail::room(keys), room, changes.data(), changes.size(), &count, &next_len);
                    if (status != ZEROTRIE_BUFFER_TOO_SMALL) detail::check(status);
                    room = std::max(std::min<size_t>(4 * room, 1 << 22), next_len);
                    if (count == 0) continue;
                    const size_t begin = count == 1 ? 0 : changes[count - 2].key_end;
                    from = keys.substr(begin, changes[count - 1].key_end - begin);
                    goes_on = true;
                    return true;
                }
                return false;
            }
            static zerotrie_bytes text_of(const std::optional<std::string> &text) noexcept {
                return detail::of(text ? std::string_view(*text) : std::string_view());
            }
            static zerotrie_trie raw(const Trie &trie) noexcept {
                const auto at = detail::of(trie.bytes());
                return zerotrie_trie_of(static_cast<zerotrie_kind>(trie.kind()), at.ptr, at.len);
            }
            Trie first, second;
            std::optional<std::string> from, to;
            uint32_t status = ZEROTRIE_BUFFER_TOO_SMALL;
            size_t room = 1 << 14, count = 0;
            bool goes_on = false;
            std::string keys;
            std::vector<zerotrie_change> changes;
        };
        void next_part() {
            at_ = 0;
            if (!parts_->next()) parts_.reset();
        }
        std::shared_ptr<Parts> parts_;
        size_t at_ = 0;
    };
    using const_iterator = iterator;
    using value_type = Change;
    /// @endcond
    /// What changed between two bounds, as those of Trie::range().
    Diff(const Trie &first ZEROTRIE_LIFETIMEBOUND, const Trie &second ZEROTRIE_LIFETIMEBOUND,
         std::optional<std::string_view> from = std::nullopt,
         std::optional<std::string_view> below = std::nullopt)
        : first_(first), second_(second), from_(from), below_(below) {}
    /// The first change. Throws Error if the bytes of a trie are malformed, as each step does.
    [[nodiscard]] iterator begin() const { return iterator(*this); }
    /// After the last.
    [[nodiscard]] iterator end() const noexcept { return {}; }

private:
    Trie first_, second_;
    std::optional<std::string> from_, below_;
};

/// What changed from one trie to another.
///
///     for (const auto [key, before, after] : diff(old, fresh))
///         if (!before) added(key, *after);
[[nodiscard]] inline Diff diff(const Trie &first ZEROTRIE_LIFETIMEBOUND,
                               const Trie &second ZEROTRIE_LIFETIMEBOUND) {
    return Diff(first, second);
}

/// A pair that is written into a call, as in build(kind, {{"foo", 1}, {"bar", 2}}).
struct Pair {
    /// Of a key and a value.
    template <class Value>
    Pair(std::string_view k, Value v)
        : key(k), value(detail::number_of(v, [&] { return detail::shown(detail::of(k)); })) {}
    std::string_view key; ///< the key
    size_t value;         ///< its value
};
/// Pairs that are written into a call.
using PairList = std::initializer_list<Pair>;

/// The bytes of the trie of pairs in any order: of a map, another range or a list whose elements
/// have a key, which makes a std::string_view, and a value.
template <class Pairs = PairList> [[nodiscard]] std::string build(Kind kind, Pairs &&pairs) {
    const detail::Pairs list(pairs);
    return detail::written(
        list.most_bytes(),
        [&](uint8_t *out, size_t room, size_t *len) {
            return zerotrie_build(static_cast<uint32_t>(kind), list.data(), list.size(), out, room,
                                  len);
        },
        [&](uint32_t status) { list.check(kind, status); });
}

/// The same of pairs whose keys already ascend by their bytes, as those of a std::map of
/// std::string: nothing is sorted. It is an error if they don't.
template <class Pairs = PairList> [[nodiscard]] std::string build_sorted(Kind kind, Pairs &&pairs) {
    const detail::Pairs list(pairs);
    return detail::written(
        list.most_bytes(),
        [&](uint8_t *out, size_t room, size_t *len) {
            return zerotrie_build_sorted(static_cast<uint32_t>(kind), list.data(), list.size(), out,
                                         room, len);
        },
        [&](uint32_t status) { list.check(kind, status); });
}

/// The number of bytes that build_sorted() of these pairs makes. It builds nothing.
template <class Pairs = PairList> [[nodiscard]] size_t encoded_len(Kind kind, Pairs &&pairs) {
    const detail::Pairs list(pairs);
    size_t len = 0;
    list.check(kind,
               zerotrie_encoded_len(static_cast<uint32_t>(kind), list.data(), list.size(), &len));
    return len;
}

/// The kind for pairs if you have no wish: SimpleAscii if all keys are ASCII and there are fewer
/// than 512, else PerfectHash.
template <class Pairs = PairList> [[nodiscard]] Kind auto_kind(Pairs &&pairs) {
    const detail::Pairs list(pairs);
    return static_cast<Kind>(zerotrie_auto_kind(list.data(), list.size()));
}

/// Tagged bytes: the number of the kind, and then the bytes.
[[nodiscard]] inline std::string tagged(Kind kind, Bytes bytes) {
    const auto at = detail::of(bytes.view());
    return detail::written(
        at.len + 1,
        [&](uint8_t *out, size_t room, size_t *len) {
            return zerotrie_tagged(static_cast<uint32_t>(kind), at.ptr, at.len, out, room, len);
        },
        detail::check);
}

/// A sealed file: the kind, the length and a checksum, and then the bytes. Trie::open() reads it.
[[nodiscard]] inline std::string seal(Kind kind, Bytes bytes) {
    const auto at = detail::of(bytes.view());
    return detail::written(
        at.len + ZEROTRIE_SEAL_LEN,
        [&](uint8_t *out, size_t room, size_t *len) {
            return zerotrie_seal(static_cast<uint32_t>(kind), at.ptr, at.len, out, room, len);
        },
        detail::check);
}

/// A trie that owns its bytes. It is a range of its pairs.
class Map {
public:
    /// @cond
    using value_type = StreamIterator::value_type;
    using iterator = StreamIterator;
    using const_iterator = StreamIterator;
    /// @endcond
    /// Without keys.
    Map() noexcept = default;
    /// Copies the bytes.
    Map(const Map &) = default;
    /// Leaves the other map without keys.
    Map(Map &&other) noexcept
        : kind_(other.kind_), bytes_(std::exchange(other.bytes_, {})),
          size_(std::exchange(other.size_, 0)) {}
    /// Copies the bytes.
    Map &operator=(const Map &) = default;
    /// Leaves the other map without keys.
    Map &operator=(Map &&other) noexcept {
        kind_ = other.kind_;
        bytes_ = std::exchange(other.bytes_, {});
        size_ = std::exchange(other.size_, 0);
        return *this;
    }
    ~Map() = default;
    /// Of pairs in any order, as build() takes them, in the kind that suits them.
    template <class Pairs, class = std::enable_if_t<!std::is_same_v<detail::Bare<Pairs>, Map>>>
    explicit Map(Pairs &&pairs) : Map(auto_kind(pairs), pairs) {}
    /// Of a list of pairs, in the kind that suits them.
    Map(PairList pairs) : Map(auto_kind(pairs), pairs) {}
    /// Of pairs in any order, in this kind.
    template <class Pairs = PairList>
    Map(Kind kind, Pairs &&pairs) : kind_(kind), bytes_(build(kind, pairs)), size_(trie().size()) {}
    /// Of the bytes of a trie, which are validated. Throws Error with the place where they are
    /// malformed.
    [[nodiscard]] static Map from_bytes(Kind kind, std::string bytes) {
        Map made;
        made.size_ = Trie::valid(kind, bytes).size();
        made.kind_ = kind;
        made.bytes_ = std::move(bytes);
        return made;
    }
    /// Of tagged bytes, which say their kind; they are validated. Throws Error.
    [[nodiscard]] static Map from_tagged(std::string_view tagged) {
        const auto at = detail::of(tagged);
        uint32_t kind = 0;
        detail::check(zerotrie_tagged_kind(at.ptr, at.len, &kind));
        return from_bytes(static_cast<Kind>(kind), std::string(tagged.substr(1)));
    }
    /// Of the keys of any of the tries, in this kind. The tries are a range of Trie or of Map, whose
    /// keys are compared as they are stored. Throws Error if bytes are malformed, and for keys that
    /// the kind or the rule refuses.
    ///
    ///     const Map all = Map::union_of(Kind::PerfectHash, {a.trie(), b.trie()}, Rule::Sum);
    template <class Tries = std::initializer_list<Trie>>
    [[nodiscard]] static Map union_of(Kind kind, const Tries &tries, Rule rule = Rule::Last) {
        return combined(ZEROTRIE_UNION, rule, kind, tries);
    }
    /// Of the keys that every trie has; else like union_of().
    template <class Tries = std::initializer_list<Trie>>
    [[nodiscard]] static Map intersection_of(Kind kind, const Tries &tries, Rule rule = Rule::First) {
        return combined(ZEROTRIE_INTERSECTION, rule, kind, tries);
    }
    /// Of the keys that the first trie has, and no other; else like union_of().
    template <class Tries = std::initializer_list<Trie>>
    [[nodiscard]] static Map difference_of(Kind kind, const Tries &tries) {
        return combined(ZEROTRIE_DIFFERENCE, Rule::First, kind, tries);
    }
    /// Of the keys that an odd number of tries has, as of two tries one alone; else like union_of().
    template <class Tries = std::initializer_list<Trie>>
    [[nodiscard]] static Map symmetric_difference_of(Kind kind, const Tries &tries,
                                                     Rule rule = Rule::Last) {
        return combined(ZEROTRIE_SYMMETRIC_DIFFERENCE, rule, kind, tries);
    }
    /// Of the bytes of a file that is sealed or tagged. Throws Error, as Trie::open().
    [[nodiscard]] static Map open(std::string_view file) {
        const Trie opened = Trie::open(file);
        Map made;
        made.kind_ = opened.kind();
        made.bytes_ = opened.bytes();
        made.size_ = opened.size();
        return made;
    }
    /// Of the file of this path, as open(). Throws std::system_error if it can't be read.
    [[nodiscard]] static Map load(const std::string &path) {
        return open(detail::read_file(path));
    }
    /// Writes a sealed file under a new name, with ".new" after its path, and replaces the file of the
    /// path by it at once, which keeps its permissions. A link stays, and the file that it leads to is
    /// replaced. A device or a pipe is written in place. Throws std::system_error, and then the old
    /// file is as it was.
    void save(const std::string &path) const { detail::save_file(path, seal()); }
    /// A sealed file.
    [[nodiscard]] std::string seal() const { return zerotrie::seal(kind_, bytes_); }
    /// See Trie::first_fault().
    [[nodiscard]] std::optional<Fault> first_fault() const { return trie().first_fault(); }
    /// Tagged bytes, for a file.
    [[nodiscard]] std::string tagged() const { return zerotrie::tagged(kind_, bytes_); }
    /// The trie as a view.
    [[nodiscard]] Trie trie() const &noexcept ZEROTRIE_LIFETIMEBOUND { return Trie(kind_, bytes_); }
    Trie trie() const && = delete;
    /// The kind.
    [[nodiscard]] Kind kind() const noexcept { return kind_; }
    /// The bytes, without a tag.
    [[nodiscard]] const std::string &bytes() const &noexcept ZEROTRIE_LIFETIMEBOUND {
        return bytes_;
    }
    /// The bytes, without a tag.
    [[nodiscard]] std::string bytes() &&noexcept { return size_ = 0, std::exchange(bytes_, {}); }
    /// The value of the key. nullopt: the map does not have it.
    [[nodiscard]] std::optional<size_t> get(std::string_view key) const noexcept {
        return trie().get(key);
    }
    /// Whether the map has the key.
    [[nodiscard]] bool contains(std::string_view key) const noexcept {
        return trie().contains(key);
    }
    /// How many pairs have the key: 1 or 0.
    [[nodiscard]] size_t count(std::string_view key) const noexcept { return contains(key); }
    /// See Trie::find().
    [[nodiscard]] StreamIterator find(std::string_view key) const &ZEROTRIE_LIFETIMEBOUND {
        return trie().find(key);
    }
    /// See Trie::get_many().
    template <class Keys = std::initializer_list<std::string_view>>
    [[nodiscard]] std::vector<size_t> get_many(Keys &&keys, size_t missing) const {
        return trie().get_many(keys, missing);
    }
    /// The value of the key. Throws std::out_of_range if the map does not have it.
    [[nodiscard]] size_t at(std::string_view key) const {
        const auto value = get(key);
        if (!value)
            detail::refuse(std::out_of_range("the map does not have the key " +
                                             detail::shown(detail::of(key))));
        return *value;
    }
    /// See Trie::longest_prefix().
    [[nodiscard]] std::optional<Entry> longest_prefix(
        std::string_view text ZEROTRIE_LIFETIMEBOUND) const noexcept {
        return trie().longest_prefix(text);
    }
    template <class T, class = detail::Passing<T>>
    std::optional<Entry> longest_prefix(T &&) const = delete;
    /// See Trie::longest_prefix_at().
    [[nodiscard]] std::optional<Entry> longest_prefix_at(
        std::string_view text ZEROTRIE_LIFETIMEBOUND, std::string_view delimiters) const noexcept {
        return trie().longest_prefix_at(text, delimiters);
    }
    template <class T, class = detail::Passing<T>>
    std::optional<Entry> longest_prefix_at(T &&, std::string_view) const = delete;
    /// See Trie::common_prefixes().
    [[nodiscard]] std::vector<Entry> common_prefixes(
        std::string_view text ZEROTRIE_LIFETIMEBOUND) const {
        return trie().common_prefixes(text);
    }
    template <class T, class = detail::Passing<T>>
    std::vector<Entry> common_prefixes(T &&) const = delete;
    /// See Trie::begin().
    [[nodiscard]] StreamIterator begin(std::string_view prefix = {}) const &ZEROTRIE_LIFETIMEBOUND {
        return trie().begin(prefix);
    }
    /// After the last pair.
    [[nodiscard]] StreamIterator end() const noexcept { return {}; }
    /// See Trie::stream().
    [[nodiscard]] Stream stream(std::string_view prefix = {}) const &ZEROTRIE_LIFETIMEBOUND {
        return trie().stream(prefix);
    }
    Stream stream(std::string_view prefix = {}) const && = delete;
    /// See Trie::keys().
    [[nodiscard]] Keys keys(std::string_view prefix = {}) const &ZEROTRIE_LIFETIMEBOUND {
        return trie().keys(prefix);
    }
    Keys keys(std::string_view prefix = {}) const && = delete;
    /// See Trie::values().
    [[nodiscard]] Values values(std::string_view prefix = {}) const &ZEROTRIE_LIFETIMEBOUND {
        return trie().values(prefix);
    }
    Values values(std::string_view prefix = {}) const && = delete;
    /// See Trie::search().
    [[nodiscard]] Stream search(Search what) const &ZEROTRIE_LIFETIMEBOUND {
        return trie().search(std::move(what));
    }
    Stream search(Search what) const && = delete;
    /// See Trie::range().
    [[nodiscard]] Range range(
        std::optional<std::string_view> from,
        std::optional<std::string_view> below = std::nullopt) const &ZEROTRIE_LIFETIMEBOUND {
        return trie().range(from, below);
    }
    Range range(std::optional<std::string_view> from,
                std::optional<std::string_view> below = std::nullopt) const && = delete;
    /// See Trie::sorted().
    [[nodiscard]] Range sorted(std::string_view prefix = {}) const &ZEROTRIE_LIFETIMEBOUND {
        return trie().sorted(prefix);
    }
    Range sorted(std::string_view prefix = {}) const && = delete;
    /// See Trie::reversed().
    [[nodiscard]] Stream reversed(
        std::optional<std::string_view> from = std::nullopt,
        std::optional<std::string_view> below = std::nullopt) const &ZEROTRIE_LIFETIMEBOUND {
        return trie().reversed(from, below);
    }
    Stream reversed(std::optional<std::string_view> from = std::nullopt,
                    std::optional<std::string_view> below = std::nullopt) const && = delete;
    /// See Trie::lower_bound().
    [[nodiscard]] StreamIterator lower_bound(
        std::string_view key) const &ZEROTRIE_LIFETIMEBOUND {
        return trie().lower_bound(key);
    }
    /// See Trie::last().
    [[nodiscard]] std::optional<std::pair<std::string, size_t>> last() const {
        return trie().last();
    }
    /// See Trie::last_before().
    [[nodiscard]] std::optional<std::pair<std::string, size_t>>
    last_before(std::string_view key) const {
        return trie().last_before(key);
    }
    /// See Trie::last_up_to().
    [[nodiscard]] std::optional<std::pair<std::string, size_t>>
    last_up_to(std::string_view key) const {
        return trie().last_up_to(key);
    }
    /// See Trie::first_key_of().
    [[nodiscard]] std::optional<std::string> first_key_of(size_t value) const {
        return trie().first_key_of(value);
    }
    /// See Trie::upper_bound().
    [[nodiscard]] StreamIterator upper_bound(
        std::string_view key) const &ZEROTRIE_LIFETIMEBOUND {
        return trie().upper_bound(key);
    }
    /// See Search::glob().
    [[nodiscard]] Stream glob(std::string_view pattern) const &ZEROTRIE_LIFETIMEBOUND {
        return trie().glob(pattern);
    }
    Stream glob(std::string_view pattern) const && = delete;
    /// See Search::fuzzy().
    [[nodiscard]] Stream fuzzy(std::string_view word,
                               uint32_t edits = 1) const &ZEROTRIE_LIFETIMEBOUND {
        return trie().fuzzy(word, edits);
    }
    Stream fuzzy(std::string_view word, uint32_t edits = 1) const && = delete;
    /// See Trie::nearest().
    [[nodiscard]] std::vector<Near> nearest(std::string_view word, uint32_t edits = 2,
                                            size_t most = 10) const {
        return trie().nearest(word, edits, most);
    }
    /// See Trie::items().
    [[nodiscard]] Items items(std::string_view prefix = {}) const { return trie().items(prefix); }
    /// See Trie::for_each().
    template <class Each> bool for_each(Each &&each, std::string_view prefix = {}) const {
        return trie().for_each(std::forward<Each>(each), prefix);
    }
    /// The number of pairs.
    [[nodiscard]] size_t size() const noexcept { return size_; }
    /// Whether there is none.
    [[nodiscard]] bool empty() const noexcept { return size_ == 0; }
    /// Whether kinds and bytes are the same.
    friend bool operator==(const Map &a, const Map &b) noexcept { return a.trie() == b.trie(); }
    /// The contrary.
    friend bool operator!=(const Map &a, const Map &b) noexcept { return !(a == b); }

private:
    static zerotrie_trie raw(const Trie &trie) noexcept {
        const auto at = detail::of(trie.bytes());
        return zerotrie_trie_of(static_cast<zerotrie_kind>(trie.kind()), at.ptr, at.len);
    }
    static zerotrie_trie raw(const Map &map) noexcept { return raw(map.trie()); }
    // Throws the error of the first key that a rule makes one, with the first two tries that have it,
    // or have other values of it.
    static void check_keys(zerotrie_selection selection, Rule rule, uint32_t status,
                           const std::vector<zerotrie_trie> &tries) {
        std::vector<StreamIterator> at;
        for (const auto &one : tries)
            at.push_back(StreamIterator(static_cast<Kind>(one.kind), detail::text_of(one.bytes),
                                        Search::sorted_within({})));
        for (;;) {
            std::optional<std::string> key;
            for (const auto &it : at)
                if (it != StreamIterator() && (!key || it->first < *key)) key = it->first;
            if (!key) return;
            std::vector<size_t> places;
            size_t sum = 0, first = 0, other = 0;
            bool fits = true;
            for (size_t place = 0; place < at.size(); place++) {
                if (at[place] == StreamIterator() || at[place]->first != *key) continue;
                const size_t value = at[place]->second;
                places.push_back(place);
                if (places.size() == 1) first = value;
                if (other == 0 && places.size() > 1 && (rule != Rule::Equal || value != first))
                    other = place;
                fits = fits && value <= SIZE_MAX - sum;
                sum += value;
                ++at[place];
            }
            const bool taken = selection == ZEROTRIE_UNION ||
                               (selection == ZEROTRIE_INTERSECTION ? places.size() == at.size()
                                                                   : places.size() % 2 == 1);
            if (taken && other > 0 && (!fits || status == ZEROTRIE_DUPLICATE_KEY))
                detail::refuse(Error(status, {places[0], other},
                                     "tries " + std::to_string(places[0]) + " and " +
                                         std::to_string(other) + " have " +
                                         (rule == Rule::Equal ? "other values of " : "") +
                                         detail::shown(detail::of(*key))));
        }
    }
    template <class Tries>
    static Map combined(zerotrie_selection selection, Rule rule, Kind kind, const Tries &tries) {
        std::vector<zerotrie_trie> list;
        size_t len = 64;
        for (const auto &trie : tries) {
            list.push_back(raw(trie));
            len += list.back().bytes.len;
        }
        Map made;
        made.kind_ = kind;
        made.bytes_ = detail::written(
            len,
            [&](uint8_t *out, size_t room, size_t *written) {
                return zerotrie_combine(selection, static_cast<zerotrie_rule>(rule), list.data(),
                                        list.size(), static_cast<uint32_t>(kind), out, room,
                                        written);
            },
            [&](uint32_t status) {
                if (status == ZEROTRIE_DUPLICATE_KEY || status == ZEROTRIE_SUM_TOO_LARGE)
                    check_keys(selection, rule, status, list);
                detail::check(status);
            });
        made.size_ = made.trie().size();
        return made;
    }
    Kind kind_ = Kind::SimpleAscii;
    std::string bytes_;
    size_t size_ = 0;
};

/// @cond
#if defined(__cpp_lib_ranges) && (!defined(__clang__) || __clang_major__ >= 16)
// Elements that make no Entry are no std::pair, which the standard's own adaptors ask for.
namespace detail {
inline Stream stream_of(const Trie &trie) { return trie.stream(); }
inline Stream stream_of(const Map &map) { return map.stream(); }
inline Stream stream_of(const Stream &stream) { return stream; }
template <class T>
using Streaming = std::enable_if_t<is<T, Trie> || is<T, Map> || is<T, Stream> || is<T, Range>>;
} // namespace detail
template <class Pairs, class = detail::Streaming<Pairs>>
Keys operator|(const Pairs &pairs, const decltype(std::views::keys) &) {
    return Keys(detail::stream_of(pairs));
}
template <class Pairs, class = detail::Streaming<Pairs>>
Values operator|(const Pairs &pairs, const decltype(std::views::values) &) {
    return Values(detail::stream_of(pairs));
}
inline Stream operator|(const Range &range, const decltype(std::views::reverse) &) {
    return range.reversed();
}
Keys operator|(const Map &&, const decltype(std::views::keys) &) = delete;
Values operator|(const Map &&, const decltype(std::views::values) &) = delete;
#endif
/// @endcond

/// A map from two texts to numbers over the record of a dense table, which has to outlive it.
class ZEROTRIE_VIEW DenseTable {
public:
    /// The record is not validated.
    explicit constexpr DenseTable(Bytes record ZEROTRIE_LIFETIMEBOUND) noexcept
        : record_(record.view()) {}
    /// The value of a suffix under a prefix. nullopt: there is none. Throws Error if the bytes are
    /// no record.
    [[nodiscard]] std::optional<size_t> get(std::string_view prefix,
                                            std::string_view suffix) const {
        const auto at = detail::of(record_), p = detail::of(prefix), s = detail::of(suffix);
        size_t value = 0;
        const uint32_t status =
            zerotrie_dense_get(at.ptr, at.len, p.ptr, p.len, s.ptr, s.len, &value);
        if (status == ZEROTRIE_NO_ENTRY) return std::nullopt;
        detail::check(status);
        return value;
    }

private:
    std::string_view record_;
};

/// The record of the dense table of rows: a range of prefixes, each with a range of suffixes and
/// values, both ascending, as a std::map of std::maps.
template <class Rows> [[nodiscard]] std::string build_dense(Rows &&rows, char delimiter) {
    std::string prefixes, suffixes;
    std::vector<size_t> prefix_ends, suffix_ends, values;
    for (auto &&[prefix, row] : rows) {
        for (auto &&[suffix, value] : row) {
            prefixes += std::string_view(prefix), suffixes += std::string_view(suffix);
            prefix_ends.push_back(prefixes.size()), suffix_ends.push_back(suffixes.size());
            const std::string_view first(prefix), second(suffix);
            values.push_back(detail::number_of(value, [&] {
                return detail::shown(detail::of(first)) + ", " + detail::shown(detail::of(second));
            }));
        }
    }
    const size_t count = values.size();
    const auto p = detail::of(prefixes), s = detail::of(suffixes);
    return detail::written(
        64 + prefixes.size() + suffixes.size() + 8 * count,
        [&](uint8_t *out, size_t room, size_t *len) {
            return zerotrie_dense_build(p.ptr, p.len, prefix_ends.data(), count, s.ptr, s.len,
                                        suffix_ends.data(), count, values.data(), count,
                                        static_cast<uint8_t>(delimiter), out, room, len);
        },
        detail::check);
}

/// A sealed file of the bytes of an index: a header, the checksums of its blocks, and the bytes.
/// Index::open() reads it.
[[nodiscard]] inline std::string seal_index(Bytes index) {
    const auto at = detail::of(index.view());
    return detail::written(
        at.len + ZEROTRIE_SEAL_LEN + 8 + 4 * (at.len / 65536 + 1),
        [&](uint8_t *out, size_t room, size_t *len) {
            return zerotrie_seal_index(at.ptr, at.len, out, room, len);
        },
        detail::check);
}

/// A map for exact look-ups alone, over bytes that build_index() wrote, which have to outlive it:
/// larger than a trie, and faster.
class ZEROTRIE_VIEW Index {
public:
    /// Of bytes that are not validated; if they are malformed, the result of a call is unspecified.
    explicit constexpr Index(Bytes bytes ZEROTRIE_LIFETIMEBOUND) noexcept : bytes_(bytes.view()) {}
    /// Validates the bytes. nullopt: they are no index.
    [[nodiscard]] static std::optional<Index> checked(Bytes bytes ZEROTRIE_LIFETIMEBOUND) noexcept {
        const auto at = detail::of(bytes.view());
        if (!zerotrie_index_is_valid(at.ptr, at.len)) return std::nullopt;
        return Index(bytes);
    }
    /// Of a sealed file, in blocks or as a whole. Throws Error if it is damaged, or of no index. The
    /// bytes are those that were sealed, and not validated.
    [[nodiscard]] static Index open(Bytes file ZEROTRIE_LIFETIMEBOUND) {
        const auto at = detail::of(file.view());
        size_t from = 0, len = 0;
        detail::check(zerotrie_open_index(at.ptr, at.len, &from, &len));
        return Index(Bytes(file.view().substr(from, len)));
    }
    /// Writes a sealed file, and replaces the file of the path at once, as Map::save().
    void save(const std::string &path) const { detail::save_file(path, seal()); }
    /// A sealed file.
    [[nodiscard]] std::string seal() const { return seal_index(bytes_); }
    /// The bytes.
    [[nodiscard]] constexpr std::string_view bytes() const noexcept { return bytes_; }
    /// The value of the key. nullopt: the index does not have it.
    [[nodiscard]] std::optional<size_t> get(std::string_view key) const noexcept {
        const auto at = detail::of(bytes_), k = detail::of(key);
        size_t value = 0;
        if (!zerotrie_index_get(at.ptr, at.len, k.ptr, k.len, &value)) return std::nullopt;
        return value;
    }
    /// Whether the index has the key.
    [[nodiscard]] bool contains(std::string_view key) const noexcept {
        return get(key).has_value();
    }
    /// The values of a range of keys, each of which makes a std::string_view, in its order, and
    /// `missing` for a key that the index does not have. It copies the keys.
    template <class Keys = std::initializer_list<std::string_view>>
    [[nodiscard]] std::vector<size_t> get_many(Keys &&keys, size_t missing) const {
        const auto at = detail::of(bytes_);
        return detail::values_of(
            keys, [&](zerotrie_bytes texts, const size_t *ends, size_t *values, size_t count) {
                return zerotrie_index_get_many(at.ptr, at.len, texts.ptr, texts.len, ends, count,
                                               missing, values, count);
            });
    }

private:
    std::string_view bytes_;
};

/// The bytes of the index of pairs in any order, as build() takes them. If keys come from
/// elsewhere, take a random seed; an Error with the status ZEROTRIE_CROWDED asks for another one.
template <class Pairs = PairList>
[[nodiscard]] std::string build_index(Pairs &&pairs, uint64_t seed = 0) {
    const detail::Pairs list(pairs);
    return detail::written(
        2 * list.most_bytes() + 16 * list.size(),
        [&](uint8_t *out, size_t room, size_t *len) {
            return zerotrie_index_build(seed, list.data(), list.size(), out, room, len);
        },
        [&](uint32_t status) { list.check(Kind::PerfectHash, status); });
}

} // namespace zerotrie
