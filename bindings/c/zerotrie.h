/**
 * @file
 * @brief zerotrie for C99 and later, and for C++: maps from byte strings to numbers, each as flat
 * bytes that are read in place.
 *
 *     zerotrie_pair pairs[] = {
 *         { ZEROTRIE_TEXT("foo"), 1 }, { ZEROTRIE_TEXT("bar"), 2 }, { ZEROTRIE_TEXT("bazzoo"), 3 }
 *     };
 *     uint8_t trie[64];
 *     size_t len, value;
 *     if (zerotrie_build(ZEROTRIE_SIMPLE_ASCII, pairs, 3, trie, sizeof trie, &len) == ZEROTRIE_DONE
 *         && zerotrie_get(ZEROTRIE_SIMPLE_ASCII, trie, len, "bar", 3, &value))
 *         printf("bar is %zu, in %zu bytes\n", value, len);
 *
 * A file that the program `zerotrie build` wrote is sealed, or tagged bytes: its kind stands before
 * the trie. Another function would take that for the first bytes of each key. Read such a file by
 * zerotrie_trie_open():
 *
 *     zerotrie_trie trie;
 *     if (zerotrie_trie_open(file, file_len, &trie) == ZEROTRIE_DONE
 *         && zerotrie_trie_is_well_formed(trie)
 *         && zerotrie_trie_gets(trie, "bar", &value))
 *         printf("bar is %zu\n", value);
 *
 * `bindings/make` makes libzerotrie.a and libzerotrie.so in bindings/build, for 64-bit Linux.
 * `bindings/install PREFIX` copies them and the headers to PREFIX/lib and PREFIX/include.
 *
 *     cc -Ibindings/c program.c bindings/build/libzerotrie.a
 *     cc program.c $(pkg-config --cflags --libs zerotrie)
 *
 * Each function of the library is proved to meet its contract over the map that the bytes mean. No
 * proof sees what a caller does, nor the inline functions of this header.
 *
 * What a caller must keep to:
 *   - Pointers. A pointer with a length after it points to that many elements, which can be read and
 *     which nobody writes during the call. What a function writes can be written, and overlaps
 *     nothing else that the call is given. A pointer is aligned for its type. A length is at most
 *     PTRDIFF_MAX bytes.
 *   - NULL. A pointer that a length follows may be NULL, and the length then counts as 0. So a room
 *     of NULL is too small, and bytes of NULL are no bytes. No other pointer may be NULL: not that
 *     of a key in a zerotrie_pair, for which zerotrie_bytes_of() exists, and not a place for a
 *     result. The address of a function of the library, as in `f = zerotrie_get`, is the library's
 *     own function, to which NULL may not be passed at all.
 *   - Lifetimes. A trie is only your bytes: there is nothing to close or free. A zerotrie_trie,
 *     zerotrie_untagged(), zerotrie_cursor_run() and zerotrie_cursor_trie() point into them: use
 *     the result only while the bytes stay where they are and unchanged. A cursor has no pointer. A
 *     zerotrie_search points to its texts likewise.
 *     Keys and pairs are needed during the call only.
 *   - Memory. "Allocates" marks the functions that call malloc, realloc and free. Call none of them
 *     from a signal handler, nor in the forked child of a process with threads.
 *
 * What holds then:
 *   - Every function returns, whatever the bytes are. It reads nothing outside them, and never aborts
 *     or throws.
 *   - It writes only what is said at the function, also for malformed bytes. "Stays" says that
 *     something is not written. What a function only writes may hold anything before.
 *   - Threads. There is no state between calls and no lock, so any number of threads may call at once
 *     over bytes that none of them writes. A cursor is for one thread at a time; a copy of it, made
 *     by =, is another cursor.
 *   - What a function allocates it frees before it returns. Tests show that, and no contract does.
 *
 * Statements about keys hold for valid bytes: those that a build wrote, and those from elsewhere
 * for which zerotrie_is_well_formed() returned true. Check them once. On malformed bytes each
 * function still returns and writes no more, but the result is unspecified, except for what is said
 * at the function.
 *
 * A bool says whether something was found, or is well-formed.
 */
#ifndef ZEROTRIE_H
#define ZEROTRIE_H

#include <stdbool.h>
#include <stddef.h>
#include <stdint.h>
#include <string.h>

/** The version of this header. zerotrie_version() returns that of the library. */
#define ZEROTRIE_VERSION_MAJOR 0
/** Changes with each version that adds calls. */
#define ZEROTRIE_VERSION_MINOR 3
/** Changes with each version that only mends. */
#define ZEROTRIE_VERSION_PATCH 0
/** The version as one number, which is 1002003 in version 1.2.3. */
#define ZEROTRIE_VERSION                                                                           \
    (1000000 * ZEROTRIE_VERSION_MAJOR + 1000 * ZEROTRIE_VERSION_MINOR + ZEROTRIE_VERSION_PATCH)

/** @cond */
#ifdef __cplusplus
#define ZEROTRIE_INLINE inline
#define ZEROTRIE_POINTER(type, pointer) reinterpret_cast<type>(pointer)
#define ZEROTRIE_AS_KIND(number) static_cast<zerotrie_kind>(number)
#define ZEROTRIE_ENUM : uint32_t
#else
#define ZEROTRIE_INLINE static inline
#define ZEROTRIE_POINTER(type, pointer) ((type)(pointer))
#define ZEROTRIE_AS_KIND(number) ((zerotrie_kind)(number))
#define ZEROTRIE_ENUM
#endif
#ifdef __GNUC__
#define ZEROTRIE_NONNULL __attribute__((nonnull))
#define ZEROTRIE_ANSWERS __attribute__((nonnull, warn_unused_result))
#define ZEROTRIE_MUST_USE __attribute__((warn_unused_result))
#define ZEROTRIE_NEEDS(numbers) __attribute__((nonnull numbers))
#else
#define ZEROTRIE_NONNULL
#define ZEROTRIE_ANSWERS
#define ZEROTRIE_MUST_USE
#define ZEROTRIE_NEEDS(numbers)
#endif

#ifdef __cplusplus
extern "C" {
#endif
/** @endcond */

/** The kind of a trie. The same number is the first byte of tagged bytes. */
typedef enum zerotrie_kind ZEROTRIE_ENUM {
    /** ASCII keys */
    ZEROTRIE_SIMPLE_ASCII = 0,
    /** any bytes; a branch of 16 edges or more is a perfect hash */
    ZEROTRIE_PERFECT_HASH = 3,
    /** the same, and a branch may reach 2^32 bytes */
    ZEROTRIE_EXTENDED_CAPACITY = 7,
    /** ASCII keys, whose letters are found in either case */
    ZEROTRIE_IGNORE_CASE = 8
} zerotrie_kind;

/** @cond */
/* A kind as a parameter is a zerotrie_kind or the number of one. C turns any number into the enum,
 * and C++ the enum into any number. */
#ifdef __cplusplus
typedef uint32_t zerotrie_kind_number;
#else
typedef zerotrie_kind zerotrie_kind_number;
#endif
/** @endcond */

/** What a call comes to. For a number that no kind has it is ZEROTRIE_UNKNOWN_KIND, false or 0. */
typedef enum zerotrie_status ZEROTRIE_ENUM {
    /** the call succeeded */
    ZEROTRIE_DONE = 0,
    /** a key has a byte of 128 or more, and the kind is for ASCII only */
    ZEROTRIE_NON_ASCII = 1,
    /** a branch would reach 2^32 bytes (not in EXTENDED_CAPACITY), or the trie 2^64;
     * zerotrie_dense_build(): also more than 65,535 suffixes; zerotrie_index_build(): 4 GiB */
    ZEROTRIE_CAPACITY_EXCEEDED = 2,
    /** no perfect hash was found for the edges of a branch: rare for text, and to be expected for
     * 300 to 2,000 or 60,000 to 600,000 keys of random bytes */
    ZEROTRIE_NO_PERFECT_HASH = 3,
    /** IGNORE_CASE: two keys begin alike up to case, but not byte by byte */
    ZEROTRIE_MIXED_CASE = 4,
    /** zerotrie_dense_build(): a text has the delimiter in it */
    ZEROTRIE_ILLEGAL_DELIMITER = 5,
    /** zerotrie_build() and zerotrie_index_build(): a key comes twice; zerotrie_combine(): more than
     * one trie has a key, and the rule is ZEROTRIE_REFUSE, or ZEROTRIE_EQUAL and values differ */
    ZEROTRIE_DUPLICATE_KEY = 6,
    /** zerotrie_build_sorted(): the keys don't ascend strictly by their bytes */
    ZEROTRIE_UNSORTED = 7,
    /** the room is too small; the function says what it returns then */
    ZEROTRIE_BUFFER_TOO_SMALL = 8,
    /** no function here returns this */
    ZEROTRIE_BUFFER_TOO_LARGE = 9,
    /** no function here returns this */
    ZEROTRIE_STACK_EXCEEDED = 10,
    /** an allocation failed */
    ZEROTRIE_OUT_OF_MEMORY = 11,
    /** no kind has this number */
    ZEROTRIE_UNKNOWN_KIND = 12,
    /** zerotrie_untagged(): there are no bytes */
    ZEROTRIE_NO_TAG = 13,
    /** zerotrie_untagged(): the first byte is the number of no kind */
    ZEROTRIE_INVALID_TAG = 14,
    /** zerotrie_dense_get(): the table has no value for the two texts; zerotrie_last_within(),
     * zerotrie_first_key_of(), zerotrie_reverse_key(): no key is what was asked for */
    ZEROTRIE_NO_ENTRY = 15,
    /** zerotrie_dense_get(): fewer bytes than a record of a table asks for */
    ZEROTRIE_RECORD_TRUNCATED = 16,
    /** zerotrie_dense_get(): more bytes than a record of a table asks for */
    ZEROTRIE_TRAILING_BYTES = 17,
    /** zerotrie_open(): the parts of a sealed file don't agree: it was cut, joined or changed;
     * zerotrie_open_index(): the same, or it is not the sealed file of an index */
    ZEROTRIE_DAMAGED = 18,
    /** zerotrie_open(), zerotrie_open_index(): a sealed file of another version of the format */
    ZEROTRIE_UNKNOWN_VERSION = 19,
    /** zerotrie_search_some(), zerotrie_search_check(), zerotrie_nearest(), zerotrie_sorted_some(),
     * zerotrie_diff_some(): no search, or no bound, has this number */
    ZEROTRIE_UNKNOWN_SEARCH = 20,
    /** zerotrie_search_some(): the pattern is malformed, or the word is not UTF-8 */
    ZEROTRIE_MALFORMED_SEARCH = 21,
    /** zerotrie_search_some(): the pattern or the word is over its limit */
    ZEROTRIE_SEARCH_TOO_LONG = 22,
    /** zerotrie_index_build(): too many keys share a bucket under this seed; this is rare */
    ZEROTRIE_CROWDED = 23,
    /** zerotrie_combine(): no selection, or no rule, has this number */
    ZEROTRIE_UNKNOWN_SELECTION = 24,
    /** zerotrie_combine(): the sum of the values of a key is 2^64 or more */
    ZEROTRIE_SUM_TOO_LARGE = 25,
    /** zerotrie_combine(), zerotrie_diff_some(): the bytes of a trie are not valid */
    ZEROTRIE_MALFORMED_TRIE = 26,
    /** zerotrie_search_some(): more edits are asked for than it takes */
    ZEROTRIE_TOO_MANY_EDITS = 27
} zerotrie_status;

/** The rule of the format that malformed bytes break first. */
typedef enum zerotrie_fault ZEROTRIE_ENUM {
    /** the bytes are valid */
    ZEROTRIE_NO_FAULT = 0,
    /** no node begins here: it is cut off, or has too large a number */
    ZEROTRIE_FAULT_NO_NODE = 1,
    /** a span, in a kind that has none */
    ZEROTRIE_FAULT_NO_SPANS = 2,
    /** the bytes end where a key has to continue */
    ZEROTRIE_FAULT_UNEXPECTED_END = 3,
    /** a value follows a value */
    ZEROTRIE_FAULT_VALUE_AFTER_VALUE = 4,
    /** a span follows a span */
    ZEROTRIE_FAULT_SPAN_AFTER_SPAN = 5,
    /** a span has no bytes */
    ZEROTRIE_FAULT_EMPTY_SPAN = 6,
    /** a span has a byte below 128 */
    ZEROTRIE_FAULT_ASCII_IN_SPAN = 7,
    /** the search table of a branch is not one of the kind */
    ZEROTRIE_FAULT_WRONG_TABLE = 8,
    /** the offsets of a branch are wider than they need to be */
    ZEROTRIE_FAULT_WRONG_WIDTH = 9,
    /** the offsets of a branch don't ascend within its targets */
    ZEROTRIE_FAULT_WRONG_OFFSETS = 10,
    /** an allocation failed, so the rule is unknown */
    ZEROTRIE_FAULT_UNKNOWN = ZEROTRIE_OUT_OF_MEMORY,
    /** no kind has this number */
    ZEROTRIE_FAULT_OF_NO_KIND = ZEROTRIE_UNKNOWN_KIND
} zerotrie_fault;

/** Bytes that are elsewhere, as a key. They may have zeros, and need none at their end. */
typedef struct zerotrie_bytes {
    const uint8_t *ptr; /**< where they begin */
    size_t len;         /**< how many they are */
} zerotrie_bytes;

/** A key and its value. */
typedef struct zerotrie_pair {
    zerotrie_bytes key; /**< its pointer is never NULL: see ZEROTRIE_TEXT and zerotrie_bytes_of() */
    size_t value;       /**< any number */
} zerotrie_pair;

/** A trie: its kind, and where its bytes are. The functions zerotrie_trie_..() over it pass its parts
 * to the function of the same name. */
typedef struct zerotrie_trie {
    zerotrie_kind kind;   /**< the kind */
    zerotrie_bytes bytes; /**< the bytes without a tag, whose pointer is never NULL */
} zerotrie_trie;

/**
 * A place in a trie, between two bytes of keys, as numbers, which zerotrie_cursor_new() and
 * zerotrie_with_prefix() return. Each call gets the bytes too. While `run` is below `trie` it is
 * inside a span: every key continues with the bytes from `run` to `trie`, and then with a key of
 * the trie from `trie` to `end`. Otherwise the bytes from `trie` to `end` are a trie of their own,
 * of what the keys have from here on: list it by zerotrie_list(). Nothing is left if `run` is
 * `end`.
 *
 * What the library returns never leaves the bytes, whatever they are: run <= trie <= end <= len. It
 * takes any numbers. Those that don't ascend, or leave the bytes, are a cursor with nothing left.
 * With a cursor that was made up, or of other bytes, the result is unspecified, and nothing outside
 * the bytes is read.
 */
typedef struct zerotrie_cursor {
    size_t run;  /**< where the rest of a span begins */
    size_t trie; /**< where it ends, and a trie begins */
    size_t end;  /**< where that ends */
} zerotrie_cursor;

/** How a search finds keys. In IGNORE_CASE, keys, bounds and words are compared in lower case, and the
 * letters of a pattern are taken in both cases, so `[A-_]` has `a` too. Sorted listings and diffs
 * compare bounds as they are. */
typedef enum zerotrie_search_by ZEROTRIE_ENUM {
    /** the keys between two bounds, in the order of bytes as memcmp has it, a shorter key first */
    ZEROTRIE_BY_RANGE = 0,
    /** the keys that a pattern matches: `*` is any number of bytes, `?` is one byte, `[a-z_]` is
     * one byte of the class, and `[!a-z_]` one that is not of it. `{a,bc}` is one of the patterns in
     * it, which have no braces. A backslash takes the meaning of the byte after it, in a class too.
     * All other bytes are themselves. A pattern has at most 63 items. */
    ZEROTRIE_BY_GLOB = 1,
    /** the keys that have these bytes in this order, with any bytes before, between and after */
    ZEROTRIE_BY_SUBSEQUENCE = 2,
    /** the keys that at most `edits` edits make of a word of at most 63 bytes. An edit inserts,
     * deletes or changes one byte. At most 254 edits. */
    ZEROTRIE_BY_EDITS = 3,
    /** the same by characters, of a word in UTF-8 of at most 63 of them. No key that is not UTF-8
     * is found. */
    ZEROTRIE_BY_CHAR_EDITS = 4,
    /** as ZEROTRIE_BY_EDITS, and an edit may also make two neighbours change places; at most 7 */
    ZEROTRIE_BY_SWAPS = 5,
    /** the same by characters, as ZEROTRIE_BY_CHAR_EDITS */
    ZEROTRIE_BY_CHAR_SWAPS = 6,
    /** as ZEROTRIE_BY_GLOB by characters, of a pattern in UTF-8: `?` is one of them, and so is what
     * a class has. No key that is not UTF-8 is found. */
    ZEROTRIE_BY_CHAR_GLOB = 7
} zerotrie_search_by;

/** What a bound of a range or of a sorted listing is. */
typedef enum zerotrie_bound ZEROTRIE_ENUM {
    /** there is no bound on this side */
    ZEROTRIE_UNBOUNDED = 0,
    /** the key of the bound is in the range: from it on, or up to it */
    ZEROTRIE_INCLUDED = 1,
    /** the key of the bound is not in the range: after it, or below it */
    ZEROTRIE_EXCLUDED = 2
} zerotrie_bound;

/** What is searched, which zerotrie_range(), zerotrie_glob(), zerotrie_glob_chars(),
 * zerotrie_subsequence(), zerotrie_fuzzy(), zerotrie_fuzzy_chars(), zerotrie_swaps() and
 * zerotrie_swaps_chars() return. It has pointers to your bytes, which are never NULL. */
typedef struct zerotrie_search {
    zerotrie_search_by by;     /**< how the keys are found */
    uint32_t edits;            /**< the most edits; used by EDITS, SWAPS and those of characters */
    zerotrie_bound from_bound; /**< what the lower bound is; used by RANGE alone */
    zerotrie_bound to_bound;   /**< what the upper bound is; used by RANGE alone */
    zerotrie_bytes text;       /**< the pattern, the word, the bytes, or the lower bound */
    zerotrie_bytes to;         /**< the upper bound; used by RANGE alone */
    bool beginnings;           /**< true: find all keys that begin with such a key, too */
} zerotrie_search;

/** Which keys zerotrie_combine() takes. */
typedef enum zerotrie_selection ZEROTRIE_ENUM {
    /** the keys of any trie */
    ZEROTRIE_UNION = 0,
    /** the keys that every trie has */
    ZEROTRIE_INTERSECTION = 1,
    /** the keys that the first trie has, and no other */
    ZEROTRIE_DIFFERENCE = 2,
    /** the keys that an odd number of tries has: of two tries, the keys of one alone */
    ZEROTRIE_SYMMETRIC_DIFFERENCE = 3
} zerotrie_selection;

/** Which value zerotrie_combine() gives a key that more than one trie has. */
typedef enum zerotrie_rule ZEROTRIE_ENUM {
    /** the value of the first trie that has the key */
    ZEROTRIE_FIRST = 0,
    /** the value of the last trie that has the key */
    ZEROTRIE_LAST = 1,
    /** the sum of the values; ZEROTRIE_SUM_TOO_LARGE if it is 2^64 or more */
    ZEROTRIE_SUM = 2,
    /** the least value */
    ZEROTRIE_MIN = 3,
    /** the greatest value */
    ZEROTRIE_MAX = 4,
    /** none: ZEROTRIE_DUPLICATE_KEY */
    ZEROTRIE_REFUSE = 5,
    /** the value that all of them are; ZEROTRIE_DUPLICATE_KEY if they differ */
    ZEROTRIE_EQUAL = 6
} zerotrie_rule;

/** How a key changed from one trie to another. */
typedef enum zerotrie_change_by ZEROTRIE_ENUM {
    /** the second trie alone has the key: its value is `after`, and `before` is 0 */
    ZEROTRIE_ADDED = 0,
    /** the first trie alone has the key: its value is `before`, and `after` is 0 */
    ZEROTRIE_REMOVED = 1,
    /** both have the key: the first one with the value `before`, the second one with `after` */
    ZEROTRIE_CHANGED = 2
} zerotrie_change_by;

/** A key that changed. */
typedef struct zerotrie_change {
    size_t key_end;         /**< where the key ends; it begins where the key of the change before
                               ends, and the first one at 0 */
    size_t before;          /**< its value in the first trie */
    size_t after;           /**< its value in the second trie */
    zerotrie_change_by how; /**< how it changed */
} zerotrie_change;

/** Returns bytes from any pointer; NULL is no bytes. */
ZEROTRIE_INLINE zerotrie_bytes zerotrie_bytes_of(const void *ptr, size_t len) {
    zerotrie_bytes made;
    made.ptr = ZEROTRIE_POINTER(const uint8_t *, ptr ? ptr : "");
    made.len = ptr ? len : 0;
    return made;
}

/** Returns the bytes of a C string, without its end. */
ZEROTRIE_NONNULL
ZEROTRIE_INLINE zerotrie_bytes zerotrie_bytes_of_string(const char *string) {
    return zerotrie_bytes_of(string, strlen(string));
}

/** The bytes of a string literal, without its end, as an initializer. */
#define ZEROTRIE_TEXT(literal)                                                                     \
    { ZEROTRIE_POINTER(const uint8_t *, "" literal), sizeof("" literal) - 1 }

/** A string literal as two arguments of a call, its bytes and how many they are, without its end:
 * zerotrie_trie_get(trie, ZEROTRIE_LITERAL("bar"), &value). */
#define ZEROTRIE_LITERAL(literal) ("" literal), (sizeof("" literal) - 1)

/** Returns a search of one text, without edits and bounds; see zerotrie_search_by. */
ZEROTRIE_INLINE zerotrie_search zerotrie_search_for(zerotrie_search_by by, const void *text,
                                                    size_t text_len) {
    zerotrie_search made;
    made.by = by;
    made.edits = 0;
    made.from_bound = made.to_bound = ZEROTRIE_UNBOUNDED;
    made.text = zerotrie_bytes_of(text, text_len);
    made.to = zerotrie_bytes_of("", 0);
    made.beginnings = false;
    return made;
}

/**
 * Returns a search for the keys between two bounds; see ZEROTRIE_BY_RANGE. A key that bounds
 * nothing may be NULL.
 *
 *     zerotrie_range(ZEROTRIE_INCLUDED, "b", 1, ZEROTRIE_UNBOUNDED, NULL, 0)
 */
ZEROTRIE_INLINE zerotrie_search zerotrie_range(zerotrie_bound from_bound, const void *from,
                                               size_t from_len, zerotrie_bound to_bound,
                                               const void *to, size_t to_len) {
    zerotrie_search made = zerotrie_search_for(ZEROTRIE_BY_RANGE, from, from_len);
    made.from_bound = from_bound;
    made.to_bound = to_bound;
    made.to = zerotrie_bytes_of(to, to_len);
    return made;
}

/**
 * Returns the range of the keys that begin with a prefix, for sorted listings and diffs. It writes
 * its upper bound to `above`, which has room for `prefix_len` bytes and stays as long as the range
 * is used. In IGNORE_CASE too it compares the bytes as they are stored.
 *
 *     uint8_t above[2];
 *     part = zerotrie_listing_between(trie, zerotrie_range_of_prefix("ba", 2, above), &rooms);
 */
ZEROTRIE_NEEDS((3))
ZEROTRIE_INLINE zerotrie_search zerotrie_range_of_prefix(const void *prefix, size_t prefix_len,
                                                         uint8_t *above) {
    const zerotrie_bytes from = zerotrie_bytes_of(prefix, prefix_len);
    size_t len = from.len;
    /* no byte is above 255, so the one before it grows */
    while (len > 0 && from.ptr[len - 1] == 255) len--;
    if (len == 0)
        return zerotrie_range(ZEROTRIE_INCLUDED, prefix, prefix_len, ZEROTRIE_UNBOUNDED, NULL, 0);
    memcpy(above, from.ptr, len);
    above[len - 1]++;
    return zerotrie_range(ZEROTRIE_INCLUDED, prefix, prefix_len, ZEROTRIE_EXCLUDED, above, len);
}

/** Returns a search for the keys that a pattern matches, as "s*ing"; see ZEROTRIE_BY_GLOB. */
ZEROTRIE_INLINE zerotrie_search zerotrie_glob(const void *pattern, size_t pattern_len) {
    return zerotrie_search_for(ZEROTRIE_BY_GLOB, pattern, pattern_len);
}

/** The same by characters of UTF-8, each of which `?` takes; see ZEROTRIE_BY_CHAR_GLOB. */
ZEROTRIE_INLINE zerotrie_search zerotrie_glob_chars(const void *pattern, size_t pattern_len) {
    return zerotrie_search_for(ZEROTRIE_BY_CHAR_GLOB, pattern, pattern_len);
}

/** Returns a search for the keys that have these bytes in this order; see
 * ZEROTRIE_BY_SUBSEQUENCE. */
ZEROTRIE_INLINE zerotrie_search zerotrie_subsequence(const void *letters, size_t letters_len) {
    return zerotrie_search_for(ZEROTRIE_BY_SUBSEQUENCE, letters, letters_len);
}

/** Returns a search for the keys that at most `edits` edits of bytes make of a word; see
 * ZEROTRIE_BY_EDITS. */
ZEROTRIE_INLINE zerotrie_search zerotrie_fuzzy(const void *word, size_t word_len, uint32_t edits) {
    zerotrie_search made = zerotrie_search_for(ZEROTRIE_BY_EDITS, word, word_len);
    made.edits = edits;
    return made;
}

/** The same by characters of UTF-8; see ZEROTRIE_BY_CHAR_EDITS. */
ZEROTRIE_INLINE zerotrie_search zerotrie_fuzzy_chars(const void *word, size_t word_len,
                                                     uint32_t edits) {
    zerotrie_search made = zerotrie_search_for(ZEROTRIE_BY_CHAR_EDITS, word, word_len);
    made.edits = edits;
    return made;
}

/** Returns a search for the keys that at most `edits` edits make of a word, where neighbours that change
 * places are one edit; see ZEROTRIE_BY_SWAPS. */
ZEROTRIE_INLINE zerotrie_search zerotrie_swaps(const void *word, size_t word_len, uint32_t edits) {
    zerotrie_search made = zerotrie_search_for(ZEROTRIE_BY_SWAPS, word, word_len);
    made.edits = edits;
    return made;
}

/** The same by characters of UTF-8; see ZEROTRIE_BY_CHAR_SWAPS. */
ZEROTRIE_INLINE zerotrie_search zerotrie_swaps_chars(const void *word, size_t word_len,
                                                     uint32_t edits) {
    zerotrie_search made = zerotrie_search_for(ZEROTRIE_BY_CHAR_SWAPS, word, word_len);
    made.edits = edits;
    return made;
}

/** Returns the version of the library as one number, as ZEROTRIE_VERSION. */
uint32_t zerotrie_version(void);

/** @name Reading
 * None of these allocates. */
/** @{ */

/** Returns whether the bytes are a valid trie of the kind, by every rule of the format. */
ZEROTRIE_ANSWERS
bool zerotrie_is_well_formed(zerotrie_kind_number kind, const uint8_t *bytes, size_t len);

/** Returns whether the trie has the key, and then sets *value to its value; otherwise *value stays.
 */
ZEROTRIE_ANSWERS
bool zerotrie_get(zerotrie_kind_number kind, const uint8_t *bytes, size_t len, const uint8_t *key,
                  size_t key_len, size_t *value);

/**
 * Looks up many keys, which are one after another in `keys`: each begins where the one before it
 * ends, and `ends` says where it ends. Writes the value of each, or `missing` for a key that the
 * trie does not have. An end past `keys_len` counts as `keys_len`, and an end below the one before
 * it makes an empty key. It writes as many values as the smaller of `ends_len` and `values_len`;
 * the rest of the room stays, whatever the bytes are. Returns ZEROTRIE_DONE, or
 * ZEROTRIE_UNKNOWN_KIND and writes nothing.
 */
ZEROTRIE_NONNULL
zerotrie_status zerotrie_get_many(zerotrie_kind_number kind, const uint8_t *bytes, size_t len,
                                  const uint8_t *keys, size_t keys_len, const size_t *ends,
                                  size_t ends_len, size_t missing, size_t *values,
                                  size_t values_len);

/**
 * Returns whether the text begins with a key, the empty one too, and then sets *len and *value
 * to the length and the value of the longest one; otherwise both stay. The length is at most
 * `text_len`, whatever the bytes are.
 */
ZEROTRIE_ANSWERS
bool zerotrie_longest_prefix(zerotrie_kind_number kind, const uint8_t *bytes, size_t bytes_len,
                             const uint8_t *text, size_t text_len, size_t *len, size_t *value);

/**
 * Returns whether the text begins with a key after which it ends or continues with one of the
 * delimiters, and then sets *prefix_len and *value to the length and the value of the longest one;
 * otherwise both stay. So with the delimiter '-' the text "en-Latn-US" finds the key "en-Latn" or
 * "en", and "english" does not find "en". The empty key counts whatever follows. The length is at
 * most `text_len`, whatever the bytes are.
 */
ZEROTRIE_ANSWERS
bool zerotrie_longest_prefix_at(zerotrie_kind_number kind, const uint8_t *bytes, size_t len,
                                const uint8_t *text, size_t text_len, const uint8_t *delimiters,
                                size_t delimiters_len, size_t *prefix_len, size_t *value);

/**
 * Returns how many keys the text begins with. Writes the length of each to `lens` and its value to
 * `values`, the shortest key first, as far as each of the two has room; the rest of the room stays.
 * On malformed bytes too it returns at most `text_len` + 1, and writes no length above `text_len`.
 */
ZEROTRIE_NONNULL
size_t zerotrie_common_prefixes(zerotrie_kind_number kind, const uint8_t *bytes, size_t len,
                                const uint8_t *text, size_t text_len, size_t *lens, size_t lens_len,
                                size_t *values, size_t values_len);

/** Returns the cursor before all keys, of a trie of any kind. The calls below get the same bytes
 * and the same kind each time. */
ZEROTRIE_ANSWERS
zerotrie_cursor zerotrie_cursor_new(const uint8_t *bytes, size_t len);

/**
 * Returns the cursor after a prefix, as a step by each of its bytes would leave it. If no key
 * begins with it, nothing is left, and the numbers are 0.
 */
ZEROTRIE_ANSWERS
zerotrie_cursor zerotrie_with_prefix(zerotrie_kind_number kind, const uint8_t *bytes, size_t len,
                                     const uint8_t *prefix, size_t prefix_len);

/**
 * Follows the edge for this byte, as the kind compares bytes: in IGNORE_CASE a letter in either
 * case. Returns whether there is one, and then sets *edge to its byte as it is stored; otherwise
 * nothing is left and *edge stays.
 */
ZEROTRIE_NONNULL
bool zerotrie_cursor_step(zerotrie_kind_number kind, const uint8_t *bytes, size_t len,
                          zerotrie_cursor *cursor, uint8_t byte, uint8_t *edge);

/**
 * Takes the value of the key that ends here. Returns whether there is one, and then sets *value,
 * and the cursor no longer has it; otherwise nothing changes. Call it before the next step, which
 * leaves the value behind.
 */
ZEROTRIE_NONNULL
bool zerotrie_cursor_take_value(const uint8_t *bytes, size_t len, zerotrie_cursor *cursor,
                                size_t *value);

/**
 * Follows edge number `index`, from 0. Returns whether there is one, and then sets *edge to its
 * byte and *siblings to the number of edges; otherwise nothing is left, and both stay. Edges are
 * numbered in the order of a listing.
 */
ZEROTRIE_NONNULL
bool zerotrie_cursor_probe(zerotrie_kind_number kind, const uint8_t *bytes, size_t len,
                           zerotrie_cursor *cursor, size_t index, uint8_t *edge,
                           uint16_t *siblings);

/** Returns whether nothing is left of a cursor: no key continues from here, and none ends here. */
ZEROTRIE_INLINE bool zerotrie_cursor_is_empty(zerotrie_cursor cursor) {
    return cursor.run == cursor.end;
}

/** Returns the bytes from one number up to another, in place; none if the numbers don't ascend or
 * leave the bytes. */
ZEROTRIE_INLINE zerotrie_bytes zerotrie_between(const void *bytes, size_t len, size_t from,
                                                size_t to) {
    const uint8_t *const first = ZEROTRIE_POINTER(const uint8_t *, bytes);
    const bool inside = bytes && from <= to && to <= len;
    return inside ? zerotrie_bytes_of(first + from, to - from) : zerotrie_bytes_of(bytes, 0);
}

/** Returns what is left of the span that a cursor is in; no bytes outside of spans. */
ZEROTRIE_INLINE zerotrie_bytes zerotrie_cursor_run(const void *bytes, size_t len,
                                                   zerotrie_cursor cursor) {
    return zerotrie_between(bytes, len, cursor.run, cursor.trie);
}

/** Returns the trie after it: outside of spans, that of what the keys have from here on. */
ZEROTRIE_INLINE zerotrie_bytes zerotrie_cursor_trie(const void *bytes, size_t len,
                                                    zerotrie_cursor cursor) {
    return zerotrie_between(bytes, len, cursor.trie, cursor.end);
}

/**
 * Sets *kind to the kind of tagged bytes. Their trie is what follows their first byte; it is not
 * validated. Or returns ZEROTRIE_NO_TAG or ZEROTRIE_INVALID_TAG, and *kind stays.
 */
ZEROTRIE_ANSWERS
zerotrie_status zerotrie_tagged_kind(const uint8_t *tagged, size_t len, uint32_t *kind);

/**
 * Finds the trie in a file, which is sealed or tagged bytes: see zerotrie_seal() and
 * zerotrie_tagged(). Sets *kind to its kind, *at to where its bytes begin and *trie_len to their
 * number: they are in the file, whatever the bytes are. zerotrie_trie_open() returns them as one
 * value.
 *
 * A sealed file is taken exactly if zerotrie_seal() of some kind and bytes writes it, and these are
 * what is found. If it begins as one but its parts don't agree, the result is ZEROTRIE_DAMAGED, or
 * ZEROTRIE_UNKNOWN_VERSION if it says another version of the format. For other bytes it is as in
 * zerotrie_tagged_kind(): ZEROTRIE_NO_TAG or ZEROTRIE_INVALID_TAG. All three numbers stay then. The
 * trie is not validated: zerotrie_is_well_formed() does that. After a seal that was right its bytes
 * are those that were sealed. A call costs the checksum, and does not allocate.
 */
ZEROTRIE_ANSWERS
zerotrie_status zerotrie_open(const uint8_t *file, size_t len, uint32_t *kind, size_t *at,
                              size_t *trie_len);
/** @} */

/** @name Faults
 * Which bytes are wrong. Allocates. */
/** @{ */

/**
 * Returns the rule of the format that fails first in the bytes, and sets *at to the number of bytes
 * before the node where it fails, or before the end that comes too early. Returns ZEROTRIE_NO_FAULT
 * if the bytes are valid; *at stays then, and also if the result is ZEROTRIE_FAULT_UNKNOWN or
 * ZEROTRIE_FAULT_OF_NO_KIND. What it writes is at most `len`.
 */
ZEROTRIE_ANSWERS
zerotrie_fault zerotrie_first_fault(zerotrie_kind_number kind, const uint8_t *bytes, size_t len,
                                    size_t *at);
/** @} */

/** @name Building */
/** @{ */

/**
 * Builds the trie of pairs in any order. Allocates.
 *
 * ZEROTRIE_DONE: it is the first *len bytes of `out`, and the rest stays.
 * ZEROTRIE_BUFFER_TOO_SMALL: it has *len bytes, more than `out_len`, and `out` stays; call again
 * with as many. Otherwise the result is an error with its cause in the pairs, or
 * ZEROTRIE_OUT_OF_MEMORY, and nothing is written. zerotrie_build_bound() says how many bytes are
 * always enough, and zerotrie_why_refused() which keys are the cause.
 */
ZEROTRIE_ANSWERS
zerotrie_status zerotrie_build(zerotrie_kind_number kind, const zerotrie_pair *pairs, size_t count,
                               uint8_t *out, size_t out_len, size_t *len);

/** The same of pairs whose keys ascend strictly by their bytes, as memcmp orders them, in
 * IGNORE_CASE too. Allocates. */
ZEROTRIE_ANSWERS
zerotrie_status zerotrie_build_sorted(zerotrie_kind_number kind, const zerotrie_pair *pairs,
                                      size_t count, uint8_t *out, size_t out_len, size_t *len);

/**
 * Like zerotrie_build(), of keys that are one after another in `keys`: each begins where the one
 * before it ends, and `ends` says where it ends. An end past `keys_len` counts as `keys_len`, and
 * an end below the one before it makes an empty key. There are as many pairs as the smaller of
 * `ends_len` and `values_len`. Allocates.
 */
ZEROTRIE_ANSWERS
zerotrie_status zerotrie_build_many(zerotrie_kind_number kind, const uint8_t *keys, size_t keys_len,
                                    const size_t *ends, size_t ends_len, const size_t *values,
                                    size_t values_len, uint8_t *out, size_t out_len, size_t *len);

/**
 * Builds the trie of a union, an intersection or a difference of tries of any kinds, in one pass
 * over their pairs in the order of bytes. Keys are compared as they are stored. The result, `out`
 * and *len are as in zerotrie_build(), and with these statuses too nothing is written:
 * ZEROTRIE_MALFORMED_TRIE, as all bytes are validated; ZEROTRIE_UNKNOWN_KIND, also of the number of
 * a trie; ZEROTRIE_DUPLICATE_KEY and ZEROTRIE_SUM_TOO_LARGE, if a key that is taken is an error by
 * the rule; and ZEROTRIE_UNKNOWN_SELECTION.
 *
 *     const zerotrie_trie shards[] = { first, second, third };
 *     status = zerotrie_combine(ZEROTRIE_UNION, ZEROTRIE_SUM, shards, 3, ZEROTRIE_PERFECT_HASH,
 *                               out, sizeof out, &len);
 *
 * As much room as all tries have is mostly enough. Where tries share no keys, a call costs about two
 * builds of all pairs if there are two, and four if there are forty: each key is compared with the
 * next key of each trie. Keys that they share cost more, as each pair is listed. Allocates.
 */
ZEROTRIE_ANSWERS
zerotrie_status zerotrie_combine(zerotrie_selection selection, zerotrie_rule rule,
                                 const zerotrie_trie *tries, size_t count,
                                 zerotrie_kind_number kind, uint8_t *out, size_t out_len,
                                 size_t *len);

/**
 * Returns a number of bytes that is enough for any build of at most `count` pairs whose keys have
 * at most `key_bytes` bytes together: 20 for a pair, and 2 for a byte of a key; SIZE_MAX if that is
 * more. Most builds need much less.
 */
size_t zerotrie_build_bound(size_t count, size_t key_bytes);

/** Sets *len to the number of bytes that zerotrie_build_sorted() of these pairs writes. Builds
 * nothing. Allocates. */
ZEROTRIE_ANSWERS
zerotrie_status zerotrie_encoded_len(zerotrie_kind_number kind, const zerotrie_pair *pairs,
                                     size_t count, size_t *len);

/**
 * Returns the error of zerotrie_build() of these pairs that keys are the cause of:
 * ZEROTRIE_DUPLICATE_KEY, ZEROTRIE_NON_ASCII or ZEROTRIE_MIXED_CASE. Sets *first and *second to the
 * places of the two keys in `pairs`, from 0 on; they are equal if one key is the cause.
 * ZEROTRIE_DONE: no key is a cause. Then both stay, as with ZEROTRIE_OUT_OF_MEMORY and
 * ZEROTRIE_UNKNOWN_KIND. Allocates.
 */
ZEROTRIE_ANSWERS
zerotrie_status zerotrie_why_refused(zerotrie_kind_number kind, const zerotrie_pair *pairs,
                                     size_t count, size_t *first, size_t *second);

/** Returns the kind for pairs if you have no wish: SIMPLE_ASCII if all keys are ASCII and there are
 * fewer than 512, else PERFECT_HASH. */
ZEROTRIE_ANSWERS
zerotrie_kind zerotrie_auto_kind(const zerotrie_pair *pairs, size_t count);

/** Writes the kind's number and then the bytes to `out`, so that the bytes say their kind.
 * ZEROTRIE_DONE and ZEROTRIE_BUFFER_TOO_SMALL as in a build. */
ZEROTRIE_ANSWERS
zerotrie_status zerotrie_tagged(zerotrie_kind_number kind, const uint8_t *bytes, size_t bytes_len,
                                uint8_t *out, size_t out_len, size_t *len);

/** Writes a sealed file to `out`, which knows when it is damaged: ZEROTRIE_SEAL_LEN bytes, with the
 * kind, the length and a checksum, and then the bytes. zerotrie_open() reads it. The bytes are not
 * validated. ZEROTRIE_DONE and ZEROTRIE_BUFFER_TOO_SMALL as in a build. Does not allocate. */
ZEROTRIE_ANSWERS
zerotrie_status zerotrie_seal(zerotrie_kind_number kind, const uint8_t *bytes, size_t len,
                              uint8_t *out, size_t out_len, size_t *sealed_len);

/** The number of bytes in front of the trie in a sealed file. */
#define ZEROTRIE_SEAL_LEN 24
/** @} */

/** @name Dense tables
 * A dense table is a map from two texts, a prefix and a suffix, to numbers, as one record of bytes.
 * It is for many prefixes that have the same suffixes: each value of such a row takes two bytes. A
 * text is ASCII and does not have the delimiter, a byte below 128 with which the table was built.
 * Either text may be empty. */
/** @{ */

/**
 * Looks up a suffix under a prefix in the table of a record. ZEROTRIE_DONE: sets *value.
 * ZEROTRIE_NO_ENTRY: there is no value. A record says its own length: with fewer bytes the result
 * is ZEROTRIE_RECORD_TRUNCATED, with more ZEROTRIE_TRAILING_BYTES. In all cases but the first
 * *value stays. What zerotrie_dense_build() wrote is a record; other bytes of a record's length are
 * not validated, and the result is unspecified. Does not allocate.
 */
ZEROTRIE_ANSWERS
zerotrie_status zerotrie_dense_get(const uint8_t *bytes, size_t len, const uint8_t *prefix,
                                   size_t prefix_len, const uint8_t *suffix, size_t suffix_len,
                                   size_t *value);

/**
 * Builds the table of entries, each a prefix, a suffix and a value, in the order of the prefixes as
 * memcmp orders them, a shorter one first, and under one prefix in that of the suffixes; no two are
 * equal in both. The entries are three lists: the prefixes are one after another in `prefixes`,
 * each up to its end, so a prefix comes once for each of its suffixes; the suffixes are in
 * `suffixes` likewise; and `values` has the values. An end past all bytes counts as their end, and
 * an end below the one before it makes an empty text. There are as many entries as the shortest of
 * `prefix_ends`, `suffix_ends` and `values` has. Allocates.
 *
 *     const size_t prefix_ends[] = { 2, 4, 6 }, suffix_ends[] = { 2, 4, 6 }, values[] = { 8, 9, 5
 * }; zerotrie_dense_build("dedeen", 6, prefix_ends, 3, "ATCHUS",
 * 6, suffix_ends, 3, values, 3, '/', record, sizeof record, &len);
 *
 * ZEROTRIE_DONE: the record is the first *len bytes of `out`, and the rest stays.
 * ZEROTRIE_BUFFER_TOO_SMALL: it has *len bytes, more than `out_len`, and `out` stays. Otherwise the
 * result is an error with its cause in the entries, and nothing is written: ZEROTRIE_UNSORTED;
 * ZEROTRIE_NON_ASCII, of a text or the delimiter; ZEROTRIE_ILLEGAL_DELIMITER;
 * ZEROTRIE_CAPACITY_EXCEEDED, of more than 65,535 suffixes too; or ZEROTRIE_OUT_OF_MEMORY.
 */
ZEROTRIE_ANSWERS
zerotrie_status zerotrie_dense_build(const uint8_t *prefixes, size_t prefixes_len,
                                     const size_t *prefix_ends, size_t prefix_ends_len,
                                     const uint8_t *suffixes, size_t suffixes_len,
                                     const size_t *suffix_ends, size_t suffix_ends_len,
                                     const size_t *values, size_t values_len, uint8_t delimiter,
                                     uint8_t *out, size_t out_len, size_t *len);
/** @} */

/** @name Listing */
/** @{ */

/**
 * Lists the pairs whose keys begin with the prefix (an empty one: all), in the order of the trie's
 * bytes, which in SIMPLE_ASCII is that of the keys. Writes the keys one after another to `keys`,
 * where each ends to `ends`, and the values to `values`; the rest of each room stays. Sets
 * *key_bytes and *count to how many there are. With ZEROTRIE_BUFFER_TOO_SMALL some room has too few
 * places, and nothing is written to such a one; so a call with three rooms of 0 says what rooms it
 * needs. ZEROTRIE_OUT_OF_MEMORY and ZEROTRIE_UNKNOWN_KIND: nothing is written. A trie of n bytes
 * has at most n pairs.
 *
 * Malformed bytes list some pairs, for which all this holds too. So after ZEROTRIE_DONE, whatever
 * the bytes are, *count is at most `ends_len` and `values_len`, no end is below the one before it,
 * and the last is *key_bytes, which is at most `keys_len`.
 *
 * Allocates as much as it lists. zerotrie_list_some() lists a large trie in parts.
 */
ZEROTRIE_ANSWERS
zerotrie_status zerotrie_list(zerotrie_kind_number kind, const uint8_t *bytes, size_t len,
                              const uint8_t *prefix, size_t prefix_len, uint8_t *keys,
                              size_t keys_len, size_t *ends, size_t ends_len, size_t *values,
                              size_t values_len, size_t *key_bytes, size_t *count);

/**
 * Lists the next pairs of the same listing, as many as the three rooms have places for: those after
 * the key `last` if `goes_on`, and else the first ones. `last` is the last key that the call before
 * wrote; if no key of the listing is this one, nothing comes. It may not be in `keys`:
 * zerotrie_listing_next() takes care of it. Sets *count to the number of pairs that were written;
 * the rest of each room stays. ZEROTRIE_DONE: none is left, and *next_len is 0.
 * ZEROTRIE_BUFFER_TOO_SMALL: pairs are left, and the key of the next one has *next_len bytes; if
 * *count is 0, some room has too few places for even this one. ZEROTRIE_OUT_OF_MEMORY: the pairs
 * that are counted are written all the same, and *next_len stays. ZEROTRIE_UNKNOWN_KIND: nothing is
 * written.
 *
 * Malformed bytes list some pairs, for which all this holds too. So with each status but
 * ZEROTRIE_UNKNOWN_KIND, whatever the bytes are, *count is at most `ends_len` and `values_len`, and
 * of that many ends none is below the one before it or past `keys_len`. But a key may come twice
 * there, and the parts then repeat without end: a trie of n bytes has at most n pairs, so stop
 * after more.
 *
 * A call costs a look-up of `last` and what it lists. Allocates as much as the longest key and the
 * deepest branches take.
 */
ZEROTRIE_ANSWERS
zerotrie_status zerotrie_list_some(zerotrie_kind_number kind, const uint8_t *bytes, size_t len,
                                   const uint8_t *prefix, size_t prefix_len, bool goes_on,
                                   const uint8_t *last, size_t last_len, uint8_t *keys,
                                   size_t keys_len, size_t *ends, size_t ends_len, size_t *values,
                                   size_t values_len, size_t *count, size_t *next_len);

/**
 * Lists the next pairs whose keys begin with the prefix and are found by the search, which reads
 * the whole key, in the order of bytes in every kind: that of memcmp, a shorter key first. If
 * `goes_on`, these are the keys after `last` in that order, whether or not it is a key. All else is
 * as in zerotrie_list_some(): the rooms, *count, *next_len and the status. Of malformed bytes it
 * lists some pairs that the search finds, and parts may repeat as there. With these statuses too
 * nothing is written: ZEROTRIE_UNKNOWN_SEARCH, if no search or no bound that it uses has its number;
 * ZEROTRIE_MALFORMED_SEARCH, of a pattern where a class has no end or no byte, or the last byte is
 * a backslash that escapes nothing, or of a word that is not UTF-8; ZEROTRIE_SEARCH_TOO_LONG, of a
 * pattern of more than 63 items, or of a word of more than 63 bytes or characters;
 * ZEROTRIE_TOO_MANY_EDITS, of more than 254 edits, with swaps more than 7.
 *
 *     zerotrie_search near = zerotrie_fuzzy("exampel", 7, 1);
 *     status = zerotrie_search_some(kind, trie, len, NULL, 0, &near, false, NULL, 0, keys,
 *                                   sizeof keys, ends, 10, values, 10, &count, &next_len);
 *
 * It reads the keys node by node, and passes over those that begin as no key that is found does. So
 * a call costs a look-up of `last` and what it reads: of a range about what it lists, of a pattern
 * or a word with few edits a small part of the trie. Allocates as zerotrie_sorted_some(), and one
 * state for each byte of the longest key, and in IGNORE_CASE copies of the texts of the search.
 */
ZEROTRIE_ANSWERS
zerotrie_status zerotrie_search_some(zerotrie_kind_number kind, const uint8_t *bytes, size_t len,
                                     const uint8_t *prefix, size_t prefix_len,
                                     const zerotrie_search *search, bool goes_on,
                                     const uint8_t *last, size_t last_len, uint8_t *keys,
                                     size_t keys_len, size_t *ends, size_t ends_len, size_t *values,
                                     size_t values_len, size_t *count, size_t *next_len);

/** Returns the status of a search without a trie: ZEROTRIE_DONE, or the fault that
 * zerotrie_search_some() returns for it. */
ZEROTRIE_ANSWERS
zerotrie_status zerotrie_search_check(const zerotrie_search *search);

/**
 * Lists the pairs whose keys at most `edits` edits make of a word, the nearest first, and those that
 * are as near in the order of bytes. `by` is ZEROTRIE_BY_EDITS, ZEROTRIE_BY_CHAR_EDITS,
 * ZEROTRIE_BY_SWAPS or ZEROTRIE_BY_CHAR_SWAPS, and `edits` as there. Writes how many edits make each
 * key to `distances`. The other rooms, *count, *next_len and the status are as in
 * zerotrie_search_some(), also for malformed bytes; but a call does not continue, so give places for
 * as many as you want. ZEROTRIE_UNKNOWN_SEARCH: `by` is another number.
 *
 *     status = zerotrie_nearest(kind, trie, len, ZEROTRIE_BY_CHAR_SWAPS, "exmaple", 7, 2, keys,
 *                               sizeof keys, ends, 10, values, 10, distances, 10, &count,
 *                               &next_len);
 *
 * In IGNORE_CASE, keys and the word are compared in lower case. It searches once for each number of
 * edits, from none on, until there is no room: so few near keys cost little. Allocates as
 * zerotrie_search_some().
 */
ZEROTRIE_ANSWERS
zerotrie_status zerotrie_nearest(zerotrie_kind_number kind, const uint8_t *bytes, size_t len,
                                 zerotrie_search_by by, const uint8_t *word, size_t word_len,
                                 uint32_t edits, uint8_t *keys, size_t keys_len, size_t *ends,
                                 size_t ends_len, size_t *values, size_t values_len,
                                 size_t *distances, size_t distances_len, size_t *count,
                                 size_t *next_len);

/**
 * Lists the pairs whose keys are between two bounds, in the order of bytes in every kind: that of
 * memcmp, a shorter key first. It writes as many as the three rooms have places for. The rooms,
 * *count, *next_len and the status are as in zerotrie_list_some(), also for malformed bytes. With
 * ZEROTRIE_UNKNOWN_SEARCH too, of a number that no bound has, nothing is written.
 *
 * To continue, pass the last key that the call before wrote as an excluded lower bound. It may not be
 * in `keys`: zerotrie_listing_sorted() takes care of it. With one place this is the first key from
 * a key on, or after it:
 *
 *     status = zerotrie_sorted_some(kind, trie, len, ZEROTRIE_INCLUDED, "b", 1,
 *                                   ZEROTRIE_UNBOUNDED, NULL, 0, key, sizeof key, &key_len, 1,
 *                                   &value, 1, &count, &next_len);
 *
 * It compares bytes as they are stored, so in IGNORE_CASE upper case comes before lower case. A
 * call costs a look-up of the lower bound and what it lists; at each byte it compares the edges
 * that are there. Allocates as much as the longest key and the places on the way to it take.
 */
ZEROTRIE_ANSWERS
zerotrie_status zerotrie_sorted_some(zerotrie_kind_number kind, const uint8_t *bytes, size_t len,
                                     zerotrie_bound from_bound, const uint8_t *from,
                                     size_t from_len, zerotrie_bound to_bound, const uint8_t *to,
                                     size_t to_len, uint8_t *keys, size_t keys_len, size_t *ends,
                                     size_t ends_len, size_t *values, size_t values_len,
                                     size_t *count, size_t *next_len);

/**
 * Finds the last key between two bounds, in the order of bytes in every kind, as in
 * zerotrie_sorted_some(). So the key below "b", or up to it, is that of an excluded, or an
 * included, upper bound:
 *
 *     status = zerotrie_last_within(kind, trie, len, ZEROTRIE_UNBOUNDED, NULL, 0,
 *                                   ZEROTRIE_EXCLUDED, "b", 1, key, sizeof key, &key_len, &value);
 *
 * To list backwards, call again with the key that was found as an excluded upper bound; it may not
 * be in `out`.
 *
 * ZEROTRIE_DONE: the key is the first *key_len bytes of `out`, whose rest stays, and *value is its
 * value. ZEROTRIE_BUFFER_TOO_SMALL: both are set, and `out` stays; call again with a room of
 * *key_len bytes. Otherwise nothing is written: ZEROTRIE_NO_ENTRY, if no key is there;
 * ZEROTRIE_UNKNOWN_SEARCH, of a number that no bound has; ZEROTRIE_UNKNOWN_KIND or
 * ZEROTRIE_OUT_OF_MEMORY.
 *
 * A call costs a look-up of the upper bound and the way back and down to the key; at each byte it
 * compares the edges that are there. Allocates as zerotrie_sorted_some().
 */
ZEROTRIE_ANSWERS
zerotrie_status zerotrie_last_within(zerotrie_kind_number kind, const uint8_t *bytes, size_t len,
                                     zerotrie_bound from_bound, const uint8_t *from,
                                     size_t from_len, zerotrie_bound to_bound, const uint8_t *to,
                                     size_t to_len, uint8_t *out, size_t out_len, size_t *key_len,
                                     size_t *value);

/**
 * Lists what changed from the pairs of one trie between two bounds to those of another one, in the
 * order of bytes, whatever the kinds are. A key that both have with one value is passed over. It
 * writes as many changes as the two rooms have places for: the keys one after another to `keys`, and
 * how each changed to `changes`; the rest of each room stays. Sets *count to the number of changes
 * that were written. ZEROTRIE_DONE: none is left, and *next_len is 0. ZEROTRIE_BUFFER_TOO_SMALL:
 * changes are left, and the key of the next one has *next_len bytes; if *count is 0, a room has too
 * few places for even this one. ZEROTRIE_OUT_OF_MEMORY: the changes that are counted are written all
 * the same, or nothing is written. With other statuses nothing is written: ZEROTRIE_MALFORMED_TRIE,
 * as the bytes of both tries are validated; ZEROTRIE_UNKNOWN_KIND, of either trie;
 * ZEROTRIE_UNKNOWN_SEARCH, of a number that no bound has.
 *
 * To continue, pass the last key that the call before wrote as an excluded lower bound. It may not be
 * in `keys`: zerotrie_diff_next() takes care of it.
 *
 * It compares bytes as they are stored, in IGNORE_CASE too. A call costs the validation of both
 * tries, and then what it reads of both: so few large parts are faster than many small ones.
 * Allocates as zerotrie_sorted_some() of both.
 */
ZEROTRIE_ANSWERS
zerotrie_status zerotrie_diff_some(const zerotrie_trie *first, const zerotrie_trie *second,
                                   zerotrie_bound from_bound, const uint8_t *from, size_t from_len,
                                   zerotrie_bound to_bound, const uint8_t *to, size_t to_len,
                                   uint8_t *keys, size_t keys_len, zerotrie_change *changes,
                                   size_t changes_len, size_t *count, size_t *next_len);

/**
 * Finds the first key, in the order of zerotrie_list(), that has this value.
 *
 * ZEROTRIE_DONE: it is the first *key_len bytes of `out`, and the rest stays.
 * ZEROTRIE_BUFFER_TOO_SMALL: it has *key_len bytes, and `out` stays; call again with a room of as
 * many. Otherwise nothing is written: ZEROTRIE_NO_ENTRY, if no key has the value;
 * ZEROTRIE_UNKNOWN_KIND or ZEROTRIE_OUT_OF_MEMORY.
 *
 * It reads the pairs up to that key: for many values see zerotrie_reverse_places(). Allocates as
 * much as the longest key and the deepest branches take.
 */
ZEROTRIE_ANSWERS
zerotrie_status zerotrie_first_key_of(zerotrie_kind_number kind, const uint8_t *bytes, size_t len,
                                      size_t value, uint8_t *out, size_t out_len, size_t *key_len);

/**
 * Makes the table by which zerotrie_reverse_key() finds the first key of a value: a place for each
 * pair, in the order of the values. ZEROTRIE_DONE: it is the first *count elements of `places`, and
 * the rest stays. ZEROTRIE_BUFFER_TOO_SMALL: it has *count places, and `places` stays; call again
 * with as many. Otherwise nothing is written: ZEROTRIE_UNKNOWN_KIND or ZEROTRIE_OUT_OF_MEMORY.
 *
 *     status = zerotrie_reverse_places(kind, trie, len, places, 100, &count);
 *     status = zerotrie_reverse_key(kind, trie, len, places, count, 3, key, sizeof key, &key_len);
 *
 * *count is at most `len`. It is 0 if there are no pairs, and if the bytes are malformed or have 4 GiB
 * or more: no table is made then. A call lists all pairs, descends to the place of each, and sorts
 * the places. The table is for these bytes alone, and can be kept, as in a file. Allocates as much as
 * the table takes.
 */
ZEROTRIE_ANSWERS
zerotrie_status zerotrie_reverse_places(zerotrie_kind_number kind, const uint8_t *bytes, size_t len,
                                        uint32_t *places, size_t places_len, size_t *count);

/**
 * Does what zerotrie_first_key_of() does, by the table that zerotrie_reverse_places() wrote for these
 * bytes: it searches among the places by halves, and descends to the one that it finds. Without
 * places it reads the pairs, as zerotrie_first_key_of(). Other numbers than such a table do no harm:
 * the key that is found is then unspecified. Allocates as much as the key takes.
 */
ZEROTRIE_ANSWERS
zerotrie_status zerotrie_reverse_key(zerotrie_kind_number kind, const uint8_t *bytes, size_t len,
                                     const uint32_t *places, size_t places_len, size_t value,
                                     uint8_t *out, size_t out_len, size_t *key_len);
/** @} */

/** @name Indexes
 * An index is a map for exact look-ups alone, as bytes of its own that are read in place: larger
 * than a trie, and faster. Its keys are any bytes. Statements about keys hold for bytes that
 * zerotrie_index_build() wrote, and for those from elsewhere for which zerotrie_index_is_valid()
 * returned true. On other bytes each function still returns, and reads nothing outside them. */
/** @{ */

/** Returns whether the index has the key, and then sets *value to its value; otherwise *value
 * stays. Does not allocate. */
ZEROTRIE_ANSWERS
bool zerotrie_index_get(const uint8_t *bytes, size_t len, const uint8_t *key, size_t key_len,
                        size_t *value);

/**
 * Looks up many keys, which are one after another in `keys`, as in zerotrie_get_many(): writes the
 * value of each, or `missing` for a key that the index does not have, and as many values as the
 * smaller of `ends_len` and `values_len`; the rest of the room stays, whatever the bytes are.
 * Returns ZEROTRIE_DONE. Does not allocate.
 */
ZEROTRIE_NONNULL
zerotrie_status zerotrie_index_get_many(const uint8_t *bytes, size_t len, const uint8_t *keys,
                                        size_t keys_len, const size_t *ends, size_t ends_len,
                                        size_t missing, size_t *values, size_t values_len);

/** Returns whether the bytes are a valid index. Does not allocate. */
ZEROTRIE_ANSWERS
bool zerotrie_index_is_valid(const uint8_t *bytes, size_t len);

/**
 * Builds the index of pairs in any order. Allocates.
 *
 * ZEROTRIE_DONE: it is the first *len bytes of `out`, and the rest stays.
 * ZEROTRIE_BUFFER_TOO_SMALL: it has *len bytes, more than `out_len`, and `out` stays; call again
 * with as many. Otherwise nothing is written: ZEROTRIE_DUPLICATE_KEY; ZEROTRIE_CROWDED: build from
 * another seed; ZEROTRIE_CAPACITY_EXCEEDED, of keys and values of 4 GiB or more; or
 * ZEROTRIE_OUT_OF_MEMORY.
 *
 * The seed is any number. Keys that somebody chose for the seed can make a build ZEROTRIE_CROWDED,
 * and no look-up slow. So take 0, or a random number if the keys come from elsewhere.
 */
ZEROTRIE_ANSWERS
zerotrie_status zerotrie_index_build(uint64_t seed, const zerotrie_pair *pairs, size_t count,
                                     uint8_t *out, size_t out_len, size_t *len);

/** The same of keys that are one after another, each up to its end, as in zerotrie_build_many().
 * Allocates. */
ZEROTRIE_ANSWERS
zerotrie_status zerotrie_index_build_many(uint64_t seed, const uint8_t *keys, size_t keys_len,
                                          const size_t *ends, size_t ends_len, const size_t *values,
                                          size_t values_len, uint8_t *out, size_t out_len,
                                          size_t *len);

/**
 * Finds the index in a sealed file: see zerotrie_seal_index(). Sets *at to where its bytes begin and
 * *index_len to their number: they are the end of the file, whatever they are.
 *
 * A file is taken exactly if it is sealed as that of an index, in blocks or as a whole, as earlier
 * versions wrote it, and the bytes are those that were sealed. Otherwise the result is
 * ZEROTRIE_DAMAGED, also for other bytes than those of a sealed file and for the file of a trie, or
 * ZEROTRIE_UNKNOWN_VERSION if the file begins as a sealed one and says another version of the
 * format. Both numbers stay then. The index is not validated: zerotrie_index_is_valid() does that. A
 * call costs the checksums, and does not allocate.
 */
ZEROTRIE_ANSWERS
zerotrie_status zerotrie_open_index(const uint8_t *file, size_t len, size_t *at, size_t *index_len);

/**
 * Writes the sealed file of an index to `out`: a header, the checksums of its blocks of 65,536 bytes,
 * and the index. zerotrie_open_index() reads it. It is 32 bytes longer than the index, and 4 for each
 * block, of which the last may have fewer bytes. The index is not validated. ZEROTRIE_DONE and
 * ZEROTRIE_BUFFER_TOO_SMALL as in a build; or ZEROTRIE_OUT_OF_MEMORY, and nothing is written.
 * Allocates as much as the file takes.
 */
ZEROTRIE_ANSWERS
zerotrie_status zerotrie_seal_index(const uint8_t *index, size_t len, uint8_t *out, size_t out_len,
                                    size_t *sealed_len);
/** @} */

/** @cond */
/* The kinds, the statuses and the faults are numbers of 32 bits to the library: do not compile with
 * -fshort-enums. */
typedef char zerotrie_enums_have_32_bits[sizeof(zerotrie_kind) == 4 &&
                                                 sizeof(zerotrie_status) == 4 &&
                                                 sizeof(zerotrie_fault) == 4 &&
                                                 sizeof(zerotrie_search_by) == 4 &&
                                                 sizeof(zerotrie_bound) == 4 &&
                                                 sizeof(zerotrie_change_by) == 4
                                             ? 1
                                             : -1];

/* A pointer and its length, as two arguments. The library itself takes no null pointer, so in place
 * of NULL it gets the address of an object, always with the length 0: it reads and writes nothing
 * of that object. */
#define ZEROTRIE_ARRAY(pointer, len, object)                                                       \
    (pointer) ? (pointer) : (object), (pointer) ? (len) : 0
/* The same of a pointer to bytes of any type, which are read. */
#define ZEROTRIE_READS(pointer, len)                                                               \
    ZEROTRIE_POINTER(const uint8_t *, (pointer) ? (pointer) : ""), (pointer) ? (len) : 0

ZEROTRIE_MUST_USE
ZEROTRIE_INLINE bool zerotrie_is_well_formed_or_null(zerotrie_kind_number kind, const void *bytes,
                                                     size_t len) {
    return zerotrie_is_well_formed(kind, ZEROTRIE_READS(bytes, len));
}
#define zerotrie_is_well_formed(...) zerotrie_is_well_formed_or_null(__VA_ARGS__)

ZEROTRIE_MUST_USE
ZEROTRIE_NEEDS((6))
ZEROTRIE_INLINE bool zerotrie_get_or_null(zerotrie_kind_number kind, const void *bytes, size_t len,
                                          const void *key, size_t key_len, size_t *value) {
    return zerotrie_get(kind, ZEROTRIE_READS(bytes, len), ZEROTRIE_READS(key, key_len), value);
}
#define zerotrie_get(...) zerotrie_get_or_null(__VA_ARGS__)

ZEROTRIE_INLINE zerotrie_status zerotrie_get_many_or_null(zerotrie_kind_number kind,
                                                          const void *bytes, size_t len,
                                                          const void *keys, size_t keys_len,
                                                          const size_t *ends, size_t ends_len,
                                                          size_t missing, size_t *values,
                                                          size_t values_len) {
    const size_t no_number = 0;
    size_t number;
    return zerotrie_get_many(kind, ZEROTRIE_READS(bytes, len), ZEROTRIE_READS(keys, keys_len),
                             ZEROTRIE_ARRAY(ends, ends_len, &no_number), missing,
                             ZEROTRIE_ARRAY(values, values_len, &number));
}
#define zerotrie_get_many(...) zerotrie_get_many_or_null(__VA_ARGS__)

ZEROTRIE_MUST_USE
ZEROTRIE_NEEDS((6, 7))
ZEROTRIE_INLINE bool zerotrie_longest_prefix_or_null(zerotrie_kind_number kind, const void *bytes,
                                                     size_t len, const void *text, size_t text_len,
                                                     size_t *key_len, size_t *value) {
    return zerotrie_longest_prefix(kind, ZEROTRIE_READS(bytes, len), ZEROTRIE_READS(text, text_len),
                                   key_len, value);
}
#define zerotrie_longest_prefix(...) zerotrie_longest_prefix_or_null(__VA_ARGS__)

ZEROTRIE_MUST_USE
ZEROTRIE_NEEDS((8, 9))
ZEROTRIE_INLINE bool zerotrie_longest_prefix_at_or_null(zerotrie_kind_number kind,
                                                        const void *bytes, size_t len,
                                                        const void *text, size_t text_len,
                                                        const void *delimiters,
                                                        size_t delimiters_len, size_t *prefix_len,
                                                        size_t *value) {
    return zerotrie_longest_prefix_at(kind, ZEROTRIE_READS(bytes, len),
                                      ZEROTRIE_READS(text, text_len),
                                      ZEROTRIE_READS(delimiters, delimiters_len), prefix_len,
                                      value);
}
#define zerotrie_longest_prefix_at(...) zerotrie_longest_prefix_at_or_null(__VA_ARGS__)

ZEROTRIE_INLINE size_t zerotrie_common_prefixes_or_null(zerotrie_kind_number kind,
                                                        const void *bytes, size_t len,
                                                        const void *text, size_t text_len,
                                                        size_t *lens, size_t lens_room,
                                                        size_t *values, size_t values_room) {
    size_t number;
    return zerotrie_common_prefixes(kind, ZEROTRIE_READS(bytes, len),
                                    ZEROTRIE_READS(text, text_len),
                                    ZEROTRIE_ARRAY(lens, lens_room, &number),
                                    ZEROTRIE_ARRAY(values, values_room, &number));
}
#define zerotrie_common_prefixes(...) zerotrie_common_prefixes_or_null(__VA_ARGS__)

ZEROTRIE_MUST_USE
ZEROTRIE_INLINE zerotrie_cursor zerotrie_cursor_new_or_null(const void *bytes, size_t len) {
    return zerotrie_cursor_new(ZEROTRIE_READS(bytes, len));
}
#define zerotrie_cursor_new(...) zerotrie_cursor_new_or_null(__VA_ARGS__)

ZEROTRIE_MUST_USE
ZEROTRIE_INLINE zerotrie_cursor zerotrie_with_prefix_or_null(zerotrie_kind_number kind,
                                                             const void *bytes, size_t len,
                                                             const void *prefix,
                                                             size_t prefix_len) {
    return zerotrie_with_prefix(kind, ZEROTRIE_READS(bytes, len),
                                ZEROTRIE_READS(prefix, prefix_len));
}
#define zerotrie_with_prefix(...) zerotrie_with_prefix_or_null(__VA_ARGS__)

ZEROTRIE_NEEDS((4, 6))
ZEROTRIE_INLINE bool zerotrie_cursor_step_or_null(zerotrie_kind_number kind, const void *bytes,
                                                  size_t len, zerotrie_cursor *cursor, uint8_t byte,
                                                  uint8_t *edge) {
    return zerotrie_cursor_step(kind, ZEROTRIE_READS(bytes, len), cursor, byte, edge);
}
#define zerotrie_cursor_step(...) zerotrie_cursor_step_or_null(__VA_ARGS__)

ZEROTRIE_NEEDS((3, 4))
ZEROTRIE_INLINE bool zerotrie_cursor_take_value_or_null(const void *bytes, size_t len,
                                                        zerotrie_cursor *cursor, size_t *value) {
    return zerotrie_cursor_take_value(ZEROTRIE_READS(bytes, len), cursor, value);
}
#define zerotrie_cursor_take_value(...) zerotrie_cursor_take_value_or_null(__VA_ARGS__)

ZEROTRIE_NEEDS((4, 6, 7))
ZEROTRIE_INLINE bool zerotrie_cursor_probe_or_null(zerotrie_kind_number kind, const void *bytes,
                                                   size_t len, zerotrie_cursor *cursor,
                                                   size_t index, uint8_t *edge,
                                                   uint16_t *siblings) {
    return zerotrie_cursor_probe(kind, ZEROTRIE_READS(bytes, len), cursor, index, edge, siblings);
}
#define zerotrie_cursor_probe(...) zerotrie_cursor_probe_or_null(__VA_ARGS__)

ZEROTRIE_MUST_USE
ZEROTRIE_NEEDS((3))
ZEROTRIE_INLINE zerotrie_status zerotrie_tagged_kind_or_null(const void *tagged, size_t len,
                                                             uint32_t *kind) {
    return zerotrie_tagged_kind(ZEROTRIE_READS(tagged, len), kind);
}
#define zerotrie_tagged_kind(...) zerotrie_tagged_kind_or_null(__VA_ARGS__)

ZEROTRIE_MUST_USE
ZEROTRIE_NEEDS((3, 4, 5))
ZEROTRIE_INLINE zerotrie_status zerotrie_open_or_null(const void *file, size_t len, uint32_t *kind,
                                                      size_t *at, size_t *trie_len) {
    return zerotrie_open(ZEROTRIE_READS(file, len), kind, at, trie_len);
}
#define zerotrie_open(...) zerotrie_open_or_null(__VA_ARGS__)

ZEROTRIE_MUST_USE
ZEROTRIE_NEEDS((4))
ZEROTRIE_INLINE zerotrie_fault zerotrie_first_fault_or_null(zerotrie_kind_number kind,
                                                            const void *bytes, size_t len,
                                                            size_t *at) {
    return zerotrie_first_fault(kind, ZEROTRIE_READS(bytes, len), at);
}
#define zerotrie_first_fault(...) zerotrie_first_fault_or_null(__VA_ARGS__)

ZEROTRIE_MUST_USE
ZEROTRIE_NEEDS((6))
ZEROTRIE_INLINE zerotrie_status zerotrie_build_or_null(zerotrie_kind_number kind,
                                                       const zerotrie_pair *pairs, size_t count,
                                                       uint8_t *out, size_t out_len, size_t *len) {
    const uint8_t no_byte = 0;
    const zerotrie_pair no_pair = { { &no_byte, 0 }, 0 };
    uint8_t byte;
    return zerotrie_build(kind, ZEROTRIE_ARRAY(pairs, count, &no_pair),
                          ZEROTRIE_ARRAY(out, out_len, &byte), len);
}
#define zerotrie_build(...) zerotrie_build_or_null(__VA_ARGS__)

ZEROTRIE_MUST_USE
ZEROTRIE_NEEDS((6))
ZEROTRIE_INLINE zerotrie_status zerotrie_build_sorted_or_null(zerotrie_kind_number kind,
                                                              const zerotrie_pair *pairs,
                                                              size_t count, uint8_t *out,
                                                              size_t out_len, size_t *len) {
    const uint8_t no_byte = 0;
    const zerotrie_pair no_pair = { { &no_byte, 0 }, 0 };
    uint8_t byte;
    return zerotrie_build_sorted(kind, ZEROTRIE_ARRAY(pairs, count, &no_pair),
                                 ZEROTRIE_ARRAY(out, out_len, &byte), len);
}
#define zerotrie_build_sorted(...) zerotrie_build_sorted_or_null(__VA_ARGS__)

ZEROTRIE_MUST_USE
ZEROTRIE_NEEDS((10))
ZEROTRIE_INLINE zerotrie_status zerotrie_build_many_or_null(zerotrie_kind_number kind,
                                                            const void *keys, size_t keys_len,
                                                            const size_t *ends, size_t ends_len,
                                                            const size_t *values, size_t values_len,
                                                            uint8_t *out, size_t out_len,
                                                            size_t *len) {
    const size_t no_number = 0;
    uint8_t byte;
    return zerotrie_build_many(kind, ZEROTRIE_READS(keys, keys_len),
                               ZEROTRIE_ARRAY(ends, ends_len, &no_number),
                               ZEROTRIE_ARRAY(values, values_len, &no_number),
                               ZEROTRIE_ARRAY(out, out_len, &byte), len);
}
#define zerotrie_build_many(...) zerotrie_build_many_or_null(__VA_ARGS__)

ZEROTRIE_MUST_USE
ZEROTRIE_NEEDS((8))
ZEROTRIE_INLINE zerotrie_status zerotrie_combine_or_null(zerotrie_selection selection,
                                                         zerotrie_rule rule,
                                                         const zerotrie_trie *tries, size_t count,
                                                         zerotrie_kind_number kind, uint8_t *out,
                                                         size_t out_len, size_t *len) {
    const zerotrie_trie no_trie = { ZEROTRIE_SIMPLE_ASCII, { ZEROTRIE_POINTER(const uint8_t *, ""), 0 } };
    uint8_t byte;
    return zerotrie_combine(selection, rule, ZEROTRIE_ARRAY(tries, count, &no_trie), kind,
                            ZEROTRIE_ARRAY(out, out_len, &byte), len);
}
#define zerotrie_combine(...) zerotrie_combine_or_null(__VA_ARGS__)

ZEROTRIE_MUST_USE
ZEROTRIE_NEEDS((4))
ZEROTRIE_INLINE zerotrie_status zerotrie_encoded_len_or_null(zerotrie_kind_number kind,
                                                             const zerotrie_pair *pairs,
                                                             size_t count, size_t *len) {
    const uint8_t no_byte = 0;
    const zerotrie_pair no_pair = { { &no_byte, 0 }, 0 };
    return zerotrie_encoded_len(kind, ZEROTRIE_ARRAY(pairs, count, &no_pair), len);
}
#define zerotrie_encoded_len(...) zerotrie_encoded_len_or_null(__VA_ARGS__)

ZEROTRIE_MUST_USE
ZEROTRIE_NEEDS((4, 5))
ZEROTRIE_INLINE zerotrie_status zerotrie_why_refused_or_null(zerotrie_kind_number kind,
                                                             const zerotrie_pair *pairs,
                                                             size_t count, size_t *first,
                                                             size_t *second) {
    const uint8_t no_byte = 0;
    const zerotrie_pair no_pair = { { &no_byte, 0 }, 0 };
    return zerotrie_why_refused(kind, ZEROTRIE_ARRAY(pairs, count, &no_pair), first, second);
}
#define zerotrie_why_refused(...) zerotrie_why_refused_or_null(__VA_ARGS__)

ZEROTRIE_MUST_USE
ZEROTRIE_INLINE zerotrie_kind zerotrie_auto_kind_or_null(const zerotrie_pair *pairs, size_t count) {
    const uint8_t no_byte = 0;
    const zerotrie_pair no_pair = { { &no_byte, 0 }, 0 };
    return zerotrie_auto_kind(ZEROTRIE_ARRAY(pairs, count, &no_pair));
}
#define zerotrie_auto_kind(...) zerotrie_auto_kind_or_null(__VA_ARGS__)

ZEROTRIE_MUST_USE
ZEROTRIE_NEEDS((6))
ZEROTRIE_INLINE zerotrie_status zerotrie_tagged_or_null(zerotrie_kind_number kind,
                                                        const void *bytes, size_t len, uint8_t *out,
                                                        size_t out_len, size_t *tagged_len) {
    uint8_t byte;
    return zerotrie_tagged(kind, ZEROTRIE_READS(bytes, len), ZEROTRIE_ARRAY(out, out_len, &byte),
                           tagged_len);
}
#define zerotrie_tagged(...) zerotrie_tagged_or_null(__VA_ARGS__)

ZEROTRIE_MUST_USE
ZEROTRIE_NEEDS((6))
ZEROTRIE_INLINE zerotrie_status zerotrie_seal_or_null(zerotrie_kind_number kind, const void *bytes,
                                                      size_t len, uint8_t *out, size_t out_len,
                                                      size_t *sealed_len) {
    uint8_t byte;
    return zerotrie_seal(kind, ZEROTRIE_READS(bytes, len), ZEROTRIE_ARRAY(out, out_len, &byte),
                         sealed_len);
}
#define zerotrie_seal(...) zerotrie_seal_or_null(__VA_ARGS__)

ZEROTRIE_MUST_USE
ZEROTRIE_NEEDS((7))
ZEROTRIE_INLINE zerotrie_status zerotrie_dense_get_or_null(const void *record, size_t len,
                                                           const void *prefix, size_t prefix_len,
                                                           const void *suffix, size_t suffix_len,
                                                           size_t *value) {
    return zerotrie_dense_get(ZEROTRIE_READS(record, len), ZEROTRIE_READS(prefix, prefix_len),
                              ZEROTRIE_READS(suffix, suffix_len), value);
}
#define zerotrie_dense_get(...) zerotrie_dense_get_or_null(__VA_ARGS__)

ZEROTRIE_MUST_USE
ZEROTRIE_NEEDS((14))
ZEROTRIE_INLINE zerotrie_status zerotrie_dense_build_or_null(const void *prefixes,
                                                             size_t prefixes_len,
                                                             const size_t *prefix_ends,
                                                             size_t prefix_count,
                                                             const void *suffixes,
                                                             size_t suffixes_len,
                                                             const size_t *suffix_ends,
                                                             size_t suffix_count,
                                                             const size_t *values,
                                                             size_t value_count, uint8_t delimiter,
                                                             uint8_t *out, size_t out_len,
                                                             size_t *len) {
    const size_t no_number = 0;
    uint8_t byte;
    return zerotrie_dense_build(ZEROTRIE_READS(prefixes, prefixes_len),
                                ZEROTRIE_ARRAY(prefix_ends, prefix_count, &no_number),
                                ZEROTRIE_READS(suffixes, suffixes_len),
                                ZEROTRIE_ARRAY(suffix_ends, suffix_count, &no_number),
                                ZEROTRIE_ARRAY(values, value_count, &no_number), delimiter,
                                ZEROTRIE_ARRAY(out, out_len, &byte), len);
}
#define zerotrie_dense_build(...) zerotrie_dense_build_or_null(__VA_ARGS__)

ZEROTRIE_MUST_USE
ZEROTRIE_NEEDS((12, 13))
ZEROTRIE_INLINE zerotrie_status zerotrie_list_or_null(zerotrie_kind_number kind, const void *bytes,
                                                      size_t len, const void *prefix,
                                                      size_t prefix_len, uint8_t *keys,
                                                      size_t keys_len, size_t *ends,
                                                      size_t ends_len, size_t *values,
                                                      size_t values_len, size_t *key_bytes,
                                                      size_t *count) {
    uint8_t byte;
    size_t number;
    return zerotrie_list(kind, ZEROTRIE_READS(bytes, len), ZEROTRIE_READS(prefix, prefix_len),
                         ZEROTRIE_ARRAY(keys, keys_len, &byte),
                         ZEROTRIE_ARRAY(ends, ends_len, &number),
                         ZEROTRIE_ARRAY(values, values_len, &number), key_bytes, count);
}
#define zerotrie_list(...) zerotrie_list_or_null(__VA_ARGS__)

ZEROTRIE_MUST_USE
ZEROTRIE_NEEDS((15, 16))
ZEROTRIE_INLINE zerotrie_status zerotrie_list_some_or_null(zerotrie_kind_number kind,
                                                           const void *bytes, size_t len,
                                                           const void *prefix, size_t prefix_len,
                                                           bool goes_on, const void *last,
                                                           size_t last_len, uint8_t *keys,
                                                           size_t keys_len, size_t *ends,
                                                           size_t ends_len, size_t *values,
                                                           size_t values_len, size_t *count,
                                                           size_t *next_len) {
    uint8_t byte;
    size_t number;
    return zerotrie_list_some(kind, ZEROTRIE_READS(bytes, len), ZEROTRIE_READS(prefix, prefix_len),
                              goes_on, ZEROTRIE_READS(last, last_len),
                              ZEROTRIE_ARRAY(keys, keys_len, &byte),
                              ZEROTRIE_ARRAY(ends, ends_len, &number),
                              ZEROTRIE_ARRAY(values, values_len, &number), count, next_len);
}
#define zerotrie_list_some(...) zerotrie_list_some_or_null(__VA_ARGS__)

ZEROTRIE_MUST_USE
ZEROTRIE_NEEDS((6, 16, 17))
ZEROTRIE_INLINE zerotrie_status zerotrie_search_some_or_null(zerotrie_kind_number kind,
                                                             const void *bytes, size_t len,
                                                             const void *prefix, size_t prefix_len,
                                                             const zerotrie_search *search,
                                                             bool goes_on, const void *last,
                                                             size_t last_len, uint8_t *keys,
                                                             size_t keys_len, size_t *ends,
                                                             size_t ends_len, size_t *values,
                                                             size_t values_len, size_t *count,
                                                             size_t *next_len) {
    uint8_t byte;
    size_t number;
    return zerotrie_search_some(kind, ZEROTRIE_READS(bytes, len),
                                ZEROTRIE_READS(prefix, prefix_len), search, goes_on,
                                ZEROTRIE_READS(last, last_len),
                                ZEROTRIE_ARRAY(keys, keys_len, &byte),
                                ZEROTRIE_ARRAY(ends, ends_len, &number),
                                ZEROTRIE_ARRAY(values, values_len, &number), count, next_len);
}
#define zerotrie_search_some(...) zerotrie_search_some_or_null(__VA_ARGS__)

ZEROTRIE_MUST_USE
ZEROTRIE_NEEDS((16, 17))
ZEROTRIE_INLINE zerotrie_status zerotrie_sorted_some_or_null(zerotrie_kind_number kind,
                                                             const void *bytes, size_t len,
                                                             zerotrie_bound from_bound,
                                                             const void *from, size_t from_len,
                                                             zerotrie_bound to_bound,
                                                             const void *to, size_t to_len,
                                                             uint8_t *keys, size_t keys_len,
                                                             size_t *ends, size_t ends_len,
                                                             size_t *values, size_t values_len,
                                                             size_t *count, size_t *next_len) {
    uint8_t byte;
    size_t number;
    return zerotrie_sorted_some(kind, ZEROTRIE_READS(bytes, len), from_bound,
                                ZEROTRIE_READS(from, from_len), to_bound,
                                ZEROTRIE_READS(to, to_len), ZEROTRIE_ARRAY(keys, keys_len, &byte),
                                ZEROTRIE_ARRAY(ends, ends_len, &number),
                                ZEROTRIE_ARRAY(values, values_len, &number), count, next_len);
}
#define zerotrie_sorted_some(...) zerotrie_sorted_some_or_null(__VA_ARGS__)

ZEROTRIE_MUST_USE
ZEROTRIE_NEEDS((16, 17))
ZEROTRIE_INLINE zerotrie_status zerotrie_nearest_or_null(zerotrie_kind_number kind,
                                                         const void *bytes, size_t len,
                                                         zerotrie_search_by by, const void *word,
                                                         size_t word_len, uint32_t edits,
                                                         uint8_t *keys, size_t keys_len,
                                                         size_t *ends, size_t ends_len,
                                                         size_t *values, size_t values_len,
                                                         size_t *distances, size_t distances_len,
                                                         size_t *count, size_t *next_len) {
    uint8_t byte;
    size_t number;
    return zerotrie_nearest(kind, ZEROTRIE_READS(bytes, len), by, ZEROTRIE_READS(word, word_len),
                            edits, ZEROTRIE_ARRAY(keys, keys_len, &byte),
                            ZEROTRIE_ARRAY(ends, ends_len, &number),
                            ZEROTRIE_ARRAY(values, values_len, &number),
                            ZEROTRIE_ARRAY(distances, distances_len, &number), count, next_len);
}
#define zerotrie_nearest(...) zerotrie_nearest_or_null(__VA_ARGS__)

ZEROTRIE_MUST_USE
ZEROTRIE_NEEDS((12, 13))
ZEROTRIE_INLINE zerotrie_status zerotrie_last_within_or_null(zerotrie_kind_number kind,
                                                             const void *bytes, size_t len,
                                                             zerotrie_bound from_bound,
                                                             const void *from, size_t from_len,
                                                             zerotrie_bound to_bound,
                                                             const void *to, size_t to_len,
                                                             uint8_t *key, size_t key_room,
                                                             size_t *key_len, size_t *value) {
    uint8_t byte;
    return zerotrie_last_within(kind, ZEROTRIE_READS(bytes, len), from_bound,
                                ZEROTRIE_READS(from, from_len), to_bound,
                                ZEROTRIE_READS(to, to_len), ZEROTRIE_ARRAY(key, key_room, &byte),
                                key_len, value);
}
#define zerotrie_last_within(...) zerotrie_last_within_or_null(__VA_ARGS__)

ZEROTRIE_MUST_USE
ZEROTRIE_NEEDS((1, 2, 13, 14))
ZEROTRIE_INLINE zerotrie_status zerotrie_diff_some_or_null(const zerotrie_trie *first,
                                                           const zerotrie_trie *second,
                                                           zerotrie_bound from_bound,
                                                           const void *from, size_t from_len,
                                                           zerotrie_bound to_bound, const void *to,
                                                           size_t to_len, uint8_t *keys,
                                                           size_t keys_len,
                                                           zerotrie_change *changes,
                                                           size_t changes_len, size_t *count,
                                                           size_t *next_len) {
    uint8_t byte;
    zerotrie_change change;
    return zerotrie_diff_some(first, second, from_bound, ZEROTRIE_READS(from, from_len), to_bound,
                              ZEROTRIE_READS(to, to_len), ZEROTRIE_ARRAY(keys, keys_len, &byte),
                              ZEROTRIE_ARRAY(changes, changes_len, &change), count, next_len);
}
#define zerotrie_diff_some(...) zerotrie_diff_some_or_null(__VA_ARGS__)

ZEROTRIE_MUST_USE
ZEROTRIE_NEEDS((7))
ZEROTRIE_INLINE zerotrie_status zerotrie_first_key_of_or_null(zerotrie_kind_number kind,
                                                              const void *bytes, size_t len,
                                                              size_t value, uint8_t *key,
                                                              size_t key_room, size_t *key_len) {
    uint8_t byte;
    return zerotrie_first_key_of(kind, ZEROTRIE_READS(bytes, len), value,
                                 ZEROTRIE_ARRAY(key, key_room, &byte), key_len);
}
#define zerotrie_first_key_of(...) zerotrie_first_key_of_or_null(__VA_ARGS__)

ZEROTRIE_MUST_USE
ZEROTRIE_NEEDS((6))
ZEROTRIE_INLINE zerotrie_status zerotrie_reverse_places_or_null(zerotrie_kind_number kind,
                                                                const void *bytes, size_t len,
                                                                uint32_t *places,
                                                                size_t places_len, size_t *count) {
    uint32_t place;
    return zerotrie_reverse_places(kind, ZEROTRIE_READS(bytes, len),
                                   ZEROTRIE_ARRAY(places, places_len, &place), count);
}
#define zerotrie_reverse_places(...) zerotrie_reverse_places_or_null(__VA_ARGS__)

ZEROTRIE_MUST_USE
ZEROTRIE_NEEDS((9))
ZEROTRIE_INLINE zerotrie_status zerotrie_reverse_key_or_null(zerotrie_kind_number kind,
                                                             const void *bytes, size_t len,
                                                             const uint32_t *places,
                                                             size_t places_len, size_t value,
                                                             uint8_t *key, size_t key_room,
                                                             size_t *key_len) {
    const uint32_t no_place = 0;
    uint8_t byte;
    return zerotrie_reverse_key(kind, ZEROTRIE_READS(bytes, len),
                                ZEROTRIE_ARRAY(places, places_len, &no_place), value,
                                ZEROTRIE_ARRAY(key, key_room, &byte), key_len);
}
#define zerotrie_reverse_key(...) zerotrie_reverse_key_or_null(__VA_ARGS__)

ZEROTRIE_MUST_USE
ZEROTRIE_NEEDS((5))
ZEROTRIE_INLINE bool zerotrie_index_get_or_null(const void *bytes, size_t len, const void *key,
                                                size_t key_len, size_t *value) {
    return zerotrie_index_get(ZEROTRIE_READS(bytes, len), ZEROTRIE_READS(key, key_len), value);
}
#define zerotrie_index_get(...) zerotrie_index_get_or_null(__VA_ARGS__)

ZEROTRIE_INLINE zerotrie_status zerotrie_index_get_many_or_null(const void *bytes, size_t len,
                                                                const void *keys, size_t keys_len,
                                                                const size_t *ends, size_t ends_len,
                                                                size_t missing, size_t *values,
                                                                size_t values_len) {
    const size_t no_number = 0;
    size_t number;
    return zerotrie_index_get_many(ZEROTRIE_READS(bytes, len), ZEROTRIE_READS(keys, keys_len),
                                   ZEROTRIE_ARRAY(ends, ends_len, &no_number), missing,
                                   ZEROTRIE_ARRAY(values, values_len, &number));
}
#define zerotrie_index_get_many(...) zerotrie_index_get_many_or_null(__VA_ARGS__)

ZEROTRIE_MUST_USE
ZEROTRIE_INLINE bool zerotrie_index_is_valid_or_null(const void *bytes, size_t len) {
    return zerotrie_index_is_valid(ZEROTRIE_READS(bytes, len));
}
#define zerotrie_index_is_valid(...) zerotrie_index_is_valid_or_null(__VA_ARGS__)

ZEROTRIE_MUST_USE
ZEROTRIE_NEEDS((6))
ZEROTRIE_INLINE zerotrie_status zerotrie_index_build_or_null(uint64_t seed,
                                                             const zerotrie_pair *pairs,
                                                             size_t count, uint8_t *out,
                                                             size_t out_len, size_t *len) {
    const uint8_t no_byte = 0;
    const zerotrie_pair no_pair = { { &no_byte, 0 }, 0 };
    uint8_t byte;
    return zerotrie_index_build(seed, ZEROTRIE_ARRAY(pairs, count, &no_pair),
                                ZEROTRIE_ARRAY(out, out_len, &byte), len);
}
#define zerotrie_index_build(...) zerotrie_index_build_or_null(__VA_ARGS__)

ZEROTRIE_MUST_USE
ZEROTRIE_NEEDS((10))
ZEROTRIE_INLINE zerotrie_status zerotrie_index_build_many_or_null(uint64_t seed, const void *keys,
                                                                  size_t keys_len,
                                                                  const size_t *ends,
                                                                  size_t ends_len,
                                                                  const size_t *values,
                                                                  size_t values_len, uint8_t *out,
                                                                  size_t out_len, size_t *len) {
    const size_t no_number = 0;
    uint8_t byte;
    return zerotrie_index_build_many(seed, ZEROTRIE_READS(keys, keys_len),
                                     ZEROTRIE_ARRAY(ends, ends_len, &no_number),
                                     ZEROTRIE_ARRAY(values, values_len, &no_number),
                                     ZEROTRIE_ARRAY(out, out_len, &byte), len);
}
#define zerotrie_index_build_many(...) zerotrie_index_build_many_or_null(__VA_ARGS__)

ZEROTRIE_MUST_USE
ZEROTRIE_NEEDS((3, 4))
ZEROTRIE_INLINE zerotrie_status zerotrie_open_index_or_null(const void *file, size_t len,
                                                            size_t *at, size_t *index_len) {
    return zerotrie_open_index(ZEROTRIE_READS(file, len), at, index_len);
}
#define zerotrie_open_index(...) zerotrie_open_index_or_null(__VA_ARGS__)

ZEROTRIE_MUST_USE
ZEROTRIE_NEEDS((5))
ZEROTRIE_INLINE zerotrie_status zerotrie_seal_index_or_null(const void *index, size_t len,
                                                            uint8_t *out, size_t out_len,
                                                            size_t *sealed_len) {
    uint8_t byte;
    return zerotrie_seal_index(ZEROTRIE_READS(index, len), ZEROTRIE_ARRAY(out, out_len, &byte),
                               sealed_len);
}
#define zerotrie_seal_index(...) zerotrie_seal_index_or_null(__VA_ARGS__)
/** @endcond */

/** @name A trie as one value */
/** @{ */

/** Returns a trie of its parts, which are not validated. If `bytes` is NULL, it has no bytes. */
ZEROTRIE_INLINE zerotrie_trie zerotrie_trie_of(zerotrie_kind kind, const void *bytes, size_t len) {
    zerotrie_trie made;
    made.kind = kind;
    made.bytes = zerotrie_bytes_of(bytes, len);
    return made;
}

/** Sets *kind to the kind of tagged bytes, and *trie to what follows their first byte, in place. It
 * is not validated. Or returns ZEROTRIE_NO_TAG or ZEROTRIE_INVALID_TAG, and both stay. */
ZEROTRIE_MUST_USE
ZEROTRIE_NEEDS((3, 4))
ZEROTRIE_INLINE zerotrie_status zerotrie_untagged(const void *tagged, size_t len, uint32_t *kind,
                                                  zerotrie_bytes *trie) {
    const zerotrie_status status = zerotrie_tagged_kind(tagged, len, kind);
    if (status == ZEROTRIE_DONE) *trie = zerotrie_between(tagged, len, 1, len);
    return status;
}

/** Sets *trie to the trie of tagged bytes, in place. It is not validated. Or returns
 * ZEROTRIE_NO_TAG or ZEROTRIE_INVALID_TAG, and *trie stays. */
ZEROTRIE_MUST_USE
ZEROTRIE_NEEDS((3))
ZEROTRIE_INLINE zerotrie_status zerotrie_trie_from_tagged(const void *tagged, size_t len,
                                                          zerotrie_trie *trie) {
    uint32_t kind = 0;
    const zerotrie_status status = zerotrie_tagged_kind(tagged, len, &kind);
    if (status == ZEROTRIE_DONE)
        *trie = zerotrie_trie_of(ZEROTRIE_AS_KIND(kind),
                                 ZEROTRIE_POINTER(const uint8_t *, tagged) + 1, len - 1);
    return status;
}

/** Sets *trie to the trie in a file that is sealed or tagged bytes, in place. It is not validated.
 * See zerotrie_open(). With another status than ZEROTRIE_DONE *trie stays. */
ZEROTRIE_MUST_USE
ZEROTRIE_NEEDS((3))
ZEROTRIE_INLINE zerotrie_status zerotrie_trie_open(const void *file, size_t len,
                                                   zerotrie_trie *trie) {
    uint32_t kind = 0;
    size_t at = 0, trie_len = 0;
    const zerotrie_status status = zerotrie_open(file, len, &kind, &at, &trie_len);
    if (status == ZEROTRIE_DONE)
        *trie = zerotrie_trie_of(ZEROTRIE_AS_KIND(kind),
                                 ZEROTRIE_POINTER(const uint8_t *, file) + at, trie_len);
    return status;
}

/** See zerotrie_is_well_formed(). */
ZEROTRIE_MUST_USE
ZEROTRIE_INLINE bool zerotrie_trie_is_well_formed(zerotrie_trie trie) {
    return zerotrie_is_well_formed(trie.kind, trie.bytes.ptr, trie.bytes.len);
}

/** See zerotrie_first_fault(). */
ZEROTRIE_MUST_USE
ZEROTRIE_NEEDS((2))
ZEROTRIE_INLINE zerotrie_fault zerotrie_trie_first_fault(zerotrie_trie trie, size_t *at) {
    return zerotrie_first_fault(trie.kind, trie.bytes.ptr, trie.bytes.len, at);
}

/** See zerotrie_get(). */
ZEROTRIE_MUST_USE
ZEROTRIE_NEEDS((4))
ZEROTRIE_INLINE bool zerotrie_trie_get(zerotrie_trie trie, const void *key, size_t key_len,
                                       size_t *value) {
    return zerotrie_get(trie.kind, trie.bytes.ptr, trie.bytes.len, key, key_len, value);
}

/** The same of a C string, as zerotrie_trie_gets(trie, "bar", &value). */
ZEROTRIE_ANSWERS
ZEROTRIE_INLINE bool zerotrie_trie_gets(zerotrie_trie trie, const char *key, size_t *value) {
    return zerotrie_trie_get(trie, key, strlen(key), value);
}

/** See zerotrie_longest_prefix(). */
ZEROTRIE_MUST_USE
ZEROTRIE_NEEDS((4, 5))
ZEROTRIE_INLINE bool zerotrie_trie_longest_prefix(zerotrie_trie trie, const void *text,
                                                  size_t text_len, size_t *key_len, size_t *value) {
    return zerotrie_longest_prefix(trie.kind, trie.bytes.ptr, trie.bytes.len, text, text_len,
                                   key_len, value);
}

/** See zerotrie_longest_prefix_at(). */
ZEROTRIE_MUST_USE
ZEROTRIE_NEEDS((6, 7))
ZEROTRIE_INLINE bool zerotrie_trie_longest_prefix_at(zerotrie_trie trie, const void *text,
                                                     size_t text_len, const void *delimiters,
                                                     size_t delimiters_len, size_t *prefix_len,
                                                     size_t *value) {
    return zerotrie_longest_prefix_at(trie.kind, trie.bytes.ptr, trie.bytes.len, text, text_len,
                                      delimiters, delimiters_len, prefix_len, value);
}

/** See zerotrie_common_prefixes(). */
ZEROTRIE_INLINE size_t zerotrie_trie_common_prefixes(zerotrie_trie trie, const void *text,
                                                     size_t text_len, size_t *lens,
                                                     size_t lens_room, size_t *values,
                                                     size_t values_room) {
    return zerotrie_common_prefixes(trie.kind, trie.bytes.ptr, trie.bytes.len, text, text_len, lens,
                                    lens_room, values, values_room);
}

/** See zerotrie_list(). */
ZEROTRIE_MUST_USE
ZEROTRIE_NEEDS((10, 11))
ZEROTRIE_INLINE zerotrie_status zerotrie_trie_list(zerotrie_trie trie, const void *prefix,
                                                   size_t prefix_len, uint8_t *keys,
                                                   size_t keys_len, size_t *ends, size_t ends_len,
                                                   size_t *values, size_t values_len,
                                                   size_t *key_bytes, size_t *count) {
    return zerotrie_list(trie.kind, trie.bytes.ptr, trie.bytes.len, prefix, prefix_len, keys,
                         keys_len, ends, ends_len, values, values_len, key_bytes, count);
}

/** See zerotrie_cursor_new(). */
ZEROTRIE_MUST_USE
ZEROTRIE_INLINE zerotrie_cursor zerotrie_trie_cursor(zerotrie_trie trie) {
    return zerotrie_cursor_new(trie.bytes.ptr, trie.bytes.len);
}

/** See zerotrie_with_prefix(). */
ZEROTRIE_MUST_USE
ZEROTRIE_INLINE zerotrie_cursor zerotrie_trie_with_prefix(zerotrie_trie trie, const void *prefix,
                                                          size_t prefix_len) {
    return zerotrie_with_prefix(trie.kind, trie.bytes.ptr, trie.bytes.len, prefix, prefix_len);
}

/** See zerotrie_cursor_step(). */
ZEROTRIE_NEEDS((2, 4))
ZEROTRIE_INLINE bool zerotrie_trie_step(zerotrie_trie trie, zerotrie_cursor *cursor, uint8_t byte,
                                        uint8_t *edge) {
    return zerotrie_cursor_step(trie.kind, trie.bytes.ptr, trie.bytes.len, cursor, byte, edge);
}

/** See zerotrie_cursor_take_value(). */
ZEROTRIE_NEEDS((2, 3))
ZEROTRIE_INLINE bool zerotrie_trie_take_value(zerotrie_trie trie, zerotrie_cursor *cursor,
                                              size_t *value) {
    return zerotrie_cursor_take_value(trie.bytes.ptr, trie.bytes.len, cursor, value);
}

/** See zerotrie_cursor_probe(). */
ZEROTRIE_NEEDS((2, 4, 5))
ZEROTRIE_INLINE bool zerotrie_trie_probe(zerotrie_trie trie, zerotrie_cursor *cursor, size_t index,
                                         uint8_t *edge, uint16_t *siblings) {
    return zerotrie_cursor_probe(trie.kind, trie.bytes.ptr, trie.bytes.len, cursor, index, edge,
                                 siblings);
}
/** @} */

/** @name A listing in parts */
/** @{ */

/** What zerotrie_listing_next() comes to. A listing that failed has not ended, and says so each
 * time. */
typedef enum zerotrie_next ZEROTRIE_ENUM {
    /** no pair is left */
    ZEROTRIE_END = 0,
    /** there is a part, of one pair at least */
    ZEROTRIE_PART = 1,
    /** pairs are left, and `status` says why none comes */
    ZEROTRIE_STUCK = 2
} zerotrie_next;

/** Rooms of a listing, for keys of up to 2,048 bytes. They hold nothing before it. */
typedef struct zerotrie_rooms {
    uint8_t keys[4096]; /**< for keys */
    size_t ends[64];    /**< for where each key of a part ends */
    size_t values[64];  /**< for the value of each */
} zerotrie_rooms;

/**
 * A listing of which one part is there at a time, in rooms of the caller. The first N pairs are
 * those of a first part with N places.
 *
 *     zerotrie_rooms rooms;
 *     zerotrie_listing part = zerotrie_listing_in(trie, "ba", &rooms);
 *     zerotrie_next next;
 *     while ((next = zerotrie_listing_next(&part)) == ZEROTRIE_PART)
 *         for (size_t i = 0; i < part.count; i++) {
 *             const zerotrie_bytes key = zerotrie_listing_key(&part, i);
 *             printf("%.*s %zu\n", (int)key.len, (const char *)key.ptr, part.values[i]);
 *         }
 *     if (next != ZEROTRIE_END) fprintf(stderr, "%s\n", zerotrie_status_text(part.status));
 */
typedef struct zerotrie_listing {
    zerotrie_trie trie;     /**< the trie */
    zerotrie_bytes prefix;  /**< what the keys begin with */
    zerotrie_search search; /**< what finds the keys, or has the bounds, if it searches or is sorted */
    bool searches;          /**< whether it lists what `search` finds, in the order of bytes */
    bool sorted;            /**< whether it lists the keys between its bounds, in that order */
    bool reversed;          /**< whether it lists these from the last key on */
    uint8_t *room; /**< room for keys: one half for those of a part, the other for those of the part
                      before */
    size_t room_len;     /**< its bytes */
    size_t *ends;        /**< where each key of the part ends */
    size_t *values;      /**< the value of each */
    size_t places;       /**< the places of `ends`, and of `values` */
    const uint8_t *keys; /**< the keys of the part, one after another */
    size_t count;        /**< the number of its pairs */
    size_t next_len; /**< with ZEROTRIE_BUFFER_TOO_SMALL the length of the key that comes next; 0 if
                        that is reversed and was not looked for */
    size_t listed;   /**< the number of pairs of all parts so far */
    zerotrie_bytes last;    /**< the last key of the part */
    zerotrie_status status; /**< what the part came to, as the library returned it */
} zerotrie_listing;

/** Returns a listing of the pairs whose keys begin with a prefix, before its first part. The key of
 * a pair has room if it has at most half of `room_len` bytes. */
ZEROTRIE_INLINE zerotrie_listing zerotrie_listing_of(zerotrie_trie trie, const void *prefix,
                                                     size_t prefix_len, uint8_t *room,
                                                     size_t room_len, size_t *ends, size_t *values,
                                                     size_t places) {
    zerotrie_listing made;
    made.trie = trie;
    made.prefix = zerotrie_bytes_of(prefix, prefix_len);
    made.search = zerotrie_search_for(ZEROTRIE_BY_RANGE, prefix, 0);
    made.searches = made.sorted = made.reversed = false;
    made.room = room;
    made.room_len = room ? room_len : 0;
    made.ends = ends;
    made.values = values;
    made.places = places;
    made.keys = room;
    made.count = made.next_len = made.listed = 0;
    made.last = zerotrie_bytes_of("", 0);
    made.status = ZEROTRIE_BUFFER_TOO_SMALL;
    return made;
}

/** The same of a prefix that is a C string, in rooms of the usual size. */
ZEROTRIE_NONNULL
ZEROTRIE_INLINE zerotrie_listing zerotrie_listing_in(zerotrie_trie trie, const char *prefix,
                                                     zerotrie_rooms *rooms) {
    return zerotrie_listing_of(trie, prefix, strlen(prefix), rooms->keys, sizeof rooms->keys,
                               rooms->ends, rooms->values, 64);
}

/**
 * Returns a listing of the pairs whose keys a search finds, in the order of bytes in every kind,
 * before its first part.
 *
 *     zerotrie_listing part = zerotrie_listing_by(trie, zerotrie_glob(pattern, pattern_len), room,
 *                                                 sizeof room, ends, values, 10);
 *
 * For keys that begin with a prefix too, set `prefix` of what it returns.
 */
ZEROTRIE_INLINE zerotrie_listing zerotrie_listing_by(zerotrie_trie trie, zerotrie_search search,
                                                     uint8_t *room, size_t room_len, size_t *ends,
                                                     size_t *values, size_t places) {
    zerotrie_listing made =
        zerotrie_listing_of(trie, room, 0, room, room_len, ends, values, places);
    made.search = search;
    made.searches = true;
    return made;
}

/** The same in rooms of the usual size. */
ZEROTRIE_NONNULL
ZEROTRIE_INLINE zerotrie_listing zerotrie_listing_found(zerotrie_trie trie, zerotrie_search search,
                                                        zerotrie_rooms *rooms) {
    return zerotrie_listing_by(trie, search, rooms->keys, sizeof rooms->keys, rooms->ends,
                               rooms->values, 64);
}

/**
 * Returns a listing of the pairs between the bounds of zerotrie_range(), in the order of bytes in
 * every kind, before its first part. For a prefix see zerotrie_range_of_prefix().
 *
 *     zerotrie_search all = zerotrie_range(ZEROTRIE_UNBOUNDED, NULL, 0, ZEROTRIE_UNBOUNDED, NULL,
 *                                          0);
 *     zerotrie_listing part = zerotrie_listing_sorted(trie, all, room, sizeof room, ends, values,
 *                                                     10);
 */
ZEROTRIE_INLINE zerotrie_listing zerotrie_listing_sorted(zerotrie_trie trie, zerotrie_search range,
                                                         uint8_t *room, size_t room_len,
                                                         size_t *ends, size_t *values,
                                                         size_t places) {
    zerotrie_listing made =
        zerotrie_listing_of(trie, room, 0, room, room_len, ends, values, places);
    made.search = range;
    made.sorted = true;
    return made;
}

/** The same in rooms of the usual size. */
ZEROTRIE_NONNULL
ZEROTRIE_INLINE zerotrie_listing zerotrie_listing_between(zerotrie_trie trie, zerotrie_search range,
                                                          zerotrie_rooms *rooms) {
    return zerotrie_listing_sorted(trie, range, rooms->keys, sizeof rooms->keys, rooms->ends,
                                   rooms->values, 64);
}

/**
 * Returns a listing of the pairs between the bounds of zerotrie_range() from the last one on: in the
 * contrary of the order of bytes, in every kind. So the first N pairs are the N last ones.
 *
 *     zerotrie_listing part = zerotrie_listing_reversed(trie, all, room, sizeof room, ends, values,
 *                                                       10);
 *
 * Each pair costs a call of zerotrie_last_within(): about two look-ups, and an allocation.
 */
ZEROTRIE_INLINE zerotrie_listing zerotrie_listing_reversed(zerotrie_trie trie,
                                                           zerotrie_search range, uint8_t *room,
                                                           size_t room_len, size_t *ends,
                                                           size_t *values, size_t places) {
    zerotrie_listing made =
        zerotrie_listing_sorted(trie, range, room, room_len, ends, values, places);
    made.reversed = true;
    return made;
}

/** The same in rooms of the usual size. */
ZEROTRIE_NONNULL
ZEROTRIE_INLINE zerotrie_listing zerotrie_listing_down(zerotrie_trie trie, zerotrie_search range,
                                                       zerotrie_rooms *rooms) {
    return zerotrie_listing_reversed(trie, range, rooms->keys, sizeof rooms->keys, rooms->ends,
                                     rooms->values, 64);
}

/** Returns the key of number `i` of the part, in place; `i` is below `count`. */
ZEROTRIE_NEEDS((1))
ZEROTRIE_INLINE zerotrie_bytes zerotrie_listing_key(const zerotrie_listing *listing, size_t i) {
    const size_t from = i == 0 ? 0 : listing->ends[i - 1];
    return zerotrie_bytes_of(listing->keys + from, listing->ends[i] - from);
}

/** @cond */
/* Writes a part of a reversed listing to this room for keys. */
ZEROTRIE_MUST_USE
ZEROTRIE_NEEDS((1))
ZEROTRIE_INLINE zerotrie_status zerotrie_listing_back(zerotrie_listing *listing, uint8_t *keys,
                                                      size_t room) {
    const zerotrie_trie trie = listing->trie;
    const zerotrie_bytes from = listing->search.text;
    const size_t places = listing->ends && listing->values ? listing->places : 0;
    zerotrie_bytes to = listing->listed > 0 ? listing->last : listing->search.to;
    zerotrie_bound to_bound = listing->listed > 0 ? ZEROTRIE_EXCLUDED : listing->search.to_bound;
    size_t used = 0, value = 0;
    listing->next_len = 0;
    while (listing->count < places) {
        size_t key_len = 0;
        uint8_t *const key = keys ? keys + used : NULL;
        const zerotrie_status status = zerotrie_last_within(
            trie.kind, trie.bytes.ptr, trie.bytes.len, listing->search.from_bound, from.ptr,
            from.len, to_bound, to.ptr, to.len, key, room - used, &key_len, &value);
        listing->next_len = key_len;
        if (status == ZEROTRIE_NO_ENTRY) return ZEROTRIE_DONE;
        if (status != ZEROTRIE_DONE) return status;
        used += key_len;
        listing->ends[listing->count] = used;
        listing->values[listing->count++] = value;
        to = zerotrie_bytes_of(key, key_len);
        to_bound = ZEROTRIE_EXCLUDED;
        listing->next_len = 0;
    }
    return ZEROTRIE_BUFFER_TOO_SMALL;
}
/** @endcond */

/**
 * Lists the next part, and returns whether there is one. If it is ZEROTRIE_STUCK, `status` is
 * ZEROTRIE_BUFFER_TOO_SMALL if the next key, of `next_len` bytes, has no room, or there are no
 * places; or it is an error. The keys of the part before stay where they are, and its ends and
 * values do not. On malformed bytes too the parts end. Allocates.
 */
ZEROTRIE_ANSWERS
ZEROTRIE_INLINE zerotrie_next zerotrie_listing_next(zerotrie_listing *listing) {
    const zerotrie_trie trie = listing->trie;
    const zerotrie_bytes prefix = listing->prefix, last = listing->last;
    const zerotrie_search *const search = &listing->search;
    const bool goes_on = listing->listed > 0;
    const zerotrie_bytes from = goes_on ? last : search->text;
    const size_t half = listing->room_len / 2;
    uint8_t *const keys =
        half > 0 && listing->keys == listing->room ? listing->room + half : listing->room;
    listing->count = 0;
    if (listing->status == ZEROTRIE_DONE) return ZEROTRIE_END;
    if (listing->status != ZEROTRIE_BUFFER_TOO_SMALL) return ZEROTRIE_STUCK;
    if (listing->listed > trie.bytes.len) {
        listing->status = ZEROTRIE_DONE;
        return ZEROTRIE_END;
    }
    /** @cond */
    if (listing->reversed)
        listing->status = zerotrie_listing_back(listing, keys, half);
    else /** @endcond */
        if (listing->sorted)
        listing->status = zerotrie_sorted_some(
            trie.kind, trie.bytes.ptr, trie.bytes.len,
            goes_on ? ZEROTRIE_EXCLUDED : search->from_bound, from.ptr, from.len, search->to_bound,
            search->to.ptr, search->to.len, keys, half, listing->ends, listing->places,
            listing->values, listing->places, &listing->count, &listing->next_len);
    else if (listing->searches)
        listing->status = zerotrie_search_some(
            trie.kind, trie.bytes.ptr, trie.bytes.len, prefix.ptr, prefix.len, search, goes_on,
            last.ptr, last.len, keys, half, listing->ends, listing->places, listing->values,
            listing->places, &listing->count, &listing->next_len);
    else
        listing->status = zerotrie_list_some(
            trie.kind, trie.bytes.ptr, trie.bytes.len, prefix.ptr, prefix.len, goes_on, last.ptr,
            last.len, keys, half, listing->ends, listing->places, listing->values, listing->places,
            &listing->count, &listing->next_len);
    listing->keys = keys;
    listing->listed += listing->count;
    if (listing->count > 0) {
        listing->last = zerotrie_listing_key(listing, listing->count - 1);
        return ZEROTRIE_PART;
    }
    return listing->status == ZEROTRIE_DONE ? ZEROTRIE_END : ZEROTRIE_STUCK;
}
/** @} */

/** @name What changed, in parts */
/** @{ */

/** Rooms of a diff, for keys of up to 8,192 bytes. They hold nothing before it. */
typedef struct zerotrie_diff_rooms {
    uint8_t keys[16384];          /**< for keys */
    zerotrie_change changes[256]; /**< for how each key of a part changed */
} zerotrie_diff_rooms;

/**
 * What changed from one trie to another, of which one part is there at a time, in rooms of the caller.
 *
 *     zerotrie_diff_rooms rooms;
 *     zerotrie_diff part = zerotrie_diff_in(before, after, &rooms);
 *     zerotrie_next next;
 *     while ((next = zerotrie_diff_next(&part)) == ZEROTRIE_PART)
 *         for (size_t i = 0; i < part.count; i++) {
 *             const zerotrie_bytes key = zerotrie_diff_key(&part, i);
 *             printf("%c %.*s\n", "+-!"[part.changes[i].how], (int)key.len, (const char *)key.ptr);
 *         }
 *     if (next != ZEROTRIE_END) fprintf(stderr, "%s\n", zerotrie_status_text(part.status));
 */
typedef struct zerotrie_diff {
    zerotrie_trie first;    /**< the trie before */
    zerotrie_trie second;   /**< the trie after */
    zerotrie_search range;  /**< the bounds of zerotrie_range() */
    uint8_t *room;          /**< room for keys: one half for those of a part, the other for those of the
                               part before */
    size_t room_len;        /**< its bytes */
    zerotrie_change *changes; /**< how each key of the part changed */
    size_t places;          /**< the places of `changes` */
    const uint8_t *keys;    /**< the keys of the part, one after another */
    size_t count;           /**< the number of its changes */
    size_t next_len; /**< with ZEROTRIE_BUFFER_TOO_SMALL the length of the key that comes next */
    size_t listed;   /**< the number of changes of all parts so far */
    zerotrie_bytes last;    /**< the last key of the part */
    zerotrie_status status; /**< what the part came to, as the library returned it */
} zerotrie_diff;

/** Returns what changed between the bounds of zerotrie_range(), before the first part. A key has
 * room if it has at most half of `room_len` bytes. */
ZEROTRIE_INLINE zerotrie_diff zerotrie_diff_of(zerotrie_trie first, zerotrie_trie second,
                                               zerotrie_search range, uint8_t *room,
                                               size_t room_len, zerotrie_change *changes,
                                               size_t places) {
    zerotrie_diff made;
    made.first = first;
    made.second = second;
    made.range = range;
    made.room = room;
    made.room_len = room ? room_len : 0;
    made.changes = changes;
    made.places = places;
    made.keys = room;
    made.count = made.next_len = made.listed = 0;
    made.last = zerotrie_bytes_of("", 0);
    made.status = ZEROTRIE_BUFFER_TOO_SMALL;
    return made;
}

/** Returns all that changed, before the first part, in rooms of the usual size. */
ZEROTRIE_NONNULL
ZEROTRIE_INLINE zerotrie_diff zerotrie_diff_in(zerotrie_trie first, zerotrie_trie second,
                                               zerotrie_diff_rooms *rooms) {
    const zerotrie_search all =
        zerotrie_range(ZEROTRIE_UNBOUNDED, NULL, 0, ZEROTRIE_UNBOUNDED, NULL, 0);
    return zerotrie_diff_of(first, second, all, rooms->keys, sizeof rooms->keys, rooms->changes,
                            256);
}

/** Returns the key of number `i` of the part, in place; `i` is below `count`. */
ZEROTRIE_NEEDS((1))
ZEROTRIE_INLINE zerotrie_bytes zerotrie_diff_key(const zerotrie_diff *diff, size_t i) {
    const size_t from = i == 0 ? 0 : diff->changes[i - 1].key_end;
    return zerotrie_bytes_of(diff->keys + from, diff->changes[i].key_end - from);
}

/**
 * Lists the next part, and returns whether there is one. If it is ZEROTRIE_STUCK, `status` is
 * ZEROTRIE_BUFFER_TOO_SMALL if the next key, of `next_len` bytes, has no room, or there are no
 * places; or it is an error. The keys of the part before stay where they are, and its changes do not.
 * Each call validates both tries. Allocates.
 */
ZEROTRIE_ANSWERS
ZEROTRIE_INLINE zerotrie_next zerotrie_diff_next(zerotrie_diff *diff) {
    const bool goes_on = diff->listed > 0;
    const zerotrie_search *const range = &diff->range;
    const zerotrie_bytes from = goes_on ? diff->last : range->text;
    const size_t half = diff->room_len / 2;
    uint8_t *const keys =
        half > 0 && diff->keys == diff->room ? diff->room + half : diff->room;
    diff->count = 0;
    if (diff->status == ZEROTRIE_DONE) return ZEROTRIE_END;
    if (diff->status != ZEROTRIE_BUFFER_TOO_SMALL) return ZEROTRIE_STUCK;
    diff->status = zerotrie_diff_some(
        &diff->first, &diff->second, goes_on ? ZEROTRIE_EXCLUDED : range->from_bound, from.ptr,
        from.len, range->to_bound, range->to.ptr, range->to.len, keys, half, diff->changes,
        diff->places, &diff->count, &diff->next_len);
    diff->keys = keys;
    diff->listed += diff->count;
    if (diff->count > 0) {
        diff->last = zerotrie_diff_key(diff, diff->count - 1);
        return ZEROTRIE_PART;
    }
    return diff->status == ZEROTRIE_DONE ? ZEROTRIE_END : ZEROTRIE_STUCK;
}
/** @} */

/** @name Texts */
/** @{ */

/** Returns the text of a status, in UTF-8, as "Keys are not in strictly
 * ascending order: sort the keys by their bytes, each once". It is never freed. */
ZEROTRIE_INLINE const char *zerotrie_status_text(uint32_t status) {
    switch (status) {
    case ZEROTRIE_DONE: return "Done";
    case ZEROTRIE_NON_ASCII:
        return "Non-ASCII cannot be added to an ASCII-only trie: take a kind of trie for keys "
               "of any bytes";
    case ZEROTRIE_CAPACITY_EXCEEDED:
        return "Reached maximum capacity of trie: take the kind of extended capacity, or fewer "
               "pairs or suffixes";
    case ZEROTRIE_NO_PERFECT_HASH:
        return "Failed to solve the perfect hash function. This is rare! Please report your "
               "case to the ICU4X team. For keys of random bytes, build an index, or write them "
               "in hex in a kind without hashed tables; else change a key";
    case ZEROTRIE_MIXED_CASE:
        return "Mixed-case data added to case-insensitive trie: lower-case the keys first";
    case ZEROTRIE_ILLEGAL_DELIMITER:
        return "Delimiter is contained in one or more strings: take a delimiter that is in none "
               "of them";
    case ZEROTRIE_DUPLICATE_KEY: return "The same key was given twice: give each key once";
    case ZEROTRIE_UNSORTED:
        return "Keys are not in strictly ascending order: sort the keys by their bytes, each once";
    case ZEROTRIE_BUFFER_TOO_SMALL: return "Buffer too small: take a larger array";
    case ZEROTRIE_BUFFER_TOO_LARGE: return "Buffer too large: take an array of the size needed";
    case ZEROTRIE_STACK_EXCEEDED: return "Need more stack: take a larger stack";
    case ZEROTRIE_OUT_OF_MEMORY: return "Out of memory: free memory, or build from fewer pairs";
    case ZEROTRIE_UNKNOWN_KIND: return "the number is no kind of trie: take 0, 3, 7 or 8";
    case ZEROTRIE_NO_TAG: return "there are no bytes: give all of the tagged bytes";
    case ZEROTRIE_INVALID_TAG:
        return "these are the bytes of no trie: they are not sealed, and begin with the tag of no kind";
    case ZEROTRIE_NO_ENTRY: return "there is no such entry";
    case ZEROTRIE_RECORD_TRUNCATED: return "the record is cut: give all of its bytes";
    case ZEROTRIE_TRAILING_BYTES: return "bytes follow the record: give its bytes alone";
    case ZEROTRIE_DAMAGED: return "the sealed file is damaged: get it anew";
    case ZEROTRIE_UNKNOWN_VERSION:
        return "the sealed file has another version of the format: take a library that knows it";
    case ZEROTRIE_UNKNOWN_SEARCH: return "no search, or no bound, has the number";
    case ZEROTRIE_MALFORMED_SEARCH: return "the pattern is malformed, or the word is not UTF-8";
    case ZEROTRIE_SEARCH_TOO_LONG:
        return "a pattern has at most 63 items, and a word at most 63 letters";
    case ZEROTRIE_CROWDED: return "too many keys share a bucket: build from another seed";
    case ZEROTRIE_UNKNOWN_SELECTION: return "no selection, or no rule, has the number";
    case ZEROTRIE_SUM_TOO_LARGE: return "the sum of the values of a key is 2^64 or more";
    case ZEROTRIE_MALFORMED_TRIE: return "the bytes of a trie are not valid: get them anew";
    case ZEROTRIE_TOO_MANY_EDITS: return "at most 254 edits are allowed, and with swaps at most 7";
    default: return "Unknown status";
    }
}

/** Returns the text of a fault, in UTF-8, as "a value follows a value". It is never freed. */
ZEROTRIE_INLINE const char *zerotrie_fault_text(uint32_t fault) {
    switch (fault) {
    case ZEROTRIE_NO_FAULT: return "the bytes are valid";
    case ZEROTRIE_FAULT_NO_NODE: return "no whole node of this kind of trie begins here";
    case ZEROTRIE_FAULT_NO_SPANS: return "a span stands in a kind of trie that has none";
    case ZEROTRIE_FAULT_UNEXPECTED_END: return "the bytes end where a key has to go on";
    case ZEROTRIE_FAULT_VALUE_AFTER_VALUE: return "a value follows a value";
    case ZEROTRIE_FAULT_SPAN_AFTER_SPAN: return "a span follows a span";
    case ZEROTRIE_FAULT_EMPTY_SPAN: return "a span is empty";
    case ZEROTRIE_FAULT_ASCII_IN_SPAN: return "a span has an ASCII byte";
    case ZEROTRIE_FAULT_WRONG_TABLE:
        return "the search table of a branch is not one of this kind of trie";
    case ZEROTRIE_FAULT_WRONG_WIDTH: return "the offsets of a branch do not have the least width";
    case ZEROTRIE_FAULT_WRONG_OFFSETS:
        return "the offsets of a branch do not ascend within its targets";
    default: return zerotrie_status_text(fault);
    }
}
/** @} */

/** @cond */
#ifdef __cplusplus
}
#endif
/** @endcond */
#endif
