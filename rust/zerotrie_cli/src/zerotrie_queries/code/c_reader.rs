// Made from crates/zerotrie_queries/src/code/c_reader.rt by rust/make: edit that.
//! The reader in C, made by `.ci/reader.py --write` of `bindings/c/zerotrie_read.h`.

/// The text of `zerotrie_read.h`.
pub const READER: &str =
    "/* zerotrie_read.h: reads zerotrie bytes in place, in C99 and C++11, on any processor, without a
 * library and without allocation.
 *
 *     uint32_t kind;
 *     const uint8_t *trie;
 *     size_t len;
 *     uint64_t value;
 *     if (zerotrie_read_open(file, file_len, &kind, &trie, &len)
 *         && zerotrie_read_get(kind, trie, len, \"bar\", 3, &value))
 *         printf(\"bar is %\" PRIu64 \"\\n\", value);
 *
 * `file` is what `zerotrie build` writes: a sealed file, whose checksum is compared, or tagged
 * bytes, the number of the kind and then the trie. If nothing is in front of the trie, as after a
 * build in C, give the number of the kind that it was built for: 0 SimpleAscii, 3 PerfectHash, 7
 * ExtendedCapacity, 8 IgnoreCase. FORMAT.md describes the bytes.
 *
 * The index that `zerotrie build --index` writes is opened by zerotrie_read_open_index(), and
 * zerotrie_read_index_get() looks a key up in it.
 *
 * This reader is tested, and not proved: its tests compare it with the library of zerotrie.h, whose
 * functions are proved. Use the library on Linux on x86-64, and this file everywhere else: on
 * Windows and macOS, on other processors, on microcontrollers.
 *
 * What a caller must know:
 *   - The bytes may be anything. Every call returns, and reads nothing outside of them. If they are
 *     not a trie of the kind, or not an index, the result is unspecified. A trie of an unknown kind
 *     has no keys. Nothing here validates bytes: take zerotrie_is_well_formed() or
 *     zerotrie_index_is_valid() of the library, or `zerotrie verify`.
 *   - A pointer with a length after it points to that many bytes. It may be null, and the length
 *     then counts as 0.
 *   - A cursor points into the bytes. They must stay in place and unchanged while it is used.
 *   - There is no state between calls, so any number of threads may read the same bytes.
 *   - In IgnoreCase a letter of a key is found in either case. In the other kinds each byte equals
 *     only itself.
 */
#ifndef ZEROTRIE_READ_H
#define ZEROTRIE_READ_H

#include <stdbool.h>
#include <stddef.h>
#include <stdint.h>
#include <string.h>
#ifdef __SSE2__
#include <emmintrin.h>
#endif

#ifdef __cplusplus
#define ZEROTRIE_READ_INLINE inline
#else
#define ZEROTRIE_READ_INLINE static inline
#endif
/* The functions on the way of a look-up are a fifth faster in one piece. */
#if defined(__GNUC__) && !defined(__OPTIMIZE_SIZE__)
#define ZEROTRIE_READ_HOT ZEROTRIE_READ_INLINE __attribute__((always_inline))
#else
#define ZEROTRIE_READ_HOT ZEROTRIE_READ_INLINE
#endif

#if defined(_MSC_VER) || (defined(__BYTE_ORDER__) && __BYTE_ORDER__ == __ORDER_LITTLE_ENDIAN__)
#define ZEROTRIE_READ_LITTLE
#endif

/* A place in a trie, between two bytes of keys. A copy, made by =, is a cursor of its own. */
typedef struct zerotrie_read_cursor {
    const uint8_t *at; /* the rest of the trie from here */
    const uint8_t *end;
    size_t run; /* the length of the rest of a span, which begins at `at`; 0 outside of spans */
    uint32_t kind;
} zerotrie_read_cursor;

/* The callback of zerotrie_read_list(), which is called for each pair. It returns whether to
 * continue. The key is in the room that the list was given, and the next pair overwrites it. */
typedef bool zerotrie_read_each(void *context, const uint8_t *key, size_t key_len, uint64_t value);

typedef enum zerotrie_read_status {
    ZEROTRIE_READ_DONE = 0,
    ZEROTRIE_READ_STOPPED = 1, /* the callback returned false */
    ZEROTRIE_READ_ROOM = 2     /* the room is too small for a key and the branches above it */
} zerotrie_read_status;

/* --- Internal --------------------------------------------------------------------------------- */

/* A branch: its edges, in the order of their targets. */
typedef struct zerotrie_read_branch {
    const uint8_t *edges;
    const uint8_t *offsets; /* `width` blocks of `count - 1` bytes, the highest first */
    const uint8_t *targets;
    size_t targets_len;
    unsigned count;
    unsigned width;
} zerotrie_read_branch;

/* A branch of which zerotrie_read_list() has targets left. */
typedef struct zerotrie_read_frame {
    zerotrie_read_branch branch;
    size_t key_len; /* of the keys at the branch */
    unsigned next;  /* the number of the next target */
} zerotrie_read_frame;

ZEROTRIE_READ_HOT bool zerotrie_read_is_letter(uint8_t byte) {
    return (uint8_t)((byte | 0x20u) - 'a') < 26;
}

/* The bits to ignore when this byte is compared with bytes of the trie: in IgnoreCase, the one bit
 * of the case of a letter. */
ZEROTRIE_READ_HOT uint8_t zerotrie_read_ignored(uint32_t kind, uint8_t byte) {
    return kind == 8 && zerotrie_read_is_letter(byte) ? 0x20 : 0;
}

/* Eight bytes as a little-endian number, on any processor. */
ZEROTRIE_READ_HOT uint64_t zerotrie_read_eight(const uint8_t *at) {
#ifdef ZEROTRIE_READ_LITTLE
    uint64_t eight;
    memcpy(&eight, at, sizeof eight);
    return eight;
#else
    return (uint64_t)at[0] | (uint64_t)at[1] << 8 | (uint64_t)at[2] << 16 | (uint64_t)at[3] << 24
           | (uint64_t)at[4] << 32 | (uint64_t)at[5] << 40 | (uint64_t)at[6] << 48
           | (uint64_t)at[7] << 56;
#endif
}

/* Returns the place, from 0 to 7, of the lowest byte whose top bit is set; no other bits are. */
ZEROTRIE_READ_HOT unsigned zerotrie_read_lowest(uint64_t tops) {
#ifdef __GNUC__
    return (unsigned)__builtin_ctzll(tops) / 8;
#else
    return (unsigned)((((tops & (~tops + 1)) >> 7) * UINT64_C(0x0001020304050607)) >> 56);
#endif
}

/* Reads the number whose first byte is *at, where the bit of `latent` is the extender and the bits
 * below it are the value. Returns the end of its bytes; null if they are cut off, or the number
 * needs more than 64 bits. */
ZEROTRIE_READ_HOT const uint8_t *zerotrie_read_number(const uint8_t *at, const uint8_t *end,
                                                      unsigned latent, uint64_t *number) {
    uint64_t sum = *at & (latent - 1);
    bool more = (*at++ & latent) != 0;
    while (more) {
        uint64_t add;
        if (at == end || sum > UINT64_MAX >> 7)
            return NULL;
        add = (uint64_t)(*at & 0x7F) + latent;
        sum <<= 7;
        if (sum > UINT64_MAX - add)
            return NULL;
        sum += add;
        more = (*at++ & 0x80) != 0;
    }
    *number = sum;
    return at;
}

/* Reads the branch whose head is *at. Returns whether there is one. The parameters of a hashed
 * table are skipped: eight edges are compared faster than one is found by its hash. */
ZEROTRIE_READ_HOT bool zerotrie_read_branch_at(uint32_t kind, const uint8_t *at, const uint8_t *end,
                                               zerotrie_read_branch *branch) {
    uint64_t head;
    size_t left, hash, offsets;
    at = zerotrie_read_number(at, end, 0x20, &head);
    if (!at || head >> 8 > 7 || (head & 0xFF) == 1)
        return false;
    branch->count = (head & 0xFF) != 0 ? (unsigned)(head & 0xFF) : 256;
    branch->width = (unsigned)(head >> 8) + 1;
    hash = (kind & 1) != 0 && branch->count >= 16 ? 1 + (size_t)branch->count : 0;
    offsets = (size_t)branch->width * (branch->count - 1);
    left = (size_t)(end - at);
    if (left < hash + branch->count + offsets)
        return false;
    branch->edges = at + hash;
    branch->offsets = branch->edges + branch->count;
    branch->targets = branch->offsets + offsets;
    branch->targets_len = (size_t)(end - branch->targets);
    return true;
}

/* Sets *from and *to to the offsets between which the target of this number is. They are read
 * without a jump, since no processor could foresee whether the target is the first or the last one.
 * Returns whether they ascend inside the targets. */
ZEROTRIE_READ_HOT bool zerotrie_read_target(const zerotrie_read_branch *branch, unsigned number,
                                            size_t *from, size_t *to) {
    const unsigned ends = branch->count - 1, first = number == 0, last = number == ends;
    const uint8_t *before = branch->offsets + (number - 1 + first);
    const uint8_t *after = branch->offsets + (number - last);
    uint64_t low = *before, high = *after;
    unsigned block;
    for (block = 1; block < branch->width; block++) {
        before += ends;
        after += ends;
        low = low << 8 | *before;
        high = high << 8 | *after;
    }
    low &= (uint64_t)first - 1;
    high = last ? branch->targets_len : high;
    *from = (size_t)low;
    *to = (size_t)high;
    return low <= high && high <= branch->targets_len;
}

/* Returns the number of the edge that equals this byte but for the ignored bits; any number from
 * `count` on if there is none. It compares eight edges at once as long as eight bytes can be read:
 * `same` has the top bit set of each byte that is equal. Processors with SSE2 compare sixteen. */
ZEROTRIE_READ_HOT unsigned zerotrie_read_search(const zerotrie_read_branch *branch,
                                                const uint8_t *end, uint8_t byte, uint8_t ignored) {
    const uint64_t low = UINT64_C(0x7F7F7F7F7F7F7F7F), ones = UINT64_C(0x0101010101010101);
    const uint64_t want = ones * (uint8_t)(byte | ignored), spread = ones * ignored;
    const uint8_t *at = branch->edges;
    const uint8_t *const last = branch->edges + branch->count;
#ifdef __SSE2__
    const __m128i wanted = _mm_set1_epi8((char)(byte | ignored));
    const __m128i spread16 = _mm_set1_epi8((char)ignored);
    for (; at < last && end - at >= 16; at += 16) {
        const __m128i x = _mm_or_si128(_mm_loadu_si128((const __m128i *)at), spread16);
        const unsigned equal = (unsigned)_mm_movemask_epi8(_mm_cmpeq_epi8(x, wanted));
        if (equal != 0)
            return (unsigned)(at - branch->edges) + (unsigned)__builtin_ctz(equal);
    }
#endif
    for (; at < last && end - at >= 8; at += 8) {
        const uint64_t x = (zerotrie_read_eight(at) | spread) ^ want;
        const uint64_t same = ~(((x & low) + low) | x | low);
        if (same != 0)
            return (unsigned)(at - branch->edges) + zerotrie_read_lowest(same);
    }
    while (at < last && (uint8_t)(*at | ignored) != (uint8_t)(byte | ignored))
        at++;
    return (unsigned)(at - branch->edges);
}

/* Moves to the target of the edge that equals this byte in the kind. Returns that edge; null if
 * there is none. */
ZEROTRIE_READ_HOT const uint8_t *zerotrie_read_into_target(zerotrie_read_cursor *cursor,
                                                           uint8_t byte) {
    const uint8_t ignored = zerotrie_read_ignored(cursor->kind, byte);
    zerotrie_read_branch branch;
    size_t from, to;
    unsigned edge;
    if (!zerotrie_read_branch_at(cursor->kind, cursor->at, cursor->end, &branch))
        return NULL;
    edge = zerotrie_read_search(&branch, cursor->end, byte, ignored);
    if (edge >= branch.count || !zerotrie_read_target(&branch, edge, &from, &to))
        return NULL;
    cursor->at = branch.targets + from;
    cursor->end = branch.targets + to;
    return branch.edges + edge;
}

/* Reads the head of a span, and moves the cursor into the span. Returns whether there is one. */
ZEROTRIE_READ_HOT bool zerotrie_read_into_span(zerotrie_read_cursor *cursor) {
    uint64_t span;
    const uint8_t *rest = zerotrie_read_number(cursor->at, cursor->end, 0x10, &span);
    if ((cursor->kind & 1) == 0 || !rest || span == 0 || span > (size_t)(cursor->end - rest))
        return false;
    cursor->at = rest;
    cursor->run = (size_t)span;
    return true;
}

/* Returns how many of these bytes are literals that equal those of the text. */
ZEROTRIE_READ_HOT size_t zerotrie_read_literals(uint32_t kind, const uint8_t *at, size_t len,
                                                const uint8_t *text) {
    size_t same = 0;
    while (same < len && at[same] < 0x80) {
        if (at[same] != text[same]) {
            const uint8_t ignored = zerotrie_read_ignored(kind, text[same]);
            if ((uint8_t)(at[same] | ignored) != (uint8_t)(text[same] | ignored))
                break;
        }
        same++;
    }
    return same;
}

/* Returns whether a value is here. */
ZEROTRIE_READ_HOT bool zerotrie_read_has_value(const zerotrie_read_cursor *cursor) {
    return cursor->run == 0 && cursor->at != cursor->end && (*cursor->at & 0xE0) == 0x80;
}

/* Follows the text from byte *at on, up to a value or to the end of the text. Returns whether the
 * trie has it; otherwise the cursor is empty. Copies the bytes as the trie has them to `stored`,
 * unless that is null. */
ZEROTRIE_READ_HOT bool zerotrie_read_go(zerotrie_read_cursor *cursor, const uint8_t *text,
                                        size_t len, size_t *at, uint8_t *stored) {
    zerotrie_read_cursor here = *cursor;
    size_t done = *at;
    while (done < len) {
        const uint8_t *bytes = here.at;
        const size_t rest = here.run != 0 ? here.run : (size_t)(here.end - here.at);
        size_t more = rest < len - done ? rest : len - done;
        if (here.run != 0) {
            bytes = memcmp(here.at, text + done, more) == 0 ? bytes : NULL;
            here.run -= more;
            here.at += more;
        } else if (rest == 0) {
            bytes = NULL;
        } else if (*here.at < 0x80) {
            more = zerotrie_read_literals(here.kind, here.at, more, text + done);
            bytes = more != 0 ? bytes : NULL;
            here.at += more;
        } else if (*here.at >= 0xC0) {
            more = 1;
            bytes = zerotrie_read_into_target(&here, text[done]);
        } else if (*here.at < 0xA0) {
            break;
        } else {
            more = 0;
            bytes = zerotrie_read_into_span(&here) ? bytes : NULL;
        }
        if (!bytes) {
            cursor->at = cursor->end;
            cursor->run = 0;
            return false;
        }
        if (stored && more != 0)
            memcpy(stored + done, bytes, more);
        done += more;
    }
    *at = done;
    *cursor = here;
    return true;
}

/* Returns whether this is the number of a kind. */
ZEROTRIE_READ_HOT bool zerotrie_read_is_kind(uint32_t kind) {
    return kind == 0 || kind == 3 || kind == 7 || kind == 8;
}

/* Returns the CRC-32C of bytes that follow others, of which this is that; of none it is 0. */
ZEROTRIE_READ_INLINE uint32_t zerotrie_read_checksum(uint32_t before, const uint8_t *bytes,
                                                     size_t len) {
    uint32_t sum = ~before;
    for (size_t i = 0; i < len; i++) {
        sum ^= bytes[i];
        for (unsigned bit = 0; bit < 8; bit++)
            sum = sum >> 1 ^ (sum & 1 ? UINT32_C(0x82F63B78) : 0);
    }
    return ~sum;
}

/* --- Files ------------------------------------------------------------------------------------ */

/* Returns whether a file begins as a sealed one. */
ZEROTRIE_READ_INLINE bool zerotrie_read_is_sealed(const uint8_t *file, size_t len) {
    static const uint8_t magic[] = { 0x7A, 0x74, 0x72, 0x69, 0x89, 0x8A, 0x0D, 0x0A };
    return file && len >= sizeof magic && memcmp(file, magic, sizeof magic) == 0;
}

/* Returns whether a sealed file is whole and holds what has this number, as its header and its
 * checksum say. */
ZEROTRIE_READ_INLINE bool zerotrie_read_is_whole(const uint8_t *file, size_t len, uint8_t number) {
    const uint8_t numbers[] = { 1, 0, number, 0 };
    return len >= 24 && memcmp(file + 8, numbers, sizeof numbers) == 0
           && zerotrie_read_eight(file + 12) == len - 24
           && zerotrie_read_checksum(zerotrie_read_checksum(0, file, 20), file + 24, len - 24)
                  == (uint32_t)(zerotrie_read_eight(file + 16) >> 32);
}

/* Finds the trie in a file that is sealed or has tagged bytes, and sets *kind, *trie and *trie_len.
 * Returns whether there is one: a sealed file that is whole, as its length and its checksum say, or
 * bytes whose first one is the number of a kind. Otherwise nothing is set. The trie is not
 * validated. */
ZEROTRIE_READ_INLINE bool zerotrie_read_open(const void *file, size_t len, uint32_t *kind,
                                             const uint8_t **trie, size_t *trie_len) {
    const uint8_t *const bytes = (const uint8_t *)file;
    const bool sealed = zerotrie_read_is_sealed(bytes, len);
    const size_t front = sealed ? 24 : 1, number = sealed ? 10 : 0;
    if (!bytes || len < front || !zerotrie_read_is_kind(bytes[number])
        || (sealed && !zerotrie_read_is_whole(bytes, len, bytes[number])))
        return false;
    *kind = bytes[number];
    *trie = bytes + front;
    *trie_len = len - front;
    return true;
}

/* Returns how many bytes are in front of an index that is sealed in blocks: a table, sealed by
 * itself, with the length of the index and the checksum of each block of 65,536 bytes. Returns 0
 * unless the file is such a one and whole. */
ZEROTRIE_READ_INLINE size_t zerotrie_read_front(const uint8_t *file, size_t len) {
    const uint8_t *at, *sum;
    size_t front, left, block;
    if (len < 32 || zerotrie_read_eight(file + 12) > len - 24)
        return 0;
    front = 24 + (size_t)zerotrie_read_eight(file + 12);
    left = len - front;
    if (front < 32 || !zerotrie_read_is_whole(file, front, 25)
        || zerotrie_read_eight(file + 24) != left
        || front - 32 != 4 * (left / 65536 + (left % 65536 != 0)))
        return 0;
    for (at = file + front, sum = file + 28; left; at += block, left -= block, sum += 4) {
        block = left < 65536 ? left : 65536;
        if (zerotrie_read_checksum(0, at, block) != (uint32_t)(zerotrie_read_eight(sum) >> 32))
            return 0;
    }
    return front;
}

/* Finds the index in a sealed file, and sets *index and *index_len. Returns whether there is one in
 * a file that is whole, as its lengths and its checksums say; otherwise nothing is set. The index
 * is not validated. */
ZEROTRIE_READ_INLINE bool zerotrie_read_open_index(const void *file, size_t len,
                                                   const uint8_t **index, size_t *index_len) {
    const uint8_t *const bytes = (const uint8_t *)file;
    size_t front;
    if (!zerotrie_read_is_sealed(bytes, len))
        return false;
    front = zerotrie_read_is_whole(bytes, len, 24) ? 24 : zerotrie_read_front(bytes, len);
    if (!front)
        return false;
    *index = bytes + front;
    *index_len = len - front;
    return true;
}

/* --- Cursors ---------------------------------------------------------------------------------- */

/* Returns the cursor at the beginning of a trie. That of an unknown kind is empty. */
ZEROTRIE_READ_INLINE zerotrie_read_cursor zerotrie_read_start(uint32_t kind, const uint8_t *bytes,
                                                              size_t len) {
    zerotrie_read_cursor cursor;
    cursor.at = bytes;
    cursor.end = bytes && zerotrie_read_is_kind(kind) ? bytes + len : bytes;
    cursor.run = 0;
    cursor.kind = kind;
    return cursor;
}

/* Returns whether no key continues from here, and none ends here. */
ZEROTRIE_READ_INLINE bool zerotrie_read_is_empty(zerotrie_read_cursor cursor) {
    return cursor.at == cursor.end;
}

/* Takes the value of the key that ends here, and sets *value to it. Returns whether there is one;
 * otherwise nothing changes. Call it before the next step, which skips the value. */
ZEROTRIE_READ_HOT bool zerotrie_read_take_value(zerotrie_read_cursor *cursor, uint64_t *value) {
    const uint8_t *rest;
    if (!zerotrie_read_has_value(cursor))
        return false;
    rest = zerotrie_read_number(cursor->at, cursor->end, 0x10, value);
    if (!rest)
        return false;
    cursor->at = rest;
    return true;
}

/* Follows the edge for this byte, as the kind compares bytes. Returns whether there is one, and
 * then sets *edge to its byte in the trie, unless `edge` is null; otherwise the cursor is empty. */
ZEROTRIE_READ_INLINE bool zerotrie_read_step(zerotrie_read_cursor *cursor, uint8_t byte,
                                             uint8_t *edge) {
    uint64_t value;
    size_t at = 0;
    while (zerotrie_read_go(cursor, &byte, 1, &at, edge)) {
        if (at == 1)
            return true;
        if (!zerotrie_read_take_value(cursor, &value)) {
            cursor->at = cursor->end;
            return false;
        }
    }
    return false;
}

/* Finds the next longer key that a text begins with: sets *at to its length and *value to its
 * value. Begin with a new cursor and with *at 0, and call it until it returns false. */
ZEROTRIE_READ_HOT bool zerotrie_read_next_prefix(zerotrie_read_cursor *cursor, const void *text,
                                                 size_t len, size_t *at, uint64_t *value) {
    return zerotrie_read_go(cursor, (const uint8_t *)text, text ? len : 0, at, NULL)
           && zerotrie_read_take_value(cursor, value);
}

/* --- Look-ups --------------------------------------------------------------------------------- */

/* Returns whether the trie has the key, and then sets *value to its value; otherwise *value is
 * unspecified. */
ZEROTRIE_READ_INLINE bool zerotrie_read_get(uint32_t kind, const uint8_t *bytes, size_t len,
                                            const void *key, size_t key_len, uint64_t *value) {
    zerotrie_read_cursor cursor = zerotrie_read_start(kind, bytes, len);
    size_t at = 0;
    if (!key)
        key_len = 0;
    do {
        if (!zerotrie_read_next_prefix(&cursor, key, key_len, &at, value))
            return false;
    } while (at < key_len);
    return true;
}

/* Returns whether the text begins with a key, which may be empty. Then sets *key_len to the length
 * of the longest one, and *value to its value; otherwise both are unchanged. */
ZEROTRIE_READ_INLINE bool zerotrie_read_longest_prefix(uint32_t kind, const uint8_t *bytes,
                                                       size_t len, const void *text,
                                                       size_t text_len, size_t *key_len,
                                                       uint64_t *value) {
    zerotrie_read_cursor cursor = zerotrie_read_start(kind, bytes, len);
    uint64_t found_value;
    size_t at = 0;
    bool found = false;
    while (zerotrie_read_next_prefix(&cursor, text, text_len, &at, &found_value)) {
        *key_len = at;
        *value = found_value;
        found = true;
    }
    return found;
}

/* --- Indexes ---------------------------------------------------------------------------------- */

/* The two halves of a product of 128 bits, joined by exclusive or. */
ZEROTRIE_READ_HOT uint64_t zerotrie_read_fold(uint64_t a, uint64_t b) {
#ifdef __SIZEOF_INT128__
    __extension__ const unsigned __int128 product = (unsigned __int128)a * b;
    return (uint64_t)product ^ (uint64_t)(product >> 64);
#else
    const uint64_t low_a = a & UINT32_MAX, high_a = a >> 32;
    const uint64_t low_b = b & UINT32_MAX, high_b = b >> 32;
    const uint64_t one = high_a * low_b + (low_a * low_b >> 32);
    const uint64_t other = low_a * high_b + (one & UINT32_MAX);
    return (a * b) ^ (high_a * high_b + (one >> 32) + (other >> 32));
#endif
}

/* The hash of a key under the seed of an index. */
ZEROTRIE_READ_HOT uint64_t zerotrie_read_hash(uint64_t seed, const uint8_t *key, size_t len) {
    const uint64_t factor = (seed << 32 | seed >> 32) ^ UINT64_C(0x9E3779B97F4A7C15) ^ len;
    uint64_t folded = seed ^ UINT64_C(0x243F6A8885A308D3), whole = 0;
    const uint8_t *at = key;
    size_t left = len;
    if (len < 8) {
        while (left != 0)
            whole = whole << 8 | key[--left];
        return zerotrie_read_fold(whole ^ folded, whole ^ factor);
    }
    for (; left > 16; left -= 16, at += 16)
        folded = zerotrie_read_fold(zerotrie_read_eight(at) ^ folded,
                                    zerotrie_read_eight(at + 8) ^ factor);
    return zerotrie_read_fold(zerotrie_read_eight(len < 16 ? key : key + (len - 16)) ^ folded,
                              zerotrie_read_eight(key + (len - 8)) ^ factor);
}

/* Returns whether the records between two places have the key, and then sets *value to its value. */
ZEROTRIE_READ_HOT bool zerotrie_read_record(const uint8_t *at, const uint8_t *end,
                                            const uint8_t *key, size_t key_len, uint64_t *value) {
    while (at != end) {
        uint64_t len;
        const uint8_t *const rest =
            *at < 0x40 ? zerotrie_read_number(at, end, 0x20, &len) : NULL;
        if (!rest || end - rest < 8 || len > (size_t)(end - rest) - 8)
            return false;
        at = rest + 8 + (size_t)len;
        if (len == key_len && (key_len == 0 || memcmp(rest + 8, key, key_len) == 0)) {
            *value = zerotrie_read_eight(rest);
            return true;
        }
    }
    return false;
}

/* Returns whether the index has the key, and then sets *value to its value; otherwise *value is
 * unchanged. */
ZEROTRIE_READ_INLINE bool zerotrie_read_index_get(const uint8_t *bytes, size_t len,
                                                  const void *key, size_t key_len,
                                                  uint64_t *value) {
    const uint8_t *entries, *pool;
    uint64_t count, hash, entry, from, to;
    if (!key)
        key_len = 0;
    if (!bytes || len < 24)
        return false;
    count = zerotrie_read_eight(bytes + 8);
    if (count == 0 || count > UINT32_MAX || count > (len - 24) / 8)
        return false;
    hash = zerotrie_read_hash(zerotrie_read_eight(bytes), (const uint8_t *)key, key_len);
    entries = bytes + 16 + 8 * (size_t)((hash >> 32) * count >> 32);
    entry = zerotrie_read_eight(entries);
    if ((entry >> (hash & 31) & 1) == 0)
        return false;
    pool = bytes + 24 + 8 * (size_t)count;
    from = entry >> 32;
    to = zerotrie_read_eight(entries + 8) >> 32;
    if (from > to || to > (size_t)(bytes + len - pool))
        return false;
    return zerotrie_read_record(pool + (size_t)from, pool + (size_t)to, (const uint8_t *)key,
                                key_len, value);
}

/* --- Listing ---------------------------------------------------------------------------------- */

/* Moves behind a prefix, and copies it to `stored` as the trie has it. Returns whether the trie has
 * it. */
ZEROTRIE_READ_INLINE bool zerotrie_read_below(zerotrie_read_cursor *cursor, const uint8_t *prefix,
                                              size_t len, uint8_t *stored) {
    uint64_t value;
    size_t at = 0;
    while (at < len) {
        if (!zerotrie_read_go(cursor, prefix, len, &at, stored))
            return false;
        if (at < len && !zerotrie_read_take_value(cursor, &value))
            return false;
    }
    return true;
}

/* The state of a list. The beginning of the room is the key so far, and its end, from `frames` to
 * `last`, a stack of frames. */
typedef struct zerotrie_read_listing {
    zerotrie_read_cursor here;
    uint8_t *keys;
    uint8_t *frames;
    uint8_t *last;
    size_t key_len;
} zerotrie_read_listing;

/* Appends the next bytes of the trie to the key. Returns whether the room is large enough. */
ZEROTRIE_READ_INLINE bool zerotrie_read_append(zerotrie_read_listing *listing, size_t len) {
    if (len > (size_t)(listing->frames - listing->keys) - listing->key_len)
        return false;
    memcpy(listing->keys + listing->key_len, listing->here.at, len);
    listing->key_len += len;
    listing->here.at += len;
    return true;
}

/* Pushes a frame for the branch here. Returns whether the room is large enough, also for the byte
 * of an edge. */
ZEROTRIE_READ_INLINE bool zerotrie_read_push(zerotrie_read_listing *listing,
                                             const zerotrie_read_branch *branch) {
    zerotrie_read_frame frame;
    if ((size_t)(listing->frames - listing->keys) - listing->key_len < sizeof frame + 1)
        return false;
    frame.branch = *branch;
    frame.key_len = listing->key_len;
    frame.next = 0;
    listing->frames -= sizeof frame;
    memcpy(listing->frames, &frame, sizeof frame);
    listing->here.at = listing->here.end;
    return true;
}

/* Moves to the next target of the innermost branch that has one left. Returns whether there is one.
 * It pops a branch before its last target, and where offsets do not ascend, which no trie has. */
ZEROTRIE_READ_INLINE bool zerotrie_read_next_target(zerotrie_read_listing *listing) {
    zerotrie_read_frame frame;
    size_t from, to;
    while (listing->frames != listing->last) {
        memcpy(&frame, listing->frames, sizeof frame);
        if (zerotrie_read_target(&frame.branch, frame.next, &from, &to)) {
            listing->here.at = frame.branch.targets + from;
            listing->here.end = frame.branch.targets + to;
            listing->keys[frame.key_len] = frame.branch.edges[frame.next];
            listing->key_len = frame.key_len + 1;
            if (++frame.next == frame.branch.count)
                listing->frames += sizeof frame;
            else
                memcpy(listing->frames, &frame, sizeof frame);
            return true;
        }
        listing->frames += sizeof frame;
    }
    return false;
}

/* Passes the node here, which is not a value. Returns whether the room is large enough. If no node
 * begins here, this target ends. */
ZEROTRIE_READ_INLINE bool zerotrie_read_past(zerotrie_read_listing *listing) {
    zerotrie_read_cursor *const here = &listing->here;
    const uint8_t *const from = here->at;
    zerotrie_read_branch branch;
    size_t literals = 0;
    if (*from < 0x80) {
        while (from + literals != here->end && from[literals] < 0x80)
            literals++;
        return zerotrie_read_append(listing, literals);
    }
    if (*from >= 0xC0) {
        if (zerotrie_read_branch_at(here->kind, from, here->end, &branch))
            return zerotrie_read_push(listing, &branch);
    } else if (*from >= 0xA0 && zerotrie_read_into_span(here)) {
        const size_t run = here->run;
        here->run = 0;
        return zerotrie_read_append(listing, run);
    }
    here->at = here->end;
    return true;
}

/* Calls `each` with `context` for each pair whose key begins with the prefix, in the order of the
 * trie's bytes, which in SimpleAscii is that of the keys. The empty prefix lists all pairs.
 *
 * `room` is memory for the key and for a frame of each branch above it. The longest key and
 * sizeof(zerotrie_read_frame) for each byte of it are always enough, and 4,096 bytes are enough for
 * most tries. The pairs that were listed before ZEROTRIE_READ_ROOM are right. On any bytes it lists
 * at most as many pairs as there are bytes. */
ZEROTRIE_READ_INLINE zerotrie_read_status zerotrie_read_list(
    uint32_t kind, const uint8_t *bytes, size_t len, const void *prefix, size_t prefix_len,
    void *room, size_t room_len, zerotrie_read_each *each, void *context) {
    zerotrie_read_listing listing;
    uint64_t value;
    if (!prefix)
        prefix_len = 0;
    if (!room)
        room_len = 0;
    listing.here = zerotrie_read_start(kind, bytes, len);
    listing.keys = (uint8_t *)room;
    listing.last = room_len != 0 ? listing.keys + room_len : listing.keys;
    listing.frames = listing.last;
    listing.key_len = prefix_len;
    if (prefix_len > room_len)
        return ZEROTRIE_READ_ROOM;
    if (!zerotrie_read_below(&listing.here, (const uint8_t *)prefix, prefix_len, listing.keys))
        return ZEROTRIE_READ_DONE;
    if (listing.here.run != 0 && !zerotrie_read_append(&listing, listing.here.run))
        return ZEROTRIE_READ_ROOM;
    listing.here.run = 0;
    do {
        while (listing.here.at != listing.here.end) {
            if (zerotrie_read_take_value(&listing.here, &value)) {
                if (!each(context, listing.keys, listing.key_len, value))
                    return ZEROTRIE_READ_STOPPED;
            } else if (!zerotrie_read_past(&listing)) {
                return ZEROTRIE_READ_ROOM;
            }
        }
    } while (zerotrie_read_next_target(&listing));
    return ZEROTRIE_READ_DONE;
}

#endif
";
