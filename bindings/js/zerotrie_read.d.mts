/**
 * Reads zerotrie bytes in place, in browsers, Node, Deno and Bun, without a dependency.
 *
 * This reader is tested, and not proved.
 */

/** The numbers of the kinds of trie. */
export const Kind: {
    /** ASCII keys, listed in the order of their bytes. */
    readonly SIMPLE_ASCII: 0;
    /** Keys of any bytes. */
    readonly PERFECT_HASH: 3;
    /** Keys of any bytes, and tries past 4 GB. */
    readonly EXTENDED_CAPACITY: 7;
    /** ASCII keys, which are found in any case of their letters. */
    readonly IGNORE_CASE: 8;
};
export type Kind = (typeof Kind)[keyof typeof Kind];

/** A value from 0 to 2^64 - 1: a number up to `Number.MAX_SAFE_INTEGER`, which is 2^53 - 1, and a bigint above it. */
export type Value = number | bigint;

/** What bytes are taken from. They are not copied: do not change them while they are in use. */
export type Bytes = ArrayBufferView | ArrayBufferLike;

/** What a call yields, one after another, as it is asked for. */
export type Listing<T> = Generator<T, undefined, unknown>;

/** How `fuzzy()` searches. */
export type Fuzzy = { readonly beginnings?: boolean; readonly swaps?: boolean };

/**
 * - `EMPTY`: the file has no bytes.
 * - `NOT_A_TRIE`: the file is neither sealed nor tagged bytes.
 * - `UNKNOWN_VERSION`: the file is sealed, in another version of the format.
 * - `DAMAGED`: the file is sealed, and was cut, joined or changed.
 * - `INDEX`: the file is an index, and no trie.
 * - `NOT_AN_INDEX`: the file is not sealed, or it is a trie.
 * - `UNKNOWN_KIND`: no kind has this number.
 * - `NOT_TEXT`: a key was asked for as a string, and is not UTF-8.
 */
export type ErrorCode =
    | "EMPTY" | "NOT_A_TRIE" | "UNKNOWN_VERSION" | "DAMAGED" | "INDEX" | "NOT_AN_INDEX" | "UNKNOWN_KIND" | "NOT_TEXT";

/** Why a file or a key cannot be read: `code` for programs, `message` for people. */
export class ZeroTrieError extends Error {
    constructor(code: ErrorCode, message: string);
    readonly code: ErrorCode;
}

/**
 * A read-only map from byte strings to values, read in place.
 *
 * A key is given as a string, which means its UTF-8, or as bytes. What is found comes as strings if a string was given,
 * and as Uint8Arrays of their own if bytes were given. Anything else is a TypeError.
 *
 * It has what a `ReadonlyMap` has. structuredClone() and postMessage() of it are an error: send its `bytes`, in place if
 * they are in a SharedArrayBuffer, and its `kind`.
 *
 * On any bytes every call returns, and a listing has at most as many pairs as there are bytes. If the bytes are not a
 * trie of the kind, the result is unspecified. Only `validate()` reads them for that; `open()` compares the checksum of a
 * sealed file.
 */
export class ZeroTrie implements ReadonlyMap<string, Value> {
    /** A trie without a header. Throws a ZeroTrieError `UNKNOWN_KIND`. */
    constructor(bytes: Bytes, kind: Kind);

    /** The trie in a sealed file, whose checksum is compared, or in tagged bytes. Throws a ZeroTrieError. */
    static open(file: Bytes): ZeroTrie;

    /** The kind of the trie. */
    get kind(): Kind;

    /** The bytes of the trie, without a header. */
    get bytes(): Uint8Array;

    /** Returns the value of a key; undefined if there is no such key. */
    get(key: string | Bytes): Value | undefined;

    /** Returns whether there is such a key. */
    has(key: string | Bytes): boolean;

    /** Yields each key that a text begins with, as the text has it, and its value: the shortest first. If the text is a
     *  string, keys that end inside a character are left out. */
    prefixes(text: string): Listing<[string, Value]>;
    prefixes(text: Bytes): Listing<[Uint8Array, Value]>;

    /** Returns the last of `prefixes(text)`; undefined if there is none. */
    longestPrefix(text: string): [string, Value] | undefined;
    longestPrefix(text: Bytes): [Uint8Array, Value] | undefined;

    /** Yields the pairs whose keys begin with a prefix, in the order of bytes: that of UTF-8, by code points. Throws a
     *  ZeroTrieError `NOT_TEXT` at a key that is not UTF-8 if the prefix is a string. */
    entries(prefix?: string): Listing<[string, Value]>;
    entries(prefix: Bytes): Listing<[Uint8Array, Value]>;

    /** Yields the keys of `entries(prefix)`. */
    keys(prefix?: string): Listing<string>;
    keys(prefix: Bytes): Listing<Uint8Array>;

    /** Yields the values of `entries(prefix)`, of keys that are not UTF-8 too. */
    values(prefix?: string | Bytes): Listing<Value>;

    /** Yields the pairs of `entries(prefix)` in the order of the trie's bytes, which takes less time. In SIMPLE_ASCII it is
     *  that of the keys. */
    pairs(prefix?: string): Listing<[string, Value]>;
    pairs(prefix: Bytes): Listing<[Uint8Array, Value]>;

    /** Yields the pairs whose keys are from `from` on and below `below`, in the order of bytes. Undefined is no bound. The
     *  keys come as `from` was given, or else as `below` was. */
    range(from?: string, below?: string | Bytes): Listing<[string, Value]>;
    range(from: Bytes, below?: string | Bytes): Listing<[Uint8Array, Value]>;
    range(from: undefined, below: Bytes): Listing<[Uint8Array, Value]>;

    /** Yields the pairs whose keys at most so many edits make of a word, 1 if left out, in the order of bytes. An edit
     *  inserts, deletes or changes a character if the word is a string, and else a byte; with `swaps`, two neighbours that
     *  change places are one edit, too. With `beginnings` also those that begin with such a key. In IGNORE_CASE case is
     *  ignored. A number of edits that is not whole is a RangeError. */
    fuzzy(word: string, edits?: number, how?: Fuzzy): Listing<[string, Value]>;
    fuzzy(word: Bytes, edits?: number, how?: Fuzzy): Listing<[Uint8Array, Value]>;

    /** Returns whether the bytes are a trie of the kind, by every rule of FORMAT.md, as the library's `is_well_formed` does.
     *  It takes about a third of the time of listing `entries()`, and little memory, also on bytes that were made up. */
    validate(): boolean;

    /** Calls a function with the value and the key of each pair of `entries()`, and with the trie. */
    forEach(call: (value: Value, key: string, trie: ZeroTrie) => void, self?: unknown): void;

    /** How many pairs there are. The first time it lists all. */
    get size(): number;

    /** Yields `entries()`, so that `new Map(trie)` has all pairs. */
    [Symbol.iterator](): Listing<[string, Value]>;
}

/**
 * A read-only map from byte strings to values for exact look-ups alone, read in place. It has no order and no prefixes.
 *
 * A key is given as for a `ZeroTrie`. On any bytes every call returns. If they are not an index, the result is
 * unspecified. Only `validate()` reads them for that; `open()` compares the checksum of a sealed file.
 */
export class ZeroIndex {
    /** An index without a header. */
    constructor(bytes: Bytes);

    /** The index in a sealed file, whose checksum is compared. Throws a ZeroTrieError. */
    static open(file: Bytes): ZeroIndex;

    /** The bytes of the index, without a header. */
    get bytes(): Uint8Array;

    /** Returns the value of a key; undefined if there is no such key. */
    get(key: string | Bytes): Value | undefined;

    /** Returns whether there is such a key. */
    has(key: string | Bytes): boolean;

    /** Returns whether the bytes are an index, by every rule of FORMAT.md. It computes the hash of each key. */
    validate(): boolean;
}
