/* A program whose types are those that zerotrie_read.d.mts has. A line after @ts-expect-error must have a wrong one. */
import { type ErrorCode, Kind, type Value, ZeroIndex, ZeroTrie, ZeroTrieError } from "zerotrie-read";

const bytes = Uint8Array.of(0x61, 0x81);
const trie = new ZeroTrie(bytes, Kind.SIMPLE_ASCII);
const kind: Kind = ZeroTrie.open(bytes.buffer).kind;
const value: Value | undefined = trie.get("a") ?? trie.get(bytes);
const pairs: [string, number | bigint][] = [...trie.pairs(), ...trie.pairs("a"), ...trie];
const keys: Uint8Array[] = [...trie.keys(bytes)];
const longest: [Uint8Array, Value] | undefined = trie.longestPrefix(bytes);
const prefixes: Map<string, Value> = new Map(trie.prefixes("ab"));
const whole: Map<string, Value> = new Map(trie);
const map: ReadonlyMap<string, Value> = trie;
const sorted: [string, Value][] = [...trie.range("a", "b"), ...trie.entries("a"), ...map, ...trie.fuzzy("a", 1, { swaps: true })];
const between: Uint8Array[] = [...trie.range(bytes)].map(([key]) => key);
const size: number = trie.size;
const isValid: boolean = trie.validate() && new ZeroIndex(bytes).validate();
trie.forEach((value, key, whole) => void [BigInt(value), key.length, whole.size]);
const ofIndex: Value | undefined = ZeroIndex.open(bytes).get("a") ?? new ZeroIndex(bytes).get(bytes);
const codeOf = (error: unknown): ErrorCode | undefined => (error instanceof ZeroTrieError ? error.code : undefined);

// @ts-expect-error a value may be a bigint
const number: number | undefined = trie.get("a");
// @ts-expect-error no kind has this number
new ZeroTrie(bytes, 5);
// @ts-expect-error a key is no number
trie.has(5);
// @ts-expect-error an index has no kind
new ZeroIndex(bytes, Kind.SIMPLE_ASCII);
// @ts-expect-error a prefix of bytes lists keys of bytes
const strings: string[] = [...trie.keys(bytes)];
// @ts-expect-error a range of strings has no keys of bytes
const ranged: Uint8Array[] = [...trie.range("a")].map(([key]) => key);
// @ts-expect-error it is read-only
trie.set("a", 1);
// @ts-expect-error there is no such code
const code: ErrorCode = "UNSORTED";

export { kind, value, pairs, keys, longest, prefixes, whole, ofIndex, codeOf, number, strings, code, map, sorted, between, size, ranged, isValid };
