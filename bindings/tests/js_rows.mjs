/* Compares zerotrie_read.mjs with the rows of reader_rows.c, which it reads from standard input. Of bytes that have no
 * answers, only what is true of any bytes is tested. */
import { ZeroTrie, ZeroTrieError } from "../js/zerotrie_read.mjs";
import { isValue, takeBytes, takeNumber, hasMore } from "./js_input.mjs";

const utf8 = new TextDecoder("utf-8", { fatal: true, ignoreBOM: true });
const counts = { tries: 0, answered: 0, answers: 0, differ: 0 };

const isSame = (one, other) => Buffer.compare(one, other) === 0;

function same(is, what, ...rest) {
    counts.answers++;
    if (is) return;
    counts.differ++;
    if (counts.differ <= 10) console.log("differs:", what, ...rest);
}

function decoded(bytes) {
    try {
        return utf8.decode(bytes);
    } catch {
        return undefined;
    }
}

function comparePair(pair, [key, value], what) {
    const isThere = pair !== undefined && isValue(pair[1], value);
    same(isThere && (typeof key === "string" ? pair[0] === key : isSame(pair[0], key)), what, pair, key, value);
}

/** The values along a text in a row: [length, value] of each key that it begins with. */
function takeValuesAlong(text) {
    const found = [];
    for (let len = 0; ; len++) {
        const is = takeNumber() !== 0;
        const value = takeNumber();
        if (is) found.push([len, value]);
        if (len === text.length) return found;
        const goesOn = takeNumber() !== 0;
        takeNumber();
        if (!goesOn) return found;
    }
}

/** Of malformed bytes two values may follow each other at one length; a row has the first. */
function firstOfEach(pairs) {
    return pairs.filter(([key], place) => place === 0 || pairs[place - 1][0].length !== key.length);
}

function compareText(trie, text) {
    const isKey = takeNumber() !== 0;
    const value = takeNumber();
    const got = trie.get(text);
    same(isKey ? got !== undefined && isValue(got, value) : got === undefined, "get", text, got, value);
    same(trie.has(text) === isKey, "has", text);
    const isPrefix = takeNumber() !== 0;
    const len = Number(takeNumber());
    const prefixValue = takeNumber();
    const longest = trie.longestPrefix(text);
    if (isPrefix) comparePair(longest, [text.subarray(0, len), prefixValue], "longestPrefix");
    else same(longest === undefined, "longestPrefix", text, longest);
    const along = takeValuesAlong(text);
    const prefixes = firstOfEach([...trie.prefixes(text)]);
    same(prefixes.length === along.length, "prefixes", prefixes, along);
    for (const [place, [keyLen, keyValue]] of along.entries()) {
        comparePair(prefixes[place], [text.subarray(0, keyLen), keyValue], "prefixes");
    }
    const string = decoded(text);
    if (string !== undefined) compareString(trie, string, got, [...trie.prefixes(text)]);
}

/** The same look-ups by a string. */
function compareString(trie, string, got, prefixes) {
    const wanted = prefixes.map(([key, value]) => [decoded(key), value]).filter(([key]) => key !== undefined);
    const found = [...trie.prefixes(string)];
    same(trie.get(string) === got && trie.has(string) === (got !== undefined), "get of a string", string);
    same(found.length === wanted.length, "prefixes of a string", string, found, wanted);
    for (const [place, pair] of wanted.entries()) comparePair(found[place], pair, "prefixes of a string");
    if (wanted.length > 0) comparePair(trie.longestPrefix(string), wanted[wanted.length - 1], "longestPrefix");
    else same(trie.longestPrefix(string) === undefined, "longestPrefix of a string", string);
}

function compareListing(trie, prefix) {
    const pairs = trie.pairs(prefix);
    const wanted = [];
    for (let left = Number(takeNumber()); left > 0; left--) {
        wanted.push([takeBytes(), takeNumber()]);
        comparePair(pairs.next().value, wanted[wanted.length - 1], "pairs");
    }
    same(pairs.next().done, "pairs end", prefix);
    compareSorted(trie, prefix, wanted);
}

/** The same in the order of bytes. In malformed bytes two edges may be equal, so that pairs are as many and in another order. */
function compareSorted(trie, prefix, listed) {
    const byKey = ([one], [other]) => Buffer.compare(one, other);
    const wanted = [...listed].sort(byKey);
    const entries = [...trie.entries(prefix)];
    const values = [...trie.values(prefix)];
    same(entries.length === wanted.length && values.length === wanted.length, "entries", entries, wanted);
    if (!isValid) return;
    for (const [place, pair] of wanted.entries()) comparePair(entries[place], pair, "entries");
    same(values.every((value, place) => isValue(value, wanted[place][1])), "values", values);
    const string = decoded(prefix);
    if (string !== undefined) compareKeys(trie, string, wanted);
    // between two of them
    if (wanted.length === 0) return;
    const [from, below] = [wanted[wanted.length >> 2][0], wanted[(3 * wanted.length) >> 2][0]];
    const between = [...trie.range(from, below)];
    const inside = [...trie.entries(new Uint8Array())].filter(([key]) => Buffer.compare(key, from) >= 0 && Buffer.compare(key, below) < 0);
    same(between.length === inside.length, "range", from, below, between);
    for (const [place, [key, value]] of inside.entries()) comparePair(between[place], [key, BigInt(value)], "range");
}

/** The keys as strings, up to the first that is not UTF-8. */
function compareKeys(trie, prefix, wanted) {
    const keys = trie.keys(prefix);
    for (const [bytes] of wanted) {
        const key = decoded(bytes);
        if (key === undefined) {
            same(codeOf(() => keys.next()) === "NOT_TEXT", "NOT_TEXT", bytes);
            return;
        }
        same(keys.next().value === key, "keys", key);
    }
    same(keys.next().done, "keys end", prefix);
}

/** Whether all bytes that have answers are valid. */
const isValid = process.argv[2] !== "malformed";

function codeOf(call) {
    try {
        call();
        return undefined;
    } catch (error) {
        return error instanceof ZeroTrieError ? error.code : error;
    }
}

/** On any bytes: all calls return, prefixes ascend, and a listing has at most as many pairs as there are bytes. */
function tryText(trie, text) {
    let last = 0;
    let count = 0;
    for (const [key] of trie.prefixes(text)) {
        same(key.length >= last && key.length <= text.length, "ascending prefixes");
        last = key.length;
        count++;
    }
    same(count <= trie.bytes.length, "so many prefixes");
    const longest = trie.longestPrefix(text);
    same((longest === undefined) === (count === 0), "longestPrefix");
    same(trie.has(text) === (trie.get(text) !== undefined), "has");
}

function tryListing(trie, prefix) {
    let count = 0;
    for (const [key] of trie.pairs(prefix)) {
        same(key.length >= prefix.length, "a key below the prefix");
        count++;
    }
    same(count <= trie.bytes.length, "so many pairs");
    let sorted = 0;
    for (const value of trie.values(prefix)) sorted += value === undefined ? 0 : 1;
    same(sorted === count && [...trie.range(prefix)].length <= trie.bytes.length, "so many sorted pairs");
    same([...trie.fuzzy(prefix, 1, { swaps: true })].length <= trie.bytes.length, "so many keys of few edits");
}

while (hasMore()) {
    const kind = Number(takeNumber());
    const isAnswered = takeNumber() !== 0;
    const trie = new ZeroTrie(takeBytes(), kind);
    counts.tries++;
    counts.answered += isAnswered;
    // the library has answers exactly of what is well-formed
    if (isValid) same(trie.validate() === isAnswered, "validate", trie.kind, trie.bytes);
    const texts = Number(takeNumber());
    for (let text = 0; text < texts; text++) {
        (isAnswered ? compareText : tryText)(trie, takeBytes());
        if (text < 4) (isAnswered ? compareListing : tryListing)(trie, takeBytes());
    }
}
const { tries, answered, answers, differ } = counts;
console.log(`${tries} tries, ${answered} of them with answers, ${answers} comparisons: ${differ} differ`);
process.exit(differ === 0 && answered > 0 ? 0 : 1);
