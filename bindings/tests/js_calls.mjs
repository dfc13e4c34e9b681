/* Calls zerotrie_read.mjs without a library: the examples of FORMAT.md, values, keys, files and their errors, and that
 * its declarations name what it has. */
import assert from "node:assert/strict";
import { readFileSync } from "node:fs";
import { Kind, ZeroIndex, ZeroTrie, ZeroTrieError } from "../js/zerotrie_read.mjs";

const hex = (text) => Uint8Array.from(Buffer.from(text.replaceAll(" ", ""), "hex"));
const bytes = (text) => new TextEncoder().encode(text);
const list = (trie) => Object.fromEntries(trie);

/** Asserts that a call throws a ZeroTrieError of this code, whose message matches. */
function fails(code, message, call) {
    assert.throws(call, (error) => {
        assert.ok(error instanceof ZeroTrieError && error instanceof Error, error);
        assert.equal(error.name, "ZeroTrieError");
        assert.equal(error.code, code);
        assert.match(error.message, message);
        return true;
    });
}

/** The CRC-32C of bytes, a bit at a time. */
function sumOf(bytes) {
    let sum = 0xffffffff;
    for (const byte of bytes) {
        sum ^= byte;
        for (let bit = 0; bit < 8; bit++) sum = (sum >>> 1) ^ (sum & 1 ? 0x82f63b78 : 0);
    }
    return ~sum;
}

/** The sealed file of a content, by FORMAT.md. */
function sealed(kind, content, version = 1) {
    const file = new Uint8Array(24 + content.length);
    file.set(hex("7A7472 69898A0D0A"));
    const numbers = new DataView(file.buffer);
    numbers.setUint16(8, version, true);
    numbers.setUint16(10, kind, true);
    numbers.setBigUint64(12, BigInt(content.length), true);
    file.set(content, 24);
    numbers.setUint32(20, sumOf([...file.subarray(0, 20), ...content]), true);
    return file;
}

/** The sealed file of an index in blocks, by FORMAT.md. */
function sealedInBlocks(index) {
    const blocks = Math.ceil(index.length / 65536);
    const table = new DataView(new ArrayBuffer(8 + 4 * blocks));
    table.setBigUint64(0, BigInt(index.length), true);
    for (let at = 0; at < blocks; at++) table.setUint32(8 + 4 * at, sumOf(index.subarray(65536 * at, 65536 * (at + 1))), true);
    const front = sealed(25, new Uint8Array(table.buffer));
    return new Uint8Array([...front, ...index]);
}

function examplesOfTheFormat() {
    const first = new ZeroTrie(hex("C262660A61C2727A01827A6F6F836F6F81"), Kind.SIMPLE_ASCII);
    assert.deepEqual([...first], [["bar", 2], ["bazzoo", 3], ["foo", 1]]);
    assert.deepEqual(list(new ZeroTrie(hex("8B 6164 9006 C2 6567 03 66 9011 686B 901C"), Kind.SIMPLE_ASCII)),
        { "": 11, ad: 22, adef: 33, adghk: 44 });
    const anyCase = new ZeroTrie(hex("C2 4266 0A 61 C2 727A 01 82 7A6F6F 83 6F6F 81"), Kind.IGNORE_CASE);
    assert.deepEqual([...anyCase], [["Bar", 2], ["Bazzoo", 3], ["foo", 1]]);
    assert.deepEqual(["BAR", "bar", "Bar", "bAz", "FOO"].map((key) => anyCase.get(key)), [2, 2, 2, undefined, 1]);
    assert.deepEqual([...anyCase.keys("bA")], ["Bar", "Bazzoo"]);
    assert.deepEqual(anyCase.longestPrefix("bARn"), ["bAR", 2]);
    for (const kind of [Kind.PERFECT_HASH, Kind.EXTENDED_CAPACITY]) {
        assert.deepEqual(list(new ZeroTrie(hex("A1 C3 C2 A5B8 01 8182"), kind)), { å: 1, ø: 2 });
        const offsets = hex("0102030405060708090A0B0C0D0E0F");
        const hashed = [...hex("D0 00"), ...new Uint8Array(16), 0x70, ...bytes("abcdefghijklmno"), ...offsets];
        const trie = new ZeroTrie(Uint8Array.from([...hashed, 0x8f, ...hex("808182838485868788898A8B8C8D8E")]), kind);
        assert.deepEqual([trie.get("a"), trie.get("o"), trie.get("p"), trie.get("q")], [0, 14, 15, undefined]);
        assert.equal([...trie].length, 16);
    }
    const file = hex("7A747269898A0D0A 0100 0300 0200000000000000 6DADA98B 6185");
    assert.deepEqual(Buffer.from(sealed(3, hex("6185"))), Buffer.from(file));
    assert.deepEqual([...ZeroTrie.open(file)], [["a", 5]]);
}

function values() {
    const valueOf = (number) => new ZeroTrie(hex(number), Kind.PERFECT_HASH).get("");
    assert.deepEqual(["80", "8F", "9000", "9011", "921C"].map(valueOf), [0, 15, 16, 33, 300]);
    // the last number that is safe, the first that is not, and the greatest
    assert.equal(valueOf("9FEFEFEFEFEFEF6F"), Number.MAX_SAFE_INTEGER);
    assert.equal(valueOf("9FEFEFEFEFEFEF70"), 9007199254740992n);
    assert.equal(valueOf("91EFEFEFEFEFEFEFEF6F"), 18446744073709551615n);
    assert.equal(valueOf("91EFEFEFEFEFEFEFEF70"), undefined, "above 2^64 - 1");
    assert.equal(valueOf("90"), undefined, "cut off");
    assert.equal(new ZeroTrie(new Uint8Array(1e6).fill(0xff).fill(0x90, 0, 1), 0).get(""), undefined);
}

function keys() {
    const trie = new ZeroTrie(hex("61 80 C3").subarray(0, 2), Kind.SIMPLE_ASCII);
    for (const key of [bytes("a"), Buffer.from("a"), bytes("a").buffer, new DataView(bytes("a").buffer), "a"]) {
        assert.equal(trie.get(key), 0);
        assert.ok(trie.has(key));
    }
    for (const key of [undefined, null, 1, ["a"], {}]) {
        for (const call of ["get", "has", "longestPrefix"]) assert.throws(() => trie[call](key), TypeError);
        if (key !== undefined) assert.throws(() => [...trie.pairs(key)], TypeError);
    }
    // what is found is in the form of what was given, and a copy
    const given = bytes("ab");
    const [found] = trie.longestPrefix(given);
    assert.deepEqual(found, bytes("a"));
    assert.notEqual(found.buffer, given.buffer);
    assert.deepEqual([...trie.pairs(bytes(""))], [[bytes("a"), 0]]);
    assert.deepEqual(new Map(trie), new Map([["a", 0]]));
    const [one, two] = new ZeroTrie(hex("61 81 62 82"), Kind.SIMPLE_ASCII).keys(bytes(""));
    assert.deepEqual([one, two], [bytes("a"), bytes("ab")]);
}

function keysThatAreNoText() {
    // U+FFFD, and the byte C3 alone
    const replaced = new ZeroTrie(hex("A3 EFBFBD 81"), Kind.PERFECT_HASH);
    assert.equal(replaced.get("\ufffd"), 1);
    for (const half of ["\ud800", "\udc00", "\ufffd\ud800"]) assert.equal(replaced.get(half), undefined);
    assert.equal(replaced.longestPrefix("\ud800"), undefined);
    assert.deepEqual(replaced.longestPrefix("\ufffd\ud800"), ["\ufffd", 1]);
    // a byte order mark is a character of a key
    const marked = new ZeroTrie(hex("A3 EFBBBF 61 81"), Kind.PERFECT_HASH);
    assert.deepEqual([...marked], [["\ufeffa", 1]]);
    assert.deepEqual([...replaced.pairs("\ud800")], []);
    const cut = new ZeroTrie(hex("A1 C3 81 A1 A5 82"), Kind.PERFECT_HASH);
    assert.deepEqual([...cut.prefixes("åse")], [["å", 2]]);
    assert.deepEqual([...cut.prefixes(bytes("åse"))], [[hex("C3"), 1], [bytes("å"), 2]]);
    assert.deepEqual([...cut.values()], [1, 2]);
    fails("NOT_TEXT", /not UTF-8/, () => [...cut.keys()]);
    assert.deepEqual([...cut.keys(bytes(""))], [hex("C3"), bytes("å")]);
    assert.deepEqual([...cut.keys("å")], ["å"]);
}

function files() {
    const trie = hex("6185");
    for (const kind of Object.values(Kind)) {
        const whole = sealed(kind, trie);
        for (const file of [whole, whole.buffer, Buffer.from(whole), Uint8Array.of(kind, ...trie)]) {
            const opened = ZeroTrie.open(file);
            assert.equal(opened.kind, kind);
            assert.deepEqual(Buffer.from(opened.bytes), Buffer.from(trie));
            assert.equal(opened.get("a"), 5);
        }
    }
    const whole = sealed(Kind.SIMPLE_ASCII, trie);
    fails("EMPTY", /empty/, () => ZeroTrie.open(new Uint8Array()));
    fails("NOT_A_TRIE", /no trie/, () => ZeroTrie.open(bytes("<!doctype html>")));
    fails("UNKNOWN_VERSION", /version 2 .*newer reader/, () => ZeroTrie.open(sealed(0, trie, 2)));
    fails("INDEX", /index/, () => ZeroTrie.open(sealed(24, trie)));
    fails("UNKNOWN_KIND", /number 5$/, () => ZeroTrie.open(sealed(5, trie)));
    fails("DAMAGED", /header/, () => ZeroTrie.open(whole.subarray(0, 23)));
    fails("DAMAGED", /1 of its 2 bytes/, () => ZeroTrie.open(whole.subarray(0, -1)));
    fails("DAMAGED", /follow/, () => ZeroTrie.open(Uint8Array.of(...whole, 0)));
    for (let bit = 8 * 12; bit < 8 * whole.length; bit++) {
        const file = whole.slice();
        file[bit >> 3] ^= 1 << (bit & 7);
        fails("DAMAGED", /damaged/, () => ZeroTrie.open(file));
    }
    fails("UNKNOWN_KIND", /undefined/, () => new ZeroTrie(trie));
    for (const data of ["text", undefined, [0, 1]]) assert.throws(() => ZeroTrie.open(data), TypeError);
}

/** The example of FORMAT.md, and what is no index. */
function indexes() {
    const entries = "0000000000000000 0400000000000000 4000000000000000";
    const more = "004000000B000000 0000000018000000 0000000018000000 0000000018000000";
    const pool = "02 1600000000000000 6164 04 2100000000000000 61646566";
    const bytesOfIndex = hex(entries + more + pool);
    const file = sealed(24, bytesOfIndex);
    const inBlocks = sealedInBlocks(bytesOfIndex);
    for (const index of [new ZeroIndex(bytesOfIndex), ZeroIndex.open(file), ZeroIndex.open(file.buffer), ZeroIndex.open(inBlocks)]) {
        assert.deepEqual(["ad", "adef"].map((key) => index.get(key)), [22, 33]);
        for (const key of ["a", "", "ad\ud800"]) assert.equal(index.get(key), undefined);
        assert.deepEqual(["ad", bytes("adef"), "ade"].map((key) => index.has(key)), [true, true, false]);
        assert.deepEqual(Buffer.from(index.bytes), Buffer.from(bytesOfIndex));
        assert.throws(() => index.get(5), TypeError);
    }
    fails("EMPTY", /empty/, () => ZeroIndex.open(new Uint8Array()));
    fails("NOT_AN_INDEX", /sealed/, () => ZeroIndex.open(bytesOfIndex));
    for (const number of [0, 16]) fails("NOT_AN_INDEX", /not 24$/, () => ZeroIndex.open(sealed(number, bytesOfIndex)));
    fails("UNKNOWN_VERSION", /version 2/, () => ZeroIndex.open(sealed(24, bytesOfIndex, 2)));
    fails("DAMAGED", /of its 80 bytes/, () => ZeroIndex.open(file.subarray(0, -1)));
    for (let at = 11; at < file.length; at++) {
        const changed = file.slice();
        changed[at] ^= 1;
        fails("DAMAGED", /damaged/, () => ZeroIndex.open(changed));
    }
    const long = ZeroIndex.open(sealedInBlocks(new Uint8Array(150000).fill(7))).bytes;
    assert.ok(long.length === 150000 && long.every((byte) => byte === 7));
    fails("INDEX", /index/, () => ZeroTrie.open(inBlocks));
    for (const damaged of [inBlocks.subarray(0, -1), inBlocks.subarray(0, 30), new Uint8Array([...inBlocks, 0])]) {
        fails("DAMAGED", /damaged/, () => ZeroIndex.open(damaged));
    }
    for (let at = 12; at < inBlocks.length; at++) {
        const changed = inBlocks.slice();
        changed[at] ^= 1;
        fails("DAMAGED", /damaged/, () => ZeroIndex.open(changed));
    }
    assert.throws(() => new ZeroIndex("ad"), TypeError);
    for (const none of ["", "00".repeat(24), "00".repeat(8) + "01".repeat(16)]) {
        assert.equal(new ZeroIndex(hex(none)).get("ad"), undefined);
    }
}

/** What no trie has is no node: a span without bytes, a branch of one edge and one whose offsets have nine bytes. */
function malformed() {
    for (const text of ["61 A0 62 81", "C1 62 81", "EF62 6162 000000000000000001 8182", "C2 6263 03 8182", "C2 6263"]) {
        const trie = new ZeroTrie(hex(text), Kind.PERFECT_HASH);
        for (const key of ["a", "b", "c", "ab"]) assert.equal(trie.get(key), undefined);
        assert.deepEqual([...trie], []);
    }
    // a branch of a, c and b in twenty of its kind, where both a and b would have all that is left
    let nested = [0x81];
    for (let depth = 0; depth < 20; depth++) nested = [...hex("C3 616362"), nested.length, 0, ...nested];
    const trie = new ZeroTrie(Uint8Array.from(nested), Kind.PERFECT_HASH);
    assert.deepEqual([[...trie], trie.size], [[["a".repeat(20), 1]], 1]);
}

/** A trie of the keys a, ba, bba and so on, or of b, ab, aab. So many branches are nested, each in the longest target of another. */
function nested(depth, inFirst) {
    const fronts = [];
    for (let level = 0, len = 1; level < depth; level++) {
        const width = len + 1 < 256 ? 1 : len + 1 < 65536 ? 2 : 3;
        const head = width === 1 ? [0xc2] : [0xdd + 2 * width, 0x62];
        const offset = [16, 8, 0].slice(3 - width).map((bits) => ((inFirst ? len : 1) >> bits) & 0xff);
        fronts.push([...head, 0x61, 0x62, ...offset, ...(inFirst ? [] : [0x81])]);
        len += head.length + 2 + width + 1;
    }
    return Uint8Array.from([...fronts.reverse().flat(), 0x80, ...Array(inFirst ? depth : 0).fill(0x81)]);
}

/** Deep branches are validated without a recursion. The library's answers are compared elsewhere. */
function validated() {
    for (const inFirst of [false, true]) {
        assert.deepEqual([...new ZeroTrie(nested(3, inFirst), Kind.SIMPLE_ASCII)].map(([key]) => key), inFirst ? ["aaa", "aab", "ab", "b"] : ["a", "ba", "bba", "bbb"]);
        const deep = nested(30_000, inFirst);
        for (const kind of Object.values(Kind)) assert.ok(new ZeroTrie(deep, kind).validate());
        deep[deep.lastIndexOf(0x80)] = 0x7f;
        for (const kind of Object.values(Kind)) assert.ok(!new ZeroTrie(deep, kind).validate());
    }
    const empty = new Uint8Array();
    assert.ok(new ZeroTrie(empty, Kind.PERFECT_HASH).validate() && !new ZeroIndex(empty).validate());
}

/** A listing reads no further than it is asked, and a mistake in the middle ends that part alone. */
function listings() {
    const trie = new ZeroTrie(hex("C3 616263 0102 81 9F 83"), Kind.SIMPLE_ASCII);
    const pairs = trie.pairs();
    assert.deepEqual(pairs.next().value, ["a", 1]);
    assert.deepEqual([...pairs], [["c", 3]]);
    assert.equal(pairs[Symbol.iterator](), pairs);
}

/** How many edits make one list of units of another one, by the definition. */
function distance(one, other, swaps) {
    const cells = Array.from({ length: one.length + 1 }, (_, i) => Array.from({ length: other.length + 1 }, (_, j) => (i === 0 ? j : j === 0 ? i : 0)));
    for (let i = 1; i <= one.length; i++) {
        for (let j = 1; j <= other.length; j++) {
            const isSame = one[i - 1] === other[j - 1];
            cells[i][j] = Math.min(cells[i - 1][j] + 1, cells[i][j - 1] + 1, cells[i - 1][j - 1] + (isSame ? 0 : 1));
            const isSwap = swaps && i > 1 && j > 1 && one[i - 2] === other[j - 1] && one[i - 1] === other[j - 2];
            if (isSwap) cells[i][j] = Math.min(cells[i][j], cells[i - 2][j - 2] + 1);
        }
    }
    return cells[one.length][other.length];
}

/** A map whose first branch is hashed, in the order of bytes: the keys of characters.trie, and some that are not ASCII, as
 *  StrTrie.build(.., PERFECT_HASH).save() in Python writes them. */
function sorted() {
    const trie = ZeroTrie.open(readFileSync(new URL("js_hashed.trie", import.meta.url)));
    const buffer = ([key]) => Buffer.from(key);
    const all = [...trie.pairs()].sort((one, other) => Buffer.compare(buffer(one), buffer(other)));
    assert.ok(all.length > 250 && trie.kind === Kind.PERFECT_HASH);
    assert.notDeepEqual([...trie.pairs()], all);
    assert.deepEqual([...trie.entries()], all);
    assert.deepEqual([...trie], all);
    assert.deepEqual([[...trie.keys()], [...trie.values()]], [all.map(([key]) => key), all.map(([, value]) => value)]);
    for (const prefix of ["", "c", "co", "re", "s", "a", "L", "none"]) {
        const wanted = all.filter(([key]) => key.startsWith(prefix));
        assert.deepEqual([...trie.entries(prefix)], wanted);
        assert.deepEqual([...trie.keys(prefix)].slice(0, 12), wanted.slice(0, 12).map(([key]) => key));
    }
    const places = [0, 1, 17, all.length >> 1, all.length - 2, all.length];
    for (const from of places) {
        for (const to of places) {
            const bounds = [all[from]?.[0] ?? "\u{10ffff}", all[to]?.[0] ?? "\u{10ffff}"];
            assert.deepEqual([...trie.range(...bounds)], all.slice(from, Math.max(from, to)));
            // bounds that are no keys: a little more, and a little less
            const [more] = trie.range(`${bounds[0]}\0`);
            assert.deepEqual(more, all[from + 1]);
            assert.deepEqual([...trie.range(bounds[0].slice(0, 1), bounds[0])].pop()?.[0], all[from - 1]?.[0][0] === bounds[0][0] ? all[from - 1][0] : undefined);
        }
    }
    assert.deepEqual([...trie.range()], all);
    assert.deepEqual([...trie.range(undefined, all[5][0])], all.slice(0, 5));
    const [[key]] = trie.range(undefined, bytes(all[5][0]));
    assert.deepEqual(key, bytes(all[0][0]));
    // as a Map has it
    const map = new Map(trie);
    assert.deepEqual([trie.size, trie.size], [map.size, all.length]);
    const seen = [];
    trie.forEach(function (value, key, whole) {
        seen.push([key, value]);
        assert.ok(this === seen && whole === trie);
    }, seen);
    assert.deepEqual(seen, all);
    for (const call of [() => structuredClone(trie), () => structuredClone({ trie })]) assert.throws(call, /send its `bytes` and its `kind`/);
    const again = structuredClone({ bytes: trie.bytes, kind: trie.kind });
    assert.equal(new ZeroTrie(again.bytes, again.kind).get(all[9][0]), all[9][1]);
    fuzzy(trie, all);
}

function fuzzy(trie, all) {
    for (const word of ["LATIN SMAL LETTER", "space", "nbsp", "", "alhpa", "Agrave", "zürich", "q"]) {
        for (const swaps of [false, true]) {
            for (const edits of [0, 1, 2, 3]) {
                const near = (text) => distance([...text], [...word], swaps) <= edits;
                assert.deepEqual([...trie.fuzzy(word, edits, { swaps })], all.filter(([key]) => near(key)), word);
                const closeBytes = all.filter(([key]) => distance(bytes(key), bytes(word), swaps) <= edits).map(([key]) => bytes(key));
                assert.deepEqual([...trie.fuzzy(bytes(word), edits, { swaps })].map(([key]) => key), closeBytes, word);
                const begins = (key) => Array.from({ length: key.length + 1 }, (_, len) => key.slice(0, len)).some(near);
                assert.deepEqual([...trie.fuzzy(word, edits, { swaps, beginnings: true })], all.filter(([key]) => begins(key)), word);
            }
        }
    }
    const anyCase = new ZeroTrie(hex("C2 4266 0A 61 C2 727A 01 82 7A6F6F 83 6F6F 81"), Kind.IGNORE_CASE);
    assert.deepEqual([...anyCase.fuzzy("bRA", 1, { swaps: true })], [["Bar", 2]]);
    assert.deepEqual([...anyCase.fuzzy("bRA")], []);
    for (const edits of [-1, 1.5, "1", NaN]) assert.throws(() => [...trie.fuzzy("a", edits)], RangeError);
    for (const word of [undefined, 5]) assert.throws(() => [...trie.fuzzy(word)], TypeError);
    // characters of two to four bytes: two keys, and a byte that is none
    const letters = new ZeroTrie(hex("A2 C3A9 81 61 82"), Kind.PERFECT_HASH);
    assert.deepEqual([...letters.fuzzy("e")].map(([key]) => key), ["é"]);
    assert.deepEqual([...letters.fuzzy("a")].map(([key]) => key), ["é", "éa"]);
}

/** The declarations name what is exported, and each member of the class. */
function declared() {
    const text = readFileSync(new URL("../js/zerotrie_read.d.mts", import.meta.url), "utf8");
    const exported = [...text.matchAll(/^export (?:const|class) (\w+)/gm)].map((found) => found[1]);
    assert.deepEqual(exported.sort(), ["Kind", "ZeroIndex", "ZeroTrie", "ZeroTrieError"]);
    for (const [Class, more] of [[ZeroTrie, ["[Symbol.iterator]"]], [ZeroIndex, []]]) {
        const [body] = text.slice(text.search(new RegExp(`^export class ${Class.name} `, "m"))).split(/^}/m);
        const named = [...body.matchAll(/^    (?:get )?([\w.[\]]+)\(/gm)].map((found) => found[1]);
        const members = Object.getOwnPropertyNames(Class.prototype);
        assert.deepEqual([...new Set(named)].sort(), [...members, ...more].sort());
        assert.ok(body.includes("static open("));
    }
    assert.ok(Object.isFrozen(Kind));
    for (const [name, number] of Object.entries(Kind)) assert.ok(text.includes(`readonly ${name}: ${number};`), name);
    const codes = [...text.match(/type ErrorCode =([^;]*);/)[1].matchAll(/\w+/g)].map(String);
    const source = readFileSync(new URL("../js/zerotrie_read.mjs", import.meta.url), "utf8");
    const used = [...source.matchAll(/check\([^"]*"([A-Z_]+)"/g)].map((found) => found[1]);
    assert.deepEqual([...new Set(used)].sort(), codes.sort());
}

const tests = [examplesOfTheFormat, values, keys, keysThatAreNoText, files, indexes, malformed, validated, listings, sorted, declared];
for (const test of tests) test();
console.log("js: calls, errors and declarations are right");
