/**
 * Reads zerotrie bytes in place, in browsers, Node, Deno and Bun, without a dependency.
 *
 *     import { ZeroTrie } from "./zerotrie_read.mjs";
 *     const trie = ZeroTrie.open(await (await fetch("names.trie")).arrayBuffer());
 *     trie.get("bar");
 *     for (const [key, value] of trie.pairs("ba")) console.log(key, value);
 *
 * This reader is tested, and not proved: its tests compare it with the library for C, whose functions are proved, and
 * with zerotrie_read.h. zerotrie_read.d.mts and JAVASCRIPT.md describe each call, FORMAT.md the bytes.
 */

export const Kind = Object.freeze({ SIMPLE_ASCII: 0, PERFECT_HASH: 3, EXTENDED_CAPACITY: 7, IGNORE_CASE: 8 });

export class ZeroTrieError extends Error {
    constructor(code, message) {
        super(message);
        this.name = "ZeroTrieError";
        this.code = code;
    }
}

function check(isRight, code, message) {
    if (!isRight) throw new ZeroTrieError(code, message);
}

/** Returns the bytes of a view or a buffer, in place. */
function bytesIn(data, expected) {
    if (ArrayBuffer.isView(data)) return new Uint8Array(data.buffer, data.byteOffset, data.byteLength);
    // a buffer that is shared, or of another window, is no instance of ArrayBuffer
    if (/ArrayBuffer\]$/.test(Object.prototype.toString.call(data))) return new Uint8Array(data);
    throw new TypeError(`${expected}, not ${data === null ? "null" : typeof data}`);
}

/* --- Keys ------------------------------------------------------------------------------------------------------- */

/** A number that equals no byte. */
const NO_BYTE = 256;
const encoder = new TextEncoder();
const decoder = new TextDecoder("utf-8", { fatal: true, ignoreBOM: true });

/** Returns the bytes of a key. Half of a surrogate pair has no UTF-8, so no key has it. */
function bytesOf(key) {
    if (typeof key !== "string") return bytesIn(key, "a key is a string or a Uint8Array");
    const half = key.search(/\p{Surrogate}/u);
    return half < 0 ? encoder.encode(key) : [...encoder.encode(key.slice(0, half)), NO_BYTE];
}

/** Room for the UTF-8 of short keys. */
const room = new Uint8Array(256);

/** Writes a string of ASCII alone into the room, and returns it; undefined if the string is another one. */
function inRoom(text) {
    if (text.length > room.length) return undefined;
    for (let at = 0; at < text.length; at++) {
        const code = text.charCodeAt(at);
        if (code > 0x7f) return undefined;
        room[at] = code;
    }
    return room;
}

/** Returns some bytes as a string if `given` is one; undefined if they are not UTF-8. */
function inFormOf(given, bytes) {
    const own = Uint8Array.from(bytes);
    if (typeof given !== "string") return own;
    try {
        return decoder.decode(own);
    } catch {
        return undefined;
    }
}

/* --- Nodes ------------------------------------------------------------------------------------------------------ */

/** The top three bits of a value and of the head of a span. Those of a literal are less, of a branch more. */
const VALUE = 4;
const SPAN = 5;
const MOST = 2n ** 64n - 1n;

const fold = (byte) => (byte >= 0x41 && byte <= 0x5a ? byte | 0x20 : byte);

/** Returns `128 * number + more`, as a bigint if it is no safe number. */
function longer(number, more) {
    const sum = Number(number) * 128 + more;
    return Number.isSafeInteger(sum) ? sum : BigInt(number) * 128n + BigInt(more);
}

/** A place in a trie, between two bytes of keys. */
class Cursor {
    constructor(bytes, kind) {
        this.bytes = bytes;
        this.at = 0;
        this.end = bytes.length;
        this.run = 0; // how many bytes of a span are left here
        this.number = 0; // the last one that was read
        this.hashes = kind === Kind.PERFECT_HASH || kind === Kind.EXTENDED_CAPACITY;
        this.inAnyCase = kind === Kind.IGNORE_CASE;
        // the branch that was read last
        this.count = this.width = this.edges = this.offsets = this.targets = this.len = 0;
    }

    /** Returns the top three bits here, inside a span as of a literal; undefined at the end. */
    form() {
        if (this.run > 0) return 0;
        return this.at < this.end ? this.bytes[this.at] >> 5 : undefined;
    }

    /** Reads the number here. The bit `latent` of its first byte says that it continues, and the bits below are its
     *  value. Returns where it ends; 0 if it is cut off or needs more than 64 bits. */
    read(latent) {
        let at = this.at;
        let number = this.bytes[at] & (latent - 1);
        let more = this.bytes[at++] & latent;
        while (more !== 0) {
            if (at === this.end) return 0;
            number = longer(number, (this.bytes[at] & 0x7f) + latent);
            if (typeof number === "bigint" && number > MOST) return 0;
            more = this.bytes[at++] & 0x80;
        }
        this.number = number;
        return at;
    }

    /** Takes the value of the key that ends here; undefined if none does. */
    takeValue() {
        const at = this.form() === VALUE ? this.read(0x10) : 0;
        if (at === 0) return undefined;
        this.at = at;
        return this.number;
    }

    /** Moves into the span here, if there is one. */
    enterSpan() {
        const at = this.form() === SPAN && this.hashes ? this.read(0x10) : 0;
        if (at === 0 || this.number < 1 || this.number > this.end - at) return;
        this.at = at;
        this.run = this.number;
    }

    /** Takes the next byte of a literal or of a span; undefined if there is none. */
    takeByte() {
        this.enterSpan();
        if (!(this.form() < VALUE)) return undefined;
        if (this.run > 0) this.run--;
        return this.bytes[this.at++];
    }

    /** Reads the branch here, and returns whether there is one. Its offsets are `width` blocks, each with a byte for
     *  every target but the last. The parameters of a hashed table are skipped, as its edges are compared one by one. */
    isAtBranch() {
        const at = this.form() > SPAN ? this.read(0x20) : 0;
        const head = this.number;
        if (at === 0 || head >= 0x800 || (head & 0xff) === 1) return false;
        this.count = head & 0xff || 256;
        this.width = (head >> 8) + 1;
        this.edges = this.hashes && this.count >= 16 ? at + this.count + 1 : at;
        this.offsets = this.edges + this.count;
        this.targets = this.offsets + this.width * (this.count - 1);
        this.len = this.end - this.targets;
        return this.len >= 0;
    }

    /** Returns the branch here; undefined if there is none. */
    branch() {
        if (!this.isAtBranch()) return undefined;
        const { count, width, edges, offsets, targets, len } = this;
        return { count, width, edges, offsets, targets, len };
    }

    /** Returns how many bytes after the first target the target of this number ends. */
    endOf({ count, width, offsets, len }, number) {
        if (number < 0) return 0;
        if (number === count - 1) return len;
        let sum = 0;
        const last = offsets + number + (width - 1) * (count - 1);
        for (let at = offsets + number; at <= last; at += count - 1) sum = sum * 256 + this.bytes[at];
        return sum;
    }

    /** Moves to the target of this number and returns its edge; undefined if its offsets are outside the targets. */
    enter(branch, number) {
        const from = this.endOf(branch, number - 1);
        const to = this.endOf(branch, number);
        if (from > to || to > branch.len) return undefined;
        this.at = branch.targets + from;
        this.end = branch.targets + to;
        return this.bytes[branch.edges + number];
    }

    /** Moves to the target of the edge that equals a byte and returns that edge; undefined if there is none. */
    follow(branch, wanted) {
        const { bytes, inAnyCase } = this;
        const { edges, count } = branch;
        for (let at = edges; at < edges + count; at++) {
            if (bytes[at] === wanted || (inAnyCase && fold(bytes[at]) === fold(wanted))) return this.enter(branch, at - edges);
        }
        return undefined;
    }

    /** Follows a byte, past values. Returns the byte of the trie that equals it; undefined if none does. */
    step(wanted) {
        if (this.run === 0) {
            while (this.takeValue() !== undefined);
            if (this.isAtBranch()) return this.follow(this, wanted);
        }
        const byte = this.takeByte();
        return byte === wanted || (this.inAnyCase && byte !== undefined && fold(byte) === fold(wanted)) ? byte : undefined;
    }

    /** Returns the value of a key, the first bytes of these; undefined if there is none. */
    find(key, len) {
        for (let at = 0; at < len; at++) if (this.step(key[at]) === undefined) return undefined;
        return this.takeValue();
    }
}

/** Yields the length and the value of each key that a text begins with. */
function* beginnings(cursor, text) {
    for (let len = 0; ; len++) {
        for (let value = cursor.takeValue(); value !== undefined; value = cursor.takeValue()) yield [len, value];
        if (len === text.length || cursor.step(text[len]) === undefined) return;
    }
}

/** Returns the numbers of a branch's edges in the order of their bytes; undefined if that is theirs. The first target whose
 *  offsets fall is left out, with all that follow, as in the order of the trie. So no byte is listed twice. */
function inOrder(cursor, branch) {
    const { bytes } = cursor;
    const { edges, count, len } = branch;
    let number = 1;
    while (number < count && bytes[edges + number - 1] < bytes[edges + number]) number++;
    if (number >= count) return undefined;
    const numbers = [];
    for (let end = 0; numbers.length < count; numbers.push(numbers.length)) {
        const from = end;
        end = cursor.endOf(branch, numbers.length);
        if (from > end || end > len) break;
    }
    return numbers.sort((one, other) => bytes[edges + one] - bytes[edges + other]);
}

/** The pairs of a trie one after another: those below a prefix, in the order of bytes if `isSorted`, from a key on if
 *  one is given, and those that a search finds if one is given. */
class Listing {
    constructor(cursor, prefix, { isSorted = false, from = [], search } = {}) {
        this.cursor = cursor;
        this.prefix = prefix;
        this.isSorted = isSorted;
        this.from = from;
        this.search = search;
        this.key = [];
        this.open = []; // the branches whose targets are left
        this.isBelow = from.length > 0; // whether the key is a beginning of `from`, and shorter
    }

    /** Adds a byte to the key. What begins with a key that is below `from`, or that the search rules out, is passed. */
    add(byte) {
        const { cursor, key, from } = this;
        const least = this.isBelow ? from[key.length] : 0;
        key.push(byte);
        this.isBelow = this.isBelow && byte === least && key.length < from.length;
        const goesOn = this.search === undefined || this.search.push(byte);
        if (byte >= least && goesOn) return;
        cursor.at = cursor.end;
        cursor.run = 0;
    }

    /** Passes the node here, which is no value. If none begins here, this target ends. */
    passNode() {
        const { cursor, key } = this;
        const branch = cursor.branch();
        const byte = branch ? undefined : cursor.takeByte();
        if (branch) {
            const order = this.isSorted ? inOrder(cursor, branch) : undefined;
            const count = order?.length ?? branch.count;
            this.open.push({ branch, order, count, next: 0, keyLen: key.length, isBelow: this.isBelow });
        }
        if (byte === undefined) cursor.at = cursor.end;
        else this.add(byte);
    }

    /** Moves to the next target of the innermost open branch that has one. Returns whether one has. */
    nextTarget() {
        const { cursor, open, search } = this;
        for (; open.length > 0; open.pop()) {
            const last = open[open.length - 1];
            const place = last.next++;
            const edge = place < last.count ? cursor.enter(last.branch, last.order?.[place] ?? place) : undefined;
            if (edge !== undefined) {
                this.key.length = last.keyLen;
                this.isBelow = last.isBelow;
                search?.cut(last.keyLen);
                this.add(edge);
                return true;
            }
        }
        return false;
    }

    /** Moves behind the prefix. Returns whether a key begins with it. */
    skipPrefix() {
        for (const wanted of this.prefix) {
            const byte = this.cursor.step(wanted);
            if (byte === undefined) return false;
            this.key.push(byte);
        }
        return true;
    }

    /** Yields the key, as an array that the next step changes, and the value of each pair. */
    *[Symbol.iterator]() {
        const { cursor, key, search } = this;
        if (!this.skipPrefix()) return;
        do {
            while (cursor.at < cursor.end) {
                const value = cursor.takeValue();
                if (value === undefined) this.passNode();
                else if (!this.isBelow && (search === undefined || search.accepts())) yield [key, value];
            }
        } while (this.nextTarget());
    }
}

/** Whether a key is below another one, in the order of bytes. */
function isLess(key, other) {
    for (let at = 0; at < other.length; at++) if (key[at] !== other[at]) return at >= key.length || key[at] < other[at];
    return false;
}

/* --- Edits ------------------------------------------------------------------------------------------------------ */

/** Which keys few edits make of a word: after each byte of a key, how many edits make it of each beginning of the word. */
class Edits {
    constructor(word, { edits, beginnings, swaps, inAnyCase }) {
        this.byCharacters = typeof word === "string";
        const folded = (unit) => (inAnyCase ? fold(unit) : unit);
        this.folded = folded;
        this.word = (this.byCharacters ? Array.from(word, (it) => it.codePointAt(0)) : [...bytesOf(word)]).map(folded);
        this.most = edits;
        this.beginnings = beginnings;
        this.swaps = swaps;
        const row = this.word.map((_, place) => place + 1);
        this.states = [this.stateOf([0, ...row], undefined, undefined, false)];
    }

    stateOf(row, before, unit, isFound) {
        const found = isFound || (this.beginnings && row[this.word.length] <= this.most);
        return { row, before, unit, isFound: found, code: 0, left: 0 };
    }

    /** Whether the key is found. */
    accepts() {
        const { row, isFound, left } = this.states[this.states.length - 1];
        return isFound || (left === 0 && row[this.word.length] <= this.most);
    }

    /** Goes back to a key of this length. */
    cut(len) {
        this.states.length = len + 1;
    }

    /** Adds a byte to the key. Returns whether keys that begin with it may be found. */
    push(byte) {
        const state = this.states[this.states.length - 1];
        const unit = this.byCharacters ? this.characterOf(state, byte) : { code: byte, left: 0 };
        if (unit === undefined) this.states.push({ ...state, row: [], left: -1 });
        else if (unit.left > 0) this.states.push({ ...state, ...unit });
        else this.states.push(this.next(state, this.folded(unit.code)));
        const { row, isFound, left } = this.states[this.states.length - 1];
        return isFound || left > 0 || row.some((number) => number <= this.most);
    }

    /** Returns the part of a character of UTF-8 up to a byte, and how many bytes are left; undefined if it is none. */
    characterOf({ code, left }, byte) {
        if (left > 0) return byte >> 6 === 2 ? { code: (code << 6) | (byte & 0x3f), left: left - 1 } : undefined;
        if (byte < 0x80) return { code: byte, left: 0 };
        if (byte < 0xc2 || byte > 0xf4) return undefined;
        const more = byte < 0xe0 ? 1 : byte < 0xf0 ? 2 : 3;
        return { code: byte & (0x3f >> more), left: more };
    }

    next({ row, before, unit: last, isFound }, unit) {
        const { word } = this;
        const made = [row[0] + 1];
        for (let at = 1; at <= word.length; at++) {
            const changed = row[at - 1] + (word[at - 1] === unit ? 0 : 1);
            made[at] = Math.min(changed, row[at] + 1, made[at - 1] + 1);
            const isSwap = this.swaps && at > 1 && before && word[at - 2] === unit && word[at - 1] === last;
            if (isSwap) made[at] = Math.min(made[at], before[at - 2] + 1);
        }
        return this.stateOf(made, row, unit, isFound);
    }
}

/* --- Validation ------------------------------------------------------------------------------------------------- */

/** Whether numbers rise. */
const rises = (numbers) => numbers.every((number, at) => at === 0 || numbers[at - 1] < number);

/** Returns the place of an edge among `count`, by the parameters of a hashed table. */
function placeOf(edge, p, qs, count) {
    if (count === 256) return edge;
    const q = qs[(p === 0 ? edge : edge ^ p ^ (edge >> p % 8)) % count];
    let turned = edge ^ q;
    for (let turn = 95; turn < q; turn++) turned = (turned ^ (turned << 1) ^ (turned >> 1)) & 0xff;
    return turned % count;
}

/** Whether the edges of a branch are those of the kind: ASCII or any bytes, and ascending or hashed. */
function hasTable({ bytes, hashes, inAnyCase }, { count, edges }) {
    const table = bytes.subarray(edges, edges + count);
    if (!hashes) return table[count - 1] < 0x80 && rises(inAnyCase ? table.map(fold) : table);
    if (count < 16) return rises(table);
    const [p, ...qs] = bytes.subarray(edges - count - 1, edges);
    return table.every((edge, place) => placeOf(edge, p, qs, count) === place);
}

/** Whether bytes are a trie of a kind, by the rules of FORMAT.md. */
class Validation {
    constructor(bytes, kind) {
        this.cursor = new Cursor(bytes, kind);
        this.mostWidth = kind === Kind.EXTENDED_CAPACITY ? 8 : 4;
        // The branches whose targets are left. A branch is closed when its longest target is entered, which comes last. Each
        // other one has less than half of its bytes, so few branches are open at once.
        this.open = [];
    }

    isValid() {
        let before; // the form of the node before, if there is one
        do {
            if (!this.isPart(before)) return false;
            before = 0;
        } while (this.nextTarget());
        return true;
    }

    /** Whether the nodes up to the next branch, or up to the end here, may follow each other. */
    isPart(before) {
        const { cursor } = this;
        for (let last = before; ; ) {
            const form = cursor.form();
            if (form === undefined) return last === undefined || last === VALUE;
            if (form > SPAN) return this.openBranch();
            if (form >= VALUE && (form === last || !this.take(form))) return false;
            if (form < VALUE) cursor.at++;
            last = form;
        }
    }

    /** Takes a value or a span, and returns whether it is one. */
    take(form) {
        const { cursor } = this;
        if (form === VALUE) return cursor.takeValue() !== undefined;
        cursor.enterSpan();
        const { at, run } = cursor;
        cursor.at += run;
        cursor.run = 0;
        return run > 0 && cursor.bytes.subarray(at, at + run).every((byte) => byte >= 0x80);
    }

    /** Whether offsets of this width, and no shorter ones, reach the end of the targets. */
    isLeast({ width, len }) {
        return width <= this.mostWidth && len < 256 ** width && (width === 1 || len >= 256 ** (width - 1));
    }

    /** Opens the branch here, and returns whether it is valid but for its targets, and none of these is empty. */
    openBranch() {
        const { cursor, open } = this;
        const branch = cursor.branch();
        if (branch === undefined || !this.isLeast(branch) || !hasTable(cursor, branch)) return false;
        let longest = 0;
        let most = 0;
        for (let number = 0, from = 0; number < branch.count; number++) {
            const end = cursor.endOf(branch, number);
            if (end <= from || end > branch.len) return false;
            if (end - from > most) [longest, most] = [number, end - from];
            from = end;
        }
        open.push({ branch, longest, next: 0 });
        return true;
    }

    /** Moves to the next target. Returns whether there is one. */
    nextTarget() {
        const { cursor, open } = this;
        if (open.length === 0) return false;
        const last = open[open.length - 1];
        if (last.next === last.longest) last.next++;
        const isLast = last.next === last.branch.count;
        if (isLast) open.pop();
        cursor.enter(last.branch, isLast ? last.longest : last.next++);
        return true;
    }
}

/* --- Files ------------------------------------------------------------------------------------------------------ */

const KINDS = Object.values(Kind);
const INDEX = 24;
const INDEX_IN_BLOCKS = 25;
const BLOCK_LEN = 65536;
const MAGIC = [0x7a, 0x74, 0x72, 0x69, 0x89, 0x8a, 0x0d, 0x0a];
const VERSION = 1;
const SUM_AT = 20;
const HEADER_LEN = 24;
const CRC_TABLE = Uint32Array.from({ length: 256 }, (_, byte) => {
    let sum = byte;
    for (let bit = 0; bit < 8; bit++) sum = sum & 1 ? (sum >>> 1) ^ 0x82f63b78 : sum >>> 1;
    return sum;
});

/** Returns the CRC-32C of bytes, which come after those with the checksum `sum`. */
function crc32c(bytes, sum = 0) {
    let crc = ~sum;
    for (const byte of bytes) crc = (crc >>> 8) ^ CRC_TABLE[(crc ^ byte) & 0xff];
    return ~crc >>> 0;
}

const isSealed = (file) => MAGIC.every((byte, at) => byte === file[at]);

/** Returns the number in the header of a sealed file, if the file is whole. */
function numberInSealed(file) {
    check(file.length >= HEADER_LEN, "DAMAGED", "the file is damaged: its header is cut off");
    const header = new DataView(file.buffer, file.byteOffset, HEADER_LEN);
    const content = file.subarray(HEADER_LEN);
    const version = header.getUint16(8, true);
    const known = `and this reader knows version ${VERSION}: take a newer reader`;
    check(version === VERSION, "UNKNOWN_VERSION", `the file has version ${version} of the format, ${known}`);
    const len = header.getBigUint64(12, true);
    check(content.length >= len, "DAMAGED", `the file is damaged: ${content.length} of its ${len} bytes are there`);
    check(content.length <= len, "DAMAGED", "the file is damaged: bytes follow its end");
    const sum = crc32c(content, crc32c(file.subarray(0, SUM_AT)));
    check(header.getUint32(SUM_AT, true) === sum, "DAMAGED", "the file is damaged: its checksum is another one");
    return header.getUint16(10, true);
}

const isInBlocks = (file) => isSealed(file) && file[10] === INDEX_IN_BLOCKS && file[11] === 0;

/** Returns the index in a file of blocks, behind a sealed table of its length and checksums, if the file is whole. */
function indexInBlocks(file) {
    check(file.length >= HEADER_LEN, "DAMAGED", "the file is damaged: its header is cut off");
    const words = new DataView(file.buffer, file.byteOffset, file.byteLength);
    const front = HEADER_LEN + Number(words.getBigUint64(12, true));
    numberInSealed(file.subarray(0, front));
    const index = file.subarray(front);
    const blocks = Math.ceil(index.length / BLOCK_LEN);
    const fits = front >= HEADER_LEN + 8 && Number(words.getBigUint64(HEADER_LEN, true)) === index.length;
    check(fits && front === HEADER_LEN + 8 + 4 * blocks, "DAMAGED", "the file is damaged: its length is another one");
    for (let at = 0; at < blocks; at++) {
        const sum = crc32c(index.subarray(BLOCK_LEN * at, BLOCK_LEN * (at + 1)));
        const is = words.getUint32(HEADER_LEN + 8 + 4 * at, true) === sum;
        check(is, "DAMAGED", "the file is damaged: its checksum is another one");
    }
    return index;
}

/** Makes a copy of an object by structuredClone() or postMessage() an error: a copy would be an empty object. */
function refuseCopies(object, advice) {
    const get = () => {
        throw new TypeError(`this can't be copied or sent: ${advice}`);
    };
    Object.defineProperty(object, "copied", { enumerable: true, get });
}

export class ZeroTrie {
    #bytes;
    #kind;
    #size;

    constructor(bytes, kind) {
        refuseCopies(this, "send its `bytes` and its `kind`, and make `new ZeroTrie(bytes, kind)` of them");
        this.#bytes = bytesIn(bytes, "the bytes of a trie are a Uint8Array or an ArrayBuffer");
        this.#kind = kind;
        check(KINDS.includes(kind), "UNKNOWN_KIND", `no kind of trie has the number ${kind}`);
    }

    static open(data) {
        const file = bytesIn(data, "a file is a Uint8Array or an ArrayBuffer");
        check(file.length > 0, "EMPTY", "the file is empty");
        if (isSealed(file)) {
            const kind = isInBlocks(file) ? INDEX : numberInSealed(file);
            check(kind !== INDEX, "INDEX", "the file is an index: ZeroIndex.open opens it");
            return new ZeroTrie(file.subarray(HEADER_LEN), kind);
        }
        const neither = "it begins neither as a sealed file nor with the number of a kind";
        check(KINDS.includes(file[0]), "NOT_A_TRIE", `the file is no trie: ${neither}`);
        return new ZeroTrie(file.subarray(1), file[0]);
    }

    get kind() {
        return this.#kind;
    }

    get bytes() {
        return this.#bytes;
    }

    get(key) {
        const ascii = typeof key === "string" ? inRoom(key) : undefined;
        const cursor = new Cursor(this.#bytes, this.#kind);
        if (ascii !== undefined) return cursor.find(ascii, key.length);
        const bytes = bytesOf(key);
        return cursor.find(bytes, bytes.length);
    }

    has(key) {
        return this.get(key) !== undefined;
    }

    *prefixes(text) {
        const bytes = bytesOf(text);
        for (const [len, value] of beginnings(new Cursor(this.#bytes, this.#kind), bytes)) {
            const key = inFormOf(text, bytes.slice(0, len));
            if (key !== undefined) yield [key, value];
        }
    }

    longestPrefix(text) {
        return [...this.prefixes(text)].pop();
    }

    /** Yields what a listing has, with keys in the form of `given`. */
    *#listed(given, prefix, how) {
        for (const [bytes, value] of new Listing(new Cursor(this.#bytes, this.#kind), prefix, how)) {
            const key = inFormOf(given, bytes);
            check(key !== undefined, "NOT_TEXT", "a key is not UTF-8: give a prefix of bytes, and keys come as bytes");
            yield [key, value];
        }
    }

    *pairs(prefix = "") {
        yield* this.#listed(prefix, bytesOf(prefix), {});
    }

    *entries(prefix = "") {
        yield* this.#listed(prefix, bytesOf(prefix), { isSorted: true });
    }

    *keys(prefix = "") {
        for (const [key] of this.entries(prefix)) yield key;
    }

    *values(prefix = "") {
        const cursor = new Cursor(this.#bytes, this.#kind);
        for (const [, value] of new Listing(cursor, bytesOf(prefix), { isSorted: true })) yield value;
    }

    *range(from, below) {
        const given = from ?? below ?? "";
        const end = below === undefined ? undefined : bytesOf(below);
        for (const [key, value] of this.#listed(new Uint8Array(), [], { isSorted: true, from: bytesOf(from ?? "") })) {
            if (end !== undefined && !isLess(key, end)) return;
            const word = inFormOf(given, key);
            check(word !== undefined, "NOT_TEXT", "a key is not UTF-8: give a bound of bytes, and keys come as bytes");
            yield [word, value];
        }
    }

    *fuzzy(word, edits = 1, { beginnings = false, swaps = false } = {}) {
        if (!Number.isInteger(edits) || edits < 0) throw new RangeError(`a number of edits is whole, not ${edits}`);
        bytesOf(word);
        const search = new Edits(word, { edits, beginnings, swaps, inAnyCase: this.#kind === Kind.IGNORE_CASE });
        yield* this.#listed(word, [], { isSorted: true, search });
    }

    validate() {
        return new Validation(this.#bytes, this.#kind).isValid();
    }

    forEach(call, self) {
        for (const [key, value] of this) call.call(self, value, key, this);
    }

    get size() {
        if (this.#size === undefined) {
            this.#size = 0;
            for (const pair of new Listing(new Cursor(this.#bytes, this.#kind), [])) this.#size += pair.length > 0 ? 1 : 0;
        }
        return this.#size;
    }

    [Symbol.iterator]() {
        return this.entries();
    }
}

/* --- Indexes ---------------------------------------------------------------------------------------------------- */

const PI = 0x243f6a8885a308d3n;
const GOLDEN = 0x9e3779b97f4a7c15n;
/** The length of an index but for its buckets: the seed, the number of buckets, and the last entry. */
const FRAME_LEN = 24;
const MOST_IN_BUCKET = 16;
/** The metadata of the length of a key are 0: its first byte is less. */
const KEY_LEN_END = 0x40;

const isSame = (one, other) => one.length === other.length && one.every((byte, at) => byte === other[at]);

/** Returns the two halves of a product of 128 bits, joined by exclusive or. */
function folded(one, other) {
    const product = one * other;
    return (product & MOST) ^ (product >> 64n);
}

/** Returns the number in the eight bytes from a place on, or in those up to the end. */
function eightAt(bytes, from) {
    let number = 0n;
    for (let at = Math.min(from + 8, bytes.length); at > from; at--) number = number * 256n + BigInt(bytes[at - 1]);
    return number;
}

/** Returns the hash of a key under the seed of an index. */
function hashOf(seed, key) {
    const len = key.length;
    const factor = ((seed << 32n) & MOST) ^ (seed >> 32n) ^ GOLDEN ^ BigInt(len);
    let state = seed ^ PI;
    for (let at = 0; at < len - 16; at += 16) state = folded(eightAt(key, at) ^ state, eightAt(key, at + 8) ^ factor);
    return folded(eightAt(key, Math.max(len - 16, 0)) ^ state, eightAt(key, Math.max(len - 8, 0)) ^ factor);
}

export class ZeroIndex {
    #bytes;
    #words;

    constructor(bytes) {
        refuseCopies(this, "send its `bytes`, and make `new ZeroIndex(bytes)` of them");
        this.#bytes = bytesIn(bytes, "the bytes of an index are a Uint8Array or an ArrayBuffer");
        this.#words = new DataView(this.#bytes.buffer, this.#bytes.byteOffset, this.#bytes.byteLength);
    }

    static open(data) {
        const file = bytesIn(data, "a file is a Uint8Array or an ArrayBuffer");
        check(file.length > 0, "EMPTY", "the file is empty");
        check(isSealed(file), "NOT_AN_INDEX", "the file is no index: it does not begin as a sealed file");
        if (isInBlocks(file)) return new ZeroIndex(indexInBlocks(file));
        const number = numberInSealed(file);
        check(number === INDEX, "NOT_AN_INDEX", `the file is no index: it has the number ${number}, not ${INDEX}`);
        return new ZeroIndex(file.subarray(HEADER_LEN));
    }

    get bytes() {
        return this.#bytes;
    }

    get(key) {
        const bytes = bytesOf(key);
        const isText = bytes[bytes.length - 1] !== NO_BYTE;
        return isText ? this.#valueIn(this.#bucketOf(bytes), bytes) : undefined;
    }

    has(key) {
        return this.get(key) !== undefined;
    }

    /** Returns how many buckets there are; 0 if the bytes have no room for their entries. */
    #count() {
        const words = this.#words;
        if (words.byteLength < FRAME_LEN || words.getUint32(12, true) !== 0) return 0;
        const count = words.getUint32(8, true);
        return FRAME_LEN + 8 * count > words.byteLength ? 0 : count;
    }

    /** Returns where the records of a bucket are. */
    #bucket(count, number) {
        const entry = 16 + 8 * number;
        const pool = FRAME_LEN + 8 * count;
        return { from: pool + this.#words.getUint32(entry + 4, true), to: pool + this.#words.getUint32(entry + 12, true) };
    }

    /** Returns where the records of a key's bucket are; an empty part if the key is not marked there. */
    #bucketOf(key) {
        const words = this.#words;
        const none = { from: 0, to: 0 };
        const count = this.#count();
        if (count === 0) return none;
        const hash = hashOf(words.getBigUint64(0, true), key);
        const number = Number(((hash >> 32n) * BigInt(count)) >> 32n);
        const isMarked = (words.getUint32(16 + 8 * number, true) >>> Number(hash & 31n)) & 1;
        return isMarked ? this.#bucket(count, number) : none;
    }

    /** Yields the key of each record in a part of the bytes, and where its value and the record end, up to what is none. */
    *#records({ from, to }) {
        const cursor = new Cursor(this.#bytes);
        if (to > cursor.end) return;
        cursor.at = from;
        cursor.end = to;
        while (cursor.at < to && this.#bytes[cursor.at] < KEY_LEN_END) {
            const at = cursor.read(0x20);
            if (at === 0 || cursor.number > to - at - 8) return;
            cursor.at = at + 8 + cursor.number;
            yield { key: this.#bytes.subarray(at + 8, cursor.at), at, end: cursor.at };
        }
    }

    /** Returns the value of a key in the records of a part of the bytes. */
    #valueIn(part, key) {
        for (const { key: found, at } of this.#records(part)) {
            if (isSame(found, key)) {
                const value = this.#words.getBigUint64(at, true);
                return value <= Number.MAX_SAFE_INTEGER ? Number(value) : value;
            }
        }
        return undefined;
    }

    /** Whether the records of a bucket are few, and have different keys that belong there. */
    #isBucket(part) {
        const keys = [];
        let { from } = part;
        for (const { key, end } of this.#records(part)) {
            const own = this.#bucketOf(key);
            const isThere = own.from === part.from && own.to === part.to;
            if (!isThere || keys.length === MOST_IN_BUCKET || keys.some((other) => isSame(other, key))) return false;
            keys.push(key);
            from = end;
        }
        return from === part.to;
    }

    validate() {
        const count = this.#count();
        let end = FRAME_LEN + 8 * count;
        for (let number = 0; number < count; number++) {
            const part = this.#bucket(count, number);
            if (part.from !== end || part.to < end || !this.#isBucket(part)) return false;
            end = part.to;
        }
        return count > 0 && end === this.#bytes.length;
    }
}
