/* Compares ZeroTrie.open with the rows of js_files.c, which it reads from standard input: files, and what zerotrie_open
 * returns of them. */
import { readFileSync } from "node:fs";
import { ZeroTrie, ZeroTrieError } from "../js/zerotrie_read.mjs";

/** The codes for each status of zerotrie_open but 0. The library returns the third also for an index. */
const CODES = { 13: ["EMPTY"], 14: ["NOT_A_TRIE"], 18: ["DAMAGED", "INDEX", "UNKNOWN_KIND"], 19: ["UNKNOWN_VERSION"] };
const rows = readFileSync(0);
const counts = { opened: 0, damaged: 0, differ: 0 };

/** What is opened, or the code of the error. */
function open(file) {
    try {
        return ZeroTrie.open(file);
    } catch (error) {
        if (error instanceof ZeroTrieError) return error.code;
        throw error;
    }
}

for (let at = 0; at < rows.length; ) {
    const [status, kind, from, len, fileLen] = [0, 4, 8, 12, 16].map((place) => rows.readUInt32LE(at + place));
    const file = rows.subarray(at + 20, at + 20 + fileLen);
    const opened = open(file);
    const isSame =
        status === 0
            ? opened.kind === kind && Buffer.compare(opened.bytes, file.subarray(from, from + len)) === 0
            : CODES[status].includes(opened);
    if (!isSame && counts.differ++ < 10) console.log("differs:", status, file, opened);
    counts[status === 0 ? "opened" : "damaged"]++;
    at += 20 + fileLen;
}
console.log(`${counts.opened} files opened, ${counts.damaged} with an error: ${counts.differ} differ`);
process.exit(counts.differ === 0 && counts.opened > 0 && counts.damaged > 0 ? 0 : 1);
