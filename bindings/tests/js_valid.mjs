/* Compares validate() with the answers of js_valid.c, which it reads from standard input. */
import { readFileSync } from "node:fs";
import { Kind, ZeroTrie } from "../js/zerotrie_read.mjs";

const answers = readFileSync(0);
const counts = { valid: 0, not: 0, differ: 0 };
const YES = "1".charCodeAt(0);

function compare(bytes, kind, answer) {
    const isValid = new ZeroTrie(bytes, kind).validate();
    counts[isValid ? "valid" : "not"]++;
    if (isValid !== (answer === YES) && counts.differ++ < 10) console.log("differs:", kind, bytes);
}

let at = 0;
const some = [0x61, 0x62, 0x01, 0x81, 0xa1, 0xc2];
const bytes = new Uint8Array(6);
for (const kind of Object.values(Kind)) {
    for (let len = 0; len <= 6; len++) {
        for (let number = 0; number < 6 ** len; number++) {
            for (let place = 0, rest = number; place < len; place++, rest = Math.trunc(rest / 6)) bytes[place] = some[rest % 6];
            compare(bytes.subarray(0, len), kind, answers[at++]);
        }
    }
}
const { valid, not } = counts;
while (at < answers.length) {
    const end = at + 3 + answers.readUInt16LE(at + 1);
    compare(answers.subarray(at + 3, end), Kind.PERFECT_HASH, answers[at]);
    at = end;
}
const hashed = [counts.valid - valid, counts.not - not];
console.log(`${valid} short strings valid and ${not} not, ${hashed[0]} hashed tables valid and ${hashed[1]} not: ${counts.differ} differ`);
process.exit(counts.differ === 0 && [valid, not, ...hashed].every((count) => count > 0) ? 0 : 1);
