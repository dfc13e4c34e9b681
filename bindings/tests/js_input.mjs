/* Takes numbers and bytes from the rows that a program writes to standard input. */
import { readSync } from "node:fs";

const input = Buffer.alloc(1 << 20);
let at = 0;
let end = 0;

/** Returns whether so many bytes are in the input from `at` on, which `len` is up to. */
function fill(len) {
    if (end - at >= len) return true;
    input.copyWithin(0, at, end);
    end -= at;
    at = 0;
    while (end < len) {
        const count = readSync(0, input, end, input.length - end, null);
        if (count === 0) return false;
        end += count;
    }
    return true;
}

/** Takes eight bytes, the lowest first. */
export function takeNumber() {
    if (!fill(8)) throw new Error("the rows are cut off");
    at += 8;
    const high = input.readUInt32LE(at - 4);
    return high === 0 ? input.readUInt32LE(at - 8) : input.readBigUInt64LE(at - 8);
}

/** Takes bytes, in an array of their own and somewhere inside a larger buffer. */
export function takeBytes() {
    const len = Number(takeNumber());
    const bytes = new Uint8Array(len + 7).fill(0xc2).subarray(3, len + 3);
    for (let done = 0; done < len; ) {
        if (!fill(1)) throw new Error("the rows are cut off");
        const part = Math.min(len - done, end - at);
        bytes.set(input.subarray(at, at + part), done);
        at += part;
        done += part;
    }
    return bytes;
}

/** Returns whether a row follows. */
export const hasMore = () => fill(1);

/** Whether a value is that of the row, as a number exactly if that is safe. */
export function isValue(value, wanted) {
    const isSafe = typeof value === "number" ? Number.isSafeInteger(value) : value > BigInt(Number.MAX_SAFE_INTEGER);
    return isSafe && BigInt(value) === BigInt(wanted);
}
