/* Compares ZeroIndex with the rows of index_rows.c, which it reads from standard input. Of bytes that are no index, only
 * what is true of any bytes is tested. */
import { ZeroIndex } from "../js/zerotrie_read.mjs";
import { hasMore, isValue, takeBytes, takeNumber } from "./js_input.mjs";

const counts = { indexes: 0, valid: 0, comparisons: 0, differ: 0 };

function same(is, ...rest) {
    counts.comparisons++;
    if (!is && counts.differ++ < 10) console.log("differs:", ...rest);
}

while (hasMore()) {
    const isIndex = takeNumber() !== 0;
    const index = new ZeroIndex(takeBytes());
    counts.indexes++;
    counts.valid += isIndex;
    same(index.validate() === isIndex, "validate", index.bytes);
    for (let left = Number(takeNumber()); left > 0; left--) {
        const key = takeBytes();
        const got = index.get(key);
        same(index.has(key) === (got !== undefined), "has", key);
        if (!isIndex) continue;
        const isKey = takeNumber() !== 0;
        const value = takeNumber();
        same(isKey ? got !== undefined && isValue(got, value) : got === undefined, "get", key, got, value);
    }
}
const { indexes, valid, comparisons, differ } = counts;
console.log(`${indexes} indexes, ${valid} of them valid, ${comparisons} comparisons: ${differ} differ`);
process.exit(differ === 0 && valid > 0 ? 0 : 1);
