"""Many keys at once, in arrays and columns: keys that are not there, gaps, and keys that lie one after another."""

import array
import ctypes
import itertools
import math

from helpers import told
from zerotrie import Index, StrTrie, ZeroTrie


EDGE = {"low": 0, "half": (1 << 63) - 1, "high": 1 << 63, "top": (1 << 64) - 1}


def test_negative():
    """A missing key as a negative number."""
    for made in (StrTrie.build(EDGE), Index.build(EDGE)):
        assert made.get_many(["low", "no"]) == array.array("Q", [0, (1 << 64) - 1])
        assert made.get_many(iter(["half", "no", "low"]), missing=-1) == array.array("q", [(1 << 63) - 1, -1, 0])
        assert made.get_many([], -1) == array.array("q") and made.get_many(["no"], -1 << 63)[0] == -1 << 63
        for keys in (["high"], ["no", "top"], ["top"]):
            told(OverflowError, lambda: made.get_many(keys, missing=-1), "a value is 2**63 or more")
            assert made.get_many(keys, 7)[-1] == EDGE[keys[-1]]
        told(OverflowError, lambda: made.get_many(["no"], (-1 << 63) - 1), "from -2**63 on")
        told(TypeError, lambda: made.get_many(["no"], math.nan))


class NAType:
    """What pandas has in place of a missing row: it is neither true nor false."""

    def __bool__(self):
        raise TypeError("boolean value of NA is ambiguous")

    def __eq__(self, other):
        return self


class Column:
    """A column as an array keeps it, which makes a list at once."""

    def __init__(self, *rows):
        self.rows = rows

    def tolist(self):
        return list(self.rows)


def test_gaps():
    """A column has gaps, whose value is the one of a missing key, also beside the empty key."""
    for made in (StrTrie.build({"": 5, "a": 1}), Index.build({"": 5, "a": 1})):
        gaps = [None, math.nan, NAType()]
        for rows in (["a", *gaps, "", b"x"], Column("a", *gaps, "", "x")):
            assert list(made.get_many(rows, missing=-1)) == [1, -1, -1, -1, 5, -1]
            assert list(made.get_many(rows, 9)) == [1, 9, 9, 9, 5, 9]
        assert list(made.get_many(iter(gaps))) == [(1 << 64) - 1] * 3
        # what is neither a key nor a gap is named with its row
        for rows, error in (
            (["a", None, 5], TypeError), (["a", None, 1.5], TypeError), (["a", NAType(), "\ud800"], UnicodeEncodeError)
        ):
            for missing in (9, -1):
                one = told(error, lambda: made.get_many(rows, missing), "key 2 is ")
                assert (one.key, one.index) == (rows[2], 2)
        assert None not in made and math.nan not in made


def test_flat():
    """A column whose keys are one after another, and where each ends."""
    columns = StrTrie.build({"": 5, "bar": 2, "foo": 1, "zürich": 3})
    words = ["bar", "", "no", "zürich", "foo"]
    data = "".join(words).encode()
    ends = array.array("Q", itertools.accumulate(len(word.encode()) for word in words))
    for kept in (data, bytearray(data), memoryview(data), array.array("B", data)):
        for places in (
            ends, list(ends), array.array("i", ends), array.array("q", ends), memoryview(ends), iter(ends),
            memoryview(array.array("Q", [n for end in ends for n in (end, 0)]))[::2], (ctypes.c_size_t * 5)(*ends)
        ):
            assert columns.get_many_flat(kept, places, missing=-1) == array.array("q", [2, 5, -1, 3, 1])
        assert list(Index.build(columns).get_many_flat(kept, ends, missing=9)) == [2, 5, 9, 3, 1]
    assert columns.get_many_flat(data, ends) == columns.get_many(words) and not columns.get_many_flat(b"", [])
    # the offsets of Arrow have a 0 in front
    offsets = array.array("i", [0, *ends])
    assert list(columns.get_many_flat(data, memoryview(offsets)[1:], 7)) == [2, 5, 7, 3, 1]
    # an end beyond the data, and one below the end before it
    assert list(columns.get_many_flat(b"barfoo", [3, 99])) == [2, 1]
    assert list(columns.get_many_flat(b"barfoo", [3, 0])) == [2, 5]
    told(OverflowError, lambda: columns.get_many_flat(b"bar", [-1]))
    told(TypeError, lambda: columns.get_many_flat("bar", [3]), "data is the bytes of keys, not str")
    told(TypeError, lambda: columns.get_many_flat(b"bar", 3))


def test_flat_errors():
    closed = StrTrie.build({})
    closed.close()
    large = ZeroTrie.build(EDGE)
    told(OverflowError, lambda: large.get_many_flat(b"high", [4], -1), "a value is 2**63 or more")
    told(OverflowError, lambda: large.get_many_flat(b"top", [3], -1), "a value is 2**63 or more")
    told(ValueError, lambda: closed.get_many_flat(b"", []), "the trie is closed")
    told(OverflowError, lambda: Index.build(EDGE).get_many_flat(b"high", [4], -1), "a value is 2**63 or more")
