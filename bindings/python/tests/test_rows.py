"""Rows that are wrong: each is named, with its key and the row."""

import math

import zerotrie
from helpers import told
from zerotrie import DenseTable, Index, StrTrie, ZeroTrie, ZeroTrieError, build, build_dense


def test_rows_of_pairs():
    """A row that is wrong is named."""
    for pairs, kind, key, index, words in (
        ({"a": 1, "b": -1}, OverflowError, "b", 1, "a value is from 0 to 2**64 - 1: that of key 1, 'b', is -1"),
        ({"a": 1, "b": math.nan}, TypeError, "b", 1,
         "a value is a whole number, not float: that of key 1, 'b', is nan"),
        # a column with a gap is all floats
        ({"a": 1.0, "b": 2.0, "c": math.nan}, TypeError, "c", 2, "not float: that of key 2, 'c', is nan"),
        ({"a": 1.0, "b": 2.0}, TypeError, "a", 0, "not float: that of key 0, 'a', is 1.0"),
        ({"a": 1.0, "b": -1}, OverflowError, "b", 1, "that of key 1, 'b', is -1"),
        ({"a": None}, TypeError, "a", 0, "not NoneType: that of key 0, 'a', is None"),
        ({"a": 1, 3: 4}, TypeError, 3, 1, "a key is text or bytes, not int: key 1 is 3"),
        ({"a": 1, "\ud800": 2}, UnicodeEncodeError, "\ud800", 1, "surrogates not allowed: key 1 is "),
    ):
        for call in (build, zerotrie.build_sorted, zerotrie.auto_kind, StrTrie.build, Index.build):
            for given in (pairs, list(pairs.items())):
                error = told(kind, lambda: call(given), words)
                assert (error.key, error.index) == (key, index)
    error = told(OverflowError, lambda: build_dense({"de": {"AT": 1, "CH": -1}}), "2**64 - 1: that of key 1, ", "'CH'")
    assert error.key == (b"de", b"CH")


def test_no_pairs():
    for pairs, words in (
        (["a", "b"], "row 0 is 'a', a key without a value: give pairs, as those of {key: n for n, key in enumerate(keys)}"),
        (["ab", "cd"], "row 0 is 'ab', a key without a value"),
        ("ab", "row 0 is 'a', a key"),
        (b"ab", "row 0 is 97: a pair"),
        ([("a", 1), ("b",)], "row 1 is ('b',): a pair is a key and a value"),
        ([("a", 1), 3], "row 1 is 3: a pair"),
        ([("a", 1), "bc"], "that of key 1, 'b', is 'c'"),
        (5, "a mapping, or pairs of a key and a value, and not int"),
    ):
        told(TypeError, lambda: build(pairs), words)
        told(TypeError, lambda: StrTrie.build(iter(pairs) if pairs != 5 else pairs), words)
    for made, what in ((StrTrie, "a trie"), (Index, "an index"), (DenseTable, "a dense table")):
        told(TypeError, lambda: made({"a": 1}), f"it takes the bytes of {what}, not dict: build() takes pairs, and open() the path")


class Series:
    """What has items as a mapping has, as that of pandas, in which a key may come twice."""

    def __init__(self, *pairs):
        self.pairs = pairs

    def keys(self):
        return [key for key, _ in self.pairs]

    def items(self):
        return iter(self.pairs)


def test_series():
    assert StrTrie.build(Series(("b", 2), ("a", 1))) == {"a": 1, "b": 2}
    told(ZeroTrieError, lambda: build(Series(("a", 2), ("a", 1))), "key 0 is 'a', key 1 is 'a'")


def test_words():
    told(TypeError, lambda: build({"a": "b"}), "a value is a whole number, not str")
    told(TypeError, lambda: build({1: 1}), "a key is text or bytes, not int")
    told(TypeError, lambda: ZeroTrie.build({"a": 1}).get_many("a"), "takes keys")
    told(ZeroTrieError, lambda: ZeroTrie(build({"å": 1})[1:], 0), "no trie of kind SIMPLE_ASCII: ")
