"""Builds of every kind beside dicts, and what a build returns an error for."""

import array
import pickle
import random

import pytest
import zerotrie
from helpers import refused
from zerotrie import EXTENDED_CAPACITY, IGNORE_CASE, Kind, PERFECT_HASH, SIMPLE_ASCII, ZeroTrie, ZeroTrieError, build


@pytest.mark.parametrize("size", (0, 1, 30, 2000))
@pytest.mark.parametrize("kind", Kind)
def test_beside_a_dict(kind, size):
    high = 256 if kind in (PERFECT_HASH, EXTENDED_CAPACITY) else 128
    letters = [b for b in range(high) if kind != IGNORE_CASE or not 65 <= b < 91]
    pairs = {bytes(random.choice(letters) for _ in range(random.randrange(9))): random.randrange(1 << 64)
             for _ in range(size)}
    data = build(pairs, kind)
    assert data[0] == kind and zerotrie.build_sorted(sorted(pairs.items()), kind) == data
    assert zerotrie.encoded_len(sorted(pairs.items()), kind) == len(data) - 1
    for lent in (data, bytearray(data), memoryview(data), memoryview(b"?" + data)[1:]):
        trie = ZeroTrie(lent)
        assert trie.kind is kind and dict(trie) == dict(trie.items()) == pairs and len(trie) == len(pairs)
        keys = [*pairs, b"no such key", "text"]
        assert list(trie.get_many(keys, 7)) == [pairs.get(key, 7) for key in keys]
    for text in [b"", *pairs][:300]:
        text += bytes(random.choice(letters) for _ in range(3))
        fronts = [text[:n] for n in range(len(text), -1, -1) if text[:n] in pairs]
        assert trie.longest_prefix(text) == ((fronts[0], pairs[fronts[0]]) if fronts else None)
        assert trie.prefixes(text) == [(front, pairs[front]) for front in reversed(fronts)]
        borders = bytes(random.sample(letters, 20))
        ends = [front for front in fronts if front in (b"", text) or text[len(front)] in borders]
        assert trie.longest_prefix(text, at=borders) == ((ends[0], pairs[ends[0]]) if ends else None)
    for key in list(pairs)[:50]:
        front = key[:2]
        wanted = {k: v for k, v in pairs.items() if k.startswith(front)}
        assert trie.items(front) == wanted.items() and trie.keys(front) == wanted.keys()
        assert sorted(trie.values(front)) == sorted(wanted.values())
        assert len(trie.keys(front)) == len(wanted)
        cursor = trie.with_prefix(key)
        assert cursor is not None and cursor.copy().take_value() == cursor.take_value() == pairs[key]
        assert cursor.take_value() is None
    alone = ZeroTrie(data[1:], kind)
    assert alone == trie == ZeroTrie(trie) == pairs and pairs == trie
    assert trie != {**pairs, b"no such key": 1}
    assert hash(trie) == hash(alone) == hash(frozenset(pairs.items()))
    assert bytes(trie) == data == bytes(alone)
    assert alone.untagged == trie.untagged == data[1:] and trie.untagged.readonly


def test_kinds(trie):
    assert trie.kind == SIMPLE_ASCII and "foo" in trie and "fo" not in trie and trie
    assert sorted(trie.values()) == [1, 2]
    assert ZeroTrie.build([("å", 1)]).kind == PERFECT_HASH
    assert zerotrie.build_sorted({"a": 1, "å": 2}) == build({"å": 2, "a": 1})


def test_refused_pairs(trie):
    refused(KeyError, trie.__getitem__, "fo")
    refused(ZeroTrieError, ZeroTrie, b"into")
    refused(OverflowError, build, {"a": -1})
    assert refused(ZeroTrieError, build, [("a", 1), ("a", 2)]).status == 6
    ascii_only = refused(ZeroTrieError, build, {"a": 1, "å": 1}, SIMPLE_ASCII)
    assert str(ascii_only) == "Non-ASCII cannot be added to an ASCII-only trie: take a kind of trie for keys of any bytes: key 1 is 'å'"
    assert (ascii_only.key, ascii_only.index, ascii_only.other, ascii_only.at) == ("å", 1, None, None)
    mixed = refused(ZeroTrieError, ZeroTrie.build, [("host", 0), (b"Date", 1), ("date", 2)], IGNORE_CASE)
    assert (mixed.status, mixed.key, mixed.index, mixed.other) == (4, b"Date", 1, 2)
    assert len(str(refused(ZeroTrieError, build, [("x" * 10000, 1)] * 2))) < 200
    assert refused(ZeroTrieError, build, {}, 9).status == 12
    for unsorted in ([("b", 1), ("a", 2)], [("a", 1), ("a", 2)]):
        for error in (
            refused(ZeroTrieError, zerotrie.build_sorted, unsorted),
            refused(ZeroTrieError, zerotrie.encoded_len, unsorted, 0)
        ):
            assert (error.status, error.key, error.index, error.other) == (7, unsorted[0][0], 0, 1)


def test_malformed_bytes():
    """Malformed bytes: the first byte that breaks a rule."""
    for data, kind in ((b"into", SIMPLE_ASCII), (b"\0into", None)):
        malformed = refused(ZeroTrieError, ZeroTrie, data, kind)
        assert (malformed.status, malformed.at) == (None, 4)
        assert "SIMPLE_ASCII: the bytes end where a key" in str(malformed)


def test_malformed_listing():
    """Bytes that are no trie, of which each byte is a value of the empty key: their listing ends."""
    assert 5000 <= len(ZeroTrie(b"\x81" * 5000, 0, check=False)) <= 5001


def test_kinds_that_are_none(trie):
    """The kind is one, and stays as it is."""
    for number in (1, 5, 255):
        assert refused(ZeroTrieError, ZeroTrie, b"", number, False).status == 12
    assert refused(ZeroTrieError, ZeroTrie, b"").status == 13
    refused(TypeError, ZeroTrie, b"", 0.0)
    refused(AttributeError, setattr, trie, "kind", PERFECT_HASH)
    assert refused(ZeroTrieError, ZeroTrie, b"\1").status == 14


def test_pickled_error():
    again = pickle.loads(pickle.dumps(refused(ZeroTrieError, build, [("a", 1), ("a", 2)])))
    assert (again.status, again.key, again.other) == (6, "a", 1)
    assert str(again).startswith("The same key was given twice: give each key once: ")


def test_numbers(trie):
    """Numbers that are no keys, and such as are too large."""
    for call in (trie.__getitem__, trie.get, trie.longest_prefix, lambda key: build([(key, 1)]), zerotrie.DenseTable):
        refused(TypeError, call, 5)
    for call in (
        trie.cursor().step, trie.cursor().probe, lambda n: trie.get_many(["x"], n), lambda n: ZeroTrie(b"", n),
        lambda n: build({}, n), lambda n: zerotrie.Index.build({}).get_many([], n)
    ):
        refused(OverflowError, call, 1 << 64)
        refused(OverflowError, call, -1 << 64)
    assert list(trie.get_many(["foo", "x"], (1 << 64) - 1)) == [1, (1 << 64) - 1]
    numbers = array.array("I", [1, 2, 3])
    assert zerotrie.tagged(numbers, 0) == b"\0" + numbers.tobytes()


class Number:
    def __init__(self, number):
        self.number = number

    def __index__(self):
        return self.number


def test_other_numbers(trie):
    """Numbers of other types, which ctypes takes for none."""
    assert build({"a": Number(5)}, Number(0)) == build({"a": 5}) and zerotrie.tagged(b"", Number(3)) == b"\3"
    assert list(trie.get_many(["x"], Number(9))) == [9]
    assert trie.cursor().step(Number(ord("f"))) == trie.cursor().step(ord("f")) == ord("f")
    for call in (trie.cursor().step, trie.cursor().probe):
        refused(TypeError, call, "f")
        refused(TypeError, call, 1.0)
        refused(OverflowError, call, Number(-1))
    refused(OverflowError, trie.cursor().step, 256)
    assert trie.cursor().probe((1 << 64) - 1) is trie.cursor().step(True) is None
    assert trie.cursor().probe(True) == trie.cursor().probe(1)
