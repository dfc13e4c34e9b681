"""A trie as a Mapping: views with set operations, and equality by its rules."""

import copy
import pickle
import sys
import unittest.mock

import zerotrie
from helpers import larger, refused, some, told
from zerotrie import DenseTable, IGNORE_CASE, PERFECT_HASH, StrTrie, ZeroTrie


def test_views():
    """A Mapping: views with set operations, and equality by its rules."""
    names = ZeroTrie.build({"bar": 2, "bazaar": 3, "foo": 1})
    keys, items, values = names.keys(), names.items(), names.values()
    given = {b"bar": 2, b"bazaar": 3, b"foo": 1}
    assert (keys, items) == (given.keys(), given.items()) and list(values) == [*given.values()]
    assert names == given
    assert given == names
    assert len(keys) == len(items) == len(values) == len(names) == 3
    assert list(keys) == list(keys) == [b"bar", b"bazaar", b"foo"]
    assert keys & {b"foo", b"x"} == {b"foo"} and keys - {b"foo"} == {b"bar", b"bazaar"}
    assert keys | {b"x"} > {b"x"}
    assert keys ^ keys == set()
    assert keys >= {"foo"} and keys.isdisjoint({"x"}) and items & {("foo", 1), ("foo", 2)} == {("foo", 1)}
    assert (b"foo", 1) in items
    assert "foo" in keys and "x" not in keys and 3 in values and 4 not in values and (b"foo", 2) not in items
    assert "foo" not in items and None not in items
    assert "foo" not in names.keys("ba") and "bar" in names.keys("ba") and ("bar", 2) in names.items(b"ba")
    assert ("foo", 1) not in names.items(b"ba")
    assert names.keys("ba") == {b"bar", b"bazaar"} and list(names.values("ba")) == [2, 3]
    assert len(names.items("ba")) == 2 and 1 not in names.values("ba")
    assert "Keys(" in repr(keys) and names != {"foo": 1} and names != 5 and names == unittest.mock.ANY
    assert {names: 1}[ZeroTrie.build(given, PERFECT_HASH)] == 1
    assert names == ZeroTrie.build(given, PERFECT_HASH) != ZeroTrie.build({})


def test_any_case():
    ignoring = ZeroTrie.build({"Accept": 1, "Age": 2}, IGNORE_CASE)
    assert "ACCEPT" in ignoring.keys("aC") and "AGE" not in ignoring.keys("aC")
    assert list(ignoring.keys("aC")) == [b"Accept"]


def test_length():
    """The length is known once."""
    names = ZeroTrie.build({"bar": 2, "bazaar": 3, "foo": 1})
    assert len(names) == 3
    # the length is known once
    with unittest.mock.patch.object(zerotrie._Trie, "_parts", side_effect=AssertionError):
        assert len(names) == 3
    counted = ZeroTrie(bytes(names))
    assert len(counted) == 3
    with unittest.mock.patch.object(zerotrie._Trie, "_parts", side_effect=AssertionError):
        assert len(counted) == len(copy.copy(counted)) == 3


def test_what_is_no_key():
    """What can be no key is not there."""
    trie, index, table = some()
    for wrong in (3, None, 1.5, "\ud800", ("foo",), ["foo"]):
        for mapping in (trie, trie.keys(), index, table, table.keys()):
            assert wrong not in mapping
        assert (wrong, 1) not in trie.items()
        assert ("de", wrong) not in table and (wrong, "AT") not in table


def test_prefixes(trie):
    """A wrong prefix is told at once, not when the listing begins."""
    for call in (trie.items, trie.keys, trie.values):
        refused(TypeError, call, 5)


def test_missing_keys(trie):
    """A key that is not there is what KeyError has, whatever it is."""
    assert refused(KeyError, trie.__getitem__, "no").args == ("no",)
    assert refused(KeyError, trie.__getitem__, b"no").args == (b"no",)
    if sys.version_info >= (3, 12):
        class Odd(KeyError):
            def __buffer__(self, flags):
                return memoryview(b"no")

        class Pair(tuple):
            def __buffer__(self, flags):
                return memoryview(b"no")
        for odd in (Odd(), Pair((1, 2))):
            error = refused(KeyError, trie.__getitem__, odd)
            assert type(error) is KeyError and len(error.args) == 1 and error.args[0] is odd


def test_names():
    """What a notebook completes."""
    assert {name for name in dir(zerotrie) if not name.startswith("_")} == set(zerotrie.__all__)
    assert all(hasattr(zerotrie, name) for name in dir(zerotrie))


def test_repr():
    (trie, _, table), large = some(), larger()[0]
    # what a person reads
    assert repr(trie) == "<StrTrie {'bar': 2, 'foo': 1}, 10 bytes, SIMPLE_ASCII>"
    assert repr(large).count("': ") == 3 and ", .. 30000 keys}" in repr(large)
    assert repr(StrTrie(bytes(large))).count(", ..}") == 1
    assert repr(StrTrie.build({})) == "<StrTrie {}, 0 bytes, SIMPLE_ASCII>"
    assert repr(StrTrie(b"\3\xa1\xff\x81", check=False)) == "<StrTrie of malformed bytes, 3 bytes, PERFECT_HASH>"
    assert repr(DenseTable(b"?")) == "<DenseTable of malformed bytes, 1 bytes>"
    assert repr(table).startswith("<DenseTable {('de', 'AT'): 8, ")
    closed = StrTrie.build({})
    closed.close()
    assert repr(closed) == "<closed StrTrie>"
    for call in (lambda: 3 in closed, lambda: closed.nbytes, lambda: pickle.dumps(closed, 5)):
        told(ValueError, call, "the trie is closed")
