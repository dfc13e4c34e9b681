"""What changed from one trie to another, and the first key of each value."""

import random

import pytest
import zerotrie
from helpers import refused
from zerotrie import PERFECT_HASH, SIMPLE_ASCII, StrTrie, ZeroTrie, ZeroTrieError


@pytest.mark.parametrize("size", (0, 1, 30, 6000))
def test_beside_dicts(size):
    old = {f"{random.randrange(2 * size):x}": random.randrange(99) for _ in range(size)}
    new = {f"{random.randrange(2 * size):x}": random.randrange(99) for _ in range(size)}
    changed = [(key, old.get(key), new.get(key)) for key in sorted({*old, *new})]
    changed = [row for row in changed if row[1] != row[2]]
    first, second = StrTrie.build(old, PERFECT_HASH), ZeroTrie.build(new, SIMPLE_ASCII)
    assert [*map(tuple, zerotrie.diff(first, second))] == changed
    assert [*map(tuple, zerotrie.diff(first, second, "3", b"b"))] == [row for row in changed if "3" <= row[0] < "b"]
    assert list(zerotrie.diff(first, first)) == []
    names, keys = zerotrie.reverse(first), {}
    for key, value in first.items():
        keys.setdefault(value, key)
    assert names == keys and list(names) == sorted(keys) and len(names.places) == len(old)
    assert names == zerotrie.Reverse(first, names.places) and 99 not in names
    assert "x" not in names and -1 not in names and names.get(1 << 64) is None
    refused(KeyError, names.__getitem__, 99)
    assert repr(names).startswith("<Reverse of <StrTrie {")


def test_changes():
    hows = [one.how for one in zerotrie.diff(StrTrie.build({"a": 1, "b": 2}), ZeroTrie.build({"b": 3, "c": 4}))]
    assert hows == ["removed", "changed", "added"]
    assert type(next(zerotrie.diff(ZeroTrie.build({"a": 1}), StrTrie.build({}))).key) is bytes


def test_long_keys():
    long = StrTrie.build({"x" * 100_000: 1})
    assert next(zerotrie.diff(long, StrTrie.build({}))) == ("x" * 100_000, 1, None)
    assert zerotrie.reverse(long)[1] == "x" * 100_000
    refused(TypeError, zerotrie.diff, long, {})
    refused(TypeError, zerotrie.reverse, {"a": 1})


def test_errors():
    long = StrTrie.build({"x" * 100_000: 1})
    bad = ZeroTrie(b"\0into", check=False)
    error = refused(ZeroTrieError, lambda: list(zerotrie.diff(long, bad)))
    assert error.index == 1 and str(error).endswith(": trie 1")
    gone = StrTrie.build({"a": 1})
    unfinished, closed = zerotrie.diff(gone, long), zerotrie.reverse(gone)
    gone.close()
    refused(ValueError, next, unfinished)
    refused(ValueError, closed.__getitem__, 1)
