"""The nearest keys first, and edits where neighbours change places."""

import inspect
import itertools
import pickle
import random
import tracemalloc

import pytest
import zerotrie
from helpers import refused
from zerotrie import EXTENDED_CAPACITY, IGNORE_CASE, PERFECT_HASH, StrTrie, ZeroTrie, ZeroTrieError


def edits_of(one, other, swaps):
    cells = {}
    for i, j in itertools.product(range(len(one) + 1), range(len(other) + 1)):
        if i == 0 or j == 0:
            cells[i, j] = i + j
            continue
        last, before = one[i - 1 : i], other[j - 1 : j]
        cells[i, j] = min(cells[i - 1, j] + 1, cells[i, j - 1] + 1, cells[i - 1, j - 1] + (last != before))
        if swaps and i > 1 and j > 1 and (last, one[i - 2 : i - 1]) == (other[j - 2 : j - 1], before):
            cells[i, j] = min(cells[i, j], cells[i - 2, j - 2] + 1)
    return cells[len(one), len(other)]


@pytest.mark.parametrize("size", (0, 1, 150))
@pytest.mark.parametrize("kind", (PERFECT_HASH, EXTENDED_CAPACITY))
def test_beside_a_scan(kind, size):
    words = {"".join(random.choices("abäc", k=random.randrange(1, 7))): n for n in range(size)}
    texts, raw = StrTrie.build(words, kind), ZeroTrie.build(words, kind)
    for _ in range(10):
        word = "".join(random.choices("abäc", k=random.randrange(7)))
        for swaps, edits in itertools.product((True, False), (0, 1, 3)):
            rows = [(edits_of(word, key, swaps), key.encode(), key) for key in words]
            wanted = [(key, words[key], far) for far, _, key in sorted(rows) if far <= edits]
            assert texts.nearest(word, edits, 1000, swaps) == wanted
            assert texts.nearest(word, edits, 4, swaps) == wanted[:4]
            assert dict(texts.fuzzy(word, edits, swaps=swaps)) == {row[0]: row[1] for row in wanted}
            rows = [(edits_of(word.encode(), key.encode(), swaps), key.encode()) for key in words]
            wanted = [(key, raw[key], far) for far, key in sorted(rows) if far <= edits]
            assert raw.nearest(word.encode(), edits, 1000, swaps) == wanted


def test_any_case():
    heads = StrTrie.build({"Content-Type": 1, "ETag": 2}, IGNORE_CASE)
    assert list(heads.glob("content-*")) == list(heads.subsequence("CT")) == [("Content-Type", 1)]
    assert list(heads.glob("[A-_]tag")) == list(heads.fuzzy("etag", 0)) == [("ETag", 2)]
    assert ("etag", 2) in heads.glob("E*") and ("etag", 2) not in heads.glob("c*")
    assert heads.nearest("etga", swaps=True) == heads.nearest(b"ETGA", swaps=True) == [("ETag", 2, 1)]


def test_errors():
    refused(ZeroTrieError, StrTrie.build({"a": 1}).nearest, "x" * 64)
    refused(ZeroTrieError, StrTrie.build({"a": 1}).nearest, "x", 8, swaps=True)


def test_parameters():
    """The parameters of fuzzy() have the same defaults, and a pair has names."""
    parameters = [inspect.signature(call).parameters for call in (StrTrie.fuzzy, StrTrie.nearest)]
    assert all(parameters[0][name].default == parameters[1][name].default for name in ("edits", "swaps"))


def test_pair():
    heads = StrTrie.build({"Content-Type": 1, "ETag": 2}, IGNORE_CASE)
    (near,) = heads.nearest("etags")
    assert (near.key, near.value, near.edits) == near == ("ETag", 2, 1) and repr(near).startswith("Near(key=")
    assert type(near) is zerotrie.Near and pickle.loads(pickle.dumps(near)) == near


def test_rooms():
    """Rooms for what is found, and not for all that could be: also if that is more than fits at first."""
    many = StrTrie.build({f"{number:05}": number for number in range(20000)})
    for most in (1 << 63, 10**9, 2000):
        tracemalloc.start()
        found = many.nearest("00000", edits=3, most=most)
        assert tracemalloc.get_traced_memory()[1] < 1 << 21, tracemalloc.get_traced_memory()
        tracemalloc.stop()
        wanted = sorted((sum(a != "0" for a in key), key) for key in many if key.count("0") >= 2)
        assert len(found) == min(len(wanted), most)
        assert {near.key for near in found} <= {key for _, key in wanted} or most == 2000
    assert [near.edits for near in found] == sorted(near.edits for near in found)


def test_most():
    assert StrTrie.build({"x" * 60: 1}).nearest("x" * 58, most=0) == []
    assert len(ZeroTrie(b"\0into" * 5, check=False).nearest("in", 3, 1 << 40)) < 100
