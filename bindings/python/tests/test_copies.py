"""Copies, pickles, buffers and subclasses."""

import copy
import ctypes
import pickle
import sys
import unittest.mock

import zerotrie
from helpers import larger, peak, refused, some
from zerotrie import DenseTable, PERFECT_HASH, StrTrie, ZeroTrie, ZeroTrieError, build


class Named(ZeroTrie):
    """A trie that is made of something else, and has an attribute."""

    def __init__(self, name):
        super().__init__(build({name: 1}))
        self.name = [name]


class Place(zerotrie.Cursor):
    pass


class Table(zerotrie.DenseTable):
    pass


class Refused(ZeroTrieError):
    pass


class Own(StrTrie):
    """A subclass with a pickle of its own, which counts in each protocol."""

    def __reduce__(self):
        return dict, (list(self.items()),)


def test_copies(trie):
    assert pickle.loads(pickle.dumps(trie)) == copy.deepcopy(trie) == trie == unittest.mock.ANY and trie != 5
    assert copy.copy(trie)._data is trie._data and copy.copy(trie) == trie
    assert repr(ZeroTrie(b"a\x85", 0)) == "<ZeroTrie {b'a': 5}, 2 bytes, SIMPLE_ASCII>"


def test_what_copies(trie):
    """What copies, and how often."""
    long = bytes(1 << 20)
    large = ZeroTrie(memoryview(long), check=False)
    assert bytes(trie) is trie._data and bytes(large) == long and bytes(ZeroTrie(long, check=False)) is long
    assert peak(ZeroTrie, long, None, False) < 1 << 15 and peak(bytes, large) < 1.1 * len(long)
    assert zerotrie.tagged(memoryview(b"a?b?")[::2], PERFECT_HASH) == b"\3ab"


def test_argument_types(trie):
    """What another module says of a function of Python stays its own."""
    with unittest.mock.patch.object(ctypes.pythonapi.PyObject_GetBuffer, "argtypes", [ctypes.c_int] * 3):
        assert ZeroTrie(memoryview(bytes(trie)))["foo"] == 1


def test_subclass():
    """A subclass stays one, and its attributes go along."""
    named = Named("foo")
    for again in (copy.copy(named), copy.deepcopy(named), pickle.loads(pickle.dumps(named))):
        assert type(again) is Named and again == named and again.name == ["foo"] and again["foo"] == 1
    assert copy.copy(named).name is named.name is not copy.deepcopy(named).name
    assert repr(named) == "<Named {b'foo': 1}, 4 bytes, SIMPLE_ASCII>"


def test_subclass_of_cursors(trie):
    place = Place(trie)
    place.step(ord("f"))
    place.way = [place]
    shallow, deep = copy.copy(place), copy.deepcopy(place)
    assert type(shallow) is type(deep) is Place and shallow.way is place.way and deep.way == [deep]
    assert place.step(ord("o")) == shallow.step(ord("o")) == deep.step(ord("o")) == ord("o")
    assert "pickle its trie" in str(refused(TypeError, pickle.dumps, place))


def test_other_subclasses():
    for made in (Table(zerotrie.build_dense({})), Refused(7)):
        made.name = "foo"
        for again in (copy.copy(made), copy.deepcopy(made), pickle.loads(pickle.dumps(made))):
            assert type(again) is type(made) and again.name == "foo"


def test_set_up_twice():
    """What a second set-up would free, another thread may be reading, or this one, in a call whose key or number runs code."""
    trie, other, named = ZeroTrie.build({"foo": 1, "bar": 2}), build({"foo": 3}), Named("foo")
    for made, arguments in ((trie, (other,)), (trie.cursor(), (trie,)), (named, ("bar",))):
        assert "make another one" in str(refused(TypeError, made.__init__, *arguments))
    assert trie["foo"] == 1 == named["foo"] and bytes(trie) != other


def test_set_up_late():
    """A refused one is none, so that a subclass can try one kind after another."""
    late = ZeroTrie.__new__(ZeroTrie)
    refused(ValueError, late.__init__, b"\0into")
    late.__init__(build({"foo": 3}))
    assert late["foo"] == 3


def test_buffers():
    (trie, index, table), (large, big_index) = some(), larger()
    # buffers and pickles: from protocol 5 on the bytes go by reference
    rows = {str(p): {str(s): s * p for s in range(50)} for p in range(50)}
    for made, pairs in (
        (trie, {"foo": 1, "bar": 2}),
        (large, dict(large)),
        (index, {b"foo": 1, b"bar": 2}),
        (big_index, {key.encode(): value for key, value in large.items()}),
        (table, {("de", "AT"): 8, ("de", "CH"): 9, ("en", ""): 6, ("en", "US"): 5}),
        (DenseTable.build(rows), {(p, s): value for p, row in rows.items() for s, value in row.items()}),
    ):
        assert made == pairs == dict(made) and len(made) == len(pairs)
        assert made != {**pairs, **{k: -1 for k in [*pairs][:1]}}
        assert hash(made) == hash(frozenset(pairs.items()))
        assert list(made.values()) == [pairs[key] for key in made]
        assert {**made} == dict(made.items())
        assert all(key in made and made[key] == made.get(key) for key in made)
        assert made.nbytes == made._lent()[3] and sys.getsizeof(made) > made.nbytes
        assert type(made).__name__ in repr(made) and f"{made.nbytes} bytes" in repr(made)
        assert len(repr(made)) < 200
        if zerotrie.accelerated or sys.version_info >= (3, 12):
            view = memoryview(made)
            assert view.readonly and view.nbytes == made.nbytes and view == made._lent()[0]
            assert bytes(made)[isinstance(made, StrTrie) :] == view
        for protocol in range(2, pickle.HIGHEST_PROTOCOL + 1):
            again = pickle.loads(pickle.dumps(made, protocol))
            assert type(again) is type(made) and again == made and hash(again) == hash(made)
        for again in (copy.copy(made), copy.deepcopy(made)):
            assert again == made
        buffers = []
        short = pickle.dumps(made, 5, buffer_callback=buffers.append)
        assert len(short) < 200 and [buffer.raw().nbytes for buffer in buffers] == [made.nbytes]
        again = pickle.loads(short, buffers=buffers)
        assert again == made and again._lent()[2] == made._lent()[2], "the same bytes in memory"
        assert made.__dask_tokenize__() == again.__dask_tokenize__()
    assert len({made.__dask_tokenize__() for made in (trie, large, index, table, ZeroTrie(trie))}) == 5


def test_own_pickle():
    for protocol in (2, 5):
        assert type(pickle.loads(pickle.dumps(Own.build({"a": 1}), protocol))) is dict
