"""Bytes that change or are in use, keys and numbers that run code, and what was not set up: no call reads at no address."""

import gc
import mmap
import random
import sys
import tempfile
import weakref

import zerotrie
from helpers import Long, Meddling, Text, refused
from zerotrie import StrTrie, ZeroTrie, build


def test_keys_that_run_code(trie):
    other = build({"foo": 3})

    def again():
        refused(TypeError, mine.__init__, b"\0")
        refused(TypeError, place.__init__, trie)
        gc.collect()
    mine = ZeroTrie(bytearray(other))
    for call, wanted in (("get", 3), ("__getitem__", 3), ("__contains__", True), ("longest_prefix", (b"foo", 3))):
        place = mine.cursor()
        assert place.step(Meddling(again, ord("f"))) == ord("f")
        assert place.probe(Meddling(again, 0)) == (ord("o"), 1)
        if sys.version_info >= (3, 12):
            assert getattr(mine, call)(Meddling(again, b"foo")) == wanted
            assert mine.with_prefix(Meddling(again, b"foo"))


def test_keys_that_lie(trie):
    """A type that says it is text, and is none."""
    lying = type("Lying", (bytearray,), {"__class__": property(lambda self: str)})(b"foo")
    assert isinstance(lying, str) and trie[lying] == 1
    assert trie.get(Text("foo")) == trie[Text("foo")] == trie[Long(b"foo")] == 1 and Text("foo") in trie
    assert trie.longest_prefix(Text("foobar")) == (b"foo", 1) and build({Text("foo"): 1}) == build({"foo": 1})
    assert list(trie.get_many([Text("foo"), Long(b"bar")])) == [1, 2]
    assert trie.get(key="foo", default=5) == 1 and trie.get("x", default=5) == trie.get("x", 5) == 5
    for wrong in (
        trie.get, lambda: trie.get("x", 1, 2), lambda: trie.get("x", key="x"), lambda: trie.get("x", no=1),
        trie.longest_prefix
    ):
        refused(TypeError, wrong)


def test_not_set_up():
    """Nothing was set up: no call reads at no address."""
    for call in (
        "get", "__getitem__", "__contains__", "longest_prefix", "prefixes", "with_prefix", "items", "get_many",
        "__len__", "__bool__", "__bytes__", "is_well_formed", "cursor", "__hash__", "__copy__", "__reduce__"
    ):
        arguments = (["a"] if call in ("get", "__getitem__", "__contains__", "longest_prefix", "prefixes",
                                       "with_prefix") else [["a"]] if call == "get_many" else [])
        refused(AttributeError, lambda: list(getattr(ZeroTrie.__new__(ZeroTrie), call)(*arguments)))
    for call, *arguments in (("step", 1), ("probe", 1), ("take_value",), ("copy",), ("__bool__",), ("__copy__",)):
        refused(AttributeError, getattr(zerotrie.Cursor.__new__(zerotrie.Cursor), call), *arguments)
    refused(AttributeError, lambda: zerotrie.Cursor.__new__(zerotrie.Cursor).run)


def test_changing_bytes():
    """Bytes in use stay where they are, and a listing of bytes that change ends."""
    lent = bytearray(build({str(n): n for n in range(500)}))
    changed = ZeroTrie(lent, check=False)
    listed = iter(changed.items())
    next(listed)
    lent[:] = b"\x81" * len(lent)
    assert len(list(listed)) <= len(lent) + 1
    lent[:] = random.randbytes(len(lent))
    for key in range(500):
        changed.get(str(key)), changed.longest_prefix(str(key)), changed.with_prefix(str(key))
    refused(BufferError, lent.clear)


def test_mapped_bytes(trie):
    with tempfile.TemporaryFile() as file:
        file.write(bytes(trie))
        file.flush()
        mapped = mmap.mmap(file.fileno(), 0)
        over = ZeroTrie(mapped)
        refused(BufferError, mapped.close)
        assert over["foo"] == 1 and over._data is mapped
        del over
        mapped.close()


class Ring(bytearray):
    pass


def test_rings():
    """Bytes that refer to the trie over them: the collector finds the ring."""
    ring = Ring(build({"foo": 3}))
    ring.trie, ring.cursor = ZeroTrie(ring), ZeroTrie(ring).cursor()
    seen = weakref.ref(ring.trie)
    del ring
    gc.collect()
    assert seen() is None


def test_references(trie):
    """A reference too many keeps memory, and one too few ends the process later."""
    texts_out = StrTrie.build({"foo": 1, "f": 2, "å": 3})

    def ask_all():
        """Each call that the extension has, with each way out of it."""
        for key in ("foo", "x", b"foo", bytearray(b"foo"), memoryview(b"x"), "å", "\ud800", 5, Text("foo")):
            for call in (
                trie.get, trie.__getitem__, trie.__contains__, trie.longest_prefix, trie.with_prefix, trie.prefixes,
                trie.items, trie.keys, lambda key: trie.get(key, default=key),
                lambda key: trie.longest_prefix(key, at=key), lambda key: trie.get_many(["x", key]),
                lambda key: list(texts_out.items(key)), texts_out.prefixes, lambda key: trie.get_many([key] * 300)
            ):
                try:
                    call(key)
                except (KeyError, TypeError, UnicodeEncodeError, ValueError):
                    pass
        cursor = trie.cursor()
        for call, number in (
            (cursor.step, ord("f")), (cursor.copy().probe, 0), (cursor.copy().probe, int("1000000")), (cursor.probe, 7),
            (cursor.step, -1), (cursor.probe, "a")
        ):
            try:
                call(number)
            except (OverflowError, TypeError):
                pass
        assert cursor.copy().run == cursor.run and cursor.take_value() is None and not cursor
        try:
            cursor.__init__(trie)
        except TypeError:
            pass

    ask_all()
    gc.collect()
    blocks, uses = sys.getallocatedblocks(), [sys.getrefcount(each) for each in (ZeroTrie, zerotrie.Cursor, None, True)]
    for _ in range(1000):
        ask_all()
    gc.collect()
    assert sys.getallocatedblocks() - blocks < 900, sys.getallocatedblocks() - blocks
    assert all(sys.getrefcount(each) - use < 900 for each, use in zip((ZeroTrie, zerotrie.Cursor, None, True), uses))
