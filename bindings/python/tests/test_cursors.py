"""Cursors, also such as are no place of a trie."""

import ctypes

import zerotrie
from helpers import refused
from zerotrie import IGNORE_CASE, ZeroTrie, build


def test_own_bytes():
    """A cursor holds the bytes and the kind, whatever becomes of its trie."""
    lent = bytearray(build({"a": 1}, IGNORE_CASE))
    gone = ZeroTrie(lent)
    cursor = gone.cursor()
    del gone
    refused(BufferError, lent.append, 1)
    assert (cursor.step(ord("A")), cursor.take_value()) == (ord("a"), 1)


def test_steps(trie):
    cursor = trie.cursor()
    assert (cursor.step(ord("f")), cursor.probe(0), cursor.run, bool(cursor)) == (ord("f"), (ord("o"), 1), b"", True)
    assert cursor.step(ord("x")) is None and not cursor


def test_made_up(trie):
    """Any numbers may be a cursor: those that are none in the bytes have nothing left."""
    for numbers in ((0, 0, 1 << 40), (5, 3, 6), ((1 << 64) - 1,) * 3, (0, 1 << 63, 2), (1 << 63, 0, 1 << 62)):
        _, kind, *lent = trie._lent()
        made_up, byte, count = (zerotrie._library.CursorPlace(*numbers), ctypes.c_uint8(), ctypes.c_size_t())
        assert not zerotrie.lib.zerotrie_cursor_take_value(*lent, made_up, count)
        assert (made_up.run, made_up.trie, made_up.end) == numbers
        assert not zerotrie.lib.zerotrie_cursor_step(kind, *lent, made_up, ord("f"), byte)
        assert (made_up.run, made_up.trie, made_up.end) == (0, 0, 0)
