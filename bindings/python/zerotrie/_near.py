"""The keys that few edits make of a word, the nearest first."""

from __future__ import annotations

import ctypes
from ctypes import c_size_t, c_uint8
from typing import TYPE_CHECKING, Any, Generic, NamedTuple

from ._errors import TOO_SMALL, check_status
from ._library import lib
from ._pairs import Key, key_bytes, whole_number
from ._readers import Word
from ._search import edits_by

if TYPE_CHECKING:
    from . import _Trie

    class Near(NamedTuple, Generic[Word]):
        key: Word
        value: int
        edits: int
else:
    class Near(NamedTuple):
        """A pair whose key few edits make of a word. nearest() returns them."""

        __module__ = "zerotrie"
        #: The key.
        key: Any
        #: Its value.
        value: int
        #: How many edits make the key of the word.
        edits: int

#: So many pairs are asked for at first.
FEW = 64


def nearest(
    trie: _Trie[Word], word: Key, edits: int, most: int, swaps: bool
) -> list[Near[Word]]:
    """At most so many pairs whose keys few edits make of a word, each with how many."""
    view, kind, at, length = trie._lent()
    text, number = key_bytes(word), whole_number(edits, 32, "a number of edits")
    # of malformed bytes too there are no more
    most = min(whole_number(most, 64, "a number of pairs"), length * (min(number, 255) + 1))
    count, next_len, room, status = c_size_t(), c_size_t(), 1 << 9, TOO_SMALL
    places = min(most, FEW)
    while status == TOO_SMALL:
        keys = (c_uint8 * room)()
        ends, values, distances = ((c_size_t * (places or 1))() for _ in range(3))
        status = lib.zerotrie_nearest(
            kind, at, length, edits_by(word, swaps), text, len(text), number, keys, room, ends, places,
            values, places, distances, places, count, next_len)
        if status != TOO_SMALL:
            check_status(status)
        elif count.value == most:
            break
        elif count.value == places:
            places = min(most, 4 * places)
        room = 4 * room + next_len.value
    joined, found = ctypes.string_at(keys, ends[count.value - 1] if count.value else 0), []
    for place in range(count.value):
        begin = ends[place - 1] if place else 0
        key = trie._word(joined[begin : ends[place]])
        found.append(Near(key, values[place], distances[place]))
    return found
