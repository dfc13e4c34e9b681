"""The first key of each value of a trie."""

from __future__ import annotations

from array import array
from collections.abc import Iterator, Mapping
from ctypes import c_size_t, c_uint32
from typing import TYPE_CHECKING, Any, Generic, Optional, cast

from ._errors import TOO_SMALL, check_status
from ._library import lib
from ._memory import found_key
from ._readers import Word

if TYPE_CHECKING:
    from . import _Trie


class Reverse(Mapping[int, Word], Generic[Word]):
    """A Mapping from each value of a trie to its first key, by a table of four bytes for each pair;
    reverse() makes one.

    >>> names = reverse(StrTrie.build({"red": 31, "green": 32, "rouge": 31}))
    >>> names[32], names[31], names.get(5), 32 in names
    ('green', 'red', None, True)
    >>> list(names), len(names)
    ([31, 32], 2)

    The values are listed in ascending order. The first listing and len() read all values.
    """

    __module__ = "zerotrie"
    __slots__ = ("_trie", "_places", "_values", "__weakref__")
    _trie: _Trie[Any]
    _places: Any
    _values: Optional[list[int]]

    def __init__(self, trie: _Trie[Any], places: Optional[array[int]] = None) -> None:
        if not hasattr(trie, "_lent"):
            raise TypeError(f"a trie, and not {type(trie).__name__}")
        self._trie, self._values = trie, None
        self._places = made(trie) if places is None else (c_uint32 * len(places))(*places)

    @property
    def places(self) -> array[int]:
        """The table, a copy, which can be kept: Reverse(trie, places) takes it for the same bytes.
        """
        return array("I", self._places)

    def _key(self, value: object) -> Optional[Word]:
        if not isinstance(value, int) or not 0 <= value < 1 << 64:
            return None
        view, kind, at, length = self._trie._lent()
        found = found_key(lambda *room: lib.zerotrie_reverse_key(
            kind, at, length, self._places, len(self._places), value, *room))
        return None if found is None else cast(Word, self._trie._word(found))

    def __getitem__(self, value: int) -> Word:
        key = self._key(value)
        if key is None:
            raise KeyError(value)
        return key

    def __contains__(self, value: object) -> bool:
        return self._key(value) is not None

    def _all(self) -> list[int]:
        if self._values is None:
            self._values = sorted(set(self._trie.values()))
        return self._values

    def __iter__(self) -> Iterator[int]:
        return iter(self._all())

    def __len__(self) -> int:
        return len(self._all())

    def __repr__(self) -> str:
        return f"<{type(self).__name__} of {self._trie!r}>"


def made(trie: _Trie[Any]) -> Any:
    """The table of a trie."""
    view, kind, at, length = trie._lent()
    count, status = c_size_t(), TOO_SMALL
    while status == TOO_SMALL:
        room = (c_uint32 * (count.value or 1))()
        status = lib.zerotrie_reverse_places(kind, at, length, room, len(room), count)
    check_status(status)
    return (c_uint32 * count.value).from_buffer_copy(room)


def reverse(trie: _Trie[Word]) -> Reverse[Word]:
    """The first key of each value of a trie, as a Mapping, by a table: for many values it is faster
    than first_key_of(), which reads the pairs for each.

    >>> reverse(StrTrie.build({"foo": 1, "bar": 2}))[2]
    'bar'
    """
    return Reverse(trie)
