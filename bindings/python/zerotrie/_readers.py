"""Look-ups, listings and steps: by ctypes, or by the extension if it is there."""

from __future__ import annotations

import ctypes
import importlib
import sys
import threading
from array import array
from collections.abc import Iterable, Sequence
from ctypes import addressof, c_size_t, c_uint8, c_uint16, c_void_p
from itertools import accumulate
from typing import TYPE_CHECKING, Any, Generic, Optional, TypeVar, Union, overload

from ._errors import DONE, NO_ENTRY, Other, check_status
from ._library import _DECLARED, EXCLUDED, MADE, UNBOUNDED, Bytes, CursorPlace, RawSearch, lib
from ._memory import found_key
from ._pairs import Key, all_key_bytes, delimiter_bytes, is_gap, key_bytes, sizes, whole_number

AnyPlace = TypeVar("AnyPlace", bound="Place")
#: What keys are returned as.
Word = TypeVar("Word", bound=Union[str, bytes])

ONCE = threading.RLock()


def set_once(cls: Any, made: Any, value: Any) -> None:
    """Sets what the object holds, for good: a thread may be reading the bytes that another value
    would let go of.
    """
    # by the descriptor, as a subclass may have made something else of getattr() and setattr()
    slot = vars(cls)["_held"]
    with ONCE:
        try:
            slot.__get__(made)
        except AttributeError:
            slot.__set__(made, value)
            return
    raise TypeError("this is set up already, and stays as it is: make another one")


def held_by(reader: Reader[Any]) -> tuple[memoryview, int, int, int, bool]:
    """What the reader holds. Its view keeps the bytes in place while it is in use."""
    held = reader._held
    if held is None:
        raise ValueError("the trie is closed")
    return held


#: What a listing is asked for; COUNT gets a range. _fast.c has the same numbers.
KEYS, VALUES, PAIRS, COUNT = 0, 1, 2, 3


class Reader(Generic[Word]):
    """Look-ups and listings, in bytes that a view keeps in place.

    It holds the view, the kind, where the bytes are, how many they are, and whether keys are text.
    """

    __slots__ = ("_held",)
    _held: Optional[tuple[memoryview, int, int, int, bool]]

    def _hold(
        self, view: memoryview, kind: int, at: int, length: int, text: bool = False, /
    ) -> None:
        set_once(Reader, self, (view, kind, at, length, text))

    def _lent(self) -> tuple[memoryview, int, int, int]:
        return held_by(self)[:4]

    def _close(self) -> None:
        vars(Reader)["_held"].__set__(self, None)

    @overload
    def get(self, key: Key) -> Optional[int]: ...
    @overload
    def get(self, key: Key, default: Other) -> Union[int, Other]: ...
    def get(self, key: Key, default: Any = None) -> Any:
        """The value of the key, or `default`."""
        text, value = key_bytes(key), c_size_t()
        view, kind, at, length, _ = held_by(self)
        found = lib.zerotrie_get(kind, at, length, text, len(text), value)
        return value.value if found else default

    def __getitem__(self, key: Key) -> int:
        """The value of the key. KeyError if there is none."""
        text, value = key_bytes(key), c_size_t()
        view, kind, at, length, _ = held_by(self)
        if not lib.zerotrie_get(kind, at, length, text, len(text), value):
            raise KeyError(key)
        return value.value

    def __contains__(self, key: Any) -> bool:
        """Whether there is the key. What can be no key is none."""
        view, kind, at, length, _ = held_by(self)
        try:
            text, value = key_bytes(key), c_size_t()
        except (TypeError, UnicodeEncodeError):
            return False
        return bool(lib.zerotrie_get(kind, at, length, text, len(text), value))

    def longest_prefix(
        self, text: Key, /, at: Optional[Key] = None
    ) -> Optional[tuple[Word, int]]:
        """The longest key that the text begins with, and its value. None: it begins with no key.

        With `at`, which names delimiters, it is the longest key after which the text ends or
        continues with one of them; the empty key counts too.
        """
        front, size, value = key_bytes(text), c_size_t(), c_size_t()
        borders = None if at is None else delimiter_bytes(at)
        view, kind, where, length, as_text = held_by(self)
        if borders is None:
            found = lib.zerotrie_longest_prefix(
                kind, where, length, front, len(front), size, value)
        else:
            found = lib.zerotrie_longest_prefix_at(
                kind, where, length, front, len(front), borders, len(borders), size, value)
        return (word_of(front[: size.value], as_text), value.value) if found else None

    def prefixes(self, text: Key, /) -> list[tuple[Word, int]]:
        """All keys that the text begins with, and their values, the shortest first."""
        front = key_bytes(text)
        room = len(front) + 1
        lens, values = (c_size_t * room)(), (c_size_t * room)()
        view, kind, at, length, as_text = held_by(self)
        count = lib.zerotrie_common_prefixes(
            kind, at, length, front, len(front), lens, room, values, room)
        words: list[Word] = [word_of(front[:size], as_text) for size in lens[:count]]
        return list(zip(words, values[:count]))

    def _values_of(self, keys: Iterable[Any], missing: Any, /) -> bytes:
        def find(*column: Any) -> Any:
            view, kind, at, length, _ = held_by(self)
            return lib.zerotrie_get_many(kind, at, length, *column)

        return values_by(find, keys, missing)

    def _part(
        self, what: int, front: bytes, last: Optional[bytes], room: int, places: int,
        search: int = 0, is_range: bool = False, /,
    ) -> tuple[Sequence[Any], Optional[bytes], int, int]:
        """The pairs of a listing behind the key `last`, or the first ones if it is None; those that
        are found by the search at an address, if one is given; or those of its range, as they are
        stored.

        Returns what is asked for of as many as there is room for, the last key, the status, and how
        long the next key is.
        """
        view, kind, at, length, as_text = held_by(self)
        keys, ends, values = (c_uint8 * room)(), (c_size_t * places)(), (c_size_t * places)()
        count, next_len, after = c_size_t(), c_size_t(), last or b""
        begins = kind, at, length, front, len(front)
        rooms = keys, room, ends, places, values, places, count, next_len
        goes_on = last is not None, after, len(after)
        if search:
            found_by = RawSearch.from_address(search)
            if is_range:
                to = found_by.to_bound, *text_at(found_by.to)
                low = (found_by.from_bound, *text_at(found_by.text)) if last is None else (
                    EXCLUDED, *goes_on[1:])
                status = lib.zerotrie_sorted_some(*begins[:3], *low, *to, *rooms)
            else:
                status = lib.zerotrie_search_some(*begins, found_by, *goes_on, *rooms)
        else:
            status = lib.zerotrie_list_some(*begins, *goes_on, *rooms)
        listed = ends[: count.value]
        text = ctypes.string_at(keys, listed[-1]) if listed else b""
        words = [text[begin:end] for begin, end in zip([0, *listed], listed)]
        part: Sequence[Any] = range(len(listed))
        if what == VALUES:
            part = values[: count.value]
        elif what != COUNT:
            part = [word_of(word, as_text) for word in words]
        if what == PAIRS:
            part = list(zip(part, values[: count.value]))
        return part, words[-1] if words else last, status, next_len.value

    def _end(self, is_last: bool, bound: int, key: Key, /) -> Optional[tuple[Word, int]]:
        """The last pair up to a bound, or the first one from it on, in the order of bytes. None:
        there is none.
        """
        text, value = key_bytes(key), c_size_t()
        view, kind, at, length, as_text = held_by(self)

        def last(room: Any, most: int, size: c_size_t) -> int:
            return int(lib.zerotrie_last_within(
                kind, at, length, UNBOUNDED, b"", 0, bound, text, len(text), room, most, size,
                value))

        def first(room: Any, most: int, size: c_size_t) -> int:
            count, next_len = c_size_t(), c_size_t()
            status: int = lib.zerotrie_sorted_some(
                kind, at, length, bound, text, len(text), UNBOUNDED, b"", 0, room, most, size, 1,
                value, 1, count, next_len)
            if count.value:
                return DONE
            size.value = next_len.value
            return NO_ENTRY if status == DONE else status

        found = found_key(last if is_last else first)
        return None if found is None else (word_of(found, as_text), value.value)


class Record:
    """The bytes of a dense table, which a view keeps in place.

    It holds the view, no kind, where the bytes are, and how many they are.
    """

    __slots__ = ("_held",)
    _held: tuple[memoryview, int, int, int]

    def _hold(self, view: memoryview, kind: int, at: int, length: int, /) -> None:
        set_once(Record, self, (view, kind, at, length))

    def _lent(self) -> tuple[memoryview, int, int, int]:
        return self._held


#: The number that a Table holds in place of a kind. _fast.c has the same.
INDEX = 0xFFFFFFFF


class Table:
    """Exact look-ups, in the bytes of an index that a view keeps in place.

    It holds the view, INDEX, where the bytes are, and how many they are.
    """

    __slots__ = ("_held",)
    _held: tuple[memoryview, int, int, int]

    def _hold(self, view: memoryview, kind: int, at: int, length: int, /) -> None:
        set_once(Table, self, (view, kind, at, length))

    def _lent(self) -> tuple[memoryview, int, int, int]:
        return self._held

    @overload
    def get(self, key: Key) -> Optional[int]: ...
    @overload
    def get(self, key: Key, default: Other) -> Union[int, Other]: ...
    def get(self, key: Key, default: Any = None) -> Any:
        """The value of the key, or `default`."""
        text, value = key_bytes(key), c_size_t()
        view, _, at, length = self._held
        found = lib.zerotrie_index_get(at, length, text, len(text), value)
        return value.value if found else default

    def __getitem__(self, key: Key) -> int:
        """The value of the key. KeyError if there is none."""
        text, value = key_bytes(key), c_size_t()
        view, _, at, length = self._held
        if not lib.zerotrie_index_get(at, length, text, len(text), value):
            raise KeyError(key)
        return value.value

    def __contains__(self, key: Any) -> bool:
        """Whether there is the key. What can be no key is none."""
        view, _, at, length = self._held
        try:
            text, value = key_bytes(key), c_size_t()
        except (TypeError, UnicodeEncodeError):
            return False
        return bool(lib.zerotrie_index_get(at, length, text, len(text), value))

    def _values_of(self, keys: Iterable[Any], missing: Any, /) -> bytes:
        def find(*column: Any) -> Any:
            view, _, at, length = self._held
            return lib.zerotrie_index_get_many(at, length, *column)

        return values_by(find, keys, missing)


def values_by(find: Any, keys: Iterable[Any], missing: Any) -> bytes:
    """The values of keys and gaps, as the bytes of an array, by a call of the library that looks up
    keys that are one after another.
    """
    rows, other = list(keys), whole_number(missing, 64, "missing")
    gaps = [place for place, key in enumerate(rows) if is_gap(key)]
    for place in gaps:
        rows[place] = b""
    texts = all_key_bytes(rows)
    text, ends = b"".join(texts), array("Q", accumulate(map(len, texts)))
    values = array("Q", bytes(8 * len(texts)))
    check_status(
        find(text, len(text), sizes(ends), len(texts), other, sizes(values), len(texts)))
    for place in gaps:
        values[place] = other
    return values.tobytes()


def text_at(text: Bytes) -> tuple[bytes, int]:
    """The bytes of a text of a search, and how many they are."""
    return ctypes.string_at(text.ptr or 0, text.len), text.len


def word_of(word: bytes, as_text: bool) -> Any:
    """The bytes of a key as they are returned."""
    return word.decode() if as_text else word


class Place:
    """What a cursor follows, in bytes that a view keeps in place.

    It holds the view, the kind, where the bytes are, how many they are, and the place.
    """

    __slots__ = ("_held",)
    _held: tuple[memoryview, int, int, int, CursorPlace]

    def _hold(self, view: memoryview, kind: int, at: int, length: int, /) -> None:
        set_once(Place, self, (view, kind, at, length, lib.zerotrie_cursor_new(at, length)))

    def _go(self, prefix: Key, /) -> bool:
        text = key_bytes(prefix)
        _, kind, at, length, raw = self._held
        place = lib.zerotrie_with_prefix(kind, at, length, text, len(text))
        ctypes.memmove(addressof(raw), addressof(place), ctypes.sizeof(raw))
        return bool(self)

    def _copied(self: AnyPlace) -> AnyPlace:
        made = object.__new__(type(self))
        view, kind, at, length, raw = self._held
        set_once(Place, made, (view, kind, at, length, CursorPlace.from_buffer_copy(raw)))
        return made

    def step(self, byte: int, /) -> Optional[int]:
        """Follows the edge that is the byte to the kind, and returns its byte as it is stored.
        None: nothing is left.
        """
        number, edge = whole_number(byte, 8, "a byte"), c_uint8()
        _, kind, at, length, raw = self._held
        found = lib.zerotrie_cursor_step(kind, at, length, raw, number, edge)
        return edge.value if found else None

    def probe(self, index: int, /) -> Optional[tuple[int, int]]:
        """Follows edge number `index`, from 0, and returns its byte and how many edges there are.
        None: nothing is left.
        """
        number, edge, siblings = whole_number(index, 64, "an index"), c_uint8(), c_uint16()
        _, kind, at, length, raw = self._held
        found = lib.zerotrie_cursor_probe(kind, at, length, raw, number, edge, siblings)
        return (edge.value, siblings.value) if found else None

    def take_value(self) -> Optional[int]:
        """Takes the value of the key that ends here. None: no key does, or it was taken."""
        value = c_size_t()
        _, _, at, length, raw = self._held
        return value.value if lib.zerotrie_cursor_take_value(at, length, raw, value) else None

    @property
    def run(self) -> bytes:
        """What is left of the span that it is in: each key continues with it. Empty outside of
        spans.
        """
        _, _, at, _, raw = self._held
        # a copy, as another thread may move the place between the two
        place = CursorPlace.from_buffer_copy(raw)
        return ctypes.string_at(at + place.run, place.trie - place.run)

    def __bool__(self) -> bool:
        place = CursorPlace.from_buffer_copy(self._held[4])
        return bool(place.run < place.end)


def extension() -> bool:
    """Whether there is the extension, which makes the types above in C, for this interpreter
    and this library.
    """
    if sys.implementation.name != "cpython" or "t" in getattr(sys, "abiflags", ""):
        # an interpreter without the lock that the extension needs
        return False
    sys.modules["zerotrie"].__path__.extend(MADE)
    try:
        fast = importlib.import_module("zerotrie._fast")
    except ImportError:
        return False
    if not set(fast.NAMES) <= set(_DECLARED):
        # an extension of another version
        return False
    functions = [getattr(lib, name) for name in fast.NAMES]
    fast.bind([ctypes.cast(function, c_void_p).value for function in functions])
    return True


#: Whether look-ups, listings and cursors go by the extension.
accelerated: bool = not TYPE_CHECKING and extension()
if not TYPE_CHECKING and accelerated:
    from ._fast import Place, Reader, Record, Table
