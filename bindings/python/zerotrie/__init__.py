"""Maps from byte strings to numbers, read from flat bytes: zerotrie for Python.

    >>> trie = ZeroTrie.build({"foo": 1, "bar": 2, "bazzoo": 3})
    >>> trie["bar"], trie.get("unknown"), trie.longest_prefix("barn")
    (2, None, (b'bar', 2))
    >>> dict(trie.items("ba"))
    {b'bar': 2, b'bazzoo': 3}

A trie is a read-only Mapping. ZeroTrie returns keys as `bytes`, and StrTrie as text:

    >>> sorted(StrTrie.build({"foo": 1, "bar": 2}).keys() - {"foo"})
    ['bar']

Both read their bytes in place: `bytes`, a `memoryview`, an `mmap.mmap`, a file that open() maps
into memory, so one file can serve many processes. The bytes are tagged: the first one is the number
of the kind. Those of a file are sealed: a header has the kind and a checksum.

    >>> import pathlib, tempfile
    >>> path = pathlib.Path(tempfile.mkdtemp(), "names.trie")
    >>> trie.save(path)
    >>> with ZeroTrie.open(path) as names:
    ...     names["foo"], names == trie == ZeroTrie(bytes(trie))
    (1, True)

Searches find keys by their order, by a pattern and by edits, and tries are put together as sets:

    >>> words = StrTrie.build({"sing": 1, "sting": 2, "tin": 3})
    >>> dict(words.glob("s*ing")), [word for word, _ in words.fuzzy("tint", edits=2)]
    ({'sing': 1, 'sting': 2}, ['sing', 'sting', 'tin'])
    >>> dict(words.range("sj")), dict(words - {"sing"} | {"ton": 4})
    ({'sting': 2, 'tin': 3}, {'sting': 2, 'tin': 3, 'ton': 4})

Keys are bytes, or text, which means its UTF-8. Text that has none, such as a lone surrogate, raises
UnicodeEncodeError, and what is neither text nor bytes raises TypeError; `in` is False for both.
Values are from 0 to 2**64 - 1. A key that a build does not take, and malformed bytes, raise
ZeroTrieError, which names the key or the byte. Any error of a pair has `key` and `index`.

bytes(trie), copy.deepcopy() and pickle up to protocol 4 copy all bytes of a trie, except that
bytes(trie) is what was given if that was tagged `bytes`. pickle from protocol 5 on passes them by
reference to whoever takes buffers, as dask, Ray and multiprocessing's shared memory do. No other
call copies them; PyPy also copies bytes that are given read-only, once.

Many threads may read one trie at once. A build, the validation of bytes, a listing and get_many()
of many keys let other threads run meanwhile; a look-up of one key and a step of a cursor do not, as
they take less time than that. A Cursor is for one thread at a time.

The library is the one that the variable ZEROTRIE_SO names, else the one in this folder, else, in a
checkout, the one that bindings/make makes, else the one that the system's loader finds. Its version
must be that of this module. Look-ups, listings and cursors reach it by an extension in C, and else
by ctypes, which takes ten times as long. `pip install` and bindings/make compile the extension for
CPython if a C compiler and Python's headers are there (as gcc and python3-dev). `accelerated` says
whether it is in use.
"""

from __future__ import annotations

import hashlib
import operator
import reprlib
from array import array
from collections.abc import Callable, Iterable, Iterator, Mapping, Sequence, Set
from copy import deepcopy
from ctypes import c_char_p, c_size_t
from functools import partial
from itertools import islice
from pickle import PickleBuffer
from typing import Any, NoReturn, Optional, TypeVar, Union, cast, overload

from ._diff import Change as Change, diff as diff
from ._errors import (
    NO_ENTRY, NO_INDEX, TOO_SMALL, Kind, Other, ZeroTrieError, check_status, in_file, remade,
    with_attributes,
)
from ._library import EXCLUDED, INCLUDED, UNBOUNDED, lib
from ._memory import (
    found_key, in_place, index_in, mapped, replace, sealed, sealed_index, trie_in, validate, view_of,
)
from ._near import Near as Near, nearest as near_pairs
from ._pairs import (
    FlatPairs, Key, Pairs, Path, auto_kind, build, build_dense, build_sorted, column, encoded_len,
    key_bytes, known_kind, numbers_in, tagged, whole_column, whole_number,
)
from ._readers import (
    COUNT, INDEX, PAIRS, AnyPlace, Place, Reader, Record, Table, Word, accelerated as accelerated,
)
from ._reverse import Reverse as Reverse, reverse as reverse
from ._search import BY_SUBSEQUENCE, Search
from ._sets import (
    DIFFERENCE, INTERSECTION, SYMMETRIC_DIFFERENCE, UNION, Keyed, difference, in_any_case, keys_in,
    intersection, kind_of, made_of, symmetric_difference, union,
)
from ._tables import dense_parts, index_entries
from ._version import __version__ as __version__
from ._views import Found, Items, Keys, Range, Values

__all__ = [
    "SIMPLE_ASCII", "PERFECT_HASH", "EXTENDED_CAPACITY", "IGNORE_CASE",
    "Change", "Cursor", "DenseTable", "Index", "Kind", "Near", "Reverse", "StrTrie", "ZeroTrie",
    "ZeroTrieError", "accelerated", "auto_kind", "build", "build_dense", "build_sorted", "diff",
    "difference", "encoded_len", "intersection", "reverse", "symmetric_difference", "tagged",
    "union",
]

Trie = TypeVar("Trie", bound="_Trie[Any]")
AnyIndex = TypeVar("AnyIndex", bound="Index")
AnyDense = TypeVar("AnyDense", bound="DenseTable")

SIMPLE_ASCII, PERFECT_HASH = Kind.SIMPLE_ASCII, Kind.PERFECT_HASH
EXTENDED_CAPACITY, IGNORE_CASE = Kind.EXTENDED_CAPACITY, Kind.IGNORE_CASE

NO_VALUE = (1 << 64) - 1
#: So many keys get_many() looks up by one call.
PART = 1 << 17


class Cursor(Place):
    r"""A place in a trie, between two bytes of keys: cursor() of a trie makes one. It keeps the
    bytes in use, as the trie does.

    >>> cursor = ZeroTrie(b"a\x85b\x86", SIMPLE_ASCII).cursor()
    >>> cursor.step(ord("a")), cursor.take_value(), cursor.probe(0), cursor.take_value()
    (97, 5, (98, 1), 6)
    """

    __slots__ = ()

    def __init__(self, trie: _Trie[Any]) -> None:
        self._hold(*trie._lent())

    def copy(self: AnyPlace) -> AnyPlace:
        """A cursor of its own at the same place, over the same bytes."""
        return with_attributes(self._copied(), self)

    __copy__ = copy

    def __deepcopy__(self: AnyPlace, memo: dict[int, Any]) -> AnyPlace:
        """What copy() returns: two cursors can share the bytes, as nobody changes them."""
        memo[id(self)] = made = cast(Any, self).copy()
        if hasattr(self, "__dict__"):
            made.__dict__.update(deepcopy(self.__dict__, memo))
        return cast(AnyPlace, made)

    def __reduce__(self) -> NoReturn:
        raise TypeError("a cursor is a place in memory, which no pickle can hold: pickle its trie")


class _InBytes:
    """What a trie, an index and a dense table have in common: bytes in place."""

    __slots__ = ()

    def _lent(self) -> tuple[memoryview, int, int, int]:
        raise NotImplementedError

    def _remakes(self, data: Any) -> tuple[Any, ...]:
        """What remade() makes the same of, over these bytes."""
        raise NotImplementedError

    @property
    def nbytes(self) -> int:
        """How many bytes memoryview() of it has: those of a trie have no tag."""
        return self._lent()[3]

    def __buffer__(self, flags: int) -> memoryview:
        """The bytes in place, read-only, as memoryview() takes them."""
        return memoryview(self._lent()[0])

    def __sizeof__(self) -> int:
        return object.__sizeof__(self) + self.nbytes

    def __dask_tokenize__(self) -> tuple[Any, ...]:
        """The same for the same bytes, as dask wants it."""
        view, kind, _, _ = self._lent()
        return type(self).__qualname__, int(kind), hashlib.sha256(view).hexdigest()

    def __reduce__(self) -> tuple[Any, ...]:
        state = getattr(self, "__dict__", None)
        return remade, (type(self), *self._remakes(bytes(self._lent()[0]))), state

    def __reduce_ex__(self, protocol: Any) -> Any:
        """From protocol 5 on the bytes are a buffer, which goes by reference if the pickler has a
        `buffer_callback`.
        """
        base = next(one for one in type(self).__mro__ if "__reduce__" in vars(one))
        if protocol < 5 or base is not _InBytes:
            return self.__reduce__()
        state = getattr(self, "__dict__", None)
        return remade, (type(self), *self._remakes(PickleBuffer(self._lent()[0]))), state


def _many(find: Any, keys: Iterable[Any], missing: Any) -> array[int]:
    """What get_many() returns, of a call that finds the values of keys as the bytes of an array."""
    if isinstance(keys, (str, bytes)):
        raise TypeError("get_many() takes keys, as in a list, and not one key")
    rows = column(keys)

    def found(keys: list[Any], missing: Any) -> bytes:
        # in parts, between which signals are served
        parts = range(0, len(keys) or 1, PART)
        return b"".join(find(keys[at : at + PART], missing) for at in parts)

    def values(missing: Any) -> Any:
        nonlocal rows
        try:
            return found(rows, missing)
        except (TypeError, UnicodeEncodeError):
            # this names the row, unless it is a gap that the call does not know
            rows = whole_column(rows)
            return found(rows, missing)

    def lost(values: array[int]) -> Any:
        return found([key for key, value in zip(rows, values) if value == missing], 0)

    return _signed(values, lost, missing)


def _signed(find: Any, lost: Any, missing: Any) -> array[int]:
    """What find(missing) finds, as an array, of signed numbers if `missing` is negative; then lost()
    of it is what is found for those who have that number, with 0 as `missing`.
    """
    if not hasattr(missing, "__index__") or operator.index(missing) >= 0:
        return array("Q", find(missing))
    if missing < -(1 << 63):
        raise OverflowError("missing is from -2**63 on")
    values = array("q", find(missing % (1 << 64)))
    # a value from 2**63 on would be taken for a negative number
    if any(value < 0 and value != missing for value in values) or any(lost(values)):
        raise OverflowError("a value is 2**63 or more: take a `missing` that is not negative")
    return values


class _Trie(Reader[Word], _InBytes, Mapping[Word, int]):
    """What ZeroTrie and StrTrie have in common."""

    __slots__ = ("_data", "_hash", "_length", "__weakref__")
    #: Whether keys are returned as text.
    _as_text = False
    #: What was given, if it is tagged, and not sealed.
    _data: Any
    _length: Optional[int]
    _hash: Optional[int]

    def __init__(
        self, data: Any, kind: Optional[int] = None, check: Optional[bool] = None
    ) -> None:
        given, length = data, None
        if isinstance(data, _Trie):
            lent, given, length = data._lent(), data._data, data._length
        else:
            kind, is_sealed = None if kind is None else known_kind(kind), False
            view, at = in_place(view_of(data, "a trie"))
            if kind is None:
                kind, view, at, is_sealed = trie_in(view, at)
                given = None if is_sealed else data
            else:
                given = None
            lent = view, kind, at, len(view)
            if check or check is None and not is_sealed:
                validate(*lent[1:])
        # this fails if the trie is set up already, and then it stays as it is
        self._hold(*lent, self._as_text)
        self._data, self._length, self._hash = given, length, None

    @classmethod
    def build(cls: type[Trie], pairs: Pairs, kind: Optional[int] = None) -> Trie:
        """The trie of pairs in any order, or of a mapping. With no kind it is that of auto_kind().

        ZeroTrieError, which names the key, if one comes twice or is none of the kind. OverflowError
        if a value is out of range.
        """
        flat = FlatPairs(pairs)
        made = cls(flat.built(kind), check=False)
        made._length = len(flat)
        return made

    @classmethod
    def open(
        cls: type[Trie], path: Path, kind: Optional[int] = None, check: Optional[bool] = None
    ) -> Trie:
        """The trie of a file, mapped into memory: one that is sealed, as save() and `zerotrie
        build` write it, or has tagged bytes, or with a kind those of the trie alone.

        The file is closed; the map lasts as long as the trie and its cursors, or until close().
        ZeroTrieError, which names the file, if it is damaged, or if its bytes are malformed. The
        bytes of a sealed file are those that were sealed, and validated only if `check` is true.

        Don't cut or overwrite the file while a trie uses it: to read beyond its end kills the
        process. Replace it, as save() and `zerotrie build` do.
        """
        with open(path, "rb") as file:
            data = mapped(file)
        try:
            return cls(data, kind, check)
        except ZeroTrieError as error:
            raise in_file(error, path) from None

    def seal(self) -> bytes:
        """The bytes of a sealed file: the kind, the length and a checksum, and then the trie.

        >>> file = ZeroTrie.build({"foo": 1}).seal()
        >>> ZeroTrie(file)["foo"]
        1
        >>> ZeroTrie(file[:-1])
        Traceback (most recent call last):
        zerotrie.ZeroTrieError: the sealed file is damaged: get it anew
        """
        # the view keeps the bytes in place during the call
        view, *lent = self._lent()
        return bytes(sealed(*lent))

    def save(self, path: Path, tagged: bool = False) -> None:
        """Writes a sealed file, or tagged bytes, which open() reads.

        They go to a new file in the same folder, which then replaces the old one at once, and has
        its permissions: whoever has that one open keeps it, and a failure leaves it as it was. A
        link stays, and the file that it leads to is replaced. A device or a pipe is written in
        place.
        """
        view, *lent = self._lent()
        replace(path, *([bytes([lent[0]]), view] if tagged else [sealed(*lent)]))

    def close(self) -> None:
        """Drops the bytes: a look-up raises ValueError from now on. `with` calls it.

        A cursor keeps them in use, and so does a call in another thread until it returns.
        """
        self._close()
        self._data = None

    def __enter__(self: Trie) -> Trie:
        return self

    def __exit__(self, *_: object) -> None:
        self.close()

    @property
    def kind(self) -> Kind:
        """The kind."""
        return Kind(self._lent()[1])

    @property
    def untagged(self) -> memoryview:
        """The bytes of the trie without the tag, in place."""
        return self._lent()[0].toreadonly()

    def is_well_formed(self) -> bool:
        """Whether the bytes are a trie of the kind, by every rule of the format."""
        # the view keeps the bytes in place during the call
        view, *lent = self._lent()
        return bool(lib.zerotrie_is_well_formed(*lent))

    def get_many(self, keys: Iterable[Optional[Key]], missing: int = NO_VALUE) -> array[int]:
        """The value of each key, or `missing`, as an array of numbers: one call for all. `missing` is
        also for the gaps of a column: None, NaN and what pandas has there.

        >>> list(ZeroTrie.build({"foo": 1, "bar": 2}).get_many(["bar", "x", None], missing=-1))
        [2, -1, -1]

        The numbers are of 64 bits, and signed if `missing` is negative: OverflowError if a value is
        then 2**63 or more. TypeError, which names the row, if it is neither a key nor a gap.
        """
        return _many(self._values_of, keys, missing)

    def get_many_flat(self, data: Any, ends: Any, missing: int = NO_VALUE) -> array[int]:
        """The value of each key of a column, or `missing`, as get_many() has them, of keys that are
        one after another in `data`: each begins where the one before it ends, and `ends` says where
        it ends. So a column of pyarrow or polars is looked up in place: `data` is the buffer of its
        text, and `ends` its offsets but the first one, which is 0.

        >>> import array
        >>> trie = ZeroTrie.build({"foo": 1, "bar": 2})
        >>> list(trie.get_many_flat(b"barxfoo", array.array("q", [3, 4, 7]), missing=-1))
        [2, -1, 1]

        Ends of 64 bits are read in place, and others are copied. An end beyond the data is its end,
        and one below the end before it makes an empty key, as a row without text has it.
        """
        # the view keeps the bytes in place during the call
        view, *lent = self._lent()
        return _many_flat(partial(lib.zerotrie_get_many, *lent), data, ends, missing)

    def cursor(self) -> Cursor:
        """A cursor before all keys."""
        return Cursor(self)

    def with_prefix(self, prefix: Key) -> Optional[Cursor]:
        """A cursor after a prefix. None if no key begins with it."""
        cursor = Cursor(self)
        return cursor if cursor._go(prefix) else None

    def _parts(
        self, what: int, front: bytes, search: Optional[Search] = None
    ) -> Iterator[Sequence[Any]]:
        """Parts of the listing of a prefix, or of what a search finds, small ones first."""
        # the search is in use until the last part
        address = 0 if search is None else search.address()
        # a range of keys as they are stored has no prefix
        is_range = search is not None and search.is_range and not front
        last, status, room, places = None, TOO_SMALL, 1 << 9, 1 << 5
        # a trie has no more pairs than bytes; if they are malformed, the parts may come round
        left = self._lent()[3] + 1
        while status == TOO_SMALL and left > 0:
            part, last, status, next_len = self._part(
                what, front, last, room, places, address, is_range)
            if status != TOO_SMALL:
                check_status(status)
            yield part[:left] if len(part) > left else part
            left -= len(part)
            room, places = max(min(8 * room, 1 << 16), next_len), min(8 * places, 1 << 12)

    def items(self, prefix: Key = b"") -> Items[Word]:
        """A view of the pairs whose keys begin with the prefix, in the order of the trie's bytes:
        in SIMPLE_ASCII that of the keys.

        They are listed a part at a time, of at most 4,096 pairs.
        """
        return Items(self, prefix)

    def keys(self, prefix: Key = b"") -> Keys[Word]:
        """A view of the keys of items()."""
        return Keys(self, prefix)

    def values(self, prefix: Key = b"") -> Values:
        """A view of the values of items()."""
        return Values(self, prefix)

    def range(
        self, start: Optional[Key] = None, stop: Optional[Key] = None, prefix: Key = b""
    ) -> Range[Word]:
        """A view of the pairs whose keys are from `start` on and below `stop`, in the order of their
        bytes in every kind, and begin with a prefix. None: there is no bound, so range() has all
        pairs in order.

        >>> words = StrTrie.build({"tin": 3, "sting": 2, "sing": 1}, PERFECT_HASH)
        >>> list(words.range("sj")), words.first_from("t"), words.first_after("tin")
        ([('sting', 2), ('tin', 3)], ('tin', 3), None)

        It lists a part at a time; reversed() of it begins with the last pair. In IGNORE_CASE upper
        case comes before lower case, as bytes are compared as they are stored.
        """
        return Range(self, search=Search.within(key_bytes(prefix), start, stop))

    def first_from(self, key: Key) -> Optional[tuple[Word, int]]:
        """The first pair, in the order of bytes, whose key is not below this one. None: there is
        none.
        """
        return self._end(False, INCLUDED, key)

    def first_after(self, key: Key) -> Optional[tuple[Word, int]]:
        """The first pair, in the order of bytes, whose key is after this one. None: there is none.
        """
        return self._end(False, EXCLUDED, key)

    def last(self) -> Optional[tuple[Word, int]]:
        """The last pair, in the order of bytes. None: there is none.

        >>> words = StrTrie.build({"sing": 1, "sting": 2, "tin": 3}, PERFECT_HASH)
        >>> words.last(), words.last_before("tin"), words.last_up_to("t")
        (('tin', 3), ('sting', 2), ('sting', 2))
        """
        return self._end(True, UNBOUNDED, b"")

    def last_before(self, key: Key) -> Optional[tuple[Word, int]]:
        """The last pair, in the order of bytes, whose key is before this one. None: there is none.
        """
        return self._end(True, EXCLUDED, key)

    def last_up_to(self, key: Key) -> Optional[tuple[Word, int]]:
        """The last pair, in the order of bytes, whose key is this one or before it. None: there is
        none.
        """
        return self._end(True, INCLUDED, key)

    def first_key_of(self, value: int) -> Optional[Word]:
        """The first key of items() that has this value. None: no key has it. It reads the pairs up
        to that key: reverse() is faster for many values.

        >>> StrTrie.build({"foo": 1, "bar": 2}).first_key_of(1)
        'foo'
        """
        number = whole_number(value, 64, "a value")
        view, kind, at, length = self._lent()
        found = found_key(lambda *room: lib.zerotrie_first_key_of(kind, at, length, number, *room))
        return None if found is None else self._word(found)

    def _word(self, key: bytes) -> Word:
        """A key as it is returned."""
        return cast(Word, key.decode() if self._as_text else key)

    def glob(self, pattern: Key) -> Found[Word]:
        """A view of the pairs whose keys a pattern matches, as "s*ing": `*` is any number of
        characters, `?` one of them, `[a-z]` or `[!a-z]` one that is of a class or is not, and
        `{a,bc}` what one of the patterns in it, which have no braces, matches. A backslash takes
        the meaning of the character after it. If the pattern is bytes, all of this is by bytes; a
        pattern that is text finds only keys that are UTF-8. This and the two below list in the order
        of bytes in every kind. In IGNORE_CASE these and nearest() ignore case.

        >>> words = StrTrie.build({"cafe": 1, "café": 2, "cafés": 3})
        >>> list(words.glob("caf?")), list(words.glob(b"caf?"))
        ([('cafe', 1), ('café', 2)], [('cafe', 1)])

        ZeroTrieError if it is malformed, or has more than 63 items.
        """
        return Found(self, search=Search.glob(pattern))

    def subsequence(self, letters: Key) -> Found[Word]:
        """A view of the pairs whose keys have these bytes in this order, with any bytes before,
        between and after.
        """
        return Found(self, search=Search(BY_SUBSEQUENCE, key_bytes(letters)))

    def fuzzy(
        self, word: Key, edits: int = 1, beginnings: bool = False, swaps: bool = False
    ) -> Found[Word]:
        """A view of the pairs whose keys at most so many edits make of a word: an edit inserts,
        deletes or changes a character if the word is text, and else a byte; with `swaps` two
        neighbours that change places are one edit, too. With `beginnings` also those that begin with
        such a key, which are completions of the word.

        >>> words = StrTrie.build({"exam": 1, "example": 2, "ample": 3})
        >>> list(words.fuzzy("exampel", edits=2)), list(words.fuzzy("exm", beginnings=True))
        ([('example', 2)], [('exam', 1), ('example', 2)])

        ZeroTrieError if the word has more than 63 characters or bytes, or for more than 254 edits,
        with swaps more than 7.
        """
        return Found(self, search=Search.fuzzy(word, edits, beginnings, swaps))

    def nearest(
        self, word: Key, edits: int = 1, most: int = 10, swaps: bool = False
    ) -> list[Near[Word]]:
        """The pairs whose keys at most so many edits make of a word, the nearest first, and those that
        are as near in the order of bytes: at most `most` of them. A Near has a `key`, its `value`,
        and how many `edits` make it of the word. What an edit is, is as in fuzzy().

        >>> words = StrTrie.build({"exam": 1, "example": 2, "ample": 3})
        >>> words.nearest("exmaple", swaps=True)
        [Near(key='example', value=2, edits=1)]
        >>> [near.key for near in words.nearest("exam", edits=3, most=2)]
        ['exam', 'example']
        """
        return near_pairs(self, word, edits, most, swaps)

    def __and__(self: Trie, other: Keyed) -> Trie:
        """A trie of the pairs whose keys the other mapping or set has, too.

        This and the next three build a trie, of the kind of auto_kind(), but IGNORE_CASE or
        EXTENDED_CAPACITY if this trie or the other one is. Keys are compared as bytes, and letters
        in either case if one of both tries is IGNORE_CASE: this trie says how they are spelled.
        union() takes any number of tries.
        """
        return self._chosen(other, True)

    def __sub__(self: Trie, other: Keyed) -> Trie:
        """A trie of the pairs whose keys the other mapping or set does not have."""
        return self._chosen(other, False)

    def __or__(self: Trie, other: Mapping[Any, int]) -> Trie:
        """A trie of the pairs of this one and of another mapping, whose values count where both
        have a key.
        """
        if not isinstance(other, Mapping):
            return NotImplemented
        return made_of(UNION, "last", (self, self._trie_of(other)), None, type(self))

    def __ror__(self: Trie, other: Mapping[Any, int]) -> Trie:
        """A trie of the pairs of a mapping and of this one, whose values count."""
        if not isinstance(other, Mapping):
            return NotImplemented
        return type(self).build(other, kind_of(self)) | self

    def __xor__(self: Trie, other: Mapping[Any, int]) -> Trie:
        """A trie of the pairs whose keys this trie or the other mapping has, and not both."""
        if not isinstance(other, Mapping):
            return NotImplemented
        tries = self, self._trie_of(other)
        return made_of(SYMMETRIC_DIFFERENCE, "last", tries, None, type(self))

    def __rxor__(self: Trie, other: Mapping[Any, int]) -> Trie:
        """The same, of a mapping and of this trie."""
        return self ^ other

    def _trie_of(self: Trie, other: Mapping[Any, int]) -> _Trie[Any]:
        """The other mapping as a trie."""
        if isinstance(other, _Trie):
            return other
        return type(self).build(other)

    def _chosen(self: Trie, other: Keyed, wanted: bool) -> Trie:
        if not isinstance(other, (Mapping, Set)):
            return NotImplemented
        if kind_of(self, other) == IGNORE_CASE:
            return type(self).build(in_any_case(self, other, wanted), IGNORE_CASE)
        if not isinstance(other, _Trie):
            other = ZeroTrie.build(dict.fromkeys(keys_in(other), 0))
        selection = INTERSECTION if wanted else DIFFERENCE
        return made_of(selection, "first", (self, other), None, type(self))

    def __iter__(self) -> Iterator[Word]:
        """The keys, as keys() lists them."""
        return iter(self.keys())

    def __len__(self) -> int:
        """How many pairs there are. The first call lists all, unless the trie was built here; the
        trie keeps the number.
        """
        if self._length is None:
            self._length = sum(map(len, self._parts(COUNT, b"")))
        return self._length

    def __bool__(self) -> bool:
        """Whether there is a pair. It lists nothing."""
        return self._lent()[3] > 0

    def __bytes__(self) -> bytes:
        """The tagged bytes: what was given, if that was tagged `bytes`, and else a copy."""
        view, kind, _, _ = self._lent()
        return self._data if type(self._data) is bytes else tagged(view, kind)

    def __eq__(self, other: object) -> bool:
        """Whether it is a Mapping of the same pairs. Equal bytes of one kind are compared at once,
        and else all pairs are listed.
        """
        if isinstance(other, _Trie) and self._as_text == other._as_text:
            (view, kind, _, _), (their_view, their_kind, _, _) = self._lent(), other._lent()
            if (kind, view) == (their_kind, their_view):
                return True
        return Mapping.__eq__(self, other)

    def __hash__(self) -> int:
        """That of frozenset(self.items()). The first call lists all pairs; the trie keeps the
        number.
        """
        if self._hash is None:
            self._hash = self.items()._hash()
        return self._hash

    def __copy__(self: Trie) -> Trie:
        """Another trie over the same bytes."""
        return with_attributes(remade(type(self), _Trie, self), self)

    def _remakes(self, data: Any) -> tuple[Any, ...]:
        return _Trie, data, int(self._lent()[1]), False

    def __repr__(self) -> str:
        name = type(self).__name__
        try:
            kind = self.kind.name
        except ValueError:
            return f"<closed {name}>"
        return f"<{name} {_first_pairs(self, self._length)}, {self.nbytes} bytes, {kind}>"


class ZeroTrie(_Trie[bytes]):
    """A read-only map from byte strings to numbers, over bytes that are not copied.

    `data` is tagged bytes: the number of the kind, then the trie, as bytes(trie) returns them; or
    those of a sealed file, as seal(), save() and `zerotrie build` write it. With a kind it is the
    trie alone. It may be another trie, whose bytes both share. The bytes stay in use as long as the
    trie is: don't change them. Unless `check` is false, they are validated first, all of them:
    ZeroTrieError, which names the first byte that breaks a rule, if they are malformed. Those of a
    sealed file have a checksum in place of that, and are validated too if `check` is true. A trie
    stays as it is: TypeError if it is set up again.

    It is a Mapping, by whose rules it is equal to another one. Keys are taken as text too, and
    returned as `bytes`.
    """

    __slots__ = ()


class StrTrie(_Trie[str]):
    """As ZeroTrie, but keys are returned as text: bytes that are no UTF-8 raise UnicodeDecodeError.

    >>> names = StrTrie.build({"zürich": 1, "zug": 2})
    >>> list(names.keys("zu")), names.longest_prefix("zürichberg")
    (['zug'], ('zürich', 1))
    >>> names == {"zug": 2, "zürich": 1}
    True
    """

    __slots__ = ()
    _as_text = True


class DenseTable(Record, _InBytes, Mapping[Any, int]):
    """A map from two texts to numbers, over the record of a dense table, which is not copied.

    >>> table = DenseTable(build_dense({"de": {"AT": 8, "CH": 9}, "en": {"US": 5}}))
    >>> table["de", "CH"], table.get("en", "AT"), ("en", "US") in table
    (9, None, True)
    >>> list(table)
    [('de', 'AT'), ('de', 'CH'), ('en', 'US')]

    As a Mapping its keys are pairs of texts. A listing asks for each suffix of each prefix.
    ZeroTrieError if the bytes are no record.
    """

    __slots__ = ("__weakref__",)

    def __init__(self, record: Any) -> None:
        view, at = in_place(view_of(record, "a dense table"))
        self._hold(view, 0, at, len(view))

    @classmethod
    def build(
        cls: type[AnyDense], rows: Mapping[Any, Mapping[Any, int]], delimiter: Key = b"/"
    ) -> AnyDense:
        """The table of a mapping of mappings; see build_dense()."""
        return cls(build_dense(rows, delimiter))

    @classmethod
    def open(cls: type[AnyDense], path: Path) -> AnyDense:
        """The table of a file that has its record, mapped into memory. Don't cut or overwrite it.

        ZeroTrieError, which names the file, if its bytes are no record.
        """
        with open(path, "rb") as file:
            made = cls(mapped(file))
        try:
            made._find("", "")
        except ZeroTrieError as error:
            text = f"this is no file of a dense table: {error}"
            raise ZeroTrieError(text, error.status, path=path) from None
        return made

    def save(self, path: Path) -> None:
        """Writes the record to a file, which replaces the old one at once."""
        replace(path, self._lent()[0])

    def _remakes(self, data: Any) -> tuple[Any, ...]:
        return DenseTable, data

    @overload  # type: ignore[override]
    def get(self, prefix: Key, suffix: Key, default: None = None) -> Optional[int]: ...
    @overload
    def get(self, prefix: Key, suffix: Key, default: Other) -> Union[int, Other]: ...
    @overload
    def get(self, prefix: tuple[Key, Key], suffix: None = None) -> Optional[int]: ...
    def get(self, prefix: Any, suffix: Any = None, default: Any = None) -> Any:
        """The value of a suffix under a prefix, or `default`; or, as of a Mapping, of a tuple of
        both. ZeroTrieError if the bytes are no record.
        """
        if isinstance(prefix, tuple):
            return self._find(*_both(prefix), suffix)
        return self._find(prefix, suffix, default)

    def _find(self, prefix: Key, suffix: Key, default: Any = None) -> Any:
        view, _, at, length = self._lent()
        p, s, value = key_bytes(prefix), key_bytes(suffix), c_size_t()
        status = lib.zerotrie_dense_get(at, length, p, len(p), s, len(s), value)
        if status == NO_ENTRY:
            return default
        check_status(status)
        return value.value

    def __getitem__(self, key: tuple[Key, Key]) -> int:
        """The value of a prefix and a suffix. KeyError if there is none."""
        value: Optional[int] = self._find(*_both(key))
        if value is None:
            raise KeyError(key)
        return value

    def __contains__(self, key: object) -> bool:
        """Whether there is the prefix and the suffix. What can be no key is none."""
        if not isinstance(key, tuple) or len(key) != 2:
            return False
        try:
            return self._find(*key) is not None
        except (TypeError, UnicodeEncodeError):
            return False

    def __iter__(self) -> Iterator[tuple[str, str]]:
        """The prefixes and suffixes, those of a prefix one after another."""
        self._find("", "")
        first, second, delimiter = dense_parts(self._lent()[0])
        primary = StrTrie(first, SIMPLE_ASCII, check=False)
        suffixes = StrTrie(second, SIMPLE_ASCII, check=False)
        for key in primary:
            prefix, border, suffix = key.partition(delimiter.decode())
            if not border:
                yield from ((prefix, suffix) for suffix in suffixes if (prefix, suffix) in self)
            elif prefix not in primary:
                yield prefix, suffix

    def __len__(self) -> int:
        """How many values there are. It lists all."""
        return sum(1 for _ in self)

    def __bytes__(self) -> bytes:
        """The record."""
        return bytes(self._lent()[0])

    def __hash__(self) -> int:
        return self.items()._hash()

    def __repr__(self) -> str:
        return f"<{type(self).__name__} {_first_pairs(self)}, {self.nbytes} bytes>"


class Index(Table, _InBytes, Mapping[bytes, int]):
    """A map from byte strings to numbers for exact look-ups alone, larger than a trie and faster.

    >>> index = Index.build({"foo": 1, "bar": 2})
    >>> index["bar"], index.get("x"), "foo" in index, len(index)
    (2, None, True, 2)
    >>> index == {b"bar": 2, b"foo": 1} == Index(index.seal())
    True

    `data` is the bytes of an index, or of the sealed file of one, which are not copied: don't change
    them. They are validated first, and ZeroTrieError is raised if they are no index, unless `check`
    is false; a sealed file has checksums instead, and is validated too if `check` is true.

    It is a Mapping. Its pairs are listed in no order, and counted by listing them.
    """

    __slots__ = ("__weakref__",)

    def __init__(self, data: Any, check: Optional[bool] = None) -> None:
        view, at = in_place(view_of(data, "an index"))
        view, at, is_sealed = index_in(view, at)
        validates = check or check is None and not is_sealed
        if validates and not lib.zerotrie_index_is_valid(at, len(view)):
            raise ZeroTrieError(NO_INDEX)
        self._hold(view, INDEX, at, len(view))

    @classmethod
    def build(cls: type[AnyIndex], pairs: Pairs, seed: int = 0) -> AnyIndex:
        """The index of pairs in any order, or of a mapping. If keys come from elsewhere, take a
        random seed.

        ZeroTrieError, which names the key, if one comes twice; it asks for another seed if too many
        keys share a bucket. OverflowError if a value is out of range.
        """
        return cls(FlatPairs(pairs).indexed(seed), check=False)

    @classmethod
    def open(cls: type[AnyIndex], path: Path, check: Optional[bool] = None) -> AnyIndex:
        """The index of a file, mapped into memory: one that is sealed, as save() and `zerotrie
        build --index` write it, or has the bytes of an index alone. Don't cut or overwrite it.
        """
        with open(path, "rb") as file:
            data = mapped(file)
        try:
            return cls(data, check)
        except ZeroTrieError as error:
            raise in_file(error, path) from None

    def seal(self) -> bytes:
        """The bytes of a sealed file: the length, the checksums of blocks, and then the index."""
        # the view keeps the bytes in place during the call
        view, _, *lent = self._lent()
        return bytes(sealed_index(*lent))

    def save(self, path: Path) -> None:
        """Writes a sealed file, which open() reads, and which replaces the old one at once."""
        view, _, *lent = self._lent()
        replace(path, sealed_index(*lent))

    def _remakes(self, data: Any) -> tuple[Any, ...]:
        return Index, data, False

    def get_many(self, keys: Iterable[Optional[Key]], missing: int = NO_VALUE) -> array[int]:
        """The value of each key, or `missing`, as an array of numbers; see get_many() of a trie."""
        return _many(self._values_of, keys, missing)

    def get_many_flat(self, data: Any, ends: Any, missing: int = NO_VALUE) -> array[int]:
        """The value of each key of a column, or `missing`; see get_many_flat() of a trie."""
        # the view keeps the bytes in place during the call
        view, _, *lent = self._lent()
        return _many_flat(partial(lib.zerotrie_index_get_many, *lent), data, ends, missing)

    def __iter__(self) -> Iterator[bytes]:
        """The keys."""
        return (key for key, _ in index_entries(self._lent()[0]))

    def __len__(self) -> int:
        """How many pairs there are. It lists all."""
        return sum(1 for _ in self)

    def __bool__(self) -> bool:
        """Whether there is a pair."""
        return any(True for _ in self)

    def __bytes__(self) -> bytes:
        """A copy of its bytes."""
        return bytes(self._lent()[0])

    def __eq__(self, other: object) -> bool:
        """Whether it is a Mapping of the same pairs."""
        if isinstance(other, Index) and self._lent()[0] == other._lent()[0]:
            return True
        return Mapping.__eq__(self, other)

    def __hash__(self) -> int:
        """That of frozenset(self.items())."""
        return self.items()._hash()

    def __repr__(self) -> str:
        return f"<{type(self).__name__} {_first_pairs(self)}, {self.nbytes} bytes>"


def __dir__() -> list[str]:
    """The names that are meant for users."""
    return sorted({*__all__, *(name for name in globals() if name.startswith("__"))})


def _many_flat(get_many: Callable[..., int], data: Any, ends: Any, missing: int) -> array[int]:
    """get_many_flat() by a call of the library for such a column."""
    try:
        text, where = in_place(memoryview(data).cast("B"))
    except TypeError:
        raise TypeError(f"data is the bytes of keys, not {type(data).__name__}") from None
    numbers = numbers_in(ends)
    rows, places = in_place(numbers.cast("B"))
    count = len(rows) // 8

    def find(missing: Any) -> bytes:
        other, values = whole_number(missing, 64, "missing"), (c_size_t * count)()
        check_status(get_many(
            c_char_p(where), len(text), (c_size_t * count).from_address(places), count, other, values,
            count))
        return bytes(values)

    def lost(found: array[int]) -> Any:
        others = array("Q", find(0))
        return (other for value, other in zip(found, others) if value == missing)

    return _signed(find, lost, missing)


def _both(key: Any) -> tuple[Key, Key]:
    """The two texts that are a key of a dense table."""
    if not isinstance(key, tuple) or len(key) != 2:
        raise TypeError(f"a key is a tuple of a prefix and a suffix, not {reprlib.repr(key)}")
    return key[0], key[1]


def _first_pairs(mapping: Mapping[Any, int], number: Optional[int] = None) -> str:
    """The first pairs, as a dict shows them, and how many keys there are, if that is known."""
    try:
        first = list(islice(mapping.items(), 4))
    except ValueError:
        return "of malformed bytes"
    shown = ", ".join(f"{reprlib.repr(key)}: {value}" for key, value in first[:3])
    if len(first) > 3:
        shown += ", .." if number is None else f", .. {number} keys"
    return f"{{{shown}}}"
