"""Keys and pairs as the library takes them, and builds."""

from __future__ import annotations

import ctypes
import operator
import os
import reprlib
from array import array
from collections.abc import Iterable, Mapping
from ctypes import addressof, c_size_t, c_uint8
from itertools import accumulate, chain
from typing import Any, Optional, Protocol, Union

from ._errors import (
    DONE, ILLEGAL_DELIMITER, NO_MEMORY, NON_ASCII, TEXTS, TOO_SMALL, UNKNOWN_KIND, UNSORTED, Kind,
    ZeroTrieError, check_status, error_of,
)
from ._library import NOTHING, Pair, lib

Key = Union[str, bytes, bytearray, memoryview]


class HasItems(Protocol):
    """What has pairs as a mapping has them, such as a Series of pandas."""

    def keys(self) -> Iterable[Any]: ...
    def items(self) -> Iterable[tuple[Any, Any]]: ...


Pairs = Union[Mapping[Any, int], HasItems, Iterable["tuple[Key, int]"]]
Path = Union[str, bytes, "os.PathLike[Any]"]

#: From this many pairs on auto_kind() is PERFECT_HASH whatever the keys are.
MANY_PAIRS = 512


def key_bytes(key: Any) -> bytes:
    if type(key) is bytes:
        return key
    if issubclass(type(key), str):
        # not encode() of a subclass, which may return anything
        return str.encode(key)
    try:
        # a number is no key: bytes() would make as many zeros of it
        view = memoryview(key)
    except TypeError:
        raise TypeError(f"a key is text or bytes, not {type(key).__name__}") from None
    return bytes(view)


#: The types of what pandas has in place of a missing row.
GAPS = {"NAType", "NaTType"}


def is_gap(key: Any) -> bool:
    """Whether a row of a column has no key: it is None, or NaN."""
    if isinstance(key, float):
        return key != key
    return key is None or type(key).__name__ in GAPS


def column(keys: Iterable[Any]) -> list[Any]:
    """The rows of a column, as objects: an array makes them faster than it lists them."""
    made = keys.tolist() if hasattr(keys, "tolist") else list(keys)
    return made if isinstance(made, list) else [made]


def whole_column(keys: list[Any]) -> list[Optional[bytes]]:
    """Each row as bytes, or None for a gap. TypeError or UnicodeEncodeError, which names the row, if
    it is neither a key nor a gap.
    """
    texts: list[Optional[bytes]] = [None] * len(keys)
    for place, key in enumerate(keys):
        if not is_gap(key):
            texts[place] = row_bytes(place, key)
    return texts


def all_key_bytes(keys: Iterable[Any]) -> list[bytes]:
    """The keys as bytes."""
    return [
        key if type(key) is bytes else key.encode() if type(key) is str else key_bytes(key)
        for key in keys
    ]


def delimiter_bytes(given: Key) -> bytes:
    borders = key_bytes(given)
    if isinstance(given, str) and not borders.isascii():
        raise ValueError("a delimiter is one byte: name ASCII characters")
    return borders


def whole_number(number: Any, bits: int, what: str) -> int:
    try:
        whole = operator.index(number)
    except TypeError:
        raise TypeError(f"{what} is a whole number, not {type(number).__name__}") from None
    # ctypes would cut off what is too much
    if not 0 <= whole < 1 << bits:
        raise OverflowError(f"{what} is from 0 to 2**{bits} - 1")
    return whole


def in_row(error: Exception, place: int, key: Any, text: str) -> Exception:
    """The error with the text, the key and its place among the pairs."""
    made: Exception
    if isinstance(error, UnicodeEncodeError):
        parts = error.encoding, error.object, error.start, error.end
        made = UnicodeEncodeError(*parts, f"{error.reason}: {text}")
    else:
        made = type(error)(f"{error}: {text}")
    vars(made).update(key=key, index=place)
    return made


def value_array(values: list[Any], keys: list[Any]) -> array[int]:
    """The values of the keys, as an array of 64 bits each."""
    try:
        return array("Q", values)
    except (TypeError, OverflowError):
        numbers, wrong = array("Q"), None
    # to say which one is wrong
    for place, (key, value) in enumerate(zip(keys, values)):
        try:
            numbers.append(whole_number(value, 64, "a value"))
        except (TypeError, OverflowError) as error:
            # a column with one gap is all floats, and the gap is the cause
            has_gap = not (isinstance(value, float) and value.is_integer())
            if has_gap or wrong is None:
                shown = " ".join(reprlib.repr(value).split())
                text = f"that of key {place}, {reprlib.repr(key)}, is {shown}"
                wrong = in_row(error, place, key, text)
            if has_gap:
                break
    if wrong is not None:
        raise wrong
    return numbers


def texts_of(keys: list[Any]) -> list[bytes]:
    """The keys of pairs as bytes."""
    try:
        return all_key_bytes(keys)
    except (TypeError, UnicodeEncodeError):
        pass
    return [row_bytes(place, key) for place, key in enumerate(keys)]


def row_bytes(place: int, key: Any) -> bytes:
    """The key in this row as bytes. TypeError or UnicodeEncodeError, which names the row, if it is
    none.
    """
    try:
        return key_bytes(key)
    except (TypeError, UnicodeEncodeError) as error:
        raise in_row(error, place, key, f"key {place} is {reprlib.repr(key)}") from None


def halves(pairs: Any) -> tuple[list[Any], list[Any]]:
    """The keys and the values of a mapping, of what has items as one, or of pairs."""
    if isinstance(pairs, Mapping):
        return list(pairs.keys()), list(pairs.values())
    try:
        rows = list(pairs.items() if hasattr(pairs, "keys") else pairs)
    except (TypeError, AttributeError):
        name = type(pairs).__name__
        raise TypeError(f"a mapping, or pairs of a key and a value, and not {name}") from None
    if not rows or not is_key(rows[0]):
        try:
            return [key for key, _ in rows], [value for _, value in rows]
        except (TypeError, ValueError):
            pass
    place = next(place for place, row in enumerate(rows) if not is_pair(row))
    text = f"row {place} is {reprlib.repr(rows[place])}"
    if is_key(rows[place]):
        raise TypeError(f"{text}, a key without a value: give pairs, as those of "
                        "{key: n for n, key in enumerate(keys)}")
    raise TypeError(f"{text}: a pair is a key and a value")


def is_key(row: Any) -> bool:
    return isinstance(row, (str, bytes, bytearray))


def is_pair(row: Any) -> bool:
    try:
        _, _ = row
    except (TypeError, ValueError):
        return False
    return not is_key(row)


def numbers_in(given: Any) -> memoryview:
    """The numbers of an array, of 64 bits each, in place if they have as many."""
    try:
        view = memoryview(given)
    except TypeError:
        return memoryview(array("Q", given))
    if view.itemsize != 8 or view.format.lstrip("@=<") not in "QqLlNn" or not view.c_contiguous:
        view = memoryview(array("Q", view.tolist()))
    return view


def sizes(numbers: array[int]) -> Any:
    """The numbers of an array, in place, as ctypes takes them."""
    return (c_size_t * len(numbers)).from_buffer(numbers)


def known_kind(kind: Any) -> Kind:
    number = whole_number(kind, 32, "a kind")
    try:
        return Kind(number)
    except ValueError:
        raise error_of(UNKNOWN_KIND) from None


class FlatPairs:
    """Pairs as the library takes them: keys one after another, where each ends, and the values."""

    def __init__(self, pairs: Pairs) -> None:
        #: The keys as they were given, and as bytes.
        self.given: list[Any]
        self.given, values = halves(pairs)
        self.texts = texts_of(self.given)
        self.joined = b"".join(self.texts)
        self.ends = array("Q", accumulate(map(len, self.texts)))
        self.values = value_array(values, self.given)

    def __len__(self) -> int:
        return len(self.texts)

    def pairs(self, most: Optional[int] = None) -> tuple[Any, int]:
        """The pairs, or the first ones, as zerotrie_pair, and how many they are."""
        ends = self.ends[:most]
        keys = ctypes.create_string_buffer(self.joined[: ends[-1] if ends else 0])
        at = addressof(keys)
        starts = chain((at,), map(at.__add__, ends))
        rows = zip(starts, map(len, self.texts), self.values)
        flat = array("Q", chain.from_iterable(row for row, _ in zip(rows, ends)))
        raw: Any = (Pair * len(ends)).from_buffer(flat) if ends else (Pair * 1)()
        # the pairs have the addresses of the keys, and keep them in use
        raw.keys = keys
        return raw, len(ends)

    def kind(self, kind: Optional[int]) -> int:
        """The number of the kind, which is that of auto_kind() if none is named."""
        if kind is not None:
            return whole_number(kind, 32, "a kind")
        return int(lib.zerotrie_auto_kind(*self.pairs(MANY_PAIRS)))

    def error(self, status: int, first: int, second: int) -> ZeroTrieError:
        """The error that names two keys, or one."""
        places = (first,) if first == second else (first, second)
        keys = ", ".join(f"key {place} is {reprlib.repr(self.given[place])}" for place in places)
        return ZeroTrieError(
            f"{TEXTS[status]}: {keys}", status, key=self.given[first], index=first,
            other=None if first == second else second)

    def check_order(self) -> None:
        """ZeroTrieError if the keys do not ascend."""
        for place, (key, following) in enumerate(zip(self.texts, self.texts[1:])):
            if key >= following:
                raise self.error(UNSORTED, place, place + 1)

    def check(self, status: int, kind: int) -> None:
        """Raises what a status of a build means."""
        if status not in (DONE, NO_MEMORY, UNKNOWN_KIND):
            first, second = c_size_t(), c_size_t()
            why: int = lib.zerotrie_why_refused(kind, *self.pairs(), first, second)
            if why == status:
                raise self.error(status, first.value, second.value)
        check_status(status)

    def built(self, kind: Optional[int]) -> bytes:
        """The tagged bytes of the trie."""
        number, length = self.kind(kind), c_size_t()
        most = lib.zerotrie_build_bound(len(self), len(self.joined))
        room = (c_uint8 * (1 + most))()
        status = lib.zerotrie_build_many(
            number, self.joined, len(self.joined), sizes(self.ends), len(self),
            sizes(self.values), len(self), addressof(room) + 1, most, length)
        self.check(status, number)
        room[0] = number
        return ctypes.string_at(room, 1 + length.value)

    def indexed(self, seed: int) -> bytes:
        """The bytes of the index."""
        number = whole_number(seed, 64, "a seed")
        length = c_size_t(2 * len(self.joined) + 24 * len(self) + 64)
        for _ in range(2):
            room = (c_uint8 * length.value)()
            status = lib.zerotrie_index_build_many(
                number, self.joined, len(self.joined), sizes(self.ends), len(self),
                sizes(self.values), len(self), room, len(room), length)
            if status != TOO_SMALL:
                break
        self.check(status, Kind.PERFECT_HASH)
        return ctypes.string_at(room, length.value)


def build(pairs: Pairs, kind: Optional[int] = None) -> bytes:
    """The tagged bytes of the trie of pairs in any order, or of a mapping:
    bytes(ZeroTrie.build(pairs, kind)).

    With no kind it is that of auto_kind(). ZeroTrieError if a key comes twice or is none of the
    kind, OverflowError if a value is out of range.

    >>> build([("a", 1), ("a", 2)])
    Traceback (most recent call last):
    zerotrie.ZeroTrieError: The same key was given twice: give each key once: key 0 is 'a', key 1 is 'a'
    """
    return FlatPairs(pairs).built(kind)


def build_sorted(pairs: Pairs, kind: Optional[int] = None) -> bytes:
    """As build(), but of pairs whose keys ascend by their bytes, which are not sorted;
    ZeroTrieError if they don't.

    >>> build_sorted([("b", 1), ("a", 2)])
    Traceback (most recent call last):
    zerotrie.ZeroTrieError: Keys are not in strictly ascending order: sort the keys by their bytes, each once: key 0 is...
    """
    flat = FlatPairs(pairs)
    flat.check_order()
    return flat.built(kind)


def auto_kind(pairs: Pairs) -> Kind:
    """SIMPLE_ASCII if all keys are ASCII and there are fewer than 512, else PERFECT_HASH."""
    return Kind(FlatPairs(pairs).kind(None))


def encoded_len(pairs: Pairs, kind: int) -> int:
    """How many bytes the trie has, without the tag, of pairs whose keys ascend by their bytes;
    ZeroTrieError if they don't.

    It builds nothing.
    """
    flat, number, length = FlatPairs(pairs), whole_number(kind, 32, "a kind"), c_size_t()
    flat.check_order()
    flat.check(lib.zerotrie_encoded_len(number, *flat.pairs(), length), number)
    return length.value


def tagged(data: Any, kind: int) -> bytes:
    """Tagged bytes: the number of the kind, then the bytes of a trie that have no tag, which it
    copies once.
    """
    view, tag, length = memoryview(data), (c_uint8 * 1)(), c_size_t()
    # the library writes the tag alone: what else it wrote would be copied once more, into an object
    number = whole_number(kind, 32, "a kind")
    check_status(lib.zerotrie_tagged(number, NOTHING, 0, tag, len(tag), length))
    return b"".join((tag, view if view.c_contiguous else bytes(view)))


def mapping(given: Any, what: str) -> Any:
    """What is given, which has to be a mapping."""
    if not hasattr(given, "items"):
        raise TypeError(f"{what} has to be a mapping, not {type(given).__name__}")
    return given


def build_dense(rows: Mapping[Any, Mapping[Any, int]], delimiter: Key = b"/") -> bytes:
    """The record of the dense table of a mapping of mappings, in any order, of texts that are ASCII
    without the delimiter.

    >>> table = DenseTable(build_dense({"de": {"AT": 8, "CH": 9}, "en": {"US": 5}}))
    >>> table.get("de", "AT"), table.get("en", "AT")
    (8, None)
    """
    entries = sorted(
        ((key_bytes(prefix), key_bytes(suffix)), value)
        for prefix, row in mapping(rows, "a table of rows").items()
        for suffix, value in mapping(row, f"the row of {reprlib.repr(prefix)}").items())
    byte = key_bytes(delimiter)
    if len(byte) != 1:
        raise ValueError("the delimiter is one byte")
    texts: list[Any] = []
    for which in (0, 1):
        words = [words[which] for words, _ in entries]
        joined, ends = b"".join(words), array("Q", accumulate(map(len, words)))
        texts += joined, len(joined), sizes(ends), len(ends)
    values = value_array([value for _, value in entries], [words for words, _ in entries])
    length = c_size_t(64 + texts[1] + texts[5] + 8 * len(values))
    for _ in range(2):
        room = (c_uint8 * length.value)()
        status = lib.zerotrie_dense_build(
            *texts, sizes(values), len(values), byte[0], room, len(room), length)
        if status != TOO_SMALL:
            break
    check_texts(status, chain.from_iterable(words for words, _ in entries), byte)
    return ctypes.string_at(room, length.value)


def check_texts(status: int, texts: Iterable[bytes], delimiter: bytes) -> None:
    """Raises what a status of the build of a dense table of these texts means."""
    for text in texts:
        refused = status == NON_ASCII and not text.isascii()
        if refused or status == ILLEGAL_DELIMITER and delimiter in text:
            raise ZeroTrieError(f"{TEXTS[status]}: a text is {reprlib.repr(text)}", status, key=text)
    check_status(status)
