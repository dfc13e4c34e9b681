"""Tries that are made of others: unions, intersections and differences."""

from __future__ import annotations

import ctypes
import heapq
import reprlib
from collections.abc import Iterable, Iterator, Mapping, Set
from ctypes import addressof, c_size_t, c_uint8
from itertools import groupby, islice
from operator import itemgetter
from typing import TYPE_CHECKING, Any, Optional, TypeVar, Union, cast

from ._errors import (
    DUPLICATE_KEY, MALFORMED_TRIE, MIXED_CASE, NON_ASCII, SUM_TOO_LARGE, TEXTS, TOO_SMALL, Kind,
    ZeroTrieError, check_status,
)
from ._library import NOTHING, Bytes, RawTrie, lib
from ._memory import validate
from ._pairs import MANY_PAIRS, FlatPairs, build, key_bytes, known_kind
from ._readers import KEYS

if TYPE_CHECKING:
    from . import _Trie

Trie = TypeVar("Trie", bound="_Trie[Any]")

#: What has keys.
Keyed = Union[Mapping[Any, Any], Set[Any]]


def kind_of(*given: Any) -> Optional[Kind]:
    """The kind that a trie of these has to have, if any has to."""
    kinds = {getattr(one, "kind", None) for one in given}
    special = (Kind.IGNORE_CASE, Kind.EXTENDED_CAPACITY)
    return next((kind for kind in special if kind in kinds), None)


def keys_in(other: Keyed) -> Iterator[bytes]:
    """The keys of the other, as bytes. What can be no key is in no trie."""
    for key in other:
        try:
            yield key_bytes(key)
        except (TypeError, UnicodeEncodeError):
            pass


def in_any_case(trie: _Trie[Any], other: Keyed, wanted: bool) -> dict[Any, int]:
    """The pairs of the trie whose keys the other has in any case, or does not have."""
    folded = {key.lower() for key in keys_in(other)}
    return {
        key: value for key, value in trie.items()
        if (key_bytes(key).lower() in folded) is wanted
    }


UNION, INTERSECTION, DIFFERENCE, SYMMETRIC_DIFFERENCE = range(4)
#: The rules by their names.
RULES = ("first", "last", "sum", "min", "max", "refuse", "equal")


def raw_tries(lent: list[tuple[memoryview, int, int, int]]) -> Any:
    """Tries as the library takes them. Their bytes are in use as long as what is lent is."""
    raw = (RawTrie * (len(lent) or 1))()
    for one, (_, number, at, length) in zip(raw, lent):
        one.kind, one.bytes = number, Bytes(at or NOTHING, length)
    return raw


def combined(selection: int, how: str, tries: list[_Trie[Any]], kind: Kind) -> bytes:
    """The tagged bytes of what is selected of the tries."""
    if how not in RULES:
        raise ValueError(f"{how!r} is not one of {', '.join(RULES)}")
    lent = [trie._lent() for trie in tries]
    raw = raw_tries(lent)
    size = c_size_t(64 + sum(length for *_, length in lent))
    for _ in range(2):
        room = (c_uint8 * (1 + size.value))()
        status = lib.zerotrie_combine(
            selection, RULES.index(how), raw, len(tries), kind, addressof(room) + 1,
            len(room) - 1, size)
        if status != TOO_SMALL:
            break
    if status == MALFORMED_TRIE:
        check_bytes(lent)
    if status in (DUPLICATE_KEY, SUM_TOO_LARGE):
        check_keys(selection, how, status, tries)
    if status in (NON_ASCII, MIXED_CASE):
        made = as_bytes(combined(selection, how, tries, Kind.PERFECT_HASH))
        FlatPairs(made).built(kind)
    check_status(status)
    room[0] = kind
    return ctypes.string_at(room, 1 + size.value)


def as_bytes(data: Any) -> _Trie[bytes]:
    """A trie of the same bytes, whose keys are bytes."""
    from . import ZeroTrie

    return ZeroTrie(data, check=False)


def has_capitals(trie: _Trie[Any]) -> bool:
    """Whether a key has a letter in upper case."""
    parts = map(b"".join, as_bytes(trie)._parts(KEYS, b""))
    return any(text != text.lower() for text in parts)


def spelled(key: bytes, known: Optional[_Trie[bytes]]) -> bytes:
    """The key with its beginning as a trie that ignores case has it."""
    front, cursor = bytearray(), None if known is None or not key.isascii() else known.cursor()
    for byte in key if cursor else b"":
        stored = cast(Any, cursor).step(byte)
        if stored is None:
            break
        front.append(stored)
    return bytes(front) + key[len(front):]


def alike(tries: list[_Trie[Any]]) -> list[_Trie[Any]]:
    """The tries with ASCII keys that are equal if a look-up in any case takes them as one: each
    beginning is spelled as the first trie has it that has it at all.

    ZeroTrieError, with the place of a trie, if its bytes are malformed, or if two of its keys begin
    alike up to case.
    """
    if not any(map(has_capitals, tries)):
        return tries
    check_bytes([trie._lent() for trie in tries])
    made: list[_Trie[Any]] = []
    known: Optional[_Trie[bytes]] = None
    for place, trie in enumerate(map(as_bytes, tries)):
        pairs = [(spelled(key, known), value) for key, value in trie.items()]
        words = [pair for pair in pairs if pair[0].isascii()]
        try:
            ascii_keys = as_bytes(build(words, Kind.IGNORE_CASE))
        except ZeroTrieError as error:
            text = f"{error}: trie {place}"
            raise ZeroTrieError(text, error.status, key=error.key, index=place) from None
        made.append(ascii_keys if len(words) == len(pairs) else as_bytes(build(pairs)))
        both = [ascii_keys] if known is None else [known, ascii_keys]
        known = as_bytes(combined(UNION, "first", both, Kind.IGNORE_CASE))
    return made


def check_bytes(lent: list[tuple[memoryview, int, int, int]]) -> None:
    """ZeroTrieError, with the place of the first trie whose bytes are malformed."""
    for place, (_, *one) in enumerate(lent):
        try:
            validate(*one)
        except ZeroTrieError as error:
            raise ZeroTrieError(f"{error}: trie {place}", MALFORMED_TRIE, index=place, at=error.at) from None


def check_keys(selection: int, how: str, status: int, tries: list[_Trie[Any]]) -> None:
    """ZeroTrieError, with the first key that a rule makes an error, and the places of the first two
    tries that have it, or have other values of it.
    """
    def rows(place: int, trie: _Trie[bytes]) -> Iterator[tuple[bytes, int, int]]:
        return ((key, place, value) for key, value in trie.range())

    merged = heapq.merge(*(rows(place, as_bytes(trie)) for place, trie in enumerate(tries)))
    for key, group in groupby(merged, itemgetter(0)):
        having = list(group)
        taken = selection != INTERSECTION or len(having) == len(tries)
        if selection == SYMMETRIC_DIFFERENCE:
            taken = len(having) % 2 == 1
        too_large = sum(value for *_, value in having) >= 1 << 64
        (_, first, value), *others = having
        if how == "equal":
            others = [row for row in others if row[2] != value]
        if taken and others and (too_large or status == DUPLICATE_KEY):
            _, other, another = others[0]
            text = f"{TEXTS[status]}: tries {first} and {other} have {reprlib.repr(key)}"
            if how == "equal":
                text = (f"tries {first} and {other} have other values of {reprlib.repr(key)}: "
                        f"{value} and {another}")
            raise ZeroTrieError(text, status, key=key, index=first, other=other)


def made_of(
    selection: int, how: str, tries: Iterable[_Trie[Any]], kind: Optional[int], cls: type[Trie]
) -> Trie:
    """The trie of what is selected of the tries: with no kind, of that of auto_kind(), or of the
    special one that one of them has.
    """
    given = list(tries)
    special = kind_of(*given) if kind is None else known_kind(kind)
    if kind_of(*given) == Kind.IGNORE_CASE:
        given = alike(given)
    if special is not None:
        return cls(combined(selection, how, given, special), check=False)
    made = cls(combined(selection, how, given, Kind.PERFECT_HASH), check=False)
    if len(list(islice(made, MANY_PAIRS))) < MANY_PAIRS:
        try:
            return cls(combined(selection, how, given, Kind.SIMPLE_ASCII), check=False)
        except ZeroTrieError as error:
            if error.status != NON_ASCII:
                raise
    return made


def of_all(
    selection: int, how: str, tries: Iterable[Trie], kind: Optional[int]
) -> Trie:
    """The same, of the class of the first trie."""
    given = list(tries)
    if not given:
        raise ValueError("there is no trie")
    for one in given:
        if not hasattr(one, "_lent"):
            raise TypeError(f"a trie, and not {type(one).__name__}")
    return made_of(selection, how, given, kind, type(given[0]))


def union(tries: Iterable[Trie], how: str = "last", kind: Optional[int] = None) -> Trie:
    """A trie of the keys of any of the tries, of the class of the first one.

    `how` says which value a key gets that more than one trie has: "first", "last", "sum", "min" or
    "max"; "refuse" makes it an error, and "equal" if the values differ. All tries are read in one
    pass. With no kind it is that of auto_kind(), but IGNORE_CASE or EXTENDED_CAPACITY if one of the
    tries is. Keys are compared as bytes, and letters in either case if one of the tries is
    IGNORE_CASE: then the first trie that has the beginning of a key says how it is spelled.

    >>> a, b = StrTrie.build({"in": 1, "on": 2}), StrTrie.build({"in": 5})
    >>> dict(union([a, b], how="sum"))
    {'in': 6, 'on': 2}

    >>> dict(union([StrTrie.build({"Host": 1}, Kind.IGNORE_CASE), StrTrie.build({"HOST": 2, "on": 3})]))
    {'Host': 2, 'on': 3}

    ZeroTrieError, too, if a sum is 2**64 or more, if bytes are malformed, and for keys that the
    kind refuses.
    """
    return of_all(UNION, how, tries, kind)


def intersection(tries: Iterable[Trie], how: str = "first", kind: Optional[int] = None) -> Trie:
    """A trie of the keys that every trie has; else as union().

    >>> a, b = StrTrie.build({"in": 1, "on": 2}), StrTrie.build({"in": 5})
    >>> dict(intersection([a, b])), dict(intersection([a, b], how="max"))
    ({'in': 1}, {'in': 5})
    """
    return of_all(INTERSECTION, how, tries, kind)


def difference(tries: Iterable[Trie], kind: Optional[int] = None) -> Trie:
    """A trie of the pairs whose keys the first trie has, and no other; else as union()."""
    return of_all(DIFFERENCE, "first", tries, kind)


def symmetric_difference(
    tries: Iterable[Trie], how: str = "last", kind: Optional[int] = None
) -> Trie:
    """A trie of the keys that an odd number of the tries has, as of two tries one alone; else as
    union().
    """
    return of_all(SYMMETRIC_DIFFERENCE, how, tries, kind)
