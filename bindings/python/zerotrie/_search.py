"""Searches as the library takes them."""

from __future__ import annotations

from ctypes import addressof, c_uint8
from typing import Any, Optional

from ._errors import check_status
from ._library import EXCLUDED, INCLUDED, UNBOUNDED, Bytes, RawSearch, lib
from ._pairs import Key, key_bytes, whole_number

BY_RANGE, BY_GLOB, BY_SUBSEQUENCE, BY_EDITS, BY_CHAR_EDITS = range(5)
BY_SWAPS, BY_CHAR_SWAPS, BY_CHAR_GLOB = range(5, 8)


class Search:
    """Which keys a search finds, and whether it is a range of keys as they are stored. It keeps the
    texts that its structure points to.
    """

    __slots__ = ("_raw", "_texts", "is_range", "start", "stop")
    #: The bounds of a range.
    start: bytes
    stop: Optional[bytes]

    def __init__(self, by: int, text: bytes, **others: Any) -> None:
        self._raw = RawSearch(by=by, **others)
        self._texts: list[Any] = []
        self._raw.text = self._kept(text)
        self._raw.to = self._kept(b"")
        self.is_range = False

    def _kept(self, text: bytes) -> Bytes:
        """Where a copy of the text is, which nobody moves."""
        room = (c_uint8 * (len(text) + 1)).from_buffer_copy(text + b"\0")
        self._texts.append(room)
        return Bytes(addressof(room), len(text))

    def address(self) -> int:
        """Where the structure is."""
        return addressof(self._raw)

    def checked(self) -> Search:
        """The search, if it is one, and else ZeroTrieError."""
        check_status(lib.zerotrie_search_check(self._raw))
        return self

    @classmethod
    def range(cls, start: Optional[Key], stop: Optional[Key]) -> Search:
        """The keys from one on and below another one."""
        first = b"" if start is None else key_bytes(start)
        made = cls(
            BY_RANGE, first,
            from_bound=UNBOUNDED if start is None else INCLUDED,
            to_bound=UNBOUNDED if stop is None else EXCLUDED)
        made.start, made.stop = first, None if stop is None else key_bytes(stop)
        if made.stop is not None:
            made._raw.to = made._kept(made.stop)
        made.is_range = True
        return made

    @classmethod
    def within(cls, prefix: bytes, start: Optional[Key], stop: Optional[Key]) -> Search:
        """Those of range() that begin with a prefix."""
        grows = prefix.rstrip(b"\xff")
        above = grows[:-1] + bytes([grows[-1] + 1]) if grows else None
        ends = [key_bytes(end) for end in (stop, above) if end is not None]
        first = prefix if start is None else max(key_bytes(start), prefix)
        return cls.range(first, min(ends) if ends else None)

    @classmethod
    def glob(cls, pattern: Key) -> Search:
        """The keys that a pattern matches: by characters if it is text, and else by bytes."""
        by = BY_CHAR_GLOB if isinstance(pattern, str) else BY_GLOB
        return cls(by, key_bytes(pattern)).checked()

    @classmethod
    def fuzzy(cls, word: Key, edits: int, beginnings: bool, swaps: bool) -> Search:
        """The keys that a few edits make of a word: edits of characters if the word is text."""
        most = whole_number(edits, 32, "a number of edits")
        made = cls(edits_by(word, swaps), key_bytes(word), edits=most, beginnings=beginnings)
        return made.checked()


def edits_by(word: Key, swaps: bool) -> int:
    """The search with edits of characters if the word is text, and else of bytes."""
    if isinstance(word, str):
        return BY_CHAR_SWAPS if swaps else BY_CHAR_EDITS
    return BY_SWAPS if swaps else BY_EDITS
