"""What changed from one trie to another."""

from __future__ import annotations

import ctypes
from collections.abc import Callable, Iterator
from ctypes import c_size_t, c_uint8
from typing import TYPE_CHECKING, Any, Generic, NamedTuple, Optional

from ._errors import MALFORMED_TRIE, TOO_SMALL, Kind, check_status
from ._library import EXCLUDED, INCLUDED, UNBOUNDED, RawChange, lib
from ._pairs import Key, key_bytes
from ._readers import Word
from ._sets import alike, check_bytes, kind_of, raw_tries

if TYPE_CHECKING:
    from . import _Trie

    class Change(NamedTuple, Generic[Word]):
        key: Word
        before: Optional[int]
        after: Optional[int]

        @property
        def how(self) -> str: ...
else:
    class Change(NamedTuple):
        """A key that changed from one trie to another. diff() yields it."""

        __module__ = "zerotrie"
        #: The key, as the first trie returns keys.
        key: Any
        #: Its value in the first trie. None: the key was added.
        before: Optional[int]
        #: Its value in the second trie. None: the key was removed.
        after: Optional[int]

        @property
        def how(self):
            """How it changed: "added", "removed" or "changed"."""
            if self.before is None:
                return "added"
            return "removed" if self.after is None else "changed"

ADDED, REMOVED, CHANGED = range(3)


def diff(
    old: _Trie[Word], new: _Trie[Any], start: Optional[Key] = None, stop: Optional[Key] = None
) -> Iterator[Change[Word]]:
    """What changed from one trie to another, in the order of bytes, whatever their kinds are: the
    keys that only one of them has, and those with another value. With bounds, as those of range(),
    it is what changed among the keys from `start` on and below `stop`.

    >>> old, new = StrTrie.build({"in": 1, "on": 2, "to": 3}), StrTrie.build({"in": 1, "on": 5, "up": 6})
    >>> for key, before, after in diff(old, new):
    ...     print(key, before, after)
    on 2 5
    to 3 None
    up None 6
    >>> [change.how for change in diff(old, new)]
    ['changed', 'removed', 'added']

    It lists a part at a time, for each of which the bytes of both are validated: ZeroTrieError if
    they are malformed. If one of both is IGNORE_CASE, letters are compared in either case, and the
    first trie says how keys and their order are spelled.
    """
    for one in (old, new):
        if not hasattr(one, "_lent"):
            raise TypeError(f"a trie, and not {type(one).__name__}")
    first = None if start is None else key_bytes(start)
    both = alike([old, new]) if kind_of(old, new) == Kind.IGNORE_CASE else [old, new]
    return changes(both, old._word, first, None if stop is None else key_bytes(stop))


def changes(
    tries: list[_Trie[Any]], word: Callable[[bytes], Word], start: Optional[bytes],
    stop: Optional[bytes],
) -> Iterator[Change[Word]]:
    bound, last = UNBOUNDED if start is None else INCLUDED, start or b""
    below = UNBOUNDED if stop is None else EXCLUDED
    room, status = 1 << 13, TOO_SMALL
    while status == TOO_SMALL:
        # the views keep the bytes in place during the call
        lent = [trie._lent() for trie in tries]
        raw, keys, places = raw_tries(lent), (c_uint8 * room)(), (RawChange * (room // 16))()
        count, next_len = c_size_t(), c_size_t()
        status = lib.zerotrie_diff_some(
            raw[0], raw[1], bound, last, len(last), below, stop or b"", len(stop or b""), keys, room,
            places, len(places), count, next_len)
        if status == MALFORMED_TRIE:
            check_bytes(lent)
        if status != TOO_SMALL:
            check_status(status)
        text, at = ctypes.string_at(keys, places[count.value - 1].key_end if count.value else 0), 0
        for one in places[: count.value]:
            bound, last = EXCLUDED, text[at : one.key_end]
            at = one.key_end
            before = None if one.how == ADDED else one.before
            after = None if one.how == REMOVED else one.after
            yield Change(word(last), before, after)
        room = max(min(8 * room, 1 << 20), next_len.value)
