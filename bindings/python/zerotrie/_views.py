"""The views of a trie."""

from __future__ import annotations

from collections.abc import ItemsView, Iterator, KeysView, MappingView, Sequence, ValuesView
from itertools import chain, islice
from typing import TYPE_CHECKING, Any, Optional, cast

from ._errors import Kind
from ._library import EXCLUDED, UNBOUNDED
from ._pairs import Key, key_bytes
from ._readers import COUNT, KEYS, PAIRS, VALUES, Word
from ._search import Search

if TYPE_CHECKING:
    from . import _Trie


class Listed(MappingView):
    """What the views of a trie have in common: a prefix, with which their keys begin, and a search
    that finds them.
    """

    __slots__ = ("_prefix", "_search")

    def __init__(
        self, trie: _Trie[Any], prefix: Key = b"", search: Optional[Search] = None
    ) -> None:
        super().__init__(trie)
        self._prefix = key_bytes(prefix)
        self._search = search

    def _parts(self, what: int) -> Iterator[Sequence[Any]]:
        return self._trie()._parts(what, self._prefix, self._search)

    def _list(self, what: int) -> Iterator[Any]:
        return chain.from_iterable(self._parts(what))

    def _trie(self) -> _Trie[Any]:
        return cast("_Trie[Any]", vars(MappingView)["_mapping"].__get__(self))

    def _begins(self, key: Any) -> bool:
        """Whether the key begins with the prefix, as the kind compares bytes."""
        front = key_bytes(key)[: len(self._prefix)]
        if self._trie().kind == Kind.IGNORE_CASE:
            return front.lower() == self._prefix.lower()
        return front == self._prefix

    def __len__(self) -> int:
        """How many pairs there are. Those of a prefix or a search are counted by listing them."""
        if not self._prefix and self._search is None:
            return len(self._trie())
        return sum(map(len, self._parts(COUNT)))


class Keys(Listed, KeysView[Word]):
    """The keys that begin with a prefix. `in` finds what the trie finds; the other set operations
    compare what is listed.
    """

    __slots__ = ()

    def __contains__(self, key: object) -> bool:
        return key in self._trie() and self._begins(key)

    def __iter__(self) -> Iterator[Word]:
        return self._list(KEYS)


class Items(Listed, ItemsView[Word, int]):
    """The pairs whose keys begin with a prefix. `in` finds what the trie finds; the other set
    operations compare what is listed.
    """

    __slots__ = ()

    def __contains__(self, item: object) -> bool:
        if not isinstance(item, tuple) or len(item) != 2:
            return False
        key, value = item
        return key in self._trie() and self._trie()[key] == value and self._begins(key)

    def __iter__(self) -> Iterator[tuple[Word, int]]:
        return self._list(PAIRS)


class Found(Items[Word]):
    """The pairs whose keys a search finds, in the order of their bytes. `in` finds what the trie
    finds, if the search does."""

    __slots__ = ()

    def __contains__(self, item: object) -> bool:
        if not super().__contains__(item):
            return False
        # of the keys that begin with this one, it is the first
        front = key_bytes(cast("tuple[Any, int]", item)[0])
        keys = chain.from_iterable(self._trie()._parts(KEYS, front, self._search))
        return any(len(key_bytes(key)) == len(front) for key in islice(keys, 1))


class Range(Found[Word]):
    """The pairs between two bounds."""

    __slots__ = ()

    def __reversed__(self) -> Iterator[tuple[Word, int]]:
        """The same pairs, the last one first. Each takes as long as two look-ups."""
        trie, search = self._trie(), cast(Search, self._search)
        bound = UNBOUNDED if search.stop is None else EXCLUDED
        pair = trie._end(True, bound, search.stop or b"")
        # of malformed bytes too there are no more
        left = trie.nbytes + 1
        while pair is not None and left > 0 and key_bytes(pair[0]) >= search.start:
            yield pair
            pair, left = trie._end(True, EXCLUDED, pair[0]), left - 1


class Values(Listed, ValuesView[int]):
    """The values of the keys that begin with a prefix."""

    __slots__ = ()

    def __contains__(self, value: object) -> bool:
        return any(value == listed for listed in self)

    def __iter__(self) -> Iterator[int]:
        return self._list(VALUES)
