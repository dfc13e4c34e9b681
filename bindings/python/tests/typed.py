"""A program that mypy --strict accepts. It is not run."""

from __future__ import annotations

from collections.abc import Mapping
from typing import Optional, Union

import zerotrie
from zerotrie import (
    Change, Cursor, DenseTable, Index, Kind, Near, Reverse, StrTrie, ZeroTrie, ZeroTrieError, build,
)


def total(mapping: Mapping[str, int]) -> int:
    return sum(mapping.values())


place_holder = bool(zerotrie.__version__)
t = ZeroTrie.build({"foo": 1, b"bar": 2})
s = StrTrie.build([("foo", 1)])
if b"foo" in t and "foo" in s:
    number: int = t["foo"] + s["foo"] + total(s) + sum(t.get_many(["foo", b"bar"]))
value: Optional[int] = t.get("foo")
either: Union[int, str] = t.get("foo", "none")
keys: list[bytes] = sorted(t)
words: list[str] = list(s.keys("f"))
both: set[str] = s.keys() & {"foo"}
rest: set[bytes] = t.keys() - {b"foo"}
pairs: dict[bytes, int] = dict(t.items())
texts: dict[str, int] = dict(s)
longest: Optional[tuple[str, int]] = s.longest_prefix("food", at="-_")
fronts: list[tuple[bytes, int]] = t.prefixes("food")
cursor: Optional[Cursor] = t.with_prefix("f")
kind: Kind = t.kind
with ZeroTrie.open("names.trie", check=False) as opened:
    opened.save("other.trie", tagged=True)
    sealed: bytes = opened.seal()
near: list[tuple[str, int]] = list(s.fuzzy("fop", edits=1, beginnings=True, swaps=True))
nearest: list[Near[bytes]] = t.nearest("fop", edits=1, most=3)
best: str = s.nearest("fop")[0].key
far: int = nearest[0].edits + nearest[0].value
between: dict[bytes, int] = dict(t.range("b", b"f"))
least: Optional[tuple[str, int]] = s.first_from("f") or s.first_after(b"g")
globbed: set[tuple[str, int]] = s.glob("f*") & s.items("fo")
joined: StrTrie = (s | {"b": 2}) - {"foo"} & t
first_keys: Reverse[str] = zerotrie.reverse(s)
first_key: str = first_keys[1]
changed: list[Change[bytes]] = list(zerotrie.diff(t, s, "b", b"f"))
of_text: list[Change[str]] = list(zerotrie.diff(s, t))
old_values: list[Optional[int]] = [one.before for one in changed if one.how == "removed"]
joined_column: int = s.get_many_flat(b"foobar", [3, 6])[0] + s.get_many(["foo", None], missing=-1)[1]
index: Index = Index.build({"foo": 1})
of_bytes: Mapping[bytes, int] = index if place_holder else t
found: int = index["foo"] + index.get("bar", 0) + index.get_many(["x"], missing=-1)[0]
table: DenseTable = DenseTable.build({"de": {"AT": 8}})
cell: Optional[int] = table.get("de", "AT") or table["de", "AT"] or table.get("de", "CH", 0)
shards: list[Mapping[str, int]] = [s, StrTrie.build(s.items())]
place: int = s.nbytes + index.nbytes if zerotrie.accelerated else 0
try:
    raw: bytes = build([("a", 1)], Kind.SIMPLE_ASCII)
except ZeroTrieError as error:
    print(error.key, error.index, error.other, error.at, error.path)
