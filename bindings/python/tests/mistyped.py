"""Mistakes of types, each in a line marked with `# error`, which mypy --strict has to find, and no others."""

from __future__ import annotations

from collections.abc import Mapping

from zerotrie import Change, Index, Near, StrTrie, ZeroTrie, diff


def count(mapping: Mapping[str, int]) -> int:
    return sum(mapping.values())


text, raw = StrTrie.build({"a": 1}), ZeroTrie.build([(b"a", 1)])
keys: list[bytes] = list(text)  # error
count(raw)  # error
count(Index.build({"a": 1}))  # error
count(text)
words: dict[bytes, int] = dict(text)  # error
changes: list[Change[bytes]] = list(diff(text, raw))  # error
key: bytes = next(diff(text, raw)).key  # error
near: list[Near[str]] = raw.nearest("a")  # error
name: int = text.nearest("a")[0].key  # error
number: int = text.get("a")  # error
text[5]  # error
text.get_many([5])  # error
text["a"] = 1  # error
