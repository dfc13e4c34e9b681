"""What an index and a dense table hold, read from their bytes."""

from __future__ import annotations

import struct
from collections.abc import Iterator

#: The front of the record of a dense table: how many suffixes, the delimiter, the lengths of the two
#: tries, and how many cells.
RECORD = struct.Struct("<HcQQQ")


def index_entries(view: memoryview) -> Iterator[tuple[bytes, int]]:
    """The pairs of an index, in the order of its bytes. They end where malformed bytes do."""
    at = 16 + 8 * (int.from_bytes(view[8:16], "little") + 1)
    while at < len(view):
        length, at = key_len(view, at)
        value = int.from_bytes(view[at : at + 8], "little")
        at += 8 + length
        if at <= len(view):
            yield bytes(view[at - length : at]), value


def key_len(view: memoryview, at: int) -> tuple[int, int]:
    """The number that begins at a place, as a head of a branch is written, and where it ends. It is
    read up to a number that is larger than the bytes that there are.
    """
    lead = view[at]
    number, goes_on = lead & 0x1F, bool(lead & 0x20)
    at += 1
    while goes_on and number <= len(view) and at < len(view):
        number, goes_on = number * 128 + (view[at] & 0x7F) + 32, view[at] >= 0x80
        at += 1
    return number, at


def dense_parts(record: memoryview) -> tuple[memoryview, memoryview, bytes]:
    """The primary trie of the record, the trie of its suffixes, and the delimiter."""
    _, delimiter, primary, suffixes, _ = RECORD.unpack_from(record)
    rest = record[RECORD.size :]
    return rest[:primary], rest[primary : primary + suffixes], delimiter
