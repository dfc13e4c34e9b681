"""The library: its functions, as zerotrie.h declares them, and where it is."""

from __future__ import annotations

import ctypes
import os
from ctypes import (
    POINTER, Structure, addressof, c_bool, c_char_p, c_size_t, c_uint8, c_uint16, c_uint32,
    c_uint64, c_void_p,
)
from typing import Any, Optional

from ._version import __version__


class Bytes(Structure):
    ptr: Optional[int]
    len: int
    _fields_ = [("ptr", c_void_p), ("len", c_size_t)]


class Pair(Structure):
    key: Bytes
    value: int
    _fields_ = [("key", Bytes), ("value", c_size_t)]


class RawTrie(Structure):
    """A trie; its bytes are elsewhere."""

    kind: int
    bytes: Bytes
    _fields_ = [("kind", c_uint32), ("bytes", Bytes)]


class RawChange(Structure):
    """How a key changed, and where it ends."""

    key_end: int
    before: int
    after: int
    how: int
    _fields_ = [
        ("key_end", c_size_t), ("before", c_size_t), ("after", c_size_t), ("how", c_uint32)]


class CursorPlace(Structure):
    run: int
    trie: int
    end: int
    _fields_ = [("run", c_size_t), ("trie", c_size_t), ("end", c_size_t)]


class RawSearch(Structure):
    """What is searched; its texts are elsewhere."""

    by: int
    edits: int
    from_bound: int
    to_bound: int
    text: Bytes
    to: Bytes
    beginnings: bool
    _fields_ = [
        ("by", c_uint32), ("edits", c_uint32), ("from_bound", c_uint32), ("to_bound", c_uint32),
        ("text", Bytes), ("to", Bytes), ("beginnings", c_bool)]


#: The numbers of bounds.
UNBOUNDED, INCLUDED, EXCLUDED = range(3)

TEXT = [c_char_p, c_size_t]
BYTES = [c_void_p, c_size_t]
SIZES = [POINTER(c_size_t), c_size_t]
SIZE = POINTER(c_size_t)
RAW_PAIRS = [POINTER(Pair), c_size_t]

#: What each function returns and takes. bindings/tests/declared.py makes it of the exports.
_DECLARED: dict[str, tuple[Any, list[Any]]] = {
    "zerotrie_version": (c_uint32, []),
    "zerotrie_is_well_formed": (c_bool, [c_uint32, *BYTES]),
    "zerotrie_get": (c_bool, [c_uint32, *BYTES, *TEXT, SIZE]),
    "zerotrie_get_many": (c_uint32, [c_uint32, *BYTES, *TEXT, *SIZES, c_size_t, *SIZES]),
    "zerotrie_longest_prefix": (c_bool, [c_uint32, *BYTES, *TEXT, SIZE, SIZE]),
    "zerotrie_longest_prefix_at": (c_bool, [c_uint32, *BYTES, *TEXT, *TEXT, SIZE, SIZE]),
    "zerotrie_common_prefixes": (c_size_t, [c_uint32, *BYTES, *TEXT, *SIZES, *SIZES]),
    "zerotrie_cursor_new": (CursorPlace, [*BYTES]),
    "zerotrie_with_prefix": (CursorPlace, [c_uint32, *BYTES, *TEXT]),
    "zerotrie_cursor_step": (
        c_bool,
        [c_uint32, *BYTES, POINTER(CursorPlace), c_uint8, POINTER(c_uint8)]),
    "zerotrie_cursor_take_value": (c_bool, [*BYTES, POINTER(CursorPlace), SIZE]),
    "zerotrie_cursor_probe": (
        c_bool,
        [c_uint32, *BYTES, POINTER(CursorPlace), c_size_t, POINTER(c_uint8), POINTER(c_uint16)]),
    "zerotrie_tagged_kind": (c_uint32, [*BYTES, POINTER(c_uint32)]),
    "zerotrie_open": (c_uint32, [*BYTES, POINTER(c_uint32), SIZE, SIZE]),
    "zerotrie_first_fault": (c_uint32, [c_uint32, *BYTES, SIZE]),
    "zerotrie_build": (c_uint32, [c_uint32, *RAW_PAIRS, *BYTES, SIZE]),
    "zerotrie_build_sorted": (c_uint32, [c_uint32, *RAW_PAIRS, *BYTES, SIZE]),
    "zerotrie_build_many": (c_uint32, [c_uint32, *TEXT, *SIZES, *SIZES, *BYTES, SIZE]),
    "zerotrie_combine": (
        c_uint32,
        [c_uint32, c_uint32, POINTER(RawTrie), c_size_t, c_uint32, *BYTES, SIZE]),
    "zerotrie_build_bound": (c_size_t, [c_size_t, c_size_t]),
    "zerotrie_encoded_len": (c_uint32, [c_uint32, *RAW_PAIRS, SIZE]),
    "zerotrie_why_refused": (c_uint32, [c_uint32, *RAW_PAIRS, SIZE, SIZE]),
    "zerotrie_auto_kind": (c_uint32, [*RAW_PAIRS]),
    "zerotrie_tagged": (c_uint32, [c_uint32, *BYTES, *BYTES, SIZE]),
    "zerotrie_seal": (c_uint32, [c_uint32, *BYTES, *BYTES, SIZE]),
    "zerotrie_dense_get": (c_uint32, [*BYTES, *TEXT, *TEXT, SIZE]),
    "zerotrie_dense_build": (
        c_uint32,
        [*TEXT, *SIZES, *TEXT, *SIZES, *SIZES, c_uint8, *BYTES, SIZE]),
    "zerotrie_list": (c_uint32, [c_uint32, *BYTES, *TEXT, *BYTES, *SIZES, *SIZES, SIZE, SIZE]),
    "zerotrie_list_some": (
        c_uint32,
        [c_uint32, *BYTES, *TEXT, c_bool, *TEXT, *BYTES, *SIZES, *SIZES, SIZE, SIZE]),
    "zerotrie_search_some": (
        c_uint32,
        [c_uint32, *BYTES, *TEXT, POINTER(RawSearch), c_bool, *TEXT, *BYTES, *SIZES, *SIZES, SIZE,
         SIZE]),
    "zerotrie_search_check": (c_uint32, [POINTER(RawSearch)]),
    "zerotrie_nearest": (
        c_uint32,
        [c_uint32, *BYTES, c_uint32, *TEXT, c_uint32, *BYTES, *SIZES, *SIZES, *SIZES, SIZE, SIZE]),
    "zerotrie_sorted_some": (
        c_uint32,
        [c_uint32, *BYTES, c_uint32, *TEXT, c_uint32, *TEXT, *BYTES, *SIZES, *SIZES, SIZE, SIZE]),
    "zerotrie_last_within": (
        c_uint32,
        [c_uint32, *BYTES, c_uint32, *TEXT, c_uint32, *TEXT, *BYTES, SIZE, SIZE]),
    "zerotrie_diff_some": (
        c_uint32,
        [POINTER(RawTrie), POINTER(RawTrie), c_uint32, *TEXT, c_uint32, *TEXT, *BYTES,
         POINTER(RawChange), c_size_t, SIZE, SIZE]),
    "zerotrie_first_key_of": (c_uint32, [c_uint32, *BYTES, c_size_t, *BYTES, SIZE]),
    "zerotrie_reverse_places": (c_uint32, [c_uint32, *BYTES, POINTER(c_uint32), c_size_t, SIZE]),
    "zerotrie_reverse_key": (
        c_uint32,
        [c_uint32, *BYTES, POINTER(c_uint32), c_size_t, c_size_t, *BYTES, SIZE]),
    "zerotrie_index_get": (c_bool, [*BYTES, *TEXT, SIZE]),
    "zerotrie_index_get_many": (c_uint32, [*BYTES, *TEXT, *SIZES, c_size_t, *SIZES]),
    "zerotrie_index_is_valid": (c_bool, [*BYTES]),
    "zerotrie_index_build": (c_uint32, [c_uint64, *RAW_PAIRS, *BYTES, SIZE]),
    "zerotrie_index_build_many": (c_uint32, [c_uint64, *TEXT, *SIZES, *SIZES, *BYTES, SIZE]),
    "zerotrie_open_index": (c_uint32, [*BYTES, SIZE, SIZE]),
    "zerotrie_seal_index": (c_uint32, [*BYTES, *BYTES, SIZE]),
}

#: The functions that take less time than to let other threads run. A cursor is whole after each.
SHORT = {
    "zerotrie_get", "zerotrie_longest_prefix", "zerotrie_longest_prefix_at",
    "zerotrie_common_prefixes", "zerotrie_with_prefix", "zerotrie_cursor_new",
    "zerotrie_cursor_step", "zerotrie_cursor_take_value", "zerotrie_cursor_probe",
    "zerotrie_dense_get", "zerotrie_version", "zerotrie_build_bound", "zerotrie_index_get",
    "zerotrie_last_within", "zerotrie_search_check", "zerotrie_reverse_key",
}

HERE = os.path.dirname(os.path.abspath(__file__))
#: In a checkout, the folder that bindings/make fills.
MADE = [os.path.join(HERE, "../../build")] if os.path.exists(f"{HERE}/../packed.py") else []


def load() -> ctypes.CDLL:
    near = [os.path.join(folder, "libzerotrie.so") for folder in (HERE, *MADE)]
    found = [os.environ.get("ZEROTRIE_SO", ""), *filter(os.path.exists, near), "libzerotrie.so.0"]
    try:
        lib = ctypes.CDLL(next(filter(None, found)))
    except OSError as error:
        raise ImportError(
            f"{error}: run bindings/make, or name libzerotrie.so in ZEROTRIE_SO") from error
    # PyPy has no functions that keep the lock
    short = ctypes.PyDLL(lib._name, handle=lib._handle) if hasattr(ctypes, "PyDLL") else lib
    for name, (result, arguments) in _DECLARED.items():
        function = getattr(short if name in SHORT else lib, name, None)
        if function is None:
            raise ImportError(
                f"{lib._name} has no function {name}, so it is not version {__version__} of the "
                "library, which this module needs: run bindings/make again")
        function.restype, function.argtypes = result, arguments
        setattr(lib, name, function)
        if name == "zerotrie_version":
            compare_version(lib._name, function())
    return lib


def compare_version(name: str, number: int) -> None:
    found = ".".join(str(number // unit % 1000) for unit in (1_000_000, 1_000, 1))
    if found != __version__:
        raise ImportError(f"{name} is version {found} of the library, and this module needs "
                          f"{__version__}: run bindings/make again")


lib = load()
NO_BYTES = (c_uint8 * 1)()
NOTHING = addressof(NO_BYTES)
