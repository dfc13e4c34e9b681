"""Bytes in place: where they are, files that are mapped, and whether they are a trie."""

from __future__ import annotations

import ctypes
import mmap
import os
import secrets
import stat
import weakref
from collections.abc import Callable
from ctypes import (
    POINTER, Structure, addressof, c_int, c_size_t, c_uint8, c_uint32, c_void_p, py_object,
)
from typing import Any, BinaryIO, Optional

from ._errors import (
    DAMAGED, DONE, NO_ENTRY, RULES, TOO_SMALL, Kind, ZeroTrieError, check_status,
)
from ._library import NOTHING, lib
from ._pairs import Path

#: A sealed file has this many bytes before its content, and begins with the magic.
SEAL_LEN = 24
MAGIC = b"\x7a\x74\x72\x69\x89\x8a\x0d\x0a"
#: The file of an index has a checksum for each block of as many bytes.
BLOCK_LEN = 65536


def view_of(data: Any, whose: str) -> memoryview:
    """The bytes that were given. TypeError, which says what to do, if there are none."""
    try:
        view = memoryview(data)
    except TypeError:
        name = type(data).__name__
        raise TypeError(f"it takes the bytes of {whose}, not {name}: build() takes pairs, and "
                        "open() the path of a file") from None
    return view.cast("B")


def trie_in(view: memoryview, at: int) -> tuple[int, memoryview, int, bool]:
    """The kind and the bytes of the trie in a file that is sealed or tagged, where they are, and
    whether it is sealed. The file is at an address.
    """
    kind, begin, length = c_uint32(), c_size_t(), c_size_t()
    status: int = lib.zerotrie_open(at, len(view), kind, begin, length)
    if status == DAMAGED and holds_index(view, at):
        raise ZeroTrieError("this is the file of an index, and not of a trie", status)
    check_status(status)
    trie = view[begin.value : begin.value + length.value]
    return kind.value, trie, at + begin.value, begin.value == SEAL_LEN


def found_key(call: Callable[..., int]) -> Optional[bytes]:
    """The key that a call writes to a room, which is made larger until it has one. None: there is
    no key.
    """
    status, size = TOO_SMALL, c_size_t(64)
    while status == TOO_SMALL:
        most = size.value
        room = (c_uint8 * most)()
        status = call(room, most, size)
    if status == NO_ENTRY:
        return None
    check_status(status)
    return ctypes.string_at(room, size.value)


def sealed(kind: int, at: int, length: int) -> Any:
    """The bytes of the sealed file of the trie at an address."""
    room, made = (c_uint8 * (SEAL_LEN + length))(), c_size_t()
    check_status(lib.zerotrie_seal(kind, at, length, room, len(room), made))
    return room


def sealed_index(at: int, length: int) -> Any:
    """The bytes of the sealed file of the index at an address."""
    # behind the header are the length of the index and the checksums
    front = SEAL_LEN + 8 + 4 * -(-length // BLOCK_LEN)
    room, made = (c_uint8 * (front + length))(), c_size_t()
    check_status(lib.zerotrie_seal_index(at, length, room, len(room), made))
    return room


def index_in(view: memoryview, at: int) -> tuple[memoryview, int, bool]:
    """The bytes of the index in a file that is sealed or has them alone, where they are, and whether
    it is sealed. The file is at an address.
    """
    if view[: len(MAGIC)] != MAGIC:
        return view, at, False
    begin, length = c_size_t(), c_size_t()
    status: int = lib.zerotrie_open_index(at, len(view), begin, length)
    if status == DAMAGED and holds_trie(view, at):
        raise ZeroTrieError("this is the file of a trie, and not of an index", status)
    check_status(status)
    index = view[begin.value : begin.value + length.value]
    return index, at + begin.value, True


def holds_index(view: memoryview, at: int) -> bool:
    """Whether the file at an address is the sealed file of an index."""
    status: int = lib.zerotrie_open_index(at, len(view), c_size_t(), c_size_t())
    return status == DONE


def holds_trie(view: memoryview, at: int) -> bool:
    """Whether the file at an address is the sealed file of a trie, or tagged bytes."""
    status: int = lib.zerotrie_open(at, len(view), c_uint32(), c_size_t(), c_size_t())
    return status == DONE


def validate(kind: int, at: int, length: int) -> None:
    """ZeroTrieError if the bytes are malformed."""
    if lib.zerotrie_is_well_formed(kind, at, length):
        return
    place = c_size_t()
    rule: int = lib.zerotrie_first_fault(kind, at, length, place)
    if not 1 <= rule <= len(RULES):
        check_status(rule)
    raise ZeroTrieError(f"the bytes are no trie of kind {Kind(kind).name}: {RULES[rule - 1]}, "
                        f"at byte {place.value}", at=place.value)


# functions of their own, as all modules of a process share what ctypes.CDLL(None) has
map_file = ctypes.CFUNCTYPE(
    c_void_p, c_void_p, c_size_t, c_int, c_int, c_int, ctypes.c_long, use_errno=True,
)(("mmap", ctypes.CDLL(None)))
unmap = ctypes.CFUNCTYPE(c_int, c_void_p, c_size_t)(("munmap", ctypes.CDLL(None)))


def mapped(file: BinaryIO) -> Any:
    """The bytes of the file, mapped into memory if it has a size. Unlike mmap.mmap, the map keeps
    no descriptor open.
    """
    size = os.fstat(file.fileno()).st_size
    if size == 0:
        return file.read()
    at = map_file(None, size, mmap.PROT_READ, mmap.MAP_SHARED, file.fileno(), 0)
    if at is None or at == c_void_p(-1).value:
        raise OSError(ctypes.get_errno(), os.strerror(ctypes.get_errno()), file.name)
    data = (c_uint8 * size).from_address(at)
    weakref.finalize(data, unmap, at, size).atexit = False
    return data


#: What names an open file of a process, which is written to and not replaced.
OPEN_FILES = "/dev/fd/", "/dev/std", "/proc/"


def replace(path: Path, *parts: Any) -> None:
    """Writes the parts to a file. It is replaced at once, by a new one in the same folder that has
    its permissions, and a failure leaves it as it was. A link stays, and the file that it leads to
    is replaced. A device, a pipe and a file that is open at /dev/fd are written in place.
    """
    name, mode = os.fsdecode(path), None
    try:
        old = os.open(name, os.O_WRONLY | os.O_APPEND)
    except FileNotFoundError:
        if os.path.islink(name):
            raise
    else:
        with open(old, "wb") as file:
            mode = os.fstat(old).st_mode
            if not stat.S_ISREG(mode) or name.startswith(OPEN_FILES):
                file.writelines(parts)
                return
    replace_file(name, mode, parts)


def replace_file(name: str, mode: Optional[int], parts: tuple[Any, ...]) -> None:
    """Replaces the file of this mode, or makes one with the usual mode."""
    target = os.path.realpath(name)
    beside = os.path.join(os.path.dirname(target), f".zerotrie-{secrets.token_hex(8)}")
    # nobody else may open it before it has its mode
    first = 0o666 if mode is None else 0o600
    try:
        with open(beside, "xb", opener=lambda new, flags: os.open(new, flags, first)) as file:
            if mode is not None:
                os.fchmod(file.fileno(), mode & 0o777)
            file.writelines(parts)
            file.flush()
            os.fsync(file.fileno())
        os.replace(beside, target)
    except BaseException as error:
        if os.path.exists(beside):
            os.unlink(beside)
        if isinstance(error, OSError) and error.filename == beside:
            error.filename = name
        raise


class Buffer(Structure):
    """The front of CPython's Py_buffer."""

    buf: Optional[int]
    obj: Any
    len: int
    rest: Any
    _fields_ = [
        ("buf", c_void_p), ("obj", py_object), ("len", ctypes.c_ssize_t), ("rest", c_uint8 * 64)]


def in_place(view: memoryview) -> tuple[memoryview, int]:
    """A read-only view that keeps the bytes in place, and where they are."""
    if len(view) == 0:
        return view.toreadonly(), NOTHING
    if get_buffer is not None:
        got = Buffer()
        get_buffer(view, got, 0)
        at = got.buf
        release_buffer(got)
        return view.toreadonly(), at or NOTHING
    # an interpreter that tells the place only of bytes that can be written: others are copied
    room: Any = c_uint8 * len(view)
    data = room.from_buffer_copy(view) if view.readonly else room.from_buffer(view)
    return memoryview(data).cast("B").toreadonly(), addressof(data)


get_buffer: Any = None
release_buffer: Any = None
if hasattr(ctypes, "pythonapi"):
    # functions of their own, as all modules of a process share what ctypes.pythonapi has
    get_buffer = ctypes.PYFUNCTYPE(c_int, py_object, POINTER(Buffer), c_int)(
        ("PyObject_GetBuffer", ctypes.pythonapi))
    release_buffer = ctypes.PYFUNCTYPE(None, POINTER(Buffer))(
        ("PyBuffer_Release", ctypes.pythonapi))
