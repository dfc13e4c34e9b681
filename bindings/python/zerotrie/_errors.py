"""The kinds of trie, and why something is invalid."""

from __future__ import annotations

import os
from enum import IntEnum
from typing import Any, Optional, TypeVar

Other = TypeVar("Other")


class Kind(IntEnum):
    """The kinds of trie, by the numbers that are the first of tagged bytes."""

    __module__ = "zerotrie"

    #: ASCII keys.
    SIMPLE_ASCII = 0
    #: Any bytes; a branch of 16 edges or more is a perfect hash.
    PERFECT_HASH = 3
    #: The same, and a branch may reach 2**32 bytes.
    EXTENDED_CAPACITY = 7
    #: ASCII keys, whose letters are found in either case.
    IGNORE_CASE = 8


DONE, NON_ASCII, MIXED_CASE, ILLEGAL_DELIMITER, DUPLICATE_KEY, UNSORTED = 0, 1, 4, 5, 6, 7
TOO_SMALL, NO_MEMORY, UNKNOWN_KIND, NO_TAG, INVALID_TAG, NO_ENTRY = 8, 11, 12, 13, 14, 15
DAMAGED, UNKNOWN_VERSION, SUM_TOO_LARGE, MALFORMED_TRIE = 18, 19, 25, 26

#: The texts of the statuses from 0 on, as zerotrie.h has them. The test compares them.
TEXTS = (
    "Done",
    "Non-ASCII cannot be added to an ASCII-only trie: take a kind of trie for keys of any bytes",
    "Reached maximum capacity of trie: take the kind of extended capacity, or fewer pairs or suffixes",
    "Failed to solve the perfect hash function. This is rare! Please report your case to the ICU4X team. For keys of random bytes, build an index, or write them in hex in a kind without hashed tables; else change a key",
    "Mixed-case data added to case-insensitive trie: lower-case the keys first",
    "Delimiter is contained in one or more strings: take a delimiter that is in none of them",
    "The same key was given twice: give each key once",
    "Keys are not in strictly ascending order: sort the keys by their bytes, each once",
    "Buffer too small: take a larger array",
    "Buffer too large: take an array of the size needed",
    "Need more stack: take a larger stack",
    "Out of memory: free memory, or build from fewer pairs",
    "the number is no kind of trie: take 0, 3, 7 or 8",
    "there are no bytes: give all of the tagged bytes",
    "these are the bytes of no trie: they are not sealed, and begin with the tag of no kind",
    "there is no such entry",
    "the record is cut: give all of its bytes",
    "bytes follow the record: give its bytes alone",
    "the sealed file is damaged: get it anew",
    "the sealed file has another version of the format: take a library that knows it",
    "no search, or no bound, has the number",
    "the pattern is malformed, or the word is not UTF-8",
    "a pattern has at most 63 items, and a word at most 63 letters",
    "too many keys share a bucket: build from another seed",
    "no selection, or no rule, has the number",
    "the sum of the values of a key is 2^64 or more",
    "the bytes of a trie are not valid: get them anew",
    "at most 254 edits are allowed, and with swaps at most 7",
)

#: The texts of the rules of the format, by their numbers from 1 on. The test compares them.
RULES = (
    "no whole node of this kind of trie begins here",
    "a span stands in a kind of trie that has none",
    "the bytes end where a key has to go on",
    "a value follows a value",
    "a span follows a span",
    "a span is empty",
    "a span has an ASCII byte",
    "the search table of a branch is not one of this kind of trie",
    "the offsets of a branch do not have the least width",
    "the offsets of a branch do not ascend within its targets",
)


def remade(cls: type[Other], base: Any, *arguments: Any) -> Other:
    """What copies and pickles make: an object of the class, set up by `base`, as a subclass may
    want other arguments.
    """
    made = cls.__new__(cls)
    base.__init__(made, *arguments)
    return made


def with_attributes(made: Other, of: Other) -> Other:
    """The object, with the other one's `__dict__`, if a subclass has one."""
    if hasattr(of, "__dict__"):
        made.__dict__.update(of.__dict__)
    return made


class ZeroTrieError(ValueError):
    """Why a build or bytes are invalid, as text that says what to do.

    >>> try:
    ...     build([("a", 1), ("b", 2), ("a", 3)])
    ... except ZeroTrieError as error:
    ...     error.key, error.index, error.other
    ('a', 0, 2)
    """

    __module__ = "zerotrie"

    #: The number that zerotrie.h has for it; None for malformed bytes.
    status: Optional[int]
    #: The key that is the cause, as it was given, and its place among the pairs, from 0.
    key: Any
    index: Optional[int]
    #: The place of the second key, if two keys are the cause.
    other: Optional[int]
    #: How many bytes precede the first place where malformed bytes break a rule of the format.
    at: Optional[int]
    #: The file, if open() was called.
    path: Any

    def __init__(self, text: str = "", status: Optional[int] = None, **places: Any) -> None:
        super().__init__(text)
        self.status = status
        self.key = places.get("key")
        self.index = places.get("index")
        self.other = places.get("other")
        self.at = places.get("at")
        self.path = places.get("path")

    def __str__(self) -> str:
        text = super().__str__()
        return text if self.path is None else f"{os.fsdecode(self.path)}: {text}"

    def __reduce__(self) -> tuple[Any, ...]:
        return remade, (type(self), ZeroTrieError, *self.args), self.__dict__


def error_of(status: int) -> ZeroTrieError:
    text = TEXTS[status] if 0 <= status < len(TEXTS) else f"unknown status {status}"
    return ZeroTrieError(text, status)


#: What is said of bytes that are no index.
NO_INDEX = "the bytes are no index"


def in_file(error: ZeroTrieError, path: Any) -> ZeroTrieError:
    """The error of a file that was opened as that of a trie or of an index."""
    causes = {NO_TAG: "it is empty", INVALID_TAG: "it is neither sealed nor tagged bytes"}
    if error.status in causes:
        error = ZeroTrieError(f"this is no file of a trie: {causes[error.status]}", error.status)
    elif str(error) == NO_INDEX:
        error = ZeroTrieError("this is no file of an index: it has neither a seal nor the bytes of one")
    error.path = path
    return error


def check_status(status: int) -> None:
    if status == NO_MEMORY:
        raise MemoryError
    if status != DONE:
        raise error_of(status)
