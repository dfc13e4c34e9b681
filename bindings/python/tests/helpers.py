"""What tests of several subjects call."""

import random
import threading
import tracemalloc

import pytest
from zerotrie import DenseTable, Index, StrTrie


def refused(kind, call, *arguments, **named):
    """The error that a call raises."""
    return pytest.raises(kind, call, *arguments, **named).value


def told(kind, call, *words):
    """The error of exactly this type that a call raises, whose text has these words."""
    error = refused(kind, call)
    assert type(error) is kind and all(word in str(error) for word in words), repr(error)
    return error


def peak(call, *arguments):
    """How many bytes of memory the call takes at most."""
    tracemalloc.start()
    call(*arguments)
    most = tracemalloc.get_traced_memory()[1]
    tracemalloc.stop()
    return most


def word(most, letters="abcdefgh"):
    return "".join(random.choice(letters) for _ in range(random.randrange(most)))


def together(call, count=4):
    """What the call returns in each of some threads at once."""
    found = []
    running = [threading.Thread(target=lambda: found.append(call())) for _ in range(count)]
    for thread in running:
        thread.start()
    for thread in running:
        thread.join()
    assert len(found) == count
    return found


class Meddling:
    """A number and, from Python 3.12 on, a key, which runs code when it is asked what it is."""

    def __init__(self, meddle, is_):
        self.meddle, self.is_ = meddle, is_

    def __index__(self):
        self.meddle()
        return self.is_

    def __buffer__(self, flags):
        self.meddle()
        return memoryview(self.is_)


class Text(str):
    """Text that says of itself what is wrong, and would have a library read beyond its end."""

    def encode(self, *_):
        return Long(b"bar")

    def __len__(self):
        return 1 << 30


class Long(bytes):
    def __len__(self):
        return 1 << 30


def some():
    """A trie, an index and a table."""
    trie = StrTrie.build({"foo": 1, "bar": 2})
    return trie, Index.build(trie), DenseTable.build({"de": {"AT": 8, "CH": 9}, "en": {"US": 5, "": 6}})


def larger():
    """A trie of 30,000 keys, and its index."""
    trie = StrTrie.build({f"{number * 7919 % 100003:06}": number for number in range(30000)})
    return trie, Index.build(trie)
