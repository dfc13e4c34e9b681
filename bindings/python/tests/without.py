"""Calls the package where ctypes has neither PyDLL nor pythonapi, as in PyPy. Elsewhere they are
taken away first, and the extension too."""

import array
import ctypes
import doctest
import gc
import mmap
import pathlib
import pickle
import sys
import tempfile

if sys.implementation.name == "cpython":
    del ctypes.PyDLL, ctypes.pythonapi
    sys.modules["zerotrie._fast"] = None
sys.path.insert(0, str(pathlib.Path(__file__).resolve().parent.parent))
import zerotrie  # noqa: E402
from zerotrie import StrTrie, ZeroTrie, ZeroTrieError, build  # noqa: E402

assert zerotrie._memory.get_buffer is None
assert doctest.testmod(zerotrie, optionflags=doctest.ELLIPSIS).failed == 0
pairs = {f"key{number * 7919 % 10007}": number for number in range(2000)}
data = build(pairs)
inside = memoryview(bytearray(b"?" + data))[1:]
for given in (data, bytearray(data), memoryview(data), inside, array.array("B", data)):
    trie = StrTrie(given)
    assert trie == pairs == dict(trie.items()) and bytes(trie) == data
    assert list(trie.get_many(pairs)) == list(pairs.values())
    fronts = [key for key in ("key1", "key12", "key123", "key1234") if key in pairs]
    assert trie.prefixes("key1234") == [(key, pairs[key]) for key in fronts]
    cursor = trie.with_prefix("key")
    assert cursor and cursor.copy().step(ord("1")) == ord("1")
    assert pickle.loads(pickle.dumps(trie)) == trie
try:
    build([(f"key{number}", number) for number in range(600)] + [("key1", 0)])
except ZeroTrieError as error:
    assert (error.key, error.index, error.other) == ("key1", 1, 600)
with tempfile.TemporaryDirectory() as room:
    path = pathlib.Path(room, "trie")
    trie.save(path)
    with StrTrie.open(path) as opened, open(path, "rb") as file:
        assert opened == trie == StrTrie(mmap.mmap(file.fileno(), 0, access=mmap.ACCESS_READ))
    try:
        opened["key1"]
    except ValueError as error:
        assert str(error) == "the trie is closed"
    # the map goes when nothing uses it
    del opened
    for _ in range(3):
        gc.collect()
    assert str(path) not in pathlib.Path("/proc/self/maps").read_text()
lent = bytearray(build({"a": 1}))
trie = ZeroTrie(lent)
assert (trie["a"], "b" in trie) == (1, False)
print("python:", sys.implementation.name, "without PyDLL and pythonapi ok")
