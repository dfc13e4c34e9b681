"""Indexes: their pairs, their sealed files, and bytes that are none."""

import copy
import pickle
import random

import pytest
from helpers import larger, some, refused, told, word
from zerotrie import Index, StrTrie, ZeroTrieError


def checksum(data):
    """CRC-32C, as the format has it."""
    number = 0xFFFFFFFF
    for byte in data:
        number ^= byte
        for _ in range(8):
            number = number >> 1 ^ (0x82F63B78 if number & 1 else 0)
    return number ^ 0xFFFFFFFF


def as_a_whole(index):
    """The sealed file of an index as earlier versions wrote it, by docs/FORMAT.md."""
    front = b"ztri\x89\x8a\r\n\1\0\x18\0" + len(index).to_bytes(8, "little")
    return front + checksum(front + index).to_bytes(4, "little") + index


def in_blocks(index):
    """The sealed file of an index in blocks."""
    sums = (checksum(index[at : at + 65536]).to_bytes(4, "little") for at in range(0, len(index), 65536))
    table = len(index).to_bytes(8, "little") + b"".join(sums)
    front = b"ztri\x89\x8a\r\n\1\0\x19\0" + len(table).to_bytes(8, "little")
    return front + checksum(front + table).to_bytes(4, "little") + table + index


def test_beside_dicts():
    for seed in range(60):
        pairs = {word(9): n for n in range(random.randrange(300))}
        index = Index.build(pairs, seed)
        assert all(index[key] == value == index.get(key.encode()) for key, value in pairs.items())
        for key in (word(9) for _ in range(100)):
            assert index.get(key) == pairs.get(key) and (key in index) == (key in pairs)
        some = [word(9) for _ in range(100)] + list(pairs)
        assert list(index.get_many(some, 7)) == [pairs.get(key, 7) for key in some]
        shared = Index(memoryview(bytes(index)))
        assert shared == index == pickle.loads(pickle.dumps(index)) == copy.deepcopy(index)
        assert hash(shared) == hash(index) and repr(index).startswith("<Index {")
        assert index == {key.encode(): value for key, value in pairs.items()}


def test_large():
    large = Index.build((str(n), n * n) for n in range(50000))
    assert all(large[str(n)] == n * n for n in range(0, 50000, 7)) and large.get("x", 5) == 5
    twice = refused(ZeroTrieError, Index.build, [("a", 1), ("b", 2), ("a", 3)])
    assert (twice.status, twice.key, twice.index, twice.other) == (6, "a", 0, 2)
    assert refused(KeyError, large.__getitem__, "x").args == ("x",)
    assert str(refused(ZeroTrieError, Index, b"no index")) == "the bytes are no index"
    refused(TypeError, large.get, 5)
    refused(TypeError, large.__init__, bytes(large))
    refused(OverflowError, Index.build, {"a": -1})
    refused(OverflowError, Index.build, {"a": 1}, 1 << 64)


@pytest.mark.parametrize("size", (0, 1, 2, 40, 3000))
def test_bytes(size):
    """An index as bytes: its pairs, and its sealed file."""
    pairs = {random.randbytes(random.choice((0, 3, 31, 32, 40, 5000 if size < 50
                                             else 9))): random.randrange(1 << 64) for _ in range(size)}
    made = Index.build(pairs, seed=size)
    assert dict(made) == pairs and bool(made) is bool(pairs)
    file = made.seal()
    assert file == in_blocks(bytes(made)), size
    for file in (file, as_a_whole(bytes(made))):
        opened = Index(file)
        assert opened == Index(file, check=True) == made and bytes(opened) == bytes(made)
        assert opened.seal() == made.seal()
        for at in random.sample(range(8, len(file)), 12):
            changed = bytearray(file)
            changed[at] ^= 1 << random.randrange(8)
            assert told(ZeroTrieError, lambda: Index(changed)).status == (19 if at in (8, 9) else 18)
        for cut in (file[:-1], file[:10], file + b"?"):
            assert told(ZeroTrieError, lambda: Index(cut), "the sealed file is damaged").status == 18
    # bytes that are no index: a listing ends
    noise = bytearray(bytes(made))
    noise[8:] = random.randbytes(len(noise) - 8)
    noise[10:16] = bytes(6)
    assert len(Index(noise, check=False)) <= len(noise)


def test_endless():
    """A length that does not end, in a file whose checksum is right."""
    endless = Index(Index(bytes(24) + b"\xff" * (1 << 22), check=False).seal())
    assert len(endless) == 0 and list(endless.items()) == [] and not endless
    assert repr(endless).startswith("<Index {},")


def test_files(tmp_path):
    path, trie, big_index = tmp_path / "a file", some()[0], larger()[1]
    # both forms of the file of an index, and neither is one of a trie
    for file in (in_blocks(bytes(big_index)), as_a_whole(bytes(big_index))):
        path.write_bytes(file)
        assert Index.open(path) == Index.open(path, check=True) == big_index
        told(ZeroTrieError, lambda: StrTrie.open(path), "a file: this is the file of an index, and not of a trie")
        path.write_bytes(file[:-1])
        told(ZeroTrieError, lambda: Index.open(path), "a file: the sealed file is damaged")
    path.write_bytes(trie.seal()[:-1])
    told(ZeroTrieError, lambda: Index.open(path), "a file: the sealed file is damaged")
