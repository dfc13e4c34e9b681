"""Files of tries: saved, opened, replaced and damaged."""

import copy
import errno
import mmap
import os
import pathlib
import pickle
import stat
import tempfile
import unittest.mock

import pytest
from helpers import larger, refused, some, told, word
from zerotrie import DenseTable, Index, Kind, SIMPLE_ASCII, StrTrie, ZeroTrie, ZeroTrieError


def descriptors():
    return len(os.listdir("/proc/self/fd"))


def by_nobody(call, path):
    """Why a call with a path fails in a process that may do nothing which others may not; 0: it does not fail."""
    child = os.fork()
    if child == 0:
        why = 255
        try:
            if os.geteuid() == 0:
                os.setgroups([]), os.setresgid(*[65534] * 3), os.setresuid(*[65534] * 3)
            call(path)
            why = 0
        except OSError as error:
            why = error.errno if error.filename == path else 254
        finally:
            os._exit(why)
    return os.waitstatus_to_exitcode(os.waitpid(child, 0)[1])


def maps(path):
    return path in pathlib.Path("/proc/self/maps").read_text()


@pytest.fixture
def place():
    """A folder that is open to everybody."""
    with tempfile.TemporaryDirectory() as room:
        os.chmod(room, 0o777)
        yield room


def test_saved(trie, tmp_path):
    room = str(tmp_path)
    path = os.path.join(room, "tagged")
    for saved in (trie, ZeroTrie(bytes(trie)[1:], SIMPLE_ASCII), ZeroTrie(bytearray(bytes(trie)))):
        for tagged, file in ((False, trie.seal()), (True, bytes(trie))):
            assert saved.save(path, tagged) is None and pathlib.Path(path).read_bytes() == file
            assert bytes(ZeroTrie.open(path)) == bytes(trie) and os.listdir(room) == ["tagged"]


def test_mapped(trie, tmp_path):
    """A file that is open is a map of it, and takes no descriptor."""
    path = str(tmp_path / "trie")
    trie.save(path)
    before, opened = descriptors(), [ZeroTrie.open(pathlib.Path(path)) for _ in range(50)]
    assert descriptors() == before and dict(opened[0]) == dict(trie) and maps(path)
    # a cursor keeps the map, and so does nothing else
    cursor = opened[0].cursor()
    for each in opened:
        with each as same:
            assert same is each and each["foo"] == 1
    assert maps(path) and cursor.step(ord("f")) == ord("f")
    del cursor
    assert not maps(path)


def test_closed(trie, tmp_path):
    """A closed trie says so, and stays closed."""
    path = str(tmp_path / "trie")
    trie.save(path)
    closed = ZeroTrie.open(path)
    closed.close()
    for call in (
        lambda: closed["foo"], lambda: closed.get("foo"), lambda: "foo" in closed, lambda: closed.longest_prefix("foo"),
        lambda: closed.prefixes("foo"), lambda: closed.get_many(["foo"]), lambda: list(closed),
        lambda: closed.keys("f") & {"foo"}, closed.cursor, lambda: bytes(closed), lambda: bool(closed),
        lambda: closed.save(path), lambda: closed.kind, lambda: closed == trie, lambda: closed.untagged,
        lambda: list(closed.glob("*")), closed.is_well_formed, closed.seal
    ):
        assert str(refused(ValueError, call)) == "the trie is closed"
    assert closed.close() is None and repr(closed) == "<closed ZeroTrie>"
    refused(TypeError, closed.__init__, bytes(trie))


def test_replaced(trie, tmp_path):
    """What is open stays as it was when the file is replaced, and a failure leaves the file and nothing else."""
    room, path = str(tmp_path), str(tmp_path / "tagged")
    trie.save(path)
    old = ZeroTrie.open(path)
    os.symlink("tagged", os.path.join(room, "link"))
    os.chmod(path, 0o640)
    ZeroTrie.build({"new": 9}).save(os.path.join(room, "link"))
    assert os.stat(path).st_mode & 0o777 == 0o640
    assert old == {b"foo": 1, b"bar": 2} and ZeroTrie.open(path) == {b"new": 9}
    assert os.path.islink(os.path.join(room, "link"))
    with unittest.mock.patch.object(os, "replace", side_effect=OSError("full")):
        assert refused(OSError, trie.save, path).args == ("full",)
    assert ZeroTrie.open(path) == {b"new": 9} and sorted(os.listdir(room)) == ["link", "tagged"]
    refused(FileNotFoundError, trie.save, os.path.join(room, "no such folder", "tagged"))
    refused(IsADirectoryError, trie.save, room)
    assert sorted(os.listdir(room)) == ["link", "tagged"]
    assert not [name for name in os.listdir(os.path.dirname(room)) if name.startswith(".zerotrie")]


def test_modes(trie, place):
    """A file that is there keeps its mode, and no set-id bit, and a new one has the usual mode."""
    own, mask = os.path.join(place, "own"), os.umask(0o027)
    trie.save(own)
    os.umask(mask)
    assert os.stat(own).st_mode == stat.S_IFREG | 0o640
    for mode in (0o600, 0o400, 0o644, 0o666, 0o6755):
        os.chmod(own, mode)
        if mode & 0o200:
            StrTrie.build({"a": mode}).save(own)
            assert os.stat(own).st_mode == stat.S_IFREG | mode & 0o777
            assert StrTrie.open(own) == {"a": mode}
    # one that may not be written stays, and a link that leads nowhere
    os.chmod(own, 0o444)
    assert by_nobody(trie.save, own) == errno.EACCES and StrTrie.open(own) == {"a": 0o6755}
    os.unlink(own), os.symlink("nowhere", own)
    assert refused(FileNotFoundError, trie.save, own).filename == own and os.listdir(place) == ["own"]
    os.unlink(own)


def test_written_in_place(trie, place):
    """A pipe, a device and what is open are written in place."""
    own = os.path.join(place, "own")
    os.mkfifo(own)
    end = os.open(own, os.O_RDONLY | os.O_NONBLOCK)
    trie.save(own)
    assert os.read(end, 1 << 16) == trie.seal() and stat.S_ISFIFO(os.stat(own).st_mode)
    os.close(end)
    with tempfile.TemporaryFile() as opened:
        opened.write(b"front")
        opened.flush()
        trie.save(f"/dev/fd/{opened.fileno()}", tagged=True)
        opened.seek(0)
        assert opened.read() == b"front" + bytes(trie)
    assert by_nobody(trie.save, "/dev/null") == 0 and stat.S_ISCHR(os.stat("/dev/null").st_mode)
    assert by_nobody(trie.save, "/dev/full") in (errno.ENOSPC, 254) and os.listdir(place) == ["own"]


def test_no_trie(tmp_path):
    """A file with no trie, and none: the error names it."""
    path = str(tmp_path / "file")
    for wrong, at in ((b"", None), (b"\1", None), (b"\0into", 4)):
        pathlib.Path(path).write_bytes(wrong)
        for name in (path, os.fsencode(path), pathlib.Path(path)):
            error = refused(ZeroTrieError, ZeroTrie.open, name)
            assert (error.path, error.at) == (name, at) and str(error).startswith(path + ": "), error
            assert str(pickle.loads(pickle.dumps(error))) == str(error)
    refused(FileNotFoundError, ZeroTrie.open, path + "?")


def test_pipe(trie):
    pipe = os.pipe()
    os.write(pipe[1], bytes(trie))
    os.close(pipe[1])
    assert ZeroTrie.open(f"/dev/fd/{pipe[0]}") == trie


def test_bare(trie, tmp_path):
    path = str(tmp_path / "bare")
    pathlib.Path(path).write_bytes(bytes(trie)[1:])
    assert ZeroTrie.open(path, SIMPLE_ASCII)["foo"] == 1
    with open(path, "r+b") as file:
        assert ZeroTrie(mmap.mmap(file.fileno(), 0), SIMPLE_ASCII)["foo"] == 1


def sealed(kind=Kind.EXTENDED_CAPACITY):
    """A trie and its sealed file."""
    trie = ZeroTrie.build({word(6): n for n in range(100)}, kind)
    return trie, trie.seal()


@pytest.mark.parametrize("kind", Kind)
def test_damaged(kind):
    """Sealed files know when they are damaged."""
    trie, file = sealed(kind)
    opened = ZeroTrie(file)
    assert opened == trie and opened.kind == kind and bytes(opened) == bytes(trie)
    assert ZeroTrie(bytearray(file), check=True) == trie == pickle.loads(pickle.dumps(opened))
    assert opened.untagged == trie.untagged == file[24:] and copy.copy(opened).seal() == file
    for bit in range(8 * min(len(file), 200)):
        damaged = bytearray(file)
        damaged[bit // 8] ^= 1 << bit % 8
        refused(ZeroTrieError, ZeroTrie, damaged)
    for size in range(8, len(file)):
        assert refused(ZeroTrieError, ZeroTrie, file[:size]).status == 18
    assert refused(ZeroTrieError, ZeroTrie, file + b"?").status == 18
    assert refused(ZeroTrieError, ZeroTrie, file[:8] + b"\2" + file[9:]).status == 19


def test_sealed_or_tagged(tmp_path):
    """open() takes both sorts of files, and the bytes of a sealed one are validated only if one wants it."""
    (trie, file), room = sealed(), str(tmp_path)
    for tagged in (False, True):
        path = os.path.join(room, str(tagged))
        trie.save(path, tagged=tagged)
        assert pathlib.Path(path).read_bytes() == (bytes(trie) if tagged else file)
        with ZeroTrie.open(path) as again:
            assert again == trie
    pathlib.Path(path).write_bytes(file[:-1])
    assert refused(ZeroTrieError, ZeroTrie.open, path).path == path
    pathlib.Path(path).write_bytes(ZeroTrie(b"into", SIMPLE_ASCII, check=False).seal())
    assert ZeroTrie.open(path).get("into") is None
    assert refused(ZeroTrieError, ZeroTrie.open, path, check=True).at == 4


def test_of_each_type(tmp_path):
    """A trie, an index and a table: each opens its own files alone."""
    room, path = str(tmp_path), tmp_path / "a file"
    (trie, index, table), big_index = some(), larger()[1]
    large = ZeroTrie.build({"low": 0, "half": (1 << 63) - 1, "high": 1 << 63, "top": (1 << 64) - 1})
    for made in (trie, index, table, large, big_index):
        made.save(path)
        opened = type(made).open(path)
        assert opened == made and bytes(opened) == bytes(made)
        del opened
    path.write_bytes(bytes(index))
    assert Index.open(path) == index and os.listdir(room) == ["a file"]
    index.save(path)
    error = told(ZeroTrieError, lambda: StrTrie.open(path),
                 "a file: this is the file of an index, and not of a trie")
    assert (error.status, error.path) == (18, path)
    path.write_bytes(index.seal()[:-1])
    told(ZeroTrieError, lambda: StrTrie.open(path), "a file: the sealed file is damaged")
    error = told(ZeroTrieError, lambda: DenseTable.open(path),
                 "a file: this is no file of a dense table: the record is cut")
    assert (error.status, error.path) == (16, path)
    trie.save(path)
    error = told(ZeroTrieError, lambda: Index.open(path), "a file: this is the file of a trie, and not of an index")
    assert (error.status, error.path) == (18, path)


def test_of_no_type(tmp_path):
    path = tmp_path / "a file"
    path.write_bytes(b"")
    assert told(ZeroTrieError, lambda: StrTrie.open(path),
                "a file: this is no file of a trie: it is empty").status == 13
    path.write_bytes(b"#include <stdio.h>")
    error = told(ZeroTrieError, lambda: StrTrie.open(path),
                 "this is no file of a trie: it is neither sealed nor tagged bytes")
    assert (error.status, error.path) == (14, path)
    error = told(ZeroTrieError, lambda: Index.open(path), "a file: this is no file of an index: it has neither")
    assert error.path == path


def test_missing(tmp_path):
    room, (trie, index, table) = str(tmp_path), some()
    for made in (trie, index, table):
        error = told(FileNotFoundError, lambda: made.save(room + "/no/such"))
        assert error.filename == room + "/no/such"
        told(FileNotFoundError, lambda: type(made).open(room + "/no"))


def test_of_rows():
    told(TypeError, lambda: DenseTable.build({"a": 1}), "the row of 'a' has to be a mapping, not int")
    told(TypeError, lambda: DenseTable.build(["a"]), "a table of rows has to be a mapping, not list")
