"""The library that the package calls, and the functions in it."""

import doctest
import os
import pathlib
import unittest.mock

import zerotrie
from helpers import refused


def test_docstrings():
    for module in (zerotrie, zerotrie._diff, zerotrie._errors, zerotrie._pairs, zerotrie._reverse):
        assert doctest.testmod(module, extraglobs=vars(zerotrie), optionflags=doctest.ELLIPSIS).failed == 0


def test_others():
    """A library that is another one, or of another version."""
    with unittest.mock.patch.dict(os.environ, ZEROTRIE_SO="libc.so.6"):
        error = refused(ImportError, zerotrie._library.load)
    assert "libc.so.6 has no function zerotrie_version, so it is not version" in str(error)
    with unittest.mock.patch.object(zerotrie._library, "__version__", "1.20.3"):
        words = str(refused(ImportError, zerotrie._library.load))
        assert f"is version {zerotrie.__version__} of the library" in words and "this module needs 1.20.3" in words, words


def test_named():
    """The library is the one that ZEROTRIE_SO names, for the extension too: another copy of it would come beside."""
    if os.environ.get("ZEROTRIE_SO"):
        used = {line.split(maxsplit=5)[5] for line in pathlib.Path("/proc/self/maps").read_text().splitlines()
                if "libzerotrie" in line}
        assert used == {os.path.realpath(os.environ["ZEROTRIE_SO"])}, used


def test_lock():
    """What takes long lets other threads run, and what is short does not, so that a cursor is whole whenever another thread looks at it."""
    for name in zerotrie._library._DECLARED:
        keeps = name in zerotrie._library.SHORT
        assert bool(getattr(zerotrie.lib, name)._flags_ & 4) == keeps, name
