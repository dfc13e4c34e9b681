"""What is packed: the package, its types and the library, the extension if it compiles, and what the summary says of the library."""

import contextlib
import hashlib
import io
import os
import shutil
import sys
import tarfile
import unittest.mock
import zipfile

import packed
import pytest
import zerotrie

LABEL = packed.name()
SUMMARY = "\nSummary: Maps from byte strings to numbers, read from flat bytes, by a library {}\n"
PLAIN, UNKNOWN = "of plain Rust, made from proved sources and itself not proved", "of which it is not known whether it is proved"
LIBRARY, ANOTHER = (hashlib.sha256(data).hexdigest() for data in (b"library", b"another library"))


@pytest.fixture
def here(tmp_path, monkeypatch):
    """A copy of the sources of the package, with a library that is text."""
    top = packed.HERE.parent.parent
    here = tmp_path / "bindings/python"
    shutil.copytree(packed.HERE, here)
    shutil.copytree(top / "bindings/c", tmp_path / "bindings/c")
    shutil.copytree(top / "docs", tmp_path / "docs", ignore=shutil.ignore_patterns("[!P]*"))
    for name in ("VERSION", "LICENSE"):
        shutil.copy(top / name, tmp_path)
    (here / "zerotrie/libzerotrie.so").write_bytes(b"library")
    # rust/testing/sdist.py tries the sources in plain Rust, which are not in this copy
    monkeypatch.setattr(packed, "HERE", here)
    monkeypatch.setattr(packed, "sources", dict)
    return here


def files():
    """What is packed in any case."""
    modules = {f"zerotrie/{path.name}" for path in packed.HERE.glob("zerotrie/*.py")}
    origin = {"zerotrie/ORIGIN"} if packed.ready()[1] else set()
    return {"zerotrie/libzerotrie.so", "zerotrie/py.typed", "zerotrie/_version.py", *modules, *origin}


def test_sdist(here, tmp_path):
    assert LABEL == f"zerotrie-{zerotrie.__version__}" and len(files()) >= 9
    with tarfile.open(tmp_path / packed.build_sdist(tmp_path)) as sdist:
        names = {*files(), "zerotrie/_fast.c", "zerotrie.h", "packed.py", "pyproject.toml", "README.md",
                 "LICENSE", "PYTHON.md", "VERSION"}
        assert {f"{LABEL}/{name}" for name in names} <= set(sdist.getnames())


def test_wheels(here, tmp_path):
    """A wheel with the extension serves CPython from 3.9 on, and one without any Python. An editable install is the way to the folder."""
    for build_it, compiler, tag, want in (
        (packed.build_wheel, "cc", "cp39-abi3", {*files(), "zerotrie/_fast.abi3.so"}),
        (packed.build_wheel, "true", "py3-none", files()),
        (packed.build_wheel, "false", "py3-none", files()),
        (packed.build_wheel, "no-such-compiler", "py3-none", files()),
        (packed.build_editable, "cc", "py3-none", {"zerotrie.pth"}),
    ):
        if tag == "cp39-abi3" and not zerotrie.accelerated:
            continue
        said = io.StringIO()
        with unittest.mock.patch.dict(os.environ, CC=compiler, CFLAGS=""), contextlib.redirect_stderr(said):
            wheel = build_it(tmp_path)
        assert wheel.startswith(f"{LABEL}-{tag}-")
        assert ("python3-dev" in said.getvalue()) == (compiler != "cc"), said.getvalue()
        # the extension asks for symbols that each glibc from 2014 on has. Rust's std does not
        if tag == "cp39-abi3" and sys.platform == "linux" and "ZEROTRIE_STD" not in os.environ:
            assert "manylinux2014" in wheel, wheel
        with zipfile.ZipFile(tmp_path / wheel) as opened:
            assert {name for name in opened.namelist() if not name.startswith(LABEL)} == want
            told = {name: opened.read(f"{LABEL}.dist-info/{name}").decode() for name in ("METADATA", "WHEEL")}
            assert "\nSummary: Maps from" in told["METADATA"]
            assert "\nLicense: Unicode-3.0\n" in told["METADATA"]
            # the long description has the page of all calls, and no link to what is not there
            assert all(f"\n### {name}\n" in told["METADATA"]
                       for name in ("Install", "`DenseTable`", "Building"))
            assert "](https:" in told["METADATA"]
            assert told["METADATA"].count("](") == told["METADATA"].count("](https:")
            assert f"\nTag: {tag}-" in told["WHEEL"]


def about(build_it, room, **patches):
    """What a wheel or an sdist says that its library is, and its file ORIGIN."""
    with unittest.mock.patch.multiple(packed, sources=dict, **patches), contextlib.redirect_stderr(io.StringIO()):
        made = room / build_it(room)
    if made.suffix == ".whl":
        with zipfile.ZipFile(made) as opened:
            files = {name: opened.read(name) for name in opened.namelist()}
    else:
        with tarfile.open(made) as opened:
            files = {one.name.partition("/")[2]: opened.extractfile(one).read() for one in opened}
    said = files.get("PKG-INFO") or files[f"{LABEL}.dist-info/METADATA"]
    assert said.count(b"\nSummary: ") == 1
    return said.decode(), files.get("zerotrie/ORIGIN", b"").decode()


@pytest.mark.parametrize("text, of", (
    (f"proved\n{ANOTHER}  libzerotrie.a\n{LIBRARY}  libzerotrie.so.0\n", "that is proved"),
    (f"plain Rust\n{LIBRARY}  libzerotrie.so.0\n", PLAIN),
    (f"not known\n{LIBRARY}  libzerotrie.so.0\n", UNKNOWN),
    # another library was put there, and nothing is said, or nothing that makes sense
    (f"proved\n{ANOTHER}  libzerotrie.so.0\n", UNKNOWN),
    ("proved\n", UNKNOWN),
    ("\udcff", UNKNOWN),
    ("", UNKNOWN),
    (None, UNKNOWN),
), ids="proved plain unknown another no-sum no-text empty missing".split())
@pytest.mark.parametrize("of_package", (True, False))
def test_summary(here, tmp_path, monkeypatch, text, of, of_package):
    """The summary says that the library is proved only if that is said of this very library."""
    folder = here / "zerotrie" if of_package else tmp_path / "lib"
    for path in (here / "zerotrie/ORIGIN", here / "zerotrie/libzerotrie.so"):
        path.unlink(missing_ok=True)
    folder.mkdir(exist_ok=True)
    (folder / "libzerotrie.so").write_bytes(b"library")
    if text is not None:
        (folder / "ORIGIN").write_bytes(text.encode(errors="surrogateescape"))
    monkeypatch.setenv("CC", "false")
    monkeypatch.setenv("ZEROTRIE_LIB", str(tmp_path / "lib"))
    for build_it in (packed.build_wheel, packed.build_sdist):
        said, follows = about(build_it, tmp_path, serves=lambda library: True)
        assert SUMMARY.format(of) in said, (text, said)
        assert ("proved\n" in follows) == (of == "that is proved"), follows
        assert not follows or follows.endswith(f"\n{LIBRARY}  libzerotrie.so\n")
    # an editable package is the way to a folder, to which any library may come
    assert SUMMARY.format(UNKNOWN) in about(packed.build_editable, tmp_path)[0]


def test_without_library(here, tmp_path, monkeypatch):
    """Without a library cargo builds one, here and where the sdist is installed."""
    for path in (here / "zerotrie/ORIGIN", here / "zerotrie/libzerotrie.so"):
        path.unlink(missing_ok=True)
    monkeypatch.setenv("CC", "false")
    monkeypatch.setenv("ZEROTRIE_LIB", str(tmp_path / "lib"))
    said, follows = about(packed.build_wheel, tmp_path, built=lambda: b"library")
    assert SUMMARY.format(PLAIN) in said and follows == f"plain Rust\n{LIBRARY}  libzerotrie.so\n"
    assert SUMMARY.format(PLAIN) in about(packed.build_sdist, tmp_path)[0]
