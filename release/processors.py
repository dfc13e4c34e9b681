"""Runs the program and the library of a release on the oldest x86-64, and what it has for ARM, which qemu-user plays: the libraries, the
wheel, and the program, beside the proved one. Arguments: the folder of the release, one to work in, and a Debian for ARM."""

import glob
import pathlib
import re
import subprocess
import sys

dist, room, debian = (pathlib.Path(it).resolve() for it in sys.argv[1:])
program, of_arm = (next(path for path in dist.glob(f"zerotrie-*-linux-{it}") if path.is_file()) for it in ("x86_64", "aarch64"))
oldest = ["qemu-x86_64", "-cpu", "qemu64"]
arm = ["qemu-aarch64", "-L", "/usr/aarch64-linux-gnu"]
release = pathlib.Path(__file__).resolve().parent


def run(*command, given=None):
    return subprocess.run([str(word) for word in command], input=given, capture_output=True, text=True, check=True).stdout


def tried(name, what):
    try:
        what()
        print(f"ok: {name}")
    except Exception as error:  # one more line that failed
        print(f"failed: {name}: {error} {getattr(error, 'stdout', '')} {getattr(error, 'stderr', '')}")


def by_program(player, program):
    lines = "".join(f"{number:x}\t{number}\n" for number in range(20000))
    run(*player, program, "build", "-", "-o", room / "numbers.trie", given=lines)
    assert run(*player, program, "list", room / "numbers.trie").count("\n") == 20000
    assert run(*player, program, "get", room / "numbers.trie", "abc") == "2748\n"


def says_what_it_is():
    """The program for ARM is plain Rust, of the sources that the release has."""
    commit = re.search(r"^commit: (\w{12})", (dist / "ORIGIN").read_text(), re.M)[1]
    said = run(*arm, of_arm, "--version")
    assert said.splitlines()[1:] == [f"plain Rust, made from the proved sources of commit {commit}"], said


def beside_the_proved_one():
    """The same generated commands by both programs."""
    player = room / "zerotrie-by-qemu"
    player.write_text(f'#!/bin/sh\nexec qemu-aarch64 {of_arm} "$@"\n')
    player.chmod(0o755)
    run(release.parent / "rust/testing/program.py", program, player, "500")


def unpacked(processor):
    run("tar", "-xzf", glob.glob(f"{dist}/*-{processor}.tar.gz")[0], "-C", room)
    return next(path for path in room.glob(f"zerotrie-*-{processor}") if path.is_dir())


def by_library(processor, compiler, player, library):
    """The library's tests in C, linked with a library of an archive."""
    folder = unpacked(processor)
    tests = sorted((release.parent / "bindings/c/tests").glob("test_*.c"))
    run(*compiler, "-std=c11", "-O2", f"-I{folder}/include", *tests, folder / "lib" / library, f"-Wl,-rpath,{folder}/lib", "-o", room / "test")
    run(*player, room / "test")


def by_pkg_config(folder):
    """What an archive says of itself names its own folders."""
    flags = run("env", f"PKG_CONFIG_PATH={folder}/lib/pkgconfig", "pkg-config", "--cflags", "--libs", "zerotrie").split()
    assert all(str(folder) in flag for flag in flags if flag[:2] in ("-I", "-L")) and "-lzerotrie" in flags, flags


def by_wheel():
    """README's program in Python, with the extension."""
    folder = room / "wheel"
    run("python3", "-m", "zipfile", "-e", glob.glob(f"{dist}/*_aarch64.whl")[0], folder)
    body = re.search(r"```python\n(.*?)```", (release / "README.md").read_text(), re.S)[1]
    python = next((debian / "usr/bin").glob("python3.*[0-9]"))
    said = run("qemu-aarch64", "-L", debian, "-E", f"PYTHONPATH={folder}", python, "-c", f"{body}import zerotrie\nassert zerotrie.accelerated\n")
    assert said.splitlines() == re.findall(r"print.*?# (.*)", body), said


tried("the program on the first x86-64", lambda: by_program(oldest, program))
tried("the program on ARM", lambda: by_program(arm, of_arm))
tried("the program on ARM says of which sources it is", says_what_it_is)
tried("the program on ARM does as the proved one", beside_the_proved_one)
for library in ("libzerotrie.a", "libzerotrie.so"):
    tried(f"{library} and its tests in C on the first x86-64", lambda: by_library("x86_64", ["cc"], oldest, library))
    tried(f"{library} and its tests in C on ARM", lambda: by_library("aarch64", ["aarch64-linux-gnu-gcc"], arm, library))
tried("the archive for ARM by pkg-config", lambda: by_pkg_config(unpacked("aarch64")))
if debian.exists():
    tried("the wheel in Debian's Python on ARM", by_wheel)
