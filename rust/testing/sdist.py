"""Installs the sdist for Python where no ready library is for the platform, so that cargo builds one. Arguments: the top folder, and a
folder to work in.
"""
import os
import pathlib
import subprocess
import sys

TOP, ROOM = (pathlib.Path(it).resolve() for it in sys.argv[1:3])
PROGRAM = "from zerotrie import ZeroTrie; print(ZeroTrie.build({'foo': 1, 'bar': 2}).longest_prefix('barn'))"


def run(*command, **how):
    done = subprocess.run(command, stdout=subprocess.PIPE, stderr=subprocess.STDOUT, text=True, **how)
    if done.returncode:
        raise SystemExit(f"{' '.join(map(str, command))}\n{done.stdout}")
    return done.stdout


pack = f"import packed; print(packed.build_sdist({str(ROOM)!r}))"
environment = {**os.environ, "ZEROTRIE_LIB": str(ROOM), "PYTHONDONTWRITEBYTECODE": "1"}
sdist = ROOM / run(sys.executable, "-c", pack, cwd=TOP / "bindings/python", env=environment).strip()
install = [sys.executable, "-m", "pip", "install", "-v", "--no-index", "--root-user-action=ignore", "--target", ROOM / "installed", sdist]
said = run(*install, env=environment)
assert "cargo builds one from plain Rust" in said, said
environment["PYTHONPATH"] = str(ROOM / "installed")
printed = run(sys.executable, "-c", PROGRAM, cwd=ROOM, env={**environment, "ZEROTRIE_SO": ""})
assert printed == "(b'bar', 2)\n", printed
assert "\nSummary: Maps from byte strings to numbers, read from flat bytes, by a library of plain Rust" in next((ROOM / "installed").glob("*.dist-info/METADATA")).read_text()
print("the sdist of Python built its library by cargo, and says so")
