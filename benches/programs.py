"""Compiles the programs of src/bin/, and the program over files as plain Rust."""

import hashlib
import os
import pathlib
import resource
import subprocess

HERE = pathlib.Path(__file__).resolve().parent
# these call the library, and the others plain Rust alone
OF_THE_LIBRARY = {"calls", "search", "unions", "index", "reverse", "marisa", "places"}


def library():
    """Returns the folder that the library is in: that of the variable ZEROTRIE_LIB, or the one that bindings/make fills, which proves it."""
    if "ZEROTRIE_LIB" in os.environ:
        return pathlib.Path(os.environ["ZEROTRIE_LIB"]).resolve()
    made = subprocess.run([HERE / "../bindings/make"], check=True, stdout=subprocess.PIPE, text=True)
    return pathlib.Path(made.stdout.splitlines()[-1])


def origin(folder):
    """Returns what the library is, as ORIGIN beside it says of this very archive."""
    if not (folder / "ORIGIN").exists():
        return "not known"
    said, *sums = (folder / "ORIGIN").read_text().splitlines()
    summed = hashlib.sha256((folder / "libzerotrie.a").read_bytes()).hexdigest()
    return said if f"{summed}  libzerotrie.a" in sums else "not known"


def sources():
    """Returns the words by which cargo takes the sources of crates from a folder."""
    registry = os.environ.get("ZEROTRIE_REGISTRY", "/usr/share/cargo/registry")
    return ["--offline", "--config", 'source.crates-io.replace-with="here"', "--config", f'source.here.directory="{registry}"']


def over_files(folder):
    """Makes the program over files of plain Rust in a new folder, and returns its path and the processor seconds that this took."""
    before = resource.getrusage(resource.RUSAGE_CHILDREN)
    words = ["cargo", "build", "--release", "--quiet", "--target-dir", str(folder), *sources()]
    subprocess.run(words, cwd=HERE / "../rust/zerotrie_cli", check=True)
    after = resource.getrusage(resource.RUSAGE_CHILDREN)
    return str(folder / "release/zerotrie"), after.ru_utime + after.ru_stime - before.ru_utime - before.ru_stime


def compiled(name):
    """Compiles a program, and returns its path and the variables to run it with."""
    variables = dict(os.environ)
    if name in OF_THE_LIBRARY:
        folder = library()
        variables |= {"ZEROTRIE_LIB": str(folder), "ZEROTRIE_ORIGIN": f"{origin(folder)}, in {folder}"}
    words = [*sources(), *(["--features", "marisa"] if name == "marisa" else [])]
    subprocess.run(["cargo", "build", "--release", "--quiet", "--bin", name, *words], cwd=HERE, env=variables, check=True)
    return HERE / os.environ.get("CARGO_TARGET_DIR", "target") / "release" / name, variables
