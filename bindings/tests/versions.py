"""Compares the version wherever it is written or printed with the file VERSION. Arguments: the
folder bindings, and if there is one a folder that bindings/make filled, whose library, pkg-config
file and program are asked too.
"""

import ctypes
import pathlib
import re
import subprocess
import sys

here = pathlib.Path(sys.argv[1])
made = pathlib.Path(sys.argv[2]) if len(sys.argv) > 2 else None
VERSION = (here.parent / "VERSION").read_text().strip()
MAJOR, MINOR, PATCH = map(int, VERSION.split("."))
NUMBER = 1_000_000 * MAJOR + 1_000 * MINOR + PATCH


def found(path, pattern):
    """What the pattern finds in the file. An empty text if it finds nothing."""
    text = (here / path).read_text() if (here / path).exists() else ""
    match = re.search(pattern, text, re.M)
    return ".".join(match.groups()) if match else ""


def written():
    """The version in each source that has to have it by itself. All others read VERSION."""
    parts = [
        found("c/zerotrie.h", rf"^#define ZEROTRIE_VERSION_{part} (\d+)")
        for part in ("MAJOR", "MINOR", "PATCH")
    ]
    yield "bindings/c/zerotrie.h", ".".join(parts)
    parts = [
        found("../crates/zerotrie_c/src/version.rt", rf"^const {part}: u32 = (\d+);")
        for part in ("MAJOR", "MINOR", "PATCH")
    ]
    yield "crates/zerotrie_c/src/version.rt", ".".join(parts)
    for package in ("zerotrie", "zerotrie_c", "zerotrie_cli"):
        manifest = f"rust/{package}/Cargo.toml"
        yield manifest, found(f"../{manifest}", r'^version = "(.*)"')
    yield "bindings/js/package.json", found("js/package.json", r'^\s*"version": "(.*)"')
    yield "crates/zerotrie_words/src/table.rt", found(
        "../crates/zerotrie_words/src/table.rt", r'^pub const VERSION: &str = "(.*)";'
    )


def told():
    """The version as what bindings/make made says it."""
    yield "zerotrie.pc", re.search(r"^Version: (.*)", (made / "zerotrie.pc").read_text(), re.M)[1]
    library = ctypes.CDLL(str(made / "libzerotrie.so"))
    number = library.zerotrie_version() if hasattr(library, "zerotrie_version") else 0
    yield "zerotrie_version()", f"{number // 1_000_000}.{number // 1_000 % 1_000}.{number % 1_000}"
    symbols = subprocess.run(
        ["nm", "-D", "--defined-only", made / "libzerotrie.so"],
        capture_output=True,
        text=True,
        check=True,
    ).stdout
    nodes = set(re.findall(r"zerotrie_\w+@@(\S+)", symbols))
    yield "the symbols' version", f"{' '.join(nodes).removeprefix('ZEROTRIE_')}.{PATCH}"
    if (made / "zerotrie").exists():
        yield "zerotrie --version", subprocess.run(
            [made / "zerotrie", "--version"], capture_output=True, text=True, check=True
        ).stdout.split()[-1]
        yield "zerotrie.1", re.search(r'"zerotrie (.*?)"', (made / "zerotrie.1").read_text())[1]
    sys.path.insert(0, str(here / "python"))
    import zerotrie

    yield "zerotrie.__version__", getattr(zerotrie, "__version__", "")


assert NUMBER < 1 << 32
places = [*written(), *(told() if made else [])]
wrong = [f"{place} has {version or 'none'}" for place, version in places if version != VERSION]
for line in wrong:
    print(f"versions: {line}, and VERSION {VERSION}")
if wrong:
    sys.exit(1)
print(f"versions: {VERSION} in {len(places)} places")
