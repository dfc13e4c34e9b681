#!/usr/bin/env python3
"""crate.py FOLDER: writes the package that a release has, zerotrie with the optional features serde and json. Its sources are those of
rust/zerotrie, and its manifest has what those of rust/zerotrie and rust/zerotrie_serde have: there are two, so that the gate needs no registry.

ZEROTRIE_REPOSITORY is the address of the repository, ZEROTRIE_DOCUMENTATION that of the docs. What is not given is left out.
"""
import os
import pathlib
import re
import shutil
import sys

TOP = pathlib.Path(__file__).resolve().parent.parent
PLAIN, SERDE = TOP / "rust/zerotrie", TOP / "rust/zerotrie_serde"
# docs.rs shows what the features have
DOCS = """[package.metadata.docs.rs]
features = ["serde", "json"]
"""
TEST = """[[test]]
name = "forms"
required-features = ["serde", "json"]
"""


def sections(folder):
    """Returns the sections of a manifest by their heads, without comments in front of a head."""
    parts = re.split(r"^\[(.*)\]\n", (folder / "Cargo.toml").read_text(), flags=re.M)
    return {head: re.sub(r"(\n#.*)*\n*\Z", "\n", text.rstrip(), count=1) for head, text in zip(parts[1::2], parts[2::2])}


def address(field, variable):
    given = os.environ.get(variable)
    return f'{field} = "{given}"\n' if given else ""


def features(text, names):
    """Returns features by their names, with the comments in front of them."""
    found = {it[2]: it[0] for it in re.finditer(r"((?:#.*\n)*)(\w+) = .*\n", text)}
    return "".join(found[name] for name in names)


def manifest():
    plain, serde = sections(PLAIN), sections(SERDE)
    package = re.sub(r"(#.*\n)*publish = .*\n", "", plain["package"])
    package += address("repository", "ZEROTRIE_REPOSITORY") + address("documentation", "ZEROTRIE_DOCUMENTATION")
    parts = {
        "package": package,
        "features": plain["features"] + features(serde["features"], ["serde", "json"]),
        "dependencies": serde["dependencies"],
        "dev-dependencies": plain["dev-dependencies"] + serde["dev-dependencies"],
    }
    kept = {head: text for head, text in plain.items() if head not in parts and not head.startswith(("lints", "workspace"))}
    return "\n".join([*(f"[{head}]\n{text}" for head, text in {**parts, **kept}.items()), DOCS, TEST])


def write(folder):
    shutil.copytree(PLAIN, folder, ignore=shutil.ignore_patterns("target", "Cargo.lock", ".gitignore"))
    shutil.copy(SERDE / "tests/forms.rs", folder / "tests")
    (folder / "Cargo.toml").write_text(manifest())


if __name__ == "__main__":
    write(pathlib.Path(sys.argv[1]))
