#!/usr/bin/env python3
"""Runs the examples of the docs, and the rows of tests/rows, without proof.

Each block of code in a doc comment of a crate, in README.md and in docs/CALLING.md becomes a test. So does each file of tests/rows: its
rows show values that a clause fixes already. It sees the helpers of the proved tests, those of crates/zerotrie_tests/src/tests.rt.
The table of errors in docs/CALLING.md becomes one test more.

All are tests of one crate in a copy of the repository, since what costs time is the build of the libraries. An example is a file of
its own, in which its lines have the numbers that they have in the docs. It sees the public names of its crate and of those that the
crate stands on, and the names of OTHERS, unless it has a `main` and so is a whole program. A line that prints, `println!(rt; ..)?;
// TEXT`, must print TEXT. A byte string that ends an `assert_eq!` is compared as a slice, as Rust does. A block that is marked, as ```text, is no example.
"""
import pathlib
import re
import shutil
import subprocess
import sys
import tempfile

ROOT = pathlib.Path(__file__).resolve().parent.parent
PAGES = [ROOT / "README.md", ROOT / "docs" / "CALLING.md", *(ROOT / "crates" / it / "README.md" for it in ("zerotrie_index", "zerotrie_reverse", "zerotrie_search", "zerotrie_sets"))]
CRATES = (ROOT / "crates.txt").read_text()
BELOW = dict(re.findall(r"^(\w+):(.*)", CRATES, re.M))  # what each crate stands on, static libraries aside
OTHERS = "use serde_json::Value; use std::borrow::CowSlice; use std::collections::{BTreeMap, VecDeque}; use std::ops::Bound; use std::test::Fail; "
OTHERS += "use zerotrie::{ZeroTriePerfectHash, ZeroTrieSimpleAscii}; "
PRINTS = re.compile(r"(println!\(rt; (.*)\)\?;) +// (.*)")
BYTES = re.compile(r'^(\s*assert_eq!\(rt; .*, b"(?:[^"\\]|\\.)*")\);$', re.M)


def blocks(file):
    """Yields each example of the file: the number of the line before it, and its lines."""
    code = None
    for number, line in enumerate(file.read_text().splitlines(), 1):
        if file.suffix == ".rt":
            doc = re.match(r"\s*//[/!] ?(.*)", line)
            line = doc[1] if doc else ""
        if not line.startswith("```"):
            if code is not None:
                code.append(line)
        elif code is None:
            start, language, code = number, line[3:].strip(), []
        else:
            if language in ("", "rust", "rt"):
                yield start, code
            code = None


def as_test(crates, start, code):
    """Returns the source of a test that runs the example."""
    text = "\n".join(PRINTS.sub(r'\1 assert_eq!(rt; format!(in rt.alloc(); \2)?.as_str(), r#"\3"#);', line) for line in code)
    text = BYTES.sub(r"\1.as_slice());", text)
    if "fn main(" in text:
        return "\n" * start + text.replace("fn main(", "#[test] fn main(")
    uses = OTHERS + "".join(f"use {name}::*; " for name in crates)
    return uses + "#[test] fn main(rt: HostRuntime) -> Result<(), Fail> {" + "\n" * start + text + "\nOk(()) }\n"


def texts():
    """Returns the test that each error of the table in docs/CALLING.md has its text and its advice."""
    rows = re.findall(r"^\| `(\w+Error::.*?)` \| (.*?) \| (.*?) \|$", (ROOT / "docs" / "CALLING.md").read_text(), re.M)
    body = "".join(
        f'let error = {error}; assert_eq!(rt; format!(in rt.alloc(); "{{error}}")?.as_str(), "{text}"); assert_eq!(rt; error.advice(), "{advice}"); '
        for error, text, advice in rows
    )
    uses = "use std::test::Fail; use zerotrie::dense::RecordError; use zerotrie::*; "
    return f"{uses}#[test] fn main(rt: HostRuntime) -> Result<(), Fail> {{ {body}Ok(()) }}\n"


def found():
    """Returns the examples by the names of the files that their tests go to: for each where it stands, and its test."""
    examples = {"e0": (pathlib.Path("docs/CALLING.md"), "errors", texts())}
    for file in [*sorted(ROOT.glob("crates/*/src/**/*.rt")), *PAGES]:
        place = file.relative_to(ROOT)
        crate = place.parts[1] if file.suffix == ".rt" else ""
        seen = [it for it in [crate, *BELOW.get(crate, "").split()] if it in BELOW]
        for start, code in blocks(file):
            examples[f"e{len(examples)}"] = (place, start, as_test(seen, start, code))
    return examples


def rows():
    """Returns the files of tests/rows by their names, and the module that they are in."""
    files = {file.name.split(".")[0]: file.read_text() for file in sorted((ROOT / "tests" / "rows").glob("*.rt.in"))}
    helpers = (ROOT / "crates" / "zerotrie_tests" / "src" / "tests.rt").read_text()
    return files, "".join(f"mod {name};\n" for name in files) + re.sub(r"^mod \w+;\n", "", helpers, flags=re.M)


def tried(examples):
    """Runs the tests as one crate of a copy of the repository."""
    with tempfile.TemporaryDirectory() as folder:
        copy = pathlib.Path(folder)
        for source in ROOT.glob("crates/*/src"):
            shutil.copytree(source, copy / source.relative_to(ROOT))
        libraries = " ".join(it for it in BELOW if (copy / "crates" / it / "src" / "lib.rt").exists())
        (copy / "crates.txt").write_text(f"{CRATES}\ndoc_examples: {libraries} serde_json anyhow\n")
        source = copy / "crates" / "doc_examples" / "src"
        source.mkdir(parents=True)
        (source / "lib.rt").write_text("".join(f"#[cfg(test)] mod {name};\n" for name in ["rows", *examples]))
        files, module = rows()
        (source / "rows").mkdir()
        (source / "rows.rt").write_text(module)
        for name, text in files.items():
            (source / "rows" / f"{name}.rt").write_text(text)
        for name, (_, _, test) in examples.items():
            (source / f"{name}.rt").write_text(test)
        print("building the library and the examples: some minutes of one processor", file=sys.stderr, flush=True)
        return subprocess.run(["rt", "try", "--test"], cwd=source.parent, capture_output=True, text=True)


def main():
    examples = found()
    run = tried(examples)
    said = re.sub(r"\bsrc/(e\d+)\.rt\b", lambda it: str(examples[it[1]][0]), run.stdout + run.stderr)
    said = re.sub(r"\b(e\d+)::main\b", lambda it: "{}:{}".format(*examples[it[1]]), said)
    passed = len(re.findall(r"^test .* \.\.\. ok$", said, re.M))
    tests = sum(text.count("#[test]") for text in rows()[0].values())
    of = f"{len(examples)} examples of {len({place for place, _, _ in examples.values()})} files and {tests} tests of rows"
    if run.returncode or passed != len(examples) + tests:
        print(re.sub(r"^test .* \.\.\. ok\n(    .*\n)*", "", said, flags=re.M), end="")
        sys.exit(f"{of}: {passed} passed")
    print(f"{of}: passed")


main()
