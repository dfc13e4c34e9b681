"""Makes a file of tests of the examples of the crate's docs. Arguments: the folder src of the crate's source, and the file to write.

An example is taken as it is, one of a macro for each type. One that must not compile becomes a doc test, in the package's lib.rs. What
needs another crate is left out, and printed.
"""
import json
import pathlib
import re
import sys

SOURCE, FILE = (pathlib.Path(it).resolve() for it in sys.argv[1:3])
TYPES = ["ZeroTrieSimpleAscii", "ZeroAsciiIgnoreCaseTrie", "ZeroTriePerfectHash", "ZeroTrieExtendedCapacity"]
LEFT_OUT = {
    "another crate": r"zerovec|serde|postcard|yoke|databake|zerofrom|bincode|writeable|icu_",
    "inner parts of the crate": r"_internal",
}
TEST = "/// {where}\n#[test]\n{mark}fn example_{number}() {{\n{body}\n}}\n"
NOT_COMPILED = "/// {where}\n/// ```{mark}\n{lines}/// ```\npub fn example_{number}() {{}}\n"
FALLIBLE = "fn run() -> Result<(), Box<dyn std::error::Error>> {{\n{body}\nOk(())\n}}\nrun().unwrap();"
END = r"Ok::<[^;]*>\(\(\)\)\s*$"


def doc_line(line):
    """Returns the text of a line of docs, or `None` of another line. In a macro the type is `$name`."""
    plain = re.match(r"\s*//[/!] ?(.*)", line)
    if plain:
        return plain[1]
    made = re.match(r"\s*#\[doc = concat!\((.*)\)\]", line)
    if not made:
        return None
    words = re.findall(r'"((?:\\.|[^"\\])*)"|stringify!\(\$name\)', made[1])
    return "".join(json.loads(f'"{it}"') if it else "$name" for it in words)


def examples():
    """Yields each example: where it is, its mark, and its lines."""
    for file in sorted(SOURCE.rglob("*.rs")):
        start, mark, lines = None, "", []
        for number, line in enumerate(file.read_text().splitlines(), 1):
            text = doc_line(line)
            if text is None:
                start = None
            elif text.startswith("```") and start is None:
                start, mark, lines = number, text[3:].strip(), []
            elif text.startswith("```"):
                yield f"{file.relative_to(SOURCE)}:{start}", mark, lines
                start = None
            elif start is not None:
                lines.append(re.sub(r"^# ?(?!\[|!)", "", text))


def body_of(lines):
    text = "\n".join(lines)
    return FALLIBLE.format(body=re.sub(END, "", text)) if re.search(END, text) else text


def tests_of(where, mark, lines, number):
    """Yields the tests of an example, numbered from a number on."""
    mark_line = "#[should_panic]\n" if mark == "should_panic" else ""
    for name in TYPES if any("$name" in line for line in lines) else [""]:
        body = body_of(lines).replace("$name", name)
        yield TEST.format(where=where, mark=mark_line, number=number, body=body)
        number += 1


def main():
    tests, not_compiled, left = [], [], {}
    for where, mark, lines in examples():
        why = [reason for reason, words in LEFT_OUT.items() if re.search(words, "\n".join(lines))]
        if mark.startswith("compile_fail") and not why:
            doc = "".join(f"/// {line}".rstrip() + "\n" for line in lines)
            not_compiled.append(NOT_COMPILED.format(where=where, mark=mark, lines=doc, number=len(not_compiled)))
        elif mark not in ("", "rust", "should_panic") or why:
            left.setdefault(why[0] if why else f"marked {mark}", []).append(where)
        else:
            tests += tests_of(where, mark, lines, len(tests))
    FILE.write_text("#![allow(unused)]\nuse litemap::{ConstBuilder, ToLiteMap};\n" + "".join(tests))
    (FILE.parents[1] / "src/lib.rs").write_text("".join(not_compiled))
    for reason, places in left.items():
        print(f"  {len(places)} examples of docs are left out: {reason}: {', '.join(places)}")


main()
