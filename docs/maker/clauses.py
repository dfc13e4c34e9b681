"""Writes docs/clauses.txt: each public function of the repository, with a line for each clause of its contract, so that a clause that goes or changes shows in
a diff. A number is the beginning of a checksum of a text."""
import hashlib
import re

import sources
from sources import ROOT

PAGE = ROOT / "docs" / "clauses.txt"
HEAD = "# docs/make writes this from the sources: each public function with its clauses, and checksums of their texts.\n"


def sum_of(text):
    """Returns the beginning of the checksum of a text, however its lines are broken."""
    return hashlib.sha256(" ".join(text.split()).encode()).hexdigest()[:8]


def functions(file):
    """Yields the public functions of a file, the calls of its traits, and the methods that have clauses of their own, each with the type or trait it is of."""
    items, impls = sources.parsed(file)
    for item in items.values():
        yield from ([(item.name, item)] if item.kind == "fn" else [(f"{item.name}::{it.name}", it) for it in item.parts if it.kind == "fn"])
    for block in impls:
        of = re.sub(r"^impl(<(?:[^<>]|<[^<>]*>)*>)? | where .*", "", block.header)
        yield from ((f"{of}::{it.name}", it) for it in block.methods if it.kind == "fn" and (it.is_public or block.trait and it.clauses))


def text():
    """Returns the page."""
    done = HEAD
    for crate in sources.LINES:
        for file in sorted((ROOT / "crates" / crate / "src").rglob("*.rt")):
            found = [*functions(file)]
            done += f"\n{file.relative_to(ROOT / 'crates')}\n" if found else ""
            for name, item in found:
                done += f"{name} {sum_of(item.text)}\n"
                done += "".join(f"  {word}{f' {label}' if label else ''} {sum_of(body)}\n" for word, label, body in item.clauses)
    return done


def changes():
    """Yields the lines that the page has and the sources do not, and those that it lacks, each below its file and function."""
    def named(page):
        lines, file, function = [], "", ""
        for before, line in zip(["", *page.splitlines()], page.splitlines()):
            file = line if not before else file
            function = line.split(" ")[0] if not line.startswith(" ") else function
            lines.append(f"{file} {function}{line[line.index(' '):]}" if " " in line and line != file else line)
        return lines

    old, new = named(PAGE.read_text() if PAGE.exists() else ""), named(text())
    for line in sorted({*old} ^ {*new}):
        yield f"docs/clauses.txt is stale: the sources {'have no' if line in old else 'have'} {line}: run docs/make"
