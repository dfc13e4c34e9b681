"""Writes docs/SIGNATURES.md: each public call, variant and field, with its arguments, its result and its first sentence."""
import dataclasses
import re

import sources
from sources import ROOT

PAGE = ROOT / "docs" / "SIGNATURES.md"
FIRST = ["AsciiTrie", "ZeroTrieSimpleAscii", "HashedTrie", "ZeroTrie", "Trie", "Search", "Reverse"]
HEAD = """# All calls with their arguments

`docs/make` writes this page from the sources, with the variants of enums and the public fields. [CALLING](CALLING.md) has the calls by
purpose, with examples.

A name of a trie's type is an alias: `ZeroTrieSimpleAscii` and `ZeroAsciiIgnoreCaseTrie` have the calls of `AsciiTrie`,
`ZeroTriePerfectHash` and `ZeroTrieExtendedCapacity` those of `HashedTrie`. A trait's calls want its name in a `use`.
"""


def shown(item):
    """Returns a signature in one line."""
    text = re.sub(r"\b(pub|const) ", "", " ".join(item.text.split()))
    return re.sub(r"([(<]) ", r"\1", re.sub(r",? ?([)>])(?=[(,)]| ->| where|$)", r"\1", text)).rstrip(",").removeprefix("fn ").replace("|", "\\|")


def row(reference, item):
    """Returns a row of a table: of a call, a variant or a public field."""
    said = reference.sentence(item.doc).replace("|", "\\|")
    return f"| `{shown(item)}` | {said} |\n"


def section(title, items, reference, traits=(), yields=""):
    """Returns the table of some calls, each once, and before it what an iterator yields and the traits that give more."""
    rows = "".join(dict.fromkeys(row(reference, it) for it in items))
    table = f"\n| Call | |\n|---|---|\n{rows}" if rows else ""
    more = f"\nAn iterator over `{yields}`.\n" if yields else ""
    more += f"\nHas the calls of {', '.join(f'`{it}`' for it in traits)}.\n" if traits else ""
    return f"\n## {title}\n{more}{table}" if table or more else ""


def calls_of(reference, name, item):
    """Returns the calls of a type or a trait that its own page has, and the fields of a struct that has no names for them."""
    if item.kind == "trait":
        return [it for it in item.parts if it.kind == "fn"]
    own = reference.public_methods(reference.methods(name, item)[0])
    fields = re.fullmatch(r"pub struct (\w+)(?:<.*>)?(\(pub .*\))", item.text)
    made = [dataclasses.replace(item, text=fields[1] + fields[2])] if fields else []
    calls = [(it, block) for it, block in own if block.type == name]
    twice = {it.name for it, block in calls if len({other.arguments for it2, other in calls if it2.name == it.name}) > 1}
    return made + [it for it in item.parts if it.kind == "part"] + [of_kind(it, block) if it.name in twice else it for it, block in calls]


def of_kind(item, block):
    """Returns a call that a type has twice, with the type that it is of in front of its text."""
    return dataclasses.replace(item, doc=[f"Of `{block.type}<{block.arguments}>`: {' '.join(item.doc)[:1].lower()}{' '.join(item.doc)[1:]}"])


def yields(reference, name, item):
    """Returns the type of what an iterator yields, or nothing."""
    blocks = reference.methods(name, item)[1] if item.kind == "struct" else []
    return next((block.item for block in blocks if block.item), "")


def traits_of(reference, name, item):
    """Returns the traits of the library that a type has, whose calls are its own, too."""
    return reference.traits_of(reference.methods(name, item)[1]) if item.kind in ("struct", "enum") else ()


def text(reference):
    """Returns the page."""
    done, alone = HEAD, {}
    for (module, name), item in sorted(reference.items.items(), key=lambda it: FIRST.index(it[0][1]) if it[0][1] in FIRST else len(FIRST)):
        owner = module if module.startswith("zerotrie_") else f"zerotrie::{module}" if module else "zerotrie"
        if item.kind == "fn" and not owner.endswith("laws"):
            alone.setdefault(owner, []).append(item)
        if item.kind in ("struct", "enum", "type", "trait"):
            done += section(f"`{name}` of `{owner}`", calls_of(reference, name, item), reference, traits_of(reference, name, item), yields(reference, name, item))
    for owner, items in alone.items():
        done += section(f"Functions of `{owner}`", items, reference)
    return done


def is_stale(reference):
    """Returns whether the page differs from what would be written."""
    return not PAGE.exists() or PAGE.read_text() != text(reference)
