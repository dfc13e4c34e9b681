#!/usr/bin/env python3
"""Compares zerotrie_ascii and zerotrie_hashed: a call that both have is word for word the same in both, and in the same place.

The names of the hashed crate are replaced by those of the other one. Then the doc comment, the signature with its clauses and the
body of each public call are compared, module by module. What differs on purpose stands in DIFFER. The calls of a `ZeroTrie` are
compared with those of the hashed crate by the prose of their doc comments.
"""
import difflib
import pathlib
import re
import sys

CRATES = pathlib.Path(__file__).resolve().parent.parent / "crates"
MODULES = {  # the modules of both crates, and where zerotrie_any has their calls
    "trie": ["trie"],
    "list": ["list", "keys"],
    "cursor": ["cursor"],
    "bytes": ["bytes"],
    "json": ["json/reading", "json/writing"],
}
NAMES = {  # names of the hashed crate, and those that stand for them in the other one
    "HashedTrie": "AsciiTrie",
    "HashedKind": "AsciiKind",
    "HashedCursor": "AsciiCursor",
    "ByteProbeResult": "AsciiProbeResult",
    "ZeroTriePerfectHash": "ZeroTrieSimpleAscii",
    "ZeroTrieIterator": "ZeroTrieStringIterator",
    "ZeroTrieKeys": "ZeroTrieStringKeys",
    r"\x03": r"\x00",
}
PHRASES = [  # what only some kinds have; without it the sentences are the same
    "`NonAsciiError`, `MixedCase` (if case is ignored), ",
    "`CouldNotSolvePerfectHash`, ",
    ", also if case is ignored",
    ", or on malformed bytes `NotText`",
    " or a byte of a span",
]
DIFFER = {  # the calls that differ on purpose, and in what
    "trie::into_zerotrie": "head code",  # the kind that ignores case is none of a ZeroTrie
    # keys over ASCII are strings, and listed in their order
    "list::iter": "prose examples head",
    "list::keys": "examples",
    "list::to_btreemap": "head code",
    "list::iter_prefix": "examples head",
    "json::to_json_value": "examples",
    # a cursor of the hashed kinds may be inside a span
    "cursor::into_suffix_trie": "prose examples head code",
    "cursor::stream": "prose examples head code",
    "cursor::iter": "prose head code",
    "cursor::is_empty": "head code",
    "cursor::take_value": "head code",
    "cursor::step": "prose head code",
    "cursor::probe": "head code",
    "cursor::cursor": "head",
    "cursor::into_cursor": "head",
    # only a cursor over ASCII keys is written to
    "cursor::write_char": "all",
    "cursor::get_with_write_fn": "all",
}
OF_ANY = ["get", "empty", "try_from_tagged_bytes", "load", "try_from_json_value"]  # of which a ZeroTrie says more or less


def calls(crate, module):
    """Returns the public calls in a module of a crate by name, in their order: of each its prose, examples, head and code."""
    found = {}
    text = (CRATES / crate / "src" / f"{module}.rt").read_text()
    for match in re.finditer(r"^((?:    (?:///|#\[).*\n)*)    pub fn (\w+)((?s:.*?))^    \{\n((?s:.*?))^    \}\n", text, re.M):
        doc, name, head, code = match.groups()
        example = r"^ +/// ```\n(?s:.*?)^ +/// ```\n"
        prose = " ".join(re.sub(r"^ +(///|#\[.*)", "", re.sub(example, "", doc, flags=re.M), flags=re.M).split())
        for phrase in PHRASES:
            prose = prose.replace(phrase, "")
        found.setdefault(name, {"prose": prose, "examples": "".join(re.findall(example, doc, re.M)), "head": head, "code": code})
    return found


def renamed(text):
    """Returns a text of the hashed crate with the names of the other one."""
    return re.sub("|".join(map(re.escape, NAMES)), lambda name: NAMES[name[0]], text)


def differs(place, one, other):
    """Returns whether two texts differ in more than where their lines end, and prints how."""
    one, other = (re.sub(r"(?<=[.:;?{}]) ", "\n", " ".join(text.split())).splitlines() for text in (one, other))
    print("\n".join(difflib.unified_diff(one, other, place, place, lineterm="", n=0)), end="\n" if one != other else "")
    return one != other


def main():
    count = wrong = 0
    for module, places in MODULES.items():
        ascii, hashed = calls("zerotrie_ascii", module), calls("zerotrie_hashed", module)
        orders = [[name for name in order if DIFFER.get(f"{module}::{name}") != "all"] for order in (ascii, hashed)]
        wrong += differs(f"{module}: the calls in their order", *map(" ".join, orders))
        shared = [name for name in hashed if name in ascii]
        for name in shared:
            for part in ascii[name]:
                if part not in DIFFER.get(f"{module}::{name}", ""):
                    wrong += differs(f"{module}::{name}, {part}", ascii[name][part], renamed(hashed[name][part]))
        of_any = {name: call for place in places for name, call in calls("zerotrie_any", place).items()}
        for name in hashed:
            if name in of_any and name not in OF_ANY:
                wrong += differs(f"{module}::{name}, prose of ZeroTrie", hashed[name]["prose"], of_any[name]["prose"])
        count += len(shared)
    print(f"{count} calls that zerotrie_ascii and zerotrie_hashed share: {wrong} differences")
    sys.exit(1 if wrong else 0)


main()
