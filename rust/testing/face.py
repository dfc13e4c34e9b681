#!/usr/bin/env python3
"""Tries that plain Rust has each call of the library: those of docs/SIGNATURES.md, but for the functions over plain bytes, are in its
public modules. These hand on the type with its calls, or the type that OF names has a call of the same name, or INSTEAD says what is there.
"""
import pathlib
import re
import sys

TOP = pathlib.Path(__file__).resolve().parent.parent.parent
FACE = [it.read_text() for it in sorted((TOP / "rust/zerotrie/src").glob("*.rs"))]
INNER = ("zerotrie::bytes", "zerotrie::_internal")
TRIES = "ZeroTrieSimpleAscii ZeroAsciiIgnoreCaseTrie ZeroTriePerfectHash ZeroTrieExtendedCapacity ZeroTrie"
# the types of plain Rust that have the calls of one of the library
OF = {
    "AsciiTrie": "ZeroTrieSimpleAscii ZeroAsciiIgnoreCaseTrie",
    "HashedTrie": "ZeroTriePerfectHash ZeroTrieExtendedCapacity",
    "Trie": TRIES,
    "Search": TRIES,
    "Reverse": TRIES,
    "AsciiCursor": "ZeroTrieSimpleAsciiCursor ZeroAsciiIgnoreCaseTrieCursor",
    "HashedCursor": "ZeroTriePerfectHashCursor ZeroTrieExtendedCapacityCursor",
    "ZeroTrieStream": "ZeroTrieIterator",
    "ZeroTrieSearch": "Matches",
    "ZeroTrieSorted": "Sorted",
    "ZeroTrieNearest": "Nearest",
    "Diff": "Changes",
}
# calls that have another name there
RENAMED = {
    "Search::iter_sorted": "range",
    "ZeroTrieStream::skip": "skip_below",
    "ZeroTrieSorted::skip": "skip_below",
    "ZeroTrie::as_borrowed": "as_borrowed_slice",
    "ZeroIndex::from_bytes": "from_store",
    "ZeroIndex::try_from_bytes": "try_from_store",
    "ZeroIndex::try_from_unsorted_slice": "try_from_iter",
    "AsciiTrie::try_from_btree_map": "try_from",
    "HashedTrie::try_from_btree_map": "try_from",
    "ZeroTrie::try_from_btree_map": "try_from",
    "AsciiTrie::empty": "from_store",
    "HashedTrie::empty": "from_store",
    "AsciiCursor::write_char": "write_str",
    "Trie::trie_kind": "kind",
}
# types and calls that are of no use in plain Rust, by what is there instead
INSTEAD = {
    "one type takes any store, and any key": "ConvertStore TrieStore TrieKey TextKey HasFlavor Trie::get_str "
    "AsciiTrie::encoded_len_str HashedTrie::encoded_len_str",
    "`Iterator`, `collect`": "ZeroTrieKeys ZeroTrieValues ZeroTrieIterator ZeroTrieSortedIterator ZeroIndexBuilder TrieListing",
    "calls of tries, and of `Pairs`": "ZeroTrieStream::new ZeroTrieStream::with_prefix ZeroTrieStream::after ZeroTrieStream::from_cursor "
    "ZeroTrieSearch::new ZeroTrieSorted::new ZeroTrieNearest::new SortedTrie CommonPrefixes "
    "Combined::new Diff::new Merge::new SortedSlice::new KeysByValue::new",
    "`Option`, and `take`": "ZeroTrieStream::end ZeroTrieSorted::end",
    "a failed allocation ends the program": "ListError Error",
    "`seal` and `open` of what is sealed": "open seal open_index seal_index",
    "`opened` of an index": "OpenedIndex::new",
    "`stream` of a cursor": "ZeroTrieCursor::iter AsciiCursor::iter HashedCursor::iter",
    "`is_well_formed` before": "ZeroTrieSorted::is_well_formed KeysOf::validated",
    "of the kind's own type, `into_zerotrie`": "ZeroTrie::of_kind ZeroTrie::try_from_bytes ZeroTrie::empty",
    "the errors of serde": "NoPair why_json_refused",
    "the calls of cursors": "CursorOp CursorAnswer AsciiTrie::walk HashedTrie::walk ZeroTrie::walk",
    "constants, which the compiler evaluates": "AsciiTrie::from_sorted_u8_tuples_with_stack AsciiTrie::from_sorted_str_tuples_with_stack "
    "AsciiTrie::try_from_sorted_slice_with_const_builder AsciiTrie::try_from_sorted_slice_sized",
    "calls of the types": "why_slice_refused why_iter_refused get is_well_formed",
    "`SealedIndex`, which reads the table": "is_index_number open_table table_len",
    "`as_bytes`, for programs over the bytes themselves": "ZeroTrieBuilderOptions Trie::nodes crc32c begins_magic begins_sealed header_of "
    "KeysByValue::bytes hash_of build build_all build_sorted",
}
# calls that one type of these alone has
ONE = {"from_sorted_u8_tuples": "ZeroTrieSimpleAscii", "from_sorted_str_tuples": "ZeroTrieSimpleAscii", "into_zerotrie": "ZeroTriePerfectHash"}


def handed_on():
    """The types and functions that a module hands on, with all their calls."""
    uses = re.findall(r"^ *pub use (?:crate::)?zerotrie_\w+::((?:\w+::)*)(?:\{([^}]*)\}|(\w+));", "".join(FACE), re.M)
    return {name for _, names, one in uses for name in re.findall(r"\w+", names + one)}


def own():
    """The calls that are written in the public modules, as `Type::call`, and functions of no type by their names."""
    calls, aliases, macros = set(), [], macros_of(FACE)
    for text in macros:
        for _, head, body in re.findall(r"^( *)(?:pub )?(?:impl|trait)\b([^\n]*?) \{\n(.*?)^\1\}", text, re.M | re.S):
            name = re.search(r"(?:^|[\s&:])([A-Za-z]\w*)(?:<(?:[^<>]|<(?:[^<>]|<[^<>]*>)*>)*>)?$", head)
            calls |= {f"{name[1]}::{call}" for call in re.findall(r"^ *(?:pub )?(?:const )?fn (\w+)", body, re.M) if name}
        aliases += re.findall(r"^pub type (\w+)(?:<.*?>)? = (\w+)<", text, re.M)
        calls |= {*re.findall(r"^pub fn (\w+)", text, re.M)}
    for alias, name in aliases:
        calls |= {f"{alias}::{it.split('::')[1]}" for it in calls if it.startswith(name + "::")}
    return calls


def macros_of(texts):
    """Returns the texts, with what each call of a macro over types becomes."""
    face = "".join(texts)
    made = [re.sub(r"^macro_rules!.*?^\}", "", it, flags=re.M | re.S) for it in texts]
    for _ in range(2):  # one macro calls another
        for name, takes, body in re.findall(r"^macro_rules! (\w+) \{\n *\((.*?)\) => \{(.*?)^\}", face, re.M | re.S):
            made += [filled(body, row) for row in rows(name, takes, "".join(made))]
    return made


def rows(name, takes, text):
    """Yields the arguments of each row of each call of a macro, by their names."""
    names = re.findall(r"\$(\w+):", takes)
    for round, brace in re.findall(rf"^ *{name}! ?(?:\((.*?)\);|\{{(.*?)\}})$", text, re.M | re.S):
        for row in re.split(r";\n|\s(?=Zero)" if brace else "$^", round or brace):
            yield dict(zip(names, (it.strip() for it in row.split(","))))


def filled(body, args):
    """Returns the body of a macro with its arguments. A call of a macro in it is left."""
    return re.sub(r"\$(\w+)", lambda it: args.get(it[1], it[0]), body)


def calls():
    """Yields each call: the type that it is of, or "", its crate and its name."""
    page = (TOP / "docs/SIGNATURES.md").read_text()
    for head, crate, rows in re.findall(r"^## (.*?) of `([\w:]+)`\n(.*?)(?=^## |\Z)", page, re.M | re.S):
        owner = head.strip("`") if head.startswith("`") else ""
        for name, text in re.findall(r"^\| `(\w+)(?:<.*?)?\(.*?` \| (.*)", rows, re.M):
            if not text.startswith("States that"):
                yield owner, crate, name


def has(owner, name, there, here):
    """Returns whether plain Rust has a call."""
    if not owner:
        return name in there | here
    name = RENAMED.get(f"{owner}::{name}", name)
    types = ONE[name] if name in ONE else OF.get(owner, owner)
    return owner in here or all(f"{it}::{name}" in there for it in types.split())


if __name__ == "__main__":
    here, there, instead = handed_on(), own(), {*" ".join(INSTEAD.values()).split()}
    wanted = [it for it in calls() if it[1] not in INNER]
    missing, used = [], set()
    for owner, crate, name in wanted:
        known = {owner, f"{owner}::{name}"} & instead if owner else {name} & instead
        used |= known
        if not known and not has(owner, name, there, here):
            missing.append(f"{crate}: {owner} {name}")
    if missing or not wanted or used != instead:
        sys.exit("\n".join(["not in plain Rust:", *missing, "in INSTEAD, but no call:", *sorted(instead - used)]))
    print(f"{len(wanted)} calls of the library are in plain Rust, or have something instead")
