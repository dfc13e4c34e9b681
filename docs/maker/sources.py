"""Reads the public items of the library from its sources, which are in the layout of `rt fmt`."""
import functools
import pathlib
import re
from dataclasses import dataclass, field

ROOT = pathlib.Path(__file__).resolve().parent.parent.parent
LINES = dict(re.findall(r"^(\w+)(?: staticlib)?:(.*)", (ROOT / "crates.txt").read_text(), re.M))
BESIDE = ["zerotrie_search", "zerotrie_sets", "zerotrie_index", "zerotrie_sealed", "zerotrie_reverse"]  # crates that users add
ITEM = re.compile(r"pub (?:const |unsafe |extern \"C\" )*(fn|struct|enum|trait|type|const|mod) (\w+)")
MEMBER = re.compile(r"    (?:pub )?(?:const |unsafe )*(fn|const|ghost) (\w+)")
CLAUSE = re.compile(r"(ensures|requires)\b\*? ?(\w*) ?\{")


@dataclass
class Item:
    """An item or a part of one: a method, a field, a variant, a constant of a trait."""

    kind: str
    name: str
    doc: list  # the lines of its doc comment
    text: str  # its signature, or the text of a field
    file: pathlib.Path
    line: int
    clauses: list = field(default_factory=list)  # word, name and text of each
    notes: list = field(default_factory=list)  # its attributes
    parts: list = field(default_factory=list)  # its fields, variants or members
    is_public: bool = True


@dataclass
class Impl:
    """An impl block: its header, its type, its trait if there is one, and its methods."""

    header: str
    type: str
    arguments: str
    trait: str
    methods: list
    file: pathlib.Path
    item: str = ""  # the type of what an iterator yields


@functools.cache
def below(crate):
    """Returns the crate and those of the repository that it stands on, the lowest first."""
    names = [name for name in LINES[crate].split() if name in LINES]
    return [*dict.fromkeys(it for name in names for it in below(name)), crate]


def dedented(lines):
    """Returns lines without the blanks that all of them begin with, as one text."""
    least = min((len(it) - len(it.lstrip()) for it in lines if it.strip()), default=0)
    return "\n".join(it[least:] for it in lines).strip()


def headed(lines, start, indent):
    """Reads a signature from a line on: its text, its clauses, and whether a body follows on the last line."""
    head, clauses, number = [], [], start
    while True:
        line = lines[number].rstrip()
        rest = line[len(indent):]
        if rest in ("{", "{}"):
            return dedented(head), clauses
        if found := CLAUSE.match(rest.strip()):
            text, open_ = [line], line.count("{") - line.count("}")
            while open_ > 0:
                number += 1
                text.append(lines[number].rstrip())
                open_ += text[-1].count("{") - text[-1].count("}")
            ends = text[-1].endswith(";")
            whole = dedented(["    " + text[0].strip(), *text[1:]]).rstrip(";")
            body = whole.split("{", 1)[1].rsplit("}", 1)[0].strip()
            clauses.append((found[1], found[2], body))
        else:
            ends = rest.endswith((" {", ";", " {}"))
            head.append(re.sub(r"( \{\}| \{|;)$", "", line))
        if ends:
            return dedented(head), clauses
        number += 1


def parts_of(kind, lines, start):
    """Returns the fields of a struct or the variants of an enum, with how many fields are private."""
    parts, doc, notes, hidden, number = [], [], [], 0, start + 1
    while lines[number] != "}":
        line = lines[number].strip()
        if line.startswith("///"):
            doc.append(line[4:])
        elif line.startswith("#["):
            notes.append(line)
        elif line.startswith(("ghost", "invariant", "//")) or not line:
            open_ = line.count("{") - line.count("}")
            while open_ > 0:
                number += 1
                open_ += lines[number].count("{") - lines[number].count("}")
            doc, notes = [], []
        elif re.match(r"    \S", lines[number]):
            text = [lines[number]]
            while text[-1].count("{") > text[-1].count("}") or (len(text) > 1 and not text[-1].startswith("    }")):
                number += 1
                text.append(lines[number])
            name = re.match(r"(?:pub )?(\w+)", line)[1]
            if kind == "enum" or line.startswith("pub "):
                parts.append(Item("part", name, doc, dedented(text).rstrip(","), None, number + 1, [], notes))
            else:
                hidden += 1
            doc, notes = [], []
        number += 1
    return parts, hidden


def members_of(file, lines, start):
    """Returns the members of a trait or an impl block whose header begins at a line."""
    number = start
    while not lines[number].rstrip().endswith(("{", "{}")):
        number += 1
    if lines[number].rstrip().endswith("{}"):
        return []
    members, doc, notes = [], [], []
    while lines[number := number + 1] != "}":
        line = lines[number]
        if line.startswith("    ///"):
            doc.append(line[8:])
        elif line.startswith("    #["):
            notes.append(line.strip())
        elif (found := MEMBER.match(line)) and found[2] != "use":
            text, clauses = headed(lines, number, "    ") if found[1] == "fn" else (line.strip().rstrip(";"), [])
            members.append(Item(found[1], found[2], doc, text, file, number + 1, clauses, notes, [], line.startswith("    pub ")))
            doc, notes = [], []
        elif line.startswith("    ") and not line.startswith("     "):
            doc, notes = [], []
    return members


def yielded(lines, start):
    """Returns the type of what an impl block of an iterator yields, or nothing if it is of none."""
    block = "\n".join(lines[start:]).split("\n}")[0]
    found = re.search(r"^    type Item = (.*);", block, re.M)
    return found[1] if found else ""


@functools.cache
def parsed(file):
    """Returns the items and the impl blocks of a file."""
    lines = file.read_text().split("\n")
    items, impls, doc, notes = {}, [], [], []
    for number, line in enumerate(lines):
        if line.startswith("///"):
            doc.append(line[4:])
            continue
        if line.startswith("#["):
            notes.append(line)
            continue
        if found := ITEM.match(line):
            kind, name = found.groups()
            item = Item(kind, name, doc, "", file, number + 1, [], notes)
            if kind in ("struct", "enum") and line.endswith("{"):
                item.text = line[:-2]
                item.parts, hidden = parts_of(kind, lines, number)
                item.notes = [*notes, *(["private"] if hidden else [])]
            else:
                item.text, item.clauses = headed(lines, number, "")
            if kind == "trait":
                item.parts = members_of(file, lines, number)
            items[name] = item
        elif re.match(r"impl\b", line):
            header = line
            for more in lines[number + 1:]:
                if "{" in header:
                    break
                header += " " + more.strip()
            header = header.split(" {")[0]
            bare = re.sub(r" where .*", "", header)
            bare = re.sub(r"^impl(<(?:[^<>]|<[^<>]*>)*>)? ", "", bare)
            trait, _, of = bare.partition(" for ") if " for " in bare else ("", "", bare)
            named = re.match(r"(?:&(?:'\w+ )?)?(\w+)(?:<(.*)>)?$", of)
            name, arguments = (named[1], named[2] or "") if named else ("", "")
            item = yielded(lines, number) if trait == "Iterator" else ""
            impls.append(Impl(header, name, arguments, trait, members_of(file, lines, number), file, item))
        doc, notes = [], []
    return items, impls


def comment_of(file):
    """Returns the lines of a file's own comment."""
    return [line[4:] for line in file.read_text().split("\n\n")[0].splitlines() if line.startswith("//!")]


def title_of(file):
    """Returns the first sentence of a file's own comment."""
    return re.split(r"(?<=[.:]) ", " ".join(comment_of(file)))[0].rstrip(".:")


@functools.cache
def uses(file):
    """Returns what the `pub use` lines of a file bring in: for each name its path."""
    found = {}
    for path, names in re.findall(r"^ *pub use ([\w:]+?)(?:::\{([^}]*)\})?;", file.read_text(), re.M):
        whole = [it.strip() for it in names.split(",") if it.strip()] if names else [path.split("::")[-1]]
        for name in whole:
            found[name] = path.split("::") if names else path.split("::")[:-1]
    return found


def file_of(crate, modules):
    """Returns the file of a module of a crate."""
    base = ROOT / "crates" / crate / "src"
    if not modules:
        return base / "lib.rt"
    plain = base.joinpath(*modules).with_suffix(".rt")
    return plain if plain.exists() else base.joinpath(*modules) / "mod.rt"


def resolved(crate, modules, name):
    """Returns an item of a module by its name, through the modules and crates that hand it on. Returns `None` for none."""
    file = file_of(crate, modules)
    if not file.exists():
        return None
    items, _ = parsed(file)
    if name in items and items[name].kind != "mod":
        return items[name]
    if name in items:
        return Item("mod", name, items[name].doc, "", file_of(crate, [*modules, name]), 1)
    path = uses(file).get(name)
    if path is None:
        return None
    if path[0] in LINES:
        return resolved(path[0], path[1:], name)
    return resolved(crate, path[1:] if path[0] == "crate" else [*modules, *path], name)


def public():
    """Yields the public items of the library: the crate or the module of zerotrie that shows each, its name there, and the item."""
    shown = [*of_zerotrie()]
    yield from shown
    for crate in BESIDE:
        for name in uses(file_of(crate, [])):
            item = resolved(crate, [], name)
            if not any(it is item for _, _, it in shown):  # (what zerotrie hands on has its page there)
                yield crate, name, item
        yield from ((f"{crate}::laws", it.name, it) for it in laws(file_of(crate, ["laws"])))


def of_zerotrie():
    """Yields the public items of the crate zerotrie."""
    text = file_of("zerotrie", []).read_text()
    inner = r"^pub mod (\w+) \{\n(.*?)^\}"
    shown = [("", re.sub(inner, "", text, flags=re.M | re.S)), *re.findall(inner, text, re.M | re.S)]
    for module, part in shown:
        for path, names in re.findall(r"^ *pub use ([\w:]+?)(?:::\{([^}]*)\})?;", part, re.M):
            path = path.split("::")
            for name in [it.strip() for it in names.split(",") if it.strip()] if names else [path.pop()]:
                item = resolved(path[0], path[1:], name) if path[0] in LINES else resolved("zerotrie", path, name)
                if item and item.kind == "mod":
                    yield from ((name, it.name, it) for it in laws(item.file))
                else:
                    yield module, name, item
    for module in re.findall(r"^pub mod (\w+);", text, re.M):
        for name in uses(file_of("zerotrie", [module])):
            yield module, name, resolved("zerotrie", [module], name)


def laws(file):
    """Yields the public items of a module's file, those that it hands on too."""
    if not file.exists():
        return
    items, _ = parsed(file)
    yield from (it for it in items.values() if it.kind == "fn")
    for name, path in uses(file).items():
        if path[0] in LINES and (item := resolved(path[0], path[1:], name)):
            yield item


def modules():
    """Returns the doc comments of the modules of the crate zerotrie and of the crates beside it: of each its lines."""
    lib = file_of("zerotrie", [])
    docs = {name: item.doc or comment_of(file_of("zerotrie", [name])) for name, item in parsed(lib)[0].items() if item.kind == "mod"}
    for name, path in uses(lib).items():
        item = resolved(path[0], path[1:], name) if path[0] in LINES else None
        if item and item.kind == "mod":
            docs[name] = comment_of(item.file)
    for crate in BESIDE:
        docs[crate] = comment_of(file_of(crate, []))
        if file_of(crate, ["laws"]).exists():
            docs[f"{crate}::laws"] = comment_of(file_of(crate, ["laws"]))
    return docs


def all_files():
    """Returns the sources of the library, crate by crate."""
    crates = dict.fromkeys([*below("zerotrie"), *BESIDE])
    return [file for crate in crates for file in sorted((ROOT / "crates" / crate / "src").rglob("*.rt"))]


def all_impls():
    """Returns all impl blocks of the library."""
    return [it for file in all_files() for it in parsed(file)[1]]
