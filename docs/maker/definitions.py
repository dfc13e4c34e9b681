"""Reads the definitions in specs/, and finds where each word of a clause is defined."""
import functools
import re

import sources
from sources import LINES, ROOT

HANDED = re.compile(r"^pub use Rattle\.(\w+)\.specs\.([\w.]+)(?: as (\w+))?$", re.M)
HIDDEN = ("invariant", "view")  # parts of a type that speak of its private fields
USE = re.compile(r"^\s*(?:ghost )?(?:pub )?use (Rattle\.[\w.«»]+?)(?:\.\{([^}]*)\})?(?: as (\w+))?;?$", re.M)
HEAD = re.compile(r"\s*((?:(?:abbrev|unfoldable|opaque|pub|data|record|syntax|rec) )*)([^\s:({]+)(?: [({].*?)? :( |$)")
WORD = re.compile(r"[A-Za-z_][\w-]*")


@functools.cache
def spec_file(crate, modules):
    """Returns the file of a module of a crate's specs/, which may be handed on from a crate below. `None` if there is none."""
    specs = ROOT / "crates" / crate / "specs"
    file = specs.joinpath(*modules).with_suffix(".antt")
    if file.exists():
        return file
    lib = specs / "Lib.antt"
    for other, path, alias in HANDED.findall(lib.read_text()) if lib.exists() else []:
        if (alias or path.split(".")[-1]) == modules[0] and other in LINES:
            return spec_file(other, (*path.split("."), *modules[1:]))
    return None


@functools.cache
def heads(file):
    """Returns the lines at which the words of a file are defined, cases and fields too."""
    found = {}
    for number, line in enumerate(file.read_text().splitlines()):
        if not line.lstrip().startswith(("--", "use ")) and (match := HEAD.match(line)):
            found.setdefault(match[2], number)
    return found


@functools.cache
def comments(file):
    """Returns the comments of a file, by the line that they stand before."""
    found, comment = {}, []
    for number, line in enumerate(file.read_text().splitlines()):
        text = line.strip()
        if text.startswith("-- "):
            comment.append(text[3:])
        else:
            if comment and text:
                found[number] = " ".join(comment)
            comment = []
    return found


def comment_of(file, name):
    """Returns the comment of a word: its own, or that of the definition that it is a case or a field of."""
    line = heads(file).get(name, -1)
    while line >= 0 and line not in comments(file):
        line -= 1
        if line >= 0 and not file.read_text().splitlines()[line].strip():
            return ""
    return comments(file).get(line, "")


@functools.cache
def words_of(file):
    """Returns the words that a file sees from elsewhere: for each its file and its name there, or a text on it."""
    seen = {}
    for path, names, alias in USE.findall(file.read_text()):
        crate, *rest = path.split(".")[1:]
        for name in filter(None, (it.strip() for it in names.split(","))):
            name, _, other = name.partition(" as ")
            where = crate if crate not in LINES else None
            if crate in LINES and rest and rest[0] == "specs":
                target = None if rest[1:2] == ["declared"] else spec_file(crate, tuple(rest[1:]))
                where = (target, name) if target and name in heads(target) else None
                if rest[1:2] == ["declared"]:
                    where = ("item", [it for it in rest if it[0].isupper() and it != "TheVariants"][-1], name)
            seen[other or name] = where
        if alias:
            seen[alias] = crate if crate not in LINES else None
    return seen


def meaning(file, name):
    """Returns where a word of a file is defined, as `words_of` does, its own words too."""
    if file.suffix == ".antt" and name in heads(file) and not file.read_text().splitlines()[heads(file)[name]].startswith("  "):
        return file, name  # (a case or a field has the name of many a variable)
    return words_of(file).get(name)


def cited(files):
    """Returns the files of definitions that files cite, and all that those cite."""
    found, left = set(), [*files]
    while left:
        for where in words_of(left.pop()).values():
            if isinstance(where, tuple) and where[0] != "item" and where[0] not in found:
                found.add(where[0])
                left.append(where[0])
    return sorted(found)


def handed_on():
    """Returns the files of definitions that `Rattle.zerotrie.specs` has or hands on, with those of their folders."""
    specs = ROOT / "crates" / "zerotrie" / "specs"
    files = [*specs.glob("*.antt"), *(spec_file(crate, tuple(path.split("."))) for crate, path, _ in HANDED.findall((specs / "Lib.antt").read_text()))]
    return {below for file in files for below in (file, *file.with_suffix("").rglob("*.antt"))}


def not_handed_on():
    """Yields the definitions that clauses of the public calls of zerotrie cite and that `Rattle.zerotrie.specs` does not hand on."""
    handed, said = handed_on(), set()
    impls = sources.all_impls()
    for _, name, item in sources.of_zerotrie():
        methods = [(it.file, method) for it in impls if it.type == name for method in it.methods if method.is_public or it.trait and method.name not in HIDDEN]
        for file, call in [(item.file, item), *((item.file, part) for part in item.parts if item.kind == "trait"), *methods]:
            texts = [text for _, _, text in call.clauses] + [call.text] * (call.kind == "ghost")
            found = [meaning(file, word) for text in texts for word in WORD.findall(text)]
            new = {it[0] for it in found if isinstance(it, tuple) and it[0] != "item"} - handed - said
            yield from (f"{call.name} of {name} cites {it.relative_to(ROOT)}, which Rattle.zerotrie.specs does not hand on" for it in sorted(new))
            said |= new
