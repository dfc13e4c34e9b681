"""Compares the page of each language with what is public in it, by the sources alone.

The pages are C.md, CPP.md, PYTHON.md and JAVASCRIPT.md in docs. Each public function, class and method is
named in code on its page, a method in a section whose heading names its class. Each name on a page
that is called, as `name(`, or named with its class, as `Class::name`, is public.
"""

import ast
import re

#: What the pages call beside the library.
OTHERS = set(
    "BigInt Uint8Array arrayBuffer bool bytes fetch find_package free hash help len main malloc map mmap "
    "memoryview readFileSync realloc rename reversed target_link_libraries what zerotrie_c".split()
)


def documented(text, mark):
    """The text without what is marked as no part of the documents."""
    return re.sub(rf"{mark} @cond.*?{mark} @endcond", "", text, flags=re.S)


def in_c(here):
    """The functions, types and macros of zerotrie.h, and its constants, which need not be named."""
    text = documented((here / "c/zerotrie.h").read_text(), r"/\*\*")
    text = re.sub(r"/\*.*?\*/", "", text, flags=re.S)
    names = set(re.findall(r"\b(zerotrie_\w+)\(", text))
    names |= set(re.findall(r"^typedef (?:struct|enum) (\w+)", text, re.M))
    names |= set(re.findall(r"^#define (ZEROTRIE_\w+)", text, re.M)) - {"ZEROTRIE_H"}
    return {"": names}, set(re.findall(r"\bZEROTRIE_\w+", text))


def name_in_cpp(line):
    """The name that a declaration of C++ declares; None for an operator."""
    line = re.sub(r"\[\[.*?\]\]|\bZEROTRIE_(?:VIEW|LIFETIMEBOUND)\b", "", line).strip()
    while line.startswith("template <"):
        depth, at = 1, len("template <")
        while depth:
            depth += {"<": 1, ">": -1}.get(line[at], 0)
            at += 1
        line = line[at:].strip()
    if found := re.match(r"(?:enum class|class|struct|using) +(\w+)", line):
        return found[1]
    if "operator" in line.split("(")[0]:
        return None
    while "<" in line:
        line, shorter = re.sub(r"<[^<>]*>", "", line), line
        if line == shorter:
            break
    found = re.search(r"(~?\w+)\s*(?:[(;={,]|$)", line)
    return found and found[1]


def in_cpp(here):
    """The functions and classes of zerotrie.hpp that have a comment, and the members of each class.
    """
    text = documented((here / "c/zerotrie.hpp").read_text(), "///")
    public, owner = {"": set()}, ""
    lines = text[text.index("\nnamespace zerotrie {") :].splitlines()
    for place, line in enumerate(lines):
        if line.startswith("};"):
            owner = ""
        beside = re.match(r"\s*(\w.*) ///< ", line)
        if not beside and (re.match(r"\s*///", line) or not re.match(r"\s*/// ", lines[place - 1])):
            continue
        name = name_in_cpp(" ".join(it.strip() for it in lines[place : place + 6]))
        if name and name[0] != "~" and name != owner:
            public[owner].add(name)
        if found := re.match(r"(?:enum class|class|struct) (?:ZEROTRIE_VIEW )?(\w+)[^;]*$", line):
            owner = found[1]
            public.setdefault(owner, set())
    return public, set()


def in_python(here):
    """The functions and classes of the module, the methods of each class and of its bases, and the
    members of enums.
    """
    trees = [ast.parse(path.read_text()) for path in (here / "python/zerotrie").glob("*.py")]
    # with what a module has at run time and not for types
    top = [it for tree in trees for one in tree.body for it in (one.orelse if isinstance(one, ast.If) else [one])]
    classes = {it.name: it for it in top if isinstance(it, ast.ClassDef)}
    assigned = [it for it in top if isinstance(it, ast.Assign)]
    (names,) = [it.value for it in assigned if ast.unparse(it.targets[0]) == "__all__"]

    def methods(name):
        if name not in classes:
            return set()
        found = {it.name for it in classes[name].body if isinstance(it, ast.FunctionDef)}
        for base in classes[name].bases:
            found |= methods(ast.unparse(base).split("[")[0])
        return {it for it in found if not it.startswith("_")}

    public = {"": set(ast.literal_eval(names))}
    members = [it for one in classes.values() for it in one.body if isinstance(it, ast.Assign)]
    return (
        {**public, **{name: methods(name) for name in public[""] if name in classes}},
        {ast.unparse(it.targets[0]) for it in members},
    )


def in_javascript(here):
    """The classes, constants and types that are declared, the members of ZeroTrie, and those of
    other classes, which need not be named.
    """
    text = (here / "js/zerotrie_read.d.mts").read_text()
    public, members = {"": set()}, set()
    for name, body in re.findall(r"^export (?:class|const|type) (\w+)(.*?)(?=^export|\Z)", text, re.M | re.S):
        public[""].add(name)
        found = set(re.findall(r"^    (?:static |get |readonly )*(\w+)[(:]", body, re.M))
        members |= found
        if name == "ZeroTrie":
            public[name] = found - {"constructor"}
    return public, members | set(re.findall(r'"([A-Z_]+)"', text))


PAGES = {
    "C.md": in_c,
    "CPP.md": in_cpp,
    "PYTHON.md": in_python,
    "JAVASCRIPT.md": in_javascript,
}


def spans(text):
    """The code in a text that is no block."""
    return re.findall(r"`([^`]+)`", re.sub(r"^```.*?^```", "", text, flags=re.M | re.S))


def words(text):
    """The names in the code of a text."""
    return {word for span in spans(text) for word in re.findall(r"\w+", span)}


def faults(text, public, members):
    """Yields what a page lacks, and what it names and is not public. Members need not be named."""
    sections = re.split(r"^(?=## )", text, flags=re.M)
    known = set().union(*public.values(), members)
    for owner, names in public.items():
        about = [it for it in sections if not owner or owner in words(it.split("\n")[0])]
        for name in sorted(names - words("\n".join(about))):
            yield f"{owner or 'the library'} has {name}, which is not on the page"
    for span in spans(text):
        called = re.findall(r"(?<!std::)\b(\w+)\(", span)
        if "zerotrie_get" in known:
            called += re.findall(r"\b(?:zerotrie|ZEROTRIE)_\w+\b(?!\.)", span)
        for name in set(called) - known - OTHERS:
            yield f"{name} is on the page, and not public"
        for owner, name in re.findall(r"\b(\w+)(?:::|\.)(\w+)", span):
            if owner in public and name not in public[owner] | members:
                yield f"{owner} has no {name}, which is on the page"


def compare(here):
    """Exits if a page and the sources differ."""
    wrong = [
        f"docs/{page}: {fault}"
        for page, read in PAGES.items()
        for fault in faults((here.parent / "docs" / page).read_text(), *read(here))
    ]
    if wrong:
        raise SystemExit("\n".join(wrong))
    print(f"pages: {len(PAGES)} languages, whose public calls are on their pages")
