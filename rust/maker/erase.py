"""What proofs alone read is left out."""
import re

import errors
from tokens import FUNCTION

KEPT_ATTRIBUTES = {"inline", "repr", "macro_export", "unsafe", "test", "cfg", "must_use", "deprecated", "non_exhaustive", "track_caller"}
LEFT_OUT_ATTRIBUTES = {"tactic", "cycle", "rattlefmt"}
NOT_INLINED = "#[inline(never)]"  # Rust's compiler chooses: what it expands needs fewer checks
KEPT_DERIVES = {"Clone", "Copy", "Debug", "PartialEq", "Eq", "PartialOrd", "Ord", "Default", "Hash"}
LEFT_OUT_DERIVES = {"Drop", "Error", "thiserror::Error"}
LEFT_OUT_IMPORTS = {"use std::marker::Model;", "use thiserror::Error;"}
HEADS = ("fn", "impl", "struct", "enum", "trait", "where")


def ghosts_and_clauses(source):
    """Leaves out ghosts and clauses. A body then begins on the line of the signature, unless that ends in `where`."""
    for at, token in enumerate(source.tokens):
        body = source.after(at)
        if token.kind == "ghost" and token.text[-1] not in ";,":
            source.refuse(at, "a ghost without an end")
        if token.kind == "clause" and source.word(body) not in ("{", ";") and source.tokens[body].kind != "clause":
            source.refuse(at, "a clause without a body")
        if token.kind in ("ghost", "clause"):
            source.cut_item(at, at + 1)
        if token.kind == "clause" and source.word(body) == "{" and head(source, at) != "where":
            source.put(at, body, " ", "space")


def same_functions(source):
    """Stops if the text has a line with a function that is not left, as where a ghost ends too late, or the other way round."""
    written = [(it.start(1), it[1]) for it in FUNCTION.finditer(source.text)]
    left = {source.tokens[source.after(at)].place: name for at, name in source.functions()}
    for place, name in written:
        if left.pop(place, None) != name:
            source.fail(place, "a function in a ghost or a clause")
    for place in left:
        source.fail(place, "a function that begins no line")


def head(source, at):
    """Returns which part of an item's head a token is in."""
    while source.word(at) not in HEADS:
        at = source.before(at)
    return source.word(at)


def models(source):
    """Leaves out `impl Model for`."""
    for at in source.each("Model"):
        if source.word(source.after(at)) == "for" and head(source, at) == "impl":
            start = at
            while source.word(start) != "impl":
                start = source.before(start)
            source.cut_item(start, source.close(source.find(at, "{")) + 1)


def attributes(source):
    """Leaves out the attributes of proofs, and writes what `derive(Error)` derives."""
    for at in source.each("#"):
        bracket = source.match(at, "#!") or source.match(at, "#")
        if source.word(bracket) != "[":
            continue
        end, name = source.close(bracket) + 1, source.word(source.after(bracket))
        if name == "derive":
            derives(source, at, end)
        elif name in LEFT_OUT_ATTRIBUTES or source.match(at, NOT_INLINED):
            source.cut_with_space(at, end)
        elif name not in KEPT_ATTRIBUTES:
            source.refuse(at, f"the attribute {name}")


def derives(source, at, end):
    names = source.inside(source.find(at, "(")).split(", ")
    if not set(names) <= KEPT_DERIVES | LEFT_OUT_DERIVES:
        source.refuse(at, "a derive that is not known")
    if {"Error", "thiserror::Error"} & set(names):
        errors.implement(source, end)
    kept = ", ".join(it for it in names if it in KEPT_DERIVES)
    source.put(at, end, f"#[derive({kept})]")
    if not kept:
        source.cut_with_space(at, end)


def bounds(source):
    """Leaves out the bound `Drop`, which each type of Rust meets."""
    for at in source.each("Drop"):
        before, after = source.before(at), source.after(at)
        if source.word(before) == "+":
            source.cut(source.before(before) + 1, at + 1)
        elif source.word(before) != ":" or source.word(after) == "+":
            source.refuse(at, "Drop that is no bound")
        elif head(source, at) != "where":
            source.cut(before, at + 1)
        else:
            start = source.before(before)
            while source.word(source.before(start)) == ":":
                start = source.before(source.before(source.before(start)))
            source.cut_item(start, source.find(at, ",") + 1)


def imports(source):
    """Leaves out the imports of what is left out, and of constants that only that used."""
    for at in source.each("use"):
        end = source.find(at, ";") + 1
        name = source.before(end - 1)
        if source.word(name).isupper() and source.word(source.before(at)) != "pub" and times(source, source.word(name)) == 1:
            source.cut_item(at, end)
            continue
        if source.part(at, end) in LEFT_OUT_IMPORTS:
            source.cut_item(at, end)
        elif source.match(at, "use std::marker::{Model, PhantomData};"):
            source.put(at, end, "use core::marker::PhantomData;")


def times(source, name):
    """Returns how many tokens have a name in them."""
    return sum(bool(re.search(rf"\b{name}\b", source.word(it))) for it in range(len(source.tokens)))


def erase(source):
    for step in (ghosts_and_clauses, same_functions, models, attributes, imports, bounds):
        step(source)
    for at in source.each("Model"):
        source.refuse(at, "Model of another form")


def layout(source):
    """Returns the text, with one blank line at most where something was left out."""
    text, space = "", ""
    for token in source.tokens:
        if token.kind == "space":
            space += token.text
        elif token.text:
            text, space = text + blank(space, text[-1:], token.text[0]) + token.text, ""
    return text.rstrip("\n") + "\n"


def blank(space, before, after):
    if before == "{" and after == "}":
        return ""
    lines = min(space.count("\n"), 1 if before in ("", "{") or after == "}" else 2)
    return "\n" * lines + space[space.rindex("\n") + 1 :] if lines else space
