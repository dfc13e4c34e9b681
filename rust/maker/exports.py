"""The functions for C, beside those that the sources export."""
import re

NUMBERS = {"u8", "u16", "u32", "u64", "usize", "bool"}
HEAD = '#[unsafe(no_mangle)] pub extern "C" fn'
MODULE = """
/// The functions as C calls them: a slice is a pointer and a number of items.
#[allow(unsafe_code)]
mod exports {{
    use super::*;
{exports}}}
"""
EXPORT = """
    #[unsafe(no_mangle)]
    unsafe extern "C" fn {name}({takes}) {returns} {{
        // SAFETY: a caller keeps to what zerotrie.h says.
        unsafe {{
            {call}
        }}
    }}
"""
EXPORT_OF_NUMBERS = """
    #[unsafe(no_mangle)]
    extern "C" fn {name}({takes}) {returns} {{
        {call}
    }}
"""


def exports(source):
    """Makes each export a function of Rust alone. Returns a module of the functions for C, or nothing."""
    texts = ""
    for at in source.each("#"):
        name = source.match(at, HEAD)
        if name:
            texts += export(source, name)
            source.put(at, name, "pub fn ")
        elif source.match(at, "#[unsafe"):
            source.refuse(at, "an export of another form")
    return MODULE.format(exports=texts) if texts else ""


def export(source, at):
    name, bracket = source.word(at), source.after(at)
    end = source.close(bracket)
    returns = " ".join(source.part(end + 1, source.find(end, "{")).split())
    crossed = [cross(source, at, *it.split(": ")) for it in source.inside(bracket).split(", ") if it]
    takes, gives = [it for take, _ in crossed for it in take], [give for _, give in crossed]
    has_pointers = any("*" in it for it in takes)
    call = f"super::{name}({listed(gives, 12 if has_pointers else 8)})"
    return (EXPORT if has_pointers else EXPORT_OF_NUMBERS).format(name=name, takes=listed(takes, 4), returns=returns, call=call)


def listed(items, indent):
    """Returns a list, on a line for each item if there are many."""
    if len(items) < 3:
        return ", ".join(items)
    return "".join(f"\n{' ' * indent}    {it}," for it in items) + "\n" + " " * indent


def cross(source, at, name, kind):
    """Returns the parameters of C for one of Rust, and what is handed on."""
    form = re.fullmatch(r"&(mut )?(\[)?([\w<'>]+)\]?", kind)
    if kind == "Global":
        return [], kind
    if kind in NUMBERS:
        return [f"{name}: {kind}"], name
    if not form:
        source.refuse(at, f"{kind} does not cross to C")
    pointer = f"{name}: {'*mut' if form[1] else '*const'} {form[3]}"
    if form[2]:
        return [pointer, f"{name}_len: usize"], f"crate::slice{'_mut' if form[1] else ''}({name}, {name}_len)"
    return [pointer], f"&{form[1] or ''}*{name}"


def slice_fields(source):
    """Makes a slice in a structure for C a pointer with a length. Returns the names of these structures and fields."""
    fields = set()
    for at in source.each("#"):
        item = source.match(at, "#[repr(C)]")
        brace = source.find(item, "{") if item else 0
        for kind in range(brace, source.close(brace) if item else 0):
            if source.word(kind) == "&":
                fields.add((source.word(source.after(source.find(item, "struct"))), source.word(source.before(source.before(kind)))))
                life = source.word(source.after(kind))
                source.put(kind, source.close(source.find(kind, "[")) + 1, f"crate::Slice<{life}>")
    return fields


def fill(source, first):
    """Makes the expression that begins here, and that a comma ends, what is at a pointer."""
    last = source.before(source.find(first, ","))
    source.put(last, last + 1, f"{source.word(last)})")
    source.put(first, first + 1, f"crate::Slice::of({source.word(first)}")


def read_fields(source, fields):
    """Reads such a field by a call, and fills it by one."""
    names = {name for name, _ in fields}
    for at in source.each(*names):
        brace = source.after(at)
        if source.word(brace) == "{" and source.word(source.before(at)) not in ("struct", "impl"):
            for it in range(brace, source.close(brace)):
                if (source.word(at), source.word(it)) in fields and source.word(source.after(it)) == ":":
                    fill(source, source.after(source.after(it)))
    for at in source.each(*(field for _, field in fields)):
        dot = source.before(at)
        if source.word(dot) == "." != source.word(source.before(dot)) and source.word(source.after(at)) != "(":
            source.put(at, at + 1, f"{source.word(at)}.get()")
