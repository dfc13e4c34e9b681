"""The examples of docs, as doc tests."""
from rename import module, rename
from tokens import Source

PACKAGE = "zerotrie"
FENCES = ("```", "```rust", "```rt")  # those of examples; the others stay
# an example with one of these needs what only the tests have, and becomes one of them
OF_TESTS = ("Value::from_str(", ".to_string(rt")


def docs(source, seen, crates):
    """Makes each example of a doc comment a doc test, which sees these crates. Returns those that are left to the tests."""
    fences = [at for at, it in enumerate(source.tokens) if it.kind == "doc" and it.text[3:].strip().startswith("```")]
    left = []
    for start, end in zip(fences[::2], fences[1::2]):
        lines = [it.text[4:] for it in source.tokens[start + 1 : end] if it.kind == "doc"]
        if source.tokens[start].text[3:].strip() not in FENCES:
            continue
        if any(it in line for it in OF_TESTS for line in lines):
            source.put(start, start + 1, source.tokens[start].text + "ignore", "doc")
            left.append("\n".join(lines))
        else:
            indent, sign = source.tokens[start + 1].text, source.tokens[start].text[:3]
            code = doc_test(Source("\n".join(lines), f"{source.name}: an example"), seen, crates)
            source.put(start + 1, end, indent + "".join(f"{sign} {it}".rstrip() + indent for it in code), "doc")
    return left


def doc_test(source, seen, crates):
    """Returns the lines of a doc test."""
    for at in source.each("rt"):
        end = source.match(at, "rt.alloc()")
        if end and source.word(source.before(at)) != ".":
            source.put(at, source.before(end) + 1, "Global")
    rename(source, seen[0], crates, PACKAGE)
    is_program = [whole_program(source, at) for at in source.each("main")]
    lines = source.part(0, len(source.tokens)).split("\n")
    uses = ", ".join(f"{module(it)}::*" for it in seen)
    return [f"# use {PACKAGE}::{{rstd::examples::*, {uses}}};", *lines] + ["# Ok::<(), Fail>(())"] * (not is_program)


def whole_program(source, at):
    """Makes `main` one of Rust, without the runtime."""
    end = source.match(at, "main(rt: HostRuntime)")
    if not end:
        source.refuse(at, "a main of another form")
    source.put(at, end, "main() ")
    result = source.match(end, "-> anyhow::Result<()>")
    if result:
        source.put(end, result, "-> Result<(), Fail> ")
