"""What has another name in plain Rust, or another form."""
import re

# a path that begins with one of these: what it begins with instead
LIBRARIES = {
    "std": "rstd",
    "str": "rstd::str",  # Rust has its functions in the type from 1.87 on
    "arrayvec": "rstd::arrayvec",
    "serde_json": "rstd::serde_json",
    "linked_list_allocator": "rstd::linked_list_allocator",
    "clap": "rstd::clap",
    "csv": "rstd::csv",
    "itoa": "rstd::itoa",
    "json": "rstd::json",
    "memchr": "rstd::memchr",
}
# a crate whose module has another name: else `use zerotrie::*` would bring a second `zerotrie` into a program
MODULES = {"zerotrie": "zerotrie_all"}
# what a macro for users names, by its public path
PUBLIC = {"AnyAutomaton": "search::AnyAutomaton"}
# functions of `String`, which is Rust's own and takes no allocator
STRING_FUNCTIONS = ("String::new(", "String::from_str(", "String::from_utf8(")
# methods of Rust's own types that here return an error of memory, the second ones if they are given an allocator
FALLIBLE_METHODS = {"push_str": "try_push_str"}
METHODS_WITH_ALLOCATOR = {"collect": "collect_in"}
# methods that end the program if there is no memory, and return no error; the second ones take no allocator either
INFALLIBLE_METHODS = {"clone", "sort", "sort_by", "sort_by_key"}
INFALLIBLE_WITH_ALLOCATOR = {"to_ascii_lowercase"}
METHODS = {*FALLIBLE_METHODS, *METHODS_WITH_ALLOCATOR, *INFALLIBLE_METHODS, *INFALLIBLE_WITH_ALLOCATOR}
# macros that stay, those that lose the runtime or the allocator with the error that they return for it, and those of the shim; what prints
# is one of the shim if its error is not handed on, as Rust's own ends the program
KEPT_MACROS = {"matches", "unreachable", "write", "writeln", "macro_rules"}
KEPT_MACROS |= {"by_kind", "by_flavor", "by_automaton", "by_pairs"}
MACROS_WITH_RUNTIME = {"assert", "assert_eq", "assert_ne", "panic", "format"}
SHIM_MACROS = {"vec": "vec_in"}
PRINTS = {"print", "println", "eprint", "eprintln"}
OPERATORS = {"if", "while", "return", "match", "in", "else", "let"}


def rename(source, crate, crates, root="crate", home=""):
    clones(source)
    own_methods(source)
    formats(source)
    strings(source, root)
    pushes(source)
    methods(source)
    macros(source, root)
    paths(source, crate, crates, root, home)


def module(crate):
    return MODULES.get(crate, crate)


def paths(source, crate, crates, root, home):
    """Names each crate as a module of the package, and the libraries below it as modules of the shim. The modules are in `home`, from
    where the root of the package hands them on; only what is visible in one has to name it. A module that the source declares is its own.
    """
    own = {source.word(source.after(it)) for it in source.each("mod")}
    for at in source.each("crate", *crates, *LIBRARIES):
        word = source.word(at)
        is_path = source.match(at, f"{word}::")
        if word == "crate":
            if not is_path and not source.match(source.before(at), "(crate)"):
                source.refuse(at, "crate of another form")
            public = PUBLIC.get(source.word(is_path)) if source.word(source.before(at)) == "$" else None
            if public:
                source.put(at, is_path + 1, f"crate::{public}")
            else:
                source.put(at, at + 1, f"crate::{module(crate)}" if is_path else f"in crate::{home}{module(crate)}")
        elif is_path and word not in own and not follows_path(source, at):
            source.put(at, at + 1, f"{root}::{LIBRARIES.get(word, module(word))}")


def follows_path(source, at):
    before = source.before(at)
    return source.word(before) in (".", "$") or source.word(before) == ":" == source.word(source.before(before))


def strings(source, root):
    for at in source.each("String"):
        if any(source.match(at, it) for it in STRING_FUNCTIONS) and not follows_path(source, at):
            source.put(at, at + 1, f"{root}::rstd::string")


def pushes(source):
    """A character that is added to a `String` of the function's parameters may lack memory."""
    for at in source.each("String"):
        start = source.before(source.before(at))
        if source.match(start, "&mut String"):
            name = source.word(source.before(source.before(start)))
            body = source.find(at, "{", ";")
            for it in range(body, source.close(body) if source.word(body) == "{" else body):
                end = source.match(it, f"{name}.push(")
                if end:
                    push = source.before(source.before(end))
                    source.put(push, push + 1, "try_push")


def own_methods(source):
    """Stops at a method of these names: calls of it would change as those of Rust's own types do, and lose its error."""
    for at, name in source.functions():
        heads = [it for it in range(at, source.find(at, "{", ";")) if source.word(it) == "("]
        if name in METHODS and any(re.match(r"(&('\w+ )?)?(mut )?self\b", source.inside(it)) for it in heads):
            source.refuse(at, f"an own method {name}")


def methods(source):
    for at in source.each(*METHODS):
        word, bracket = source.word(at), source.after(at)
        if source.word(source.before(at)) != "." or source.word(bracket) != "(":
            continue
        given, tried = source.inside(bracket), source.after(source.close(bracket))
        if word in FALLIBLE_METHODS or word in METHODS_WITH_ALLOCATOR and given:
            source.put(at, at + 1, {**FALLIBLE_METHODS, **METHODS_WITH_ALLOCATOR}[word])
        elif word in INFALLIBLE_METHODS or word in INFALLIBLE_WITH_ALLOCATOR and given:
            if word in INFALLIBLE_WITH_ALLOCATOR:
                source.cut(bracket + 1, source.close(bracket))
            if source.word(tried) == "?":
                source.cut(tried, tried + 1)
            elif word == "clone":
                source.put(at, at + 1, "clone_in")


def macros(source, root):
    for at in source.each("!"):
        name, bracket = source.before(at), source.after(at)
        word = source.word(name)
        if source.word(bracket) not in ("(", "[", "{") or not word.isidentifier() or word in OPERATORS:
            continue
        if word in SHIM_MACROS:
            source.put(name, name + 1, f"{root}::rstd::{SHIM_MACROS[word]}")
        elif word in MACROS_WITH_RUNTIME or word in PRINTS:
            without_runtime(source, root, name, bracket)
        elif word not in KEPT_MACROS:
            source.refuse(name, f"the macro {word}")


def without_runtime(source, root, name, bracket):
    """Takes the runtime or the allocator from a macro. One that returned an error for that does so no more."""
    if not any(source.match(bracket, it) for it in ("(rt;", "(&rt;", "(in ")):
        source.refuse(name, "a macro without the runtime")
    source.cut(bracket + 1, source.after(source.find(bracket, ";")))
    end = source.close(bracket)
    if source.word(source.after(end)) == "?":
        source.cut(end + 1, source.after(end) + 1)
    elif source.word(name) in PRINTS:
        source.put(name, name + 1, f"{root}::rstd::{source.word(name)}")
    elif source.word(name) == "format":
        source.put(name, name + 1, f"Ok::<_, {root}::rstd::alloc::AllocError>(format")
        source.put(end, end + 1, "))")


def clones(source):
    """A clone is without an error. One that is written by hand must be `Ok(..)`."""
    for at in source.each("fn"):
        body = source.match(at, "fn clone(&self) -> Result<Self, AllocError>")
        if body:
            inner = source.match(body, "{ Ok(")
            end = source.close(source.before(inner)) if inner else 0
            if not inner or source.after(end) != source.close(body):
                source.refuse(at, "a clone that is not Ok(..)")
            source.put(at, body, "fn clone(&self) -> Self ")
            source.cut(source.after(body), inner)
            source.cut(end, end + 1)


def formats(source):
    """What writes a value is not generic over the writer."""
    for at in source.each("fmt"):
        if source.word(source.before(at)) == "fn":
            end = source.match(at, "fmt<W: fmt::Write>")
            writer = source.find(at, "Formatter")
            behind = source.match(writer, "Formatter<W>")
            if not end or not behind:
                source.refuse(at, "a fmt of another form")
            source.put(at, end, "fmt")
            source.put(writer, behind, "Formatter<'_>")


def runtimes(source):
    """A test, or `main`, has the runtime as a local."""
    for at in source.each("fn"):
        bracket = source.after(source.after(at))
        end = source.match(bracket, "(rt: HostRuntime)")
        if end:
            source.put(bracket, end, "() ")
            blank = source.find(end, "{") + 1
            indent = source.tokens[blank].text
            source.put(blank, blank + 1, f"{indent}let rt = HostRuntime;{indent}")
    for at in source.each("HostRuntime"):
        source.refuse(at, "the runtime as something else")
