#!/usr/bin/env python3
"""Tries that the maker stops at what it does not know, and names the line, and that it keeps what looks like a proof and is none."""
import pathlib
import sys

sys.dont_write_bytecode = True
sys.path.insert(0, str(pathlib.Path(__file__).resolve().parent.parent / "maker"))
from erase import erase, layout
from exports import exports
from narrow import narrow
from rename import rename, runtimes
from tokens import Refused, Source

# a source, and the line that the maker stops at
UNKNOWN = {
    "fn f() {}\nghost let x = 1;": 2,
    "fn f() {}\nghost x = { 1 }": 2,
    "impl A {\n    ghost a = { { -- } };\n}": 2,
    "fn f()\n    requires x { 1 }\n    measure { 2 }\n{}": 2,
    "fn f() {\n    é\n}": 2,
    "fn f() {\n    /* ghost */\n}": 2,
    "#[unknown]\nfn f() {}": 1,
    "#[derive(Serialize)]\nstruct A;": 1,
    '#[error("a")]\nstruct A;': 1,
    '#[derive(Error)]\nenum A {\n    #[error("x", 1)]\n    B,\n}\n': 3,
    '#[derive(Error)]\nenum A {\n    #[error("x")]\n    B { x: u8 },\n}\n': 4,
    "#[derive(Error)]\nstruct A;\n": 2,
    "fn f() {\n    todo!()\n}": 2,
    "fn f() {\n    assert!(x)\n}": 2,
    "fn f() {\n    print!(x)\n}": 2,
    "fn f(\n    rt: &HostRuntime,\n) {}": 2,
    "impl Clone for A {\n    fn clone(&self) -> Result<Self, AllocError> {\n        self.x.clone()\n    }\n}": 2,
    "impl D for A {\n    fn fmt(&self, f: &mut Formatter<W>) {}\n}": 2,
    "fn f<T>(x: T)\nwhere\n    T: Into<Drop>,\n{}": 3,
    "struct A<T: Model>;": 1,
    "use crate as c;": 1,
    '#[unsafe(no_mangle)]\npub extern "C" fn f(x: f64) -> u32 {\n    0\n}': 2,
    "#[unsafe(no_mangle)]\npub fn f(x: u64) {}": 1,
    # a block that ends elsewhere would take a function with it
    "fn f()\n    requires { c = '{ }\n{}\n\nfn g() {}\n": 2,
    "fn f()\n    ensures { c = x'{' }\n{\n    a();\n}\nfn g()\n    ensures { c = x'}' }\n{}": 6,
    'ghost x = { " };\n\nfn f() {}\n\nghost y = { " };\n\nfn g() {}\n': 3,
    "struct A; fn f() {}": 1,
    # calls of these would lose the error
    "impl A {\n    fn sort(&mut self) -> Result<(), E> {}\n}": 2,
    "impl A {\n    fn sort_by_key<K: Ord, F: Fn(&u8) -> K>(&mut self, f: F) -> Result<(), E> {}\n}": 2,
    "impl A {\n    pub fn to_ascii_lowercase(self, x: u8) -> Result<u8, E> {}\n}": 2,
    "impl A {\n    fn clone(&self) -> Result<Self, E> {}\n}": 2,
    "trait A {\n    fn collect<'a>(&'a self, x: u8) -> Result<u8, E>;\n}": 2,
    "impl A {\n    fn push_str(mut self, x: &str) -> Result<Self, E> {}\n}": 2,
    # they mean another thing where usize has 32 bits
    "fn f(b: [u8; 8]) -> usize {\n    usize::from_le_bytes(b)\n}": 2,
    "fn f(b: &[u8]) -> [u8; 8] {\n    b.len().to_le_bytes()\n}": 2,
    "fn f(b: &[u8]) -> [u8; 8] {\n    (b.len() / 2).to_le_bytes()\n}": 2,
    "fn f(x: usize) -> bool {\n    x >= 1 << 32\n}": 2,
    "fn f(x: u64) -> usize {\n    x as usize\n}": 2,
    "fn f(x: u64) -> usize {\n    (x >> 32) as usize\n}": 2,
    "fn f(x: Value) -> Option<usize> {\n    x.as_u64().map(|number| number as usize)\n}": 2,
    # they would be printed as they are
    '#[derive(Error)]\npub enum A {\n    #[error("write {{0}} for {0}")]\n    B(u8),\n}\n': 3,
    '#[derive(Error)]\n#[error("a }} b")]\npub struct A;\n': 2,
}
SAME = """fn f(x: u8, y: usize) -> bool {
    y as u64 >= 1 << 32 && x as usize == y && (y as u64).to_le_bytes() == [x % 128; 8]
}
"""
BODIES = "fn f() {\n    a();\n}\n\nfn g() {\n    b();\n}\n"
# a source whose clauses have characters, and what is made of it
KEPT = {
    "fn f()\n    requires { c = '%s' }\n{\n    a();\n}\n\nfn g()\n    ensures { c = '%s' }\n{\n    b();\n}\n" % them: BODIES
    for them in [("{", "}"), ('"', '"'), ("}", "{"), ("\\u{7b}", "\\x7d"), ("\\'", "{"), ("-", "\\\\")]
}
KEPT |= {
    SAME.replace("x as", "byte as"): SAME.replace("x as", "byte as"),
    "fn f()\n    requires { x' = '{' → y'' '}' = f' x }\n{\n    a();\n}\n": "fn f() {\n    a();\n}\n",
    # what the shim has in the place of Rust's own
    "fn f(a: &mut String, b: &mut Vec<char>) {\n    a.push(c)?;\n    b.push(c)?;\n}\n": "    a.try_push(c)?;\n    b.push(c)?;\n",
    'fn f() {\n    let _ = println!(rt; "a");\n    println!(rt; "b")?;\n}\n': '    let _ = crate::rstd::println!("a");\n    println!("b");\n',
    "mod json;\nuse json::Aa;\nuse csv::Bb;\n": "use json::Aa;\nuse crate::rstd::csv::Bb;\n",
    '#[derive(Error)]\n#[error("a", self.n())]\npub struct A {\n    pub(crate) x: u8,\n    pub y: u8,\n}\n': "let Self { x, y } = self;",
}


def made(text):
    """Returns what the maker makes of a source, or the line that it stops at."""
    try:
        source = Source(text, "a.rt")
        erase(source)
        narrow(source, "a.rs", set())
        runtimes(source)
        exports(source)
        rename(source, "a", ["a", "b"])
    except Refused as why:
        return int(str(why).split(":")[1])
    return layout(source)


wrong = {text: made(text) for text, line in UNKNOWN.items() if made(text) != line}
wrong |= {text: made(text) for text, kept in KEPT.items() if kept not in str(made(text))}
if wrong:
    sys.exit("\n".join(f"the maker makes {it}\nof {text}" for text, it in wrong.items()))
print(f"the maker stops at each of {len(UNKNOWN)} unknown forms, and keeps {len(KEPT)} that look like others")
