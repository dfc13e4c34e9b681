// Made from crates/zerotrie_queries/src/code/write.rt by rust/make: edit that.
//! A trie as source code.

use crate::rstd::prelude::*;
use crate::zerotrie_queries::code::c_reader::READER;
use crate::zerotrie_queries::code::items::write_items;
use crate::zerotrie_queries::code::{Language, c_kind, kind_number, rattle_type};
use crate::rstd::alloc::{AllocError, Global};
use crate::rstd::io;
use crate::rstd::io::Write;
use crate::zerotrie_core::{TrieKind, TrieRef};
use crate::zerotrie_files::Noted;

/// The parameters of the function of C, whose key may be a string of C, and the call of the library
/// in it.
const C_CALL: &str =
    "_get(const void *key, size_t key_len, size_t *value) {\n    return zerotrie_get(";

/// The same with the call of the reader.
const ALONE_CALL: &str =
    "_get(const void *key, size_t key_len, uint64_t *value) {\n    return zerotrie_read_get(";

fn add_rust_front(text: &mut Vec<u8>, kind: TrieKind, name: &str) -> Result<(), AllocError> {
    let kind = rattle_type(kind);
    write!(
        text,
        "/// The trie: `{name}.get(key)` is the value of a key.
pub static {name}: zerotrie::{kind}<&'static [u8]> =
    zerotrie::{kind}::from_store(&["
    )
    .map_err(|_| AllocError)
}

/// Adds the constants of C before the bytes, with the text of the kind.
fn add_c_constants(text: &mut Vec<u8>, kind: &str, name: &str) -> Result<(), AllocError> {
    write!(
        text,
        "
/* The kind of the trie. */
static const uint32_t {name}_kind = {kind};

/* Its bytes, and a zero. */
static const uint8_t {name}_bytes[] = {{"
    )
    .map_err(|_| AllocError)
}

/// Adds the C code before the bytes, over the library.
fn add_c_front(text: &mut Vec<u8>, kind: TrieKind, name: &str) -> Result<(), AllocError> {
    text.extend_from_slice(b"#include \"zerotrie.h\"\n")?;
    add_c_constants(text, c_kind(kind), name)
}

/// Adds what C has right after the bytes: a zero, since an array of C can't be empty, and the
/// number of bytes.
fn add_c_len(text: &mut Vec<u8>, name: &str) -> Result<(), AllocError> {
    write!(
        text,
        "
    0
}};

/* How many bytes it has. */
static const size_t {name}_len = sizeof {name}_bytes - 1;
"
    )
    .map_err(|_| AllocError)
}

/// Adds the function of C, with its parameters and the call in it.
fn add_c_get(text: &mut Vec<u8>, call: &str, name: &str) -> Result<(), AllocError> {
    write!(
        text,
        "
/* Whether the trie has the key. If so, writes its value. */
static inline bool {name}{call}{name}_kind, {name}_bytes, {name}_len, (const uint8_t *)key, key_len, value);
}}
"
    )
    .map_err(|_| AllocError)
}

fn add_c_end(text: &mut Vec<u8>, call: &str, name: &str) -> Result<(), AllocError> {
    add_c_len(text, name)?;
    add_c_get(text, call, name)
}

fn add_rattle_front(text: &mut Vec<u8>, name: &str) -> Result<(), AllocError> {
    write!(
        text,
        "/// The value of a key. `None` if the trie has no such key.
pub fn {name}(key: &[u8]) -> Option<usize> {{
    static BYTES: &[u8] = &["
    )
    .map_err(|_| AllocError)
}

fn add_rattle_end(text: &mut Vec<u8>, kind: TrieKind) -> Result<(), AllocError> {
    let kind = rattle_type(kind);
    write!(
        text,
        "
    ];
    zerotrie::{kind}::from_bytes(BYTES).get(key)
}}
"
    )
    .map_err(|_| AllocError)
}

fn add_js_front(text: &mut Vec<u8>, name: &str) -> Result<(), AllocError> {
    write!(
        text,
        "import {{ ZeroTrie }} from \"./zerotrie_read.mjs\";

/** The trie: `{name}.get(key)` is the value of a key. */
export const {name} = new ZeroTrie(new Uint8Array(["
    )
    .map_err(|_| AllocError)
}

fn add_js_end(text: &mut Vec<u8>, kind: TrieKind) -> Result<(), AllocError> {
    let number = kind_number(kind);
    write!(text, "\n]), {number});\n").map_err(|_| AllocError)
}

/// Adds the code before the bytes.
fn add_front(
    text: &mut Vec<u8>,
    language: Language,
    kind: TrieKind,
    name: &str,
) -> Result<(), AllocError> {
    match language {
        Language::Rust => add_rust_front(text, kind, name),
        Language::C => add_c_front(text, kind, name),
        Language::CAlone => add_c_constants(text, kind_number(kind), name),
        Language::Rattle => add_rattle_front(text, name),
        Language::JavaScript => add_js_front(text, name),
    }
}

/// Adds the code after the bytes.
fn add_end(
    text: &mut Vec<u8>,
    language: Language,
    kind: TrieKind,
    name: &str,
) -> Result<(), AllocError> {
    match language {
        Language::Rust => text.extend_from_slice(b"\n]);\n"),
        Language::C => add_c_end(text, C_CALL, name),
        Language::CAlone => add_c_end(text, ALONE_CALL, name),
        Language::Rattle => add_rattle_end(text, kind),
        Language::JavaScript => add_js_end(text, kind),
    }
}

/// Writes the bytes of a trie as a constant, and the call that reads it, by this name. It allocates
/// the code around the bytes before it writes. If it fails, a beginning of the code was written.
fn write_constant<W: Write>(
    alloc: Global,
    trie: &TrieRef<'_>,
    language: Language,
    name: &str,
    output: &mut Noted<W>,
) -> io::Result<()> {
    let mut front = Vec::new(alloc);
    let mut end = Vec::new(alloc);
    add_front(&mut front, language, trie.kind, name)?;
    add_end(&mut end, language, trie.kind, name)?;
    output.write_bytes(front.as_slice())?;
    write_items(trie.bytes, output)?;
    output.write_bytes(end.as_slice())
}

/// Writes what a program needs before the code. If it fails, a beginning of it was written.
fn write_reader<W: Write>(language: Language, output: &mut Noted<W>) -> io::Result<()> {
    match language {
        Language::CAlone => output.write_bytes(READER.as_bytes()),
        Language::Rust | Language::C | Language::Rattle | Language::JavaScript => Ok(()),
    }
}

/// Writes the bytes of a trie as source code: a constant, and the call that reads it, by this name.
/// They may be any bytes, and the name must be an identifier (`is_name`) that is no keyword of the
/// language. If it fails, a beginning of the code was written.
pub fn write_trie_code<W: Write>(
    alloc: Global,
    trie: &TrieRef<'_>,
    language: Language,
    name: &str,
    output: &mut Noted<W>,
) -> io::Result<()> {
    write_reader(language, output)?;
    write_constant(alloc, trie, language, name, output)
}
