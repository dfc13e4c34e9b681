"""The code of a trie in C, Rust, JavaScript and Rattle, compiled and run."""
import os
import re
import shutil
import subprocess

from .cases import HELD, NAMES, RUN, TOP, good_file, held_in, here, holds, made, put, run, said

STRICT = ['-Wall', '-Wextra', '-Werror', '-pedantic']
C_PROGRAM = """
#include <stdio.h>
#include "table.h"
#undef zerotrie_get
bool zerotrie_get(uint32_t kind, const uint8_t *bytes, size_t len, const uint8_t *key, size_t key_len, size_t *value) {
    printf("%u %zu %zu", (unsigned)kind, len, key_len);
    for (size_t i = 0; i < len; i++) printf(" %u", bytes[i]);
    *value = key[0];
    return true;
}
int main(void) {
    size_t value;
    return !trie_get("k", 1, &value) || value != 'k' || trie_len + 1 != sizeof trie_bytes;
}
"""

RUST_LIBRARY = """
macro_rules! kinds { ($($name:ident $kind:literal)*) => { $(
    pub struct $name<D> { bytes: D }
    impl $name<&'static [u8]> {
        pub const fn from_store(bytes: &'static [u8]) -> Self { $name { bytes } }
        pub fn get(self: &'static Self, key: &str) -> String {
            let mut text = format!("{} {} {}", $kind, self.bytes.len(), key.len());
            for byte in self.bytes { text.push_str(&format!(" {byte}")); }
            text
        }
    }
)* } }
kinds!(ZeroTrieSimpleAscii 0 ZeroTriePerfectHash 3 ZeroTrieExtendedCapacity 7 ZeroAsciiIgnoreCaseTrie 8);
"""

RUST_PROGRAM = 'mod table { include!("table.rs"); }\nfn main() { print!("{}", table::TRIE.get("k")); }\n'

ALONE_PROGRAM = """
#include "alone.h"
#include <stdio.h>
int main(void) {
    char key[256];
    int len;
    while ((len = getchar()) != EOF) {
        uint64_t value;
        if (fread(key, 1, (size_t)len, stdin) != (size_t)len) return 1;
        if (trie_get(key, (size_t)len, &value)) printf("%llu\\n", (unsigned long long)value);
        else puts("none");
    }
    return 0;
}
"""

JAVASCRIPT_PROGRAM = """
import { readFileSync } from "node:fs";
import { trie } from "./table.mjs";
const input = readFileSync(0);
for (let at = 0; at < input.length; at += 1 + input[at]) {
    console.log(String(trie.get(input.subarray(at + 1, at + 1 + input[at])) ?? "none"));
}
"""


def done(command):
    """Whether a command in the folder of the test ends well."""
    return subprocess.run(command, cwd=RUN.room).returncode == 0


def code_of(path, language, *words):
    return run(['code', path, '--lang', language, *words]).stdout


def compiles(held, path):
    """Compiles the code of a trie in C and in Rust, over a library of two lines that prints what it is given."""
    wanted = f'{held.tag} {len(held.bare)} 1'.encode() + b''.join(b' %d' % b for b in held.bare)
    flags = [*STRICT, '-I', '.', '-I', TOP / 'bindings/c', 'main.c', '-o', 'made']
    put('library.rs', RUST_LIBRARY)
    for language, file, source, program, commands in [
            ('c', 'table.h', 'main.c', C_PROGRAM, [['c++', '-x', 'c++', '-std=c++11', *flags], ['cc', '-std=c11', *flags]]),
            ('rust', 'table.rs', 'main.rs', RUST_PROGRAM, [
                ['rustc', '--crate-type', 'rlib', '--crate-name', 'zerotrie', 'library.rs'],
                ['rustc', '--edition', '2021', '-L', '.', '--extern', 'zerotrie', 'main.rs', '-o', 'made']])]:
        commands = [command for command in commands if shutil.which(command[0])]
        if not shutil.which('cc' if language == 'c' else 'rustc'):
            continue
        code = run(['code', path, '--lang', language])
        put(file, code.stdout)
        put(source, program)
        printed = subprocess.run([here('made')], capture_output=True).stdout if all(map(done, commands)) else b''
        said(f'{held.name}, code in {language}: status {code.returncode}, {printed[:200]!r}', code.returncode == 0 and printed == wanted)


def finds(command, pairs):
    """Whether a program finds the keys that it reads, a byte for the length in front of each, and says that others are none."""
    keys = [k for k in pairs if len(k) < 255][:2000]
    keys += [k + b'~' for k in keys[:200]]
    ran = subprocess.run(command, cwd=RUN.room, input=b''.join(bytes([len(k)]) + k for k in keys), capture_output=True)
    return ran.stdout == b''.join(b'none\n' if k not in pairs else b'%d\n' % pairs[k] for k in keys)


def stands_alone(held, path):
    """Compiles the code of a trie in C with the reader in front, and nothing else, and asks it for keys that are there and not."""
    if not shutil.which('cc'):
        return
    code = code_of(path, 'c', '--alone')
    said(f'{held.name}, alone: the reader is in front', code.startswith(held_in(TOP / 'bindings/c/zerotrie_read.h')))
    put('alone.h', code)
    put('alone.c', ALONE_PROGRAM)
    said(f'{held.name}, alone: compiled', done(['cc', '-std=c99', '-O1', *STRICT, 'alone.c', '-o', 'alone']))
    said(f'{held.name}, alone: values', finds([here('alone')], held.pairs))


def in_javascript(held, path):
    """Imports the code of a trie in JavaScript beside its reader, and asks it for keys that are there and not."""
    if not shutil.which('node'):
        return
    shutil.copy(TOP / 'bindings/js/zerotrie_read.mjs', RUN.room)
    put('table.mjs', code_of(path, 'js'))
    put('asks.mjs', JAVASCRIPT_PROGRAM)
    said(f'{held.name}, in JavaScript: values', finds(['node', 'asks.mjs'], held.pairs))


def two_tables(held, path):
    """Compiles the code of a trie twice in one file, by two names, in C and in Rust."""
    for language, names, file, command in [
            ('c', ['first', '_0x41'], 'two.c', ['cc', '-std=c11', *STRICT, '-c', '-o', 'two.o', '-I', TOP / 'bindings/c']),
            ('rust', ['FIRST', '_0X41'], 'two.rs',
             ['rustc', '--edition', '2021', '--crate-type', 'rlib', '-L', '.', '--extern', 'zerotrie', '-D', 'warnings'])]:
        if not shutil.which(command[0]):
            continue
        tables = [code_of(path, language, '--name', name) for name in names]
        put(file, b'\n'.join(tables))
        said(f'two tables in {language}', done([*command, file]))
        for name, table in zip(names, tables):
            found = re.findall(rb'\b0x[0-9a-f]{2}\b', table)
            said(f'{language}, {name}: its bytes', bytes(int(n, 16) for n in found) == held.bare and name.encode() in table)


def test_languages():
    for held in HELD:
        path = put('tagged', bytes([held.tag]) + held.bare)
        for test in [compiles, two_tables, stands_alone, in_javascript]:
            test(held, path)


def test_names():
    path = good_file()
    holds('no language', ['code', path], b'', 2)
    holds('an unknown language', ['code', path, '--lang', 'nope'], b'', 2)
    for name in ['', '1a', 'a b', 'a-b', 'a;', 'ä']:
        holds(f'code by the name {name!r}', ['code', path, '--lang', 'c', '--name', name], b'', 2, b'--name asks for ASCII')
    for language, name in [('rust', 'fn'), ('rust', 'Self'), ('rust', '_'), ('rattle', 'match'), ('js', 'await'), ('js', 'ZeroTrie'),
                           ('c', 'zerotrie'), ('c', 'zerotrie_dense')]:
        holds(f'code in {language} by the name {name!r}', ['code', path, '--lang', language, '--name', name], b'', 2,
              b'no name that begins with' if language == 'c' else b'no keyword')


def below(crates, name):
    """The crates of the repository that one stands on, and itself."""
    found = {name}
    for other in crates.get(name, []):
        found |= below(crates, other) if other in crates else set()
    return found


def test_rattle():
    """Runs the code of tries in Rattle, of two kinds in one program, over the library's sources."""
    if RUN.fast or not shutil.which('rt'):
        return
    lines = {line.split(':')[0]: line for line in (TOP / 'crates.txt').read_text().splitlines() if ':' in line}
    library = below({name: line.split(':')[1].split() for name, line in lines.items()}, 'zerotrie')
    for name in library:
        shutil.copytree(TOP / 'crates' / name / 'src', here(f'crates/{name}/src'))
    os.makedirs(here('crates/shown/src'))
    put('crates.txt', '\n'.join([*(lines[name] for name in lines if name in library), 'shown: zerotrie', '']))
    code, asked = '', []
    for kind in ['simple', 'hash']:
        code += code_of(made(f'a table in Rattle, {kind}', NAMES, ['-k', kind]), 'rattle', '--name', kind).decode()
        asked += [(kind, key, NAMES.get(key)) for key in [b'amp', b'zwnj;', b'zz']]
    text = ''.join(f'    println!(rt; "{{:?}}", {kind}(b"{key.decode()}"))?;\n' for kind, key, _ in asked)
    put('crates/shown/src/main.rt',
        f'#![tactic(auto)]\n{code}fn main(rt: HostRuntime) -> Result<(), std::io::Error> {{\n{text}    Ok(())\n}}\n')
    ran = subprocess.run(['rt', 'try'], cwd=here('crates/shown'), capture_output=True, text=True)
    wanted = ''.join('None\n' if value is None else f'Some({value})\n' for _, _, value in asked)
    said(f'tables in Rattle: {ran.stdout[:300]!r}, {ran.stderr[-300:]!r}', wanted in ran.stdout + ran.stderr)
