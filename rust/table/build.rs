//! Writes a file of bytes for each table, which `src/main.rs` includes.
use std::{env, error::Error, fs, path::Path};
use zerotrie::{ZeroAsciiIgnoreCaseTrie, ZeroTrie, ZeroTrieExtendedCapacity, ZeroTriePerfectHash, ZeroTrieSimpleAscii};

fn main() -> Result<(), Box<dyn Error>> {
    println!("cargo::rerun-if-changed=words.txt");
    let text = fs::read_to_string("words.txt")?;
    let words = || text.lines().enumerate().map(|(number, word)| (word, number));
    let out = env::var("OUT_DIR")?;
    let write = |name: &str, bytes: &[u8]| fs::write(Path::new(&out).join(name), bytes);
    write("simple", ZeroTrieSimpleAscii::try_from_iter(words())?.as_bytes())?;
    write("ignore", ZeroAsciiIgnoreCaseTrie::try_from_iter(words())?.as_bytes())?;
    write("hash", ZeroTriePerfectHash::try_from_iter(words())?.as_bytes())?;
    write("extended", ZeroTrieExtendedCapacity::try_from_iter(words())?.as_bytes())?;
    write("any", &ZeroTrie::try_from_iter(words())?.to_tagged_bytes())?;
    Ok(())
}
