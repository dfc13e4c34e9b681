//! Completions of what was typed, which may have one mistake: a character that is missing, or one
//! too many, or another one.
//!
//!     cargo run --example complete

use zerotrie::ZeroTriePerfectHash;
use zerotrie::search::{BeginsWith, Glob, LevenshteinChars};

const WORDS: [&str; 7] = ["car", "cargo", "carp", "carpet", "carton", "dog", "zürich"];

/// The words that begin with what was typed, and then those that do but for a mistake.
fn completions(table: &ZeroTriePerfectHash<Vec<u8>>, typed: &str) -> Vec<&'static str> {
    let mut found: Vec<usize> = table.stream_prefix(typed).values().collect();
    if let Some(near) = LevenshteinChars::new(typed, 1) {
        for number in table.search(BeginsWith(near)).values() {
            if !found.contains(&number) {
                found.push(number);
            }
        }
    }
    found.into_iter().map(|number| WORDS[number]).collect()
}

fn main() -> Result<(), Box<dyn std::error::Error>> {
    let table = ZeroTriePerfectHash::try_from_iter(WORDS.into_iter().zip(0..))?;
    println!("{:?}", completions(&table, "crpe")); // ["carpet"]
    println!("{:?}", completions(&table, "zuri")); // ["zürich"]
    println!("{:?}", &completions(&table, "carp")[..2]); // ["carp", "carpet"]
    let matching: Vec<usize> = table.search(Glob::new(b"c*o?")?).values().collect();
    println!("{matching:?}"); // [4]
    let later: Vec<usize> = table.stream_sorted("d"..).values().collect();
    println!("{later:?}"); // [5, 6]
    Ok(())
}
