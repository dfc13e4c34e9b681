//! Locale fallback: the entry of the longest tag that a language tag begins with.
//!
//!     cargo run --example locales

use std::thread;
use zerotrie::{ZeroTrieBuildError, ZeroTrieSimpleAscii};

const PATTERNS: [&str; 5] = ["d.M.y", "M/d/y", "dd/MM/y", "y/M/d", "y年M月d日"];
const TAGS: [&str; 5] = ["de", "en", "en-GB", "zh-Hant", "zh"];

/// The pattern of dates for the tag. The delimiters make a key end where a part of the tag does.
fn pattern(tags: &ZeroTrieSimpleAscii<Vec<u8>>, tag: &str) -> Option<&'static str> {
    tags.longest_prefix_at(tag, "-_").map(|(_len, number)| PATTERNS[number])
}

fn main() -> Result<(), ZeroTrieBuildError> {
    let tags = ZeroTrieSimpleAscii::try_from_iter(TAGS.into_iter().zip(0..))?;
    println!("{:?}", pattern(&tags, "en-GB-oxendict")); // Some("dd/MM/y")
    println!("{:?} {:?}", pattern(&tags, "de_AT"), pattern(&tags, "fr")); // Some("d.M.y") None
    println!("{:?}", pattern(&tags, "zh-Hant-TW")); // Some("y/M/d")
    println!("{:?}", pattern(&tags, "english")); // None
    println!("{:?}", tags.longest_prefix("english")); // Some((2, 1))

    // threads share a trie
    let found = thread::scope(|scope| scope.spawn(|| pattern(&tags, "zh-Hans")).join());
    println!("{:?}", found.ok().flatten()); // Some("y年M月d日")
    Ok(())
}
