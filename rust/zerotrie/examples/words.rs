//! Completion and the longest prefix over a list of words, one a line, in any order.
//!
//!     cargo run --example words words.txt words.zt
//!
//! writes the trie of the list, whose values are the numbers of the lines, and reads it.

use std::{env, error::Error, fs};
use zerotrie::ZeroTrie;

fn main() -> Result<(), Box<dyn Error>> {
    let mut arguments = env::args_os().skip(1);
    let (words, file) = (arguments.next().ok_or("WORDS?")?, arguments.next().ok_or("TRIE?")?);
    let built = ZeroTrie::try_from_iter(fs::read_to_string(words)?.split_whitespace().zip(0..))?;
    fs::write(&file, built.seal())?;

    let trie = ZeroTrie::open(fs::read(&file)?)?;
    // the first completions take no more time if there are thousands
    let first = trie.iter_prefix("car").take(3).map(|(key, _)| String::from_utf8(key));
    println!("{:?}", first.collect::<Result<Vec<_>, _>>()?); // ["car", "cargo", "carp"]
    println!("{:?}", trie.longest_prefix("carpetbaggers")); // Some((6, 3))
    let text = "carpets";
    for (len, value) in trie.common_prefixes(text) {
        print!("{} {value} ", &text[..len]);
    }
    println!("{}", trie.count()); // car 0 carp 2 carpet 3 10
    println!("{:?} {:?}", trie.get("dog"), trie.get("dogs")); // Some(6) None
    Ok(())
}
