//! What is asked of a program.

use crate::Kind;
use crate::sets::{self, Set};
use std::path::{Path, PathBuf};

/// The arguments, in any order: a number of rounds; a word of the names of the sets that are wanted; `--keys FILE`, a file of lines, each a
/// key whose value is the line's number; `--part WORD`, a word of the tables that are wanted; `--first`, of each set the first kind that
/// takes it alone.
pub struct Asked {
    pub rounds: usize,
    pub set: String,
    part: String,
    files: Vec<PathBuf>,
    is_first: bool,
}

fn set_of(file: &Path) -> Set {
    Set::of_file(file).unwrap_or_else(|fault| panic!("{}: {fault}", file.display()))
}

impl Asked {
    /// Reads the arguments, and says what the numbers are and which library was linked.
    pub fn begin() -> Asked {
        let mut asked = Asked { rounds: 9, set: String::new(), part: String::new(), files: Vec::new(), is_first: false };
        let mut words = std::env::args().skip(1);
        while let Some(word) = words.next() {
            match word.as_str() {
                "--keys" => asked.files.extend(words.next().map(PathBuf::from)),
                "--part" => asked.part = words.next().unwrap_or_default(),
                "--first" => asked.is_first = true,
                _ => match word.parse() {
                    Ok(rounds) => asked.rounds = rounds,
                    Err(_) => asked.set = word,
                },
            }
        }
        println!("Numbers are the best of {} rounds; in brackets, the first column's share of the number before.", asked.rounds);
        if let Ok(origin) = std::env::var("ZEROTRIE_ORIGIN") {
            println!("`here` is the library through its functions for C: {origin}.");
        }
        asked
    }

    /// The sets that are wanted of the made ones, those that benches/data wrote, and those that were given.
    pub fn sets(&self) -> Vec<Set> {
        let given = self.files.iter().map(|file| set_of(file));
        sets::all().into_iter().chain(given).filter(|set| set.name.contains(&self.set)).collect()
    }

    /// The large sets that are wanted.
    pub fn large_sets(&self) -> Vec<Set> {
        sets::large().into_iter().filter(|set| set.name.contains(&self.set)).collect()
    }

    /// The set that was given, or the words of benches/data.
    pub fn one_set(&self) -> Set {
        let words = std::env::temp_dir().join("zerotrie-sets/words.txt");
        set_of(self.files.first().unwrap_or(&words))
    }

    pub fn wants(&self, part: &str) -> bool {
        part.contains(&self.part)
    }

    /// The kinds that a set is measured in.
    pub fn kinds_of(&self, set: &Set) -> Vec<Kind> {
        let mut kinds = crate::kinds_of(&set.keys);
        kinds.truncate(if self.is_first { 1 } else { 4 });
        kinds
    }
}
