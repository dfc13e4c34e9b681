//! Chosen keys, and what is asked about them.

use crate::brute::{Asked, Bounds, Question};
use std::collections::BTreeSet;
use std::ops::Bound::{Excluded, Included, Unbounded};
use std::path::{Path, PathBuf};
use zerotrie::TrieKind;
use zerotrie::search::SearchBy;

const PARTS: [&str; 7] = ["a", "ab", "able", "abler", "s", "ss", "z"];
/// Letters of several scripts, of one to four bytes each.
const LETTERS: &str = "aeÅé\u{131}ßλжשﬁ日本\u{1F600}\u{10348}";
const PATTERNS: [&str; 24] = [
    "s*ing",
    "?a?e?",
    "*ion*",
    "[a-c]*[!aeiou]",
    "c*t",
    "[^s]*[^a-m]",
    "**a**",
    "????",
    "{un,re}*{ing,ed}",
    "*[aeiou]{s,}",
    "{a*,[b-d]?e}{,r}??",
    "??",
    "*[éß日]?",
    "[^a-z]?*",
    "[!é]*[α-ω]",
    "*\u{1F600}",
    "{é*,*ß}{,s}",
    "{??,[α-ω]*}{}",
    "[A-_]*e",
    "[Z-a]*",
    "[!a-f]*s",
    "*[B-D]?",
    "Re*",
    "[a-",
];

/// Returns sets of at most some keys, each with its name: words and paths of this repository, made-up names, and the lines of a file.
pub fn all(most: usize, file: Option<&str>) -> Vec<(String, Vec<Vec<u8>>)> {
    let root = Path::new(env!("CARGO_MANIFEST_DIR")).parent().expect("the repository");
    let (mut pages, mut paths) = (Vec::new(), Vec::new());
    add_files(&root.join("docs"), &mut pages);
    add_files(&root.join("crates"), &mut paths);
    let text: String = pages.iter().filter_map(|it| std::fs::read_to_string(it).ok()).collect();
    let paths = paths.iter().map(|it| it.strip_prefix(root).expect("a path below").display().to_string());
    let firsts: Vec<String> = [""].iter().chain(&PARTS).map(|it| it.to_string()).collect();
    let letters: Vec<String> = LETTERS.chars().map(String::from).collect();
    let mut sets = vec![
        ("words".to_string(), text.split_whitespace().map(String::from).collect()),
        ("paths".to_string(), paths.collect()),
        ("names that end alike".to_string(), longer(firsts, &PARTS.map(|it| format!(".{it}")))),
        ("names in UTF-8".to_string(), longer(vec![String::new()], &letters)),
    ];
    if let Some(file) = file {
        let text = std::fs::read_to_string(file).expect("a file of keys");
        sets.push((file.to_string(), text.lines().map(String::from).collect()));
    }
    let sorted = |keys: Vec<String>| keys.into_iter().map(String::into_bytes).collect::<BTreeSet<_>>();
    let spread = |keys: BTreeSet<Vec<u8>>| keys.iter().step_by((keys.len() / most).max(1)).cloned().collect();
    sets.into_iter().map(|(name, keys)| (name, spread(sorted(keys)))).collect()
}

/// Adds the files below a folder, but for those that are built.
fn add_files(folder: &Path, files: &mut Vec<PathBuf>) {
    for entry in std::fs::read_dir(folder).into_iter().flatten().flatten() {
        match entry.path() {
            path if path.ends_with("out") || path.ends_with("reference") => {}
            path if path.is_dir() => add_files(&path, files),
            path => files.push(path),
        }
    }
}

/// Returns texts with one, two and three ends behind them.
fn longer(mut texts: Vec<String>, ends: &[String]) -> Vec<String> {
    let mut all = Vec::new();
    for _ in 0..3 {
        texts = texts.iter().flat_map(|front| ends.iter().map(move |end| format!("{front}{end}"))).collect();
        all.extend_from_slice(&texts);
    }
    all
}

/// Returns those of the keys that a kind can have, in the order of bytes. Where it ignores case, some letters are in upper case.
pub fn keys_for(kind: TrieKind, keys: &[Vec<u8>]) -> Vec<Vec<u8>> {
    let ascii = keys.iter().filter(|it| it.is_ascii());
    match kind {
        TrieKind::Hash | TrieKind::Ext => keys.to_vec(),
        TrieKind::Simple => ascii.cloned().collect(),
        TrieKind::Ignore => {
            let cased = |at: usize, byte: &u8| if (usize::from(*byte) + at) % 3 == 0 { byte.to_ascii_uppercase() } else { *byte };
            let key = |key: &Vec<u8>| key.to_ascii_lowercase().iter().enumerate().map(|(at, byte)| cased(at, byte)).collect();
            ascii.map(key).collect::<BTreeSet<_>>().into_iter().collect()
        }
    }
}

/// Three keys, of which one is asked for with typing errors.
pub fn typed(keys: &[Vec<u8>]) -> [Vec<u8>; 3] {
    [1, 2, 3].map(|at| keys[keys.len() * at / 5].clone())
}

/// Returns what is searched for among keys.
pub fn asked(kind: TrieKind, keys: &[Vec<u8>]) -> Vec<Asked> {
    let mut words: Vec<(SearchBy, Vec<u8>)> = Vec::new();
    for pattern in PATTERNS {
        words.extend([SearchBy::Glob, SearchBy::GlobChars].map(|by| (by, pattern.as_bytes().to_vec())));
    }
    for text in ["", "ae", "tion", "zzx", "in", "c"] {
        words.extend([SearchBy::Subsequence, SearchBy::Prefix].map(|by| (by, text.as_bytes().to_vec())));
    }
    for key in typed(keys) {
        let mut letters: Vec<char> = String::from_utf8_lossy(&key).chars().take(15).collect();
        for edits in 0..4 {
            let word: String = letters.iter().collect();
            let by = [SearchBy::Fuzzy(edits), SearchBy::FuzzyChars(edits), SearchBy::Swaps(edits), SearchBy::SwapsChars(edits)];
            words.extend(by.map(|by| (by, word.clone().into_bytes())));
            // one more typing error
            match edits {
                0 if letters.len() > 3 => letters.swap(2, 3),
                1 => drop(letters.pop()),
                _ => letters.insert(0, 'e'),
            }
        }
    }
    let kinds = if kind == TrieKind::Ignore { vec![TrieKind::Hash, kind] } else { vec![kind] };
    let question = |as_kind| move |(by, word): &(SearchBy, Vec<u8>)| Question { by: *by, word: word.clone(), as_kind };
    let ones: Vec<Question> = kinds.into_iter().flat_map(|as_kind| words.iter().map(question(as_kind))).collect();
    let mut asked: Vec<Asked> = ones.iter().cloned().map(Asked::One).collect();
    for (number, pair) in ones.windows(2).enumerate() {
        let (one, two) = (pair[0].clone(), pair[1].clone());
        asked.push(match number % 8 {
            0 => Asked::SecondNotFirst(one, two),
            1 | 5 => Asked::Either(one, two),
            2 => Asked::KeysAnd(one),
            3 => Asked::SecondNotFirst(two, one),
            4 => Asked::Begins(one),
            6 => Asked::KeysAnd(two),
            _ => Asked::Begins(two),
        });
    }
    asked.push(Asked::NotKeys);
    asked
}

/// Returns texts around keys: beginnings, longer ones, the least and the greatest.
pub fn texts(keys: &[Vec<u8>]) -> Vec<Vec<u8>> {
    let [one, two, three] = typed(keys);
    let (first, last) = (keys[0].clone(), keys[keys.len() - 1].clone());
    let made = ["", "m", "zzzz", "IN", "docs"].map(|it| it.as_bytes().to_vec());
    let near =
        [[&two[..], b"a"].concat(), three[..three.len() - 1].to_vec(), [&one[..one.len() - 1], b"\0"].concat(), vec![0xFF]];
    made.into_iter().chain(near).chain([first, last, one, two, three]).collect()
}

/// Returns pairs of bounds.
pub fn bounds<'a>(typed: &'a [Vec<u8>; 3]) -> [Bounds<'a>; 5] {
    [
        (Unbounded, Unbounded),
        (Included(b"mm"), Excluded(b"mp")),
        (Excluded(&typed[0]), Included(&typed[1])),
        (Included(b"mp"), Excluded(b"mm")),
        (Unbounded, Included(&typed[2])),
    ]
}
