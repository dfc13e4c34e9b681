//! Lets every request for memory fail in turn, and looks at what each call answers then: the error for out of memory of its
//! type and nothing else, or its full answer. Compiled with `--cfg rest` it also tries the calls that the library for C lacks.

#[path = "../../rust/compare/src/functions.rs"]
mod functions;
mod input;
mod library;
mod memory;
#[cfg(rest)]
mod rest;

use functions::Change;
use input::{Flat, NAMES, REFUSED, UNREADY};
use library::{Column, Rooms};
use std::cell::RefCell;
use std::process::ExitCode;

/// Whether the library is that of plain Rust: the maps of Rust's std, of which it makes dense tables, and in which it keeps the tables of
/// branches, end the program where they can't grow.
const ENDS: bool = cfg!(plain);

/// What was run, and with what outcome.
#[derive(Default)]
struct Tally {
    calls: usize,
    runs: usize,
    refused: usize,
    wrong: usize,
}

impl Tally {
    fn wrong(&mut self, name: &str, what: &str) {
        self.wrong += 1;
        println!("{name}: {what}");
    }

    /// Runs the call with each of its requests refused, alone and with all after it, up to a run in which none is.
    /// `partly` says of the full answer and another one whether a refusal may be answered so.
    fn look(
        &mut self, name: &str, full: &[u8], partly: impl Fn(&[u8], &[u8]) -> bool, call: impl Fn(&mut [u8]) -> usize,
    ) {
        self.calls += 1;
        let mut out = vec![0; 1 << 16];
        for all in [false, true] {
            for granted in 0.. {
                let held = memory::blocks();
                memory::refuse(granted, all);
                let code = call(&mut out);
                let met = memory::grant();
                self.runs += usize::from(code != UNREADY);
                if memory::blocks() != held {
                    return self.wrong(name, &format!("request {granted} refused, and memory is not given back"));
                }
                let answer = out.get(..code);
                let right = match answer {
                    None => met && (code == REFUSED || code == UNREADY),
                    Some(answer) => answer == full || (met && partly(full, answer)),
                };
                if !right {
                    self.wrong(name, &format!("request {granted} refused: {code} {answer:X?}"));
                }
                self.refused += usize::from(right && answer != Some(full) && code != UNREADY);
                if !met {
                    break;
                }
            }
        }
    }

    fn plainly(&mut self, name: &str, full: &[u8], call: impl Fn(&mut [u8]) -> usize) {
        self.look(name, full, |_, _| false, call);
    }
}

/// Pairs whose keys ascend, the kinds that they are built in, and their text where it is known.
struct Set {
    name: &'static str,
    pairs: Vec<(Vec<u8>, usize)>,
    kinds: &'static [u8],
    text: Option<&'static [u8]>,
}

fn set(
    name: &'static str, pairs: &[(&str, usize)], kinds: &'static [u8], text: Option<&'static [u8]>,
) -> Set {
    let mut pairs: Vec<_> = pairs.iter().map(|(key, value)| (key.as_bytes().to_vec(), *value)).collect();
    pairs.sort();
    Set { name, pairs, kinds, text }
}

/// The kinds, and `ZeroTrie`, by their places in `NAMES`.
const ALL_KINDS: &[u8] = &[0, 1, 2, 3, 4];
const ANY_BYTES: &[u8] = &[2, 3, 4];
const LITERALS: &[u8] = b"\x8Bad\x90\x06\xC2eg\x03f\x90\x11hk\x90\x1C";
const BRANCHES: &[u8] = b"\xC2ax\x0A\xC2bx\x02c\x8Byb\x90\x11yz\x90\x06";
const MIXED: &[u8] = b"\x80aBc\x81\xC4DeFg\x01\x02\x03\x82\x83\x84hi\x85";
const SPANS: &[u8] = b"\xC2bf\x0F\xA2\xC3\xA5\xC2rz\x01\x82z\xA4\xC3\xB8\xC3\xB8\x83oo\x81";
const LETTERS: &[u8] = b"\xD0\0\0\0\0\0\0\0\0\0\0\0\0\0\0\0\0\0pabcdefghijklmno\
    \x01\x02\x03\x04\x05\x06\x07\x08\x09\x0A\x0B\x0C\x0D\x0E\x0F\
    \x8F\x80\x81\x82\x83\x84\x85\x86\x87\x88\x89\x8A\x8B\x8C\x8D\x8E";
const DEEP: &[u8] = b"a\xC2bf\x0E\x90\x5F\xC2cd\x05xyz\x90\x06e\x92\x3Dg\x90\x1C";

/// The pairs of the sets that are built in each kind that can have them.
fn sets() -> Vec<Set> {
    let letters: Vec<(String, usize)> = ('a'..='p').map(String::from).zip(0..).collect();
    let letters: Vec<(&str, usize)> = letters.iter().map(|(key, value)| (key.as_str(), *value)).collect();
    let behind = |front| ('a'..='z').map(move |letter| format!("{front}{letter}"));
    let thrice: Vec<(String, usize)> = ["x", "y", "ø"].into_iter().flat_map(behind).zip(0..).collect();
    let thrice: Vec<(&str, usize)> = thrice.iter().map(|(key, value)| (key.as_str(), *value)).collect();
    let long = "a".repeat(300);
    let bytes = (0..=255).map(|byte| (vec![byte], 0)).collect();
    vec![
        set("no pairs", &[], ALL_KINDS, Some(b"")),
        set("the empty key", &[("", 15)], ALL_KINDS, Some(b"\x8F")),
        set("literals", &[("", 11), ("ad", 22), ("adef", 33), ("adghk", 44)], ALL_KINDS, Some(LITERALS)),
        set("branches", &[("abc", 11), ("xyz", 22), ("axyb", 33)], ALL_KINDS, Some(BRANCHES)),
        set("deep branches", &[("ab", 111), ("abcxyz", 22), ("abde", 333), ("afg", 44)], ALL_KINDS, Some(DEEP)),
        set("a long key", &[(&long, 1 << 60), ("b", 1)], ALL_KINDS, None),
        set(
            "either case",
            &[("", 0), ("aBc", 1), ("aBcD", 2), ("aBce", 3), ("aBcF", 4), ("aBcghi", 5)],
            &[1],
            Some(MIXED),
        ),
        set("spans", &[("foo", 1), ("bår", 2), ("båzzøø", 3)], ANY_BYTES, Some(SPANS)),
        set("sixteen edges", &letters, &[2, 3], Some(LETTERS)),
        set("sixteen edges over ASCII", &letters, &[0, 1, 4], None),
        set("edges of one table thrice", &thrice, ANY_BYTES, None),
        Set { name: "256 edges", pairs: bytes, kinds: ANY_BYTES, text: None },
    ]
}

impl Set {
    fn flat(&self) -> Flat {
        Flat::of(self.pairs.iter().map(|(key, value)| (key.as_slice(), *value)))
    }

    #[cfg(rest)]
    fn is_text(&self) -> bool {
        self.pairs.iter().all(|(key, _)| std::str::from_utf8(key).is_ok())
    }

    /// The JSON text of the map.
    #[cfg(rest)]
    fn json(&self) -> String {
        let texts = self.pairs.iter().map(|(key, value)| match std::str::from_utf8(key) {
            Ok(key) if self.is_text() => format!("\"{key}\":{value}"),
            _ => format!("[{key:?},{value}]").replace(' ', ""),
        });
        let inner = texts.collect::<Vec<_>>().join(",");
        if self.is_text() { format!("{{{inner}}}") } else { format!("[{inner}]") }
    }

    /// The pairs as they are handed out.
    fn written(&self) -> Vec<Vec<u8>> {
        self.pairs.iter().map(|(key, value)| written(key, *value)).collect()
    }

    /// Half of the longest key, and the pairs whose keys begin with it as the kind compares them.
    fn behind_half(&self, kind: u8) -> (&[u8], Vec<Vec<u8>>) {
        let longest = self.longest();
        let prefix = &longest[..longest.len().div_ceil(2)];
        let begins = |key: &[u8]| match key.get(..prefix.len()) {
            Some(front) if kind == 1 => front.eq_ignore_ascii_case(prefix),
            front => front == Some(prefix),
        };
        let behind = self.pairs.iter().filter(|(key, _)| begins(key)).map(|(key, value)| written(key, *value));
        (prefix, behind.collect())
    }

    fn longest(&self) -> &[u8] {
        self.pairs.iter().map(|(key, _)| key.as_slice()).max_by_key(|key| key.len()).unwrap_or_default()
    }

    /// The kind whose bytes those of a `ZeroTrie` are, and the number by which it is asked.
    #[cfg(rest)]
    fn of_auto(&self) -> (u8, u8) {
        if self.pairs.iter().all(|(key, _)| key.is_ascii()) { (0, 4) } else { (2, 5) }
    }
}

/// A pair as it is handed out.
fn written(key: &[u8], value: usize) -> Vec<u8> {
    [&[1][..], &key.len().to_le_bytes(), key, &value.to_le_bytes()].concat()
}

/// What the calls of a listing give: pairs, errors and ends, each by itself.
fn steps(answer: &[u8]) -> Vec<&[u8]> {
    let mut rest = answer;
    let mut steps = Vec::new();
    while let [first, behind @ ..] = rest {
        let len = if *first == 1 { 17 + usize::from_le_bytes(behind[..8].try_into().unwrap()) } else { 1 };
        steps.push(&rest[..len]);
        rest = &rest[len..];
    }
    steps
}

/// Whether a listing gave a beginning of its pairs and one error.
fn is_begun(full: &[u8], answer: &[u8]) -> bool {
    answer.split_last().is_some_and(|(last, pairs)| *last == 2 && steps(full).len() > steps(pairs).len() && full.starts_with(pairs))
}

/// Whether a listing gave a beginning of its pairs, one error, and then nothing for good.
#[cfg(rest)]
fn is_cut(full: &[u8], answer: &[u8]) -> bool {
    let (full, answer) = (steps(full), steps(answer));
    let pairs = answer.iter().take_while(|step| step[0] == 1).count();
    answer.len() == full.len()
        && answer[..pairs] == full[..pairs]
        && answer[pairs] == [2]
        && answer[pairs + 1..].iter().all(|step| *step == [0])
}

/// The bytes of the set's trie of a kind.
fn bytes_of(set: &Set, kind: u8) -> Vec<u8> {
    let mut out = vec![0; 1 << 16];
    let len = library::build_sorted(kind, &set.flat(), &mut out);
    out.truncate(len);
    assert!(set.text.is_none_or(|text| text == out), "{} in {}", set.name, NAMES[kind as usize]);
    out
}

/// Builds the set by the functions for C, and asks for the length, and for the keys that show why a build is refused: of the set none do,
/// and with a key twice its two numbers.
fn builds(tally: &mut Tally, set: &Set, kind: u8, bytes: &[u8]) {
    let name = |what: &str| format!("{}, {} by {what}", set.name, NAMES[kind as usize]);
    let flat = set.flat();
    let ends = flat.ends();
    let turned = Flat::of(set.pairs.iter().rev().map(|(key, value)| (key.as_slice(), *value)));
    tally.plainly(&name("zerotrie_build_sorted"), bytes, |out| library::build_sorted(kind, &flat, out));
    tally.plainly(&name("zerotrie_build"), bytes, |out| library::build(kind, &turned, out));
    tally.plainly(&name("zerotrie_build_many"), bytes, |out| library::build_many(kind, &flat, &ends, out));
    tally.plainly(&name("zerotrie_combine"), bytes, |out| library::united(kind, bytes, bytes, out));
    tally.plainly(&name("zerotrie_encoded_len"), &bytes.len().to_le_bytes(), |out| library::encoded_len(kind, &flat, out));
    tally.plainly(&name("zerotrie_why_refused"), &[0], |out| library::why_refused(kind, &flat, out));
    let Some((key, _)) = set.pairs.first() else { return };
    let pairs = set.pairs.iter().map(|(key, value)| (key.as_slice(), *value));
    let twice = Flat::of(pairs.chain([(key.as_slice(), 1)]));
    let full = [&[1][..], &0usize.to_le_bytes(), &set.pairs.len().to_le_bytes()].concat();
    tally.plainly(&name("zerotrie_why_refused of a key twice"), &full, |out| library::why_refused(kind, &twice, out));
}

/// Asks for the first fault of the set's trie of a kind, and of the trie with a value after it.
fn faults(tally: &mut Tally, set: &Set, kind: u8, bytes: &[u8]) {
    let name = |what: &str| format!("{}{what}, {} by zerotrie_first_fault", set.name, NAMES[kind as usize]);
    tally.plainly(&name(""), &[0], |out| library::first_fault(kind, bytes, out));
    let longer = [bytes, &[0x80]].concat();
    let place = [&[1][..], &bytes.len().to_le_bytes()].concat();
    let full = if bytes.is_empty() { &[0][..] } else { &place };
    tally.plainly(&name(" and a value"), full, |out| library::first_fault(kind, &longer, out));
}

/// A listing gives these pairs, in the order of their keys if the kind has one, and may end early if memory is refused.
fn listing(
    tally: &mut Tally, name: &str, kind: u8, pairs: &[Vec<u8>], partly: impl Fn(&[u8], &[u8]) -> bool,
    call: impl Fn(&mut [u8]) -> usize,
) {
    let mut out = vec![0; 1 << 16];
    let len = call(&mut out);
    let full = out.get(..len).unwrap_or_default().to_vec();
    let mut listed: Vec<&[u8]> = steps(&full).into_iter().filter(|step| step[0] == 1).collect();
    let mut wanted: Vec<&[u8]> = pairs.iter().map(Vec::as_slice).collect();
    if kind == 1 {
        wanted.sort_by_key(|step| step[9..step.len() - 8].to_ascii_lowercase());
    }
    if kind > 1 {
        listed.sort();
        wanted.sort();
    }
    if listed != wanted {
        tally.wrong(name, "another listing");
    }
    tally.look(name, &full, partly, call);
}

/// Lists the set's trie of a kind by the functions for C: all of it, from a prefix, by a search, in order, and what it has beside none.
fn listings(tally: &mut Tally, set: &Set, kind: u8, bytes: &[u8]) {
    let (pairs, (prefix, behind)) = (set.written(), set.behind_half(kind));
    let last = set.pairs.last().map_or(&[][..], |(key, _)| key);
    let nearest = &pairs[pairs.len().saturating_sub(1)..];
    let rooms = &RefCell::new(Rooms::of(1 << 14, 1 << 9));
    let changes = &RefCell::new(vec![Change::default(); 1 << 9]);
    let by = |call: fn(&mut Rooms, u8, &[u8], &[u8]) -> u32, word| move |out: &mut [u8]| {
        let rooms = &mut rooms.borrow_mut();
        let status = call(rooms, kind, bytes, word);
        rooms.told(status, out)
    };
    let name = |what: &str| format!("{}, {} by {what}", set.name, NAMES[kind as usize]);
    listing(tally, &name("zerotrie_list"), kind, &behind, |_, _| false, by(Rooms::list, prefix));
    listing(tally, &name("zerotrie_list_some"), kind, &behind, is_begun, by(Rooms::list_some, prefix));
    listing(tally, &name("zerotrie_search_some"), 0, &behind, is_begun, by(Rooms::search_some, prefix));
    listing(tally, &name("zerotrie_sorted_some"), 0, &pairs, is_begun, by(Rooms::sorted_some, b""));
    listing(tally, &name("zerotrie_nearest"), kind, nearest, |_, _| false, by(Rooms::nearest, last));
    listing(tally, &name("zerotrie_diff_some"), 0, &pairs, is_begun, |out| {
        library::diff_some(kind, bytes, &mut rooms.borrow_mut(), &mut changes.borrow_mut(), out)
    });
}

/// Asks the set's trie of a kind for its last pair, and for the first key that has the value of the last one.
fn found(tally: &mut Tally, set: &Set, kind: u8, bytes: &[u8]) {
    let name = |what: &str| format!("{}, {} by {what}", set.name, NAMES[kind as usize]);
    let Some((key, value)) = set.pairs.last() else { return };
    let room = &RefCell::new(vec![0; 1 << 10]);
    tally.plainly(&name("zerotrie_last_within"), &written(key, *value), |out| {
        library::last_within(kind, bytes, &mut room.borrow_mut(), out)
    });
    let mut rooms = Rooms::of(1 << 14, 1 << 9);
    assert_eq!(rooms.list(kind, bytes, b""), 0);
    let first = (0..rooms.count).find(|number| rooms.values[*number] == *value).unwrap();
    let key = rooms.key(first);
    tally.plainly(&name("zerotrie_first_key_of"), key, |out| library::first_key_of(kind, bytes, *value, out));
    let places = &RefCell::new(vec![0; 1 << 9]);
    let mut out = vec![0; 1 << 16];
    let len = library::reverse_places(kind, bytes, &mut places.borrow_mut(), &mut out);
    let full = &out[..len];
    tally.plainly(&name("zerotrie_reverse_places"), full, |out| library::reverse_places(kind, bytes, &mut places.borrow_mut(), out));
    let made: Vec<u32> = places.borrow()[..len / 4].to_vec();
    tally.plainly(&name("zerotrie_reverse_key"), key, |out| library::reverse_key(kind, bytes, &made, *value, out));
}

/// Builds an index of the set by all routes. All of them give the same bytes.
fn indexes(tally: &mut Tally, set: &Set) {
    let flat = set.flat();
    let ends = flat.ends();
    let mut out = vec![0; 1 << 16];
    let len = library::index_build(&flat, &mut out);
    let name = |by: &str| format!("{}, an index by {by}", set.name);
    tally.plainly(&name("zerotrie_index_build"), &out[..len], |out| library::index_build(&flat, out));
    tally.plainly(&name("zerotrie_index_build_many"), &out[..len], |out| library::index_build_many(&flat, &ends, out));
    #[cfg(rest)]
    for (route, by) in ["a sorted slice", "an iterator", "lent keys", "a copy"].iter().enumerate() {
        tally.plainly(&name(by), &out[..len], |out| rest::built(7, route as u8, &flat, out));
    }
}

const RECORD: &[u8] = b"\x03\0/\x17\0\0\0\0\0\0\0\x0F\0\0\0\0\0\0\0\x06\0\0\0\0\0\0\0\
    \xC3adf\x05\x0Aaa\x80/\x81dd\x81/\x83ff/BBB\x85\xC3BCE\x03\x06BB\x80CC\x81EE\x82\
    \0\0\x01\0\xFF\xFF\0\0\xFF\xFF\x01\0";

/// A dense table.
fn tables(tally: &mut Tally) {
    let (mut prefixes, mut suffixes) = (Column::default(), Column::default());
    for (prefix, suffix) in [("aaa", "BBB"), ("aaa", "CCC"), ("ddd", "BBB"), ("ddd", "EEE"), ("fff", "BBB")] {
        prefixes.push(prefix.as_bytes());
        suffixes.push(suffix.as_bytes());
    }
    tally.plainly("zerotrie_dense_build", RECORD, |out| library::dense_build(&prefixes, &suffixes, &[1, 2, 3, 4, 5], out));
}

/// The calls that the library for C lacks.
#[cfg(rest)]
mod of_rest {
    use super::*;
    use crate::rest::{ASKED, ROUTES};

    /// Builds the set by all routes of a type.
    pub fn builds(tally: &mut Tally, set: &Set, kind: u8, bytes: &[u8]) {
        let (flat, json) = (set.flat(), set.json());
        let name = |by: &str| format!("{}, {} by {by}", set.name, NAMES[kind as usize]);
        for route in 0..if set.is_text() { 4 } else { 3 } {
            tally.plainly(&name(ROUTES[route as usize]), bytes, |out| rest::built(kind, route, &flat, out));
        }
        tally.plainly(&name("JSON"), bytes, |out| rest::read(kind, json.as_bytes(), out));
        if kind == 0 {
            tally.plainly(&name("an array"), bytes, |out| rest::built(5, 0, &flat, out));
            tally.plainly(&name("an array of a size"), bytes, |out| rest::built(5, 1, &flat, out));
            tally.plainly(&name("plain_encode"), bytes, |out| rest::built(6, 0, &flat, out));
        }
    }

    /// Asks the set's trie of a kind for all that takes memory.
    pub fn questions(tally: &mut Tally, set: &Set, kind: u8, bytes: &[u8]) {
        let tag = library::TAGS[if kind == 4 { set.of_auto().0 } else { kind } as usize] as u8;
        let number = if kind == 4 { set.of_auto().1 } else { kind };
        let name = |what: u8| format!("{}, {} by {}", set.name, NAMES[kind as usize], ASKED[what as usize]);
        let (json, pairs) = (set.json(), set.written());
        tally.plainly(&name(0), json.as_bytes(), |out| rest::asked(number, 0, bytes, out));
        tally.plainly(&name(1), &[&[tag], bytes].concat(), |out| rest::asked(number, 1, bytes, out));
        tally.plainly(&name(3), &pairs.concat(), |out| rest::asked(number, 3, bytes, out));
        if kind == 4 {
            return;
        }
        tally.plainly(&name(2), bytes, |out| rest::asked(kind, 2, bytes, out));
        for what in [4, 5] {
            listing(tally, &name(what), kind, &pairs, is_cut, |out| rest::asked(kind, what, bytes, out));
        }
        let (prefix, behind) = set.behind_half(kind);
        for (lends, what) in [(false, 4), (true, 5)] {
            listing(tally, &(name(what) + "_prefix"), kind, &behind, is_cut, |out| rest::listed(kind, lends, bytes, prefix, out));
        }
    }

    /// A walk through a trie, in the four kinds.
    pub fn walks(tally: &mut Tally) {
        let calls = [2, 0, 2, 0, 1, 0, 2, 1, 2, 0, 1, 0, 1, 0, 2, 0];
        let answers = [(b'a', 1), (b'b', 2), (0, 111), (b'd', 2), (b'e', 1), (0, 333)];
        let answers = answers.map(|(byte, second)| [1 + byte as usize, second]);
        let full: Vec<u8> = answers.into_iter().chain([[0; 2]; 2]).flatten().flat_map(usize::to_le_bytes).collect();
        for kind in 0..4 {
            tally.plainly(&format!("walk of {}", NAMES[kind as usize]), &full, |out| rest::walked(kind, DEEP, &calls, out));
        }
    }

    /// Caches that are asked again after a refusal.
    pub fn caches(tally: &mut Tally) {
        let keys: [(&[u8], &[u8]); 3] = [
            (b"aceg", b"\x01\0\0\x01\x01eacg"),
            (b"JFNv", b"\x01b\0\x02\0JFNv"),
            (b"abcdefghijklmnop", &LETTERS[1..34]),
        ];
        for (keys, table) in keys {
            let name = format!("a cache of {}", String::from_utf8_lossy(keys));
            let full = [&[0], table].concat();
            let refused_once = |full: &[u8], answer: &[u8]| answer == [&[1], &full[1..]].concat();
            tally.look(&name, &full, refused_once, |out| rest::cached(keys, out));
        }
    }
}

fn main() -> ExitCode {
    let mut tally = Tally::default();
    for set in sets() {
        for &kind in set.kinds {
            #[cfg(rest)]
            {
                let bytes = &bytes_of(&set, if kind == 4 { set.of_auto().0 } else { kind });
                of_rest::builds(&mut tally, &set, kind, bytes);
                of_rest::questions(&mut tally, &set, kind, bytes);
            }
            if kind < 4 && !(ENDS && kind > 1 && set.pairs.len() > 15) {
                let bytes = &bytes_of(&set, kind);
                builds(&mut tally, &set, kind, bytes);
                faults(&mut tally, &set, kind, bytes);
                listings(&mut tally, &set, kind, bytes);
                found(&mut tally, &set, kind, bytes);
            }
        }
        indexes(&mut tally, &set);
    }
    if !ENDS {
        tables(&mut tally);
    }
    #[cfg(rest)]
    {
        of_rest::walks(&mut tally);
        of_rest::caches(&mut tally);
    }
    println!("{} calls, {} runs, {} refused, {} wrong", tally.calls, tally.runs, tally.refused, tally.wrong);
    ExitCode::from(u8::from(tally.wrong > 0))
}
