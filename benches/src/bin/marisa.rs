//! Bytes and look-ups of tries beside those of marisa-trie and phf. marisa-trie numbers its keys itself: a value of the program's own is in
//! an array, in the place of that number.

use benches::asked::Asked;
use benches::peers::{phf_bytes, phf_of};
use benches::sets::{Flat, Random, Set};
use benches::table::{Contestants, Table, agreed, all, best};
use benches::{kinds_of, library};
use std::ffi::{c_int, c_void};

unsafe extern "C" {
    fn marisa_built(keys: *const u8, ends: *const usize, count: usize, settings: c_int) -> *mut c_void;
    fn marisa_freed(trie: *mut c_void);
    fn marisa_bytes(trie: *const c_void) -> usize;
    fn marisa_number(trie: *mut c_void, key: *const u8, len: usize) -> usize;
}

// SAFETY of all calls: each pointer is that of a slice, with its length, or of a trie that marisa_built returned.

/// A trie of marisa-trie, and the value of each of its numbers.
struct Marisa {
    trie: *mut c_void,
    values: Vec<u32>,
}

impl Marisa {
    fn of(set: &Set, settings: c_int) -> Marisa {
        let Flat { keys, ends } = Flat::of(&set.keys);
        let trie = unsafe { marisa_built(keys.as_ptr(), ends.as_ptr(), ends.len(), settings) };
        let mut made = Marisa { trie, values: vec![0; ends.len()] };
        for (key, value) in set.pairs() {
            let number = made.number(key).unwrap();
            made.values[number] = value as u32;
        }
        made
    }

    fn bytes(&self) -> usize {
        unsafe { marisa_bytes(self.trie) }
    }

    fn number(&self, key: &[u8]) -> Option<usize> {
        Some(unsafe { marisa_number(self.trie, key.as_ptr(), key.len()) }).filter(|number| *number != usize::MAX)
    }

    fn get(&self, key: &[u8]) -> Option<usize> {
        self.number(key).map(|number| self.values[number] as usize)
    }

    /// How long a look-up takes.
    fn time(&self, turns: usize, keys: &[&[u8]]) -> f64 {
        best(2, 1, &mut vec![("", all(turns, keys, |key| self.get(key)))])[0].1
    }
}

/// All useful settings: one to five tries, caches from huge to tiny, and tails of texts or of bytes.
fn settings() -> impl Iterator<Item = c_int> {
    let caches = (1..=5).flat_map(|tries| (7..=11).map(move |cache| tries | 1 << cache));
    caches.flat_map(|settings| [settings | 1 << 12, settings | 1 << 13])
}

impl Drop for Marisa {
    fn drop(&mut self) {
        unsafe { marisa_freed(self.trie) }
    }
}

fn main() {
    let asked = Asked::begin();
    let mut table = Table::plain("Bytes a key, and ns a look-up of a key that is there");
    for set in &asked.sets() {
        let (kind, count) = (kinds_of(&set.keys)[0], set.keys.len());
        let mut keys: Vec<&[u8]> = set.keys.iter().map(Vec::as_slice).collect();
        Random::new(5).shuffle(&mut keys);
        let turns = (20_000 / count).max(1);
        let (bytes, phf) = (&library::built(kind, set.pairs()), phf_of(set));
        let tried = settings().map(|settings| (settings, Marisa::of(set, settings)));
        let tried: Vec<_> = tried.map(|(settings, it)| (settings, it.bytes(), it.time(turns, &keys))).collect();
        let smallest = Marisa::of(set, tried.iter().min_by_key(|it| it.1).unwrap().0);
        let fastest = Marisa::of(set, tried.iter().min_by(|one, other| one.2.total_cmp(&other.2)).unwrap().0);
        let mut contestants: Contestants<'_> = vec![
            ("ns", all(turns, &keys, |key| library::get(kind, bytes, key))),
            ("smallest marisa, ns", all(turns, &keys, |key| smallest.get(key))),
            ("fastest marisa, ns", all(turns, &keys, |key| fastest.get(key))),
            ("phf, ns", all(turns, &keys, |key| phf.get(key).copied())),
        ];
        agreed(&mut contestants, &set.name);
        let each = |bytes: usize| bytes as f64 / count as f64;
        let mut values = vec![
            ("here, bytes", each(bytes.len())),
            ("smallest marisa", each(smallest.bytes())),
            ("fastest marisa", each(fastest.bytes())),
            ("phf", each(phf_bytes(&phf))),
        ];
        values.extend(best(asked.rounds, turns * count, &mut contestants));
        table.add(format!("{}, {}", set.name, kind.name()), values);
    }
    table.print();
}
