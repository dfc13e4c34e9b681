//! Asks in one, two or four places of the program, four times in all, for benches/instructions, and prints how often. `places` says how many
//! there are, whether each calls a function that is never expanded, or whether it calls the library by C.

use benches::asked::Asked;
use benches::sets::Random;
use benches::table::asked_by;
use benches::{Kind, kinds_of, library};
use zerotrie::{ZeroAsciiIgnoreCaseTrie, ZeroTrieExtendedCapacity, ZeroTriePerfectHash, ZeroTrieSimpleAscii};

type Ask = fn(&[u8], &[&[u8]]) -> usize;

/// Two functions that ask. Their sums differ from those of other places, or else they would be one function.
macro_rules! place {
    ($name:literal, $number:literal, $get:ident, $step:ident) => {{
        #[inline(never)]
        #[unsafe(export_name = concat!("get_", $name, "_", $number))]
        fn by_get(bytes: &[u8], keys: &[&[u8]]) -> usize {
            asked_by(keys, |key| $get(bytes, key)).wrapping_add($number)
        }
        #[inline(never)]
        #[unsafe(export_name = concat!("step_", $name, "_", $number))]
        fn by_steps(bytes: &[u8], keys: &[&[u8]]) -> usize {
            asked_by(keys, |key| $step(bytes, key)).wrapping_add($number)
        }
        [by_get as Ask, by_steps]
    }};
}

macro_rules! places {
    ($name:literal, $kind:expr, $trie:ident) => {{
        #[cfg_attr(places = "through", inline(never))]
        #[cfg_attr(not(places = "through"), inline(always))]
        fn get(bytes: &[u8], key: &[u8]) -> Option<usize> {
            if cfg!(places = "C") { library::get($kind, bytes, key) } else { $trie::from_bytes(bytes).get(key) }
        }
        #[cfg_attr(places = "through", inline(never))]
        #[cfg_attr(not(places = "through"), inline(always))]
        fn step(bytes: &[u8], key: &[u8]) -> Option<usize> {
            if cfg!(places = "C") {
                return library::stepped($kind, bytes, key);
            }
            let mut cursor = $trie::from_bytes(bytes).cursor();
            for byte in key {
                cursor.step(*byte);
            }
            cursor.take_value()
        }
        vec![
            place!($name, 0, get, step),
            #[cfg(any(places = "two", places = "four", places = "through"))]
            place!($name, 1, get, step),
            #[cfg(any(places = "four", places = "through"))]
            place!($name, 2, get, step),
            #[cfg(any(places = "four", places = "through"))]
            place!($name, 3, get, step),
        ]
    }};
}

fn places_of(kind: Kind) -> Vec<[Ask; 2]> {
    match kind {
        Kind::Simple => places!("simple", Kind::Simple, ZeroTrieSimpleAscii),
        Kind::Ignore => places!("ignore", Kind::Ignore, ZeroAsciiIgnoreCaseTrie),
        Kind::Hash => places!("hash", Kind::Hash, ZeroTriePerfectHash),
        Kind::Ext => places!("ext", Kind::Ext, ZeroTrieExtendedCapacity),
    }
}

fn main() {
    for set in Asked::begin().sets().iter().filter(|set| set.keys.len() <= 10_000) {
        let mut keys: Vec<&[u8]> = set.keys.iter().map(Vec::as_slice).collect();
        Random::new(43).shuffle(&mut keys);
        for kind in kinds_of(&set.keys) {
            let (bytes, places) = (library::built(kind, set.pairs()), places_of(kind));
            for [get, step] in places.iter().cycle().take(4) {
                std::hint::black_box((get(&bytes, &keys), step(&bytes, &keys)));
            }
            println!("get_{} {}", kind.name(), 4 * keys.len());
            println!("step_{} {}", kind.name(), 4 * keys.iter().map(|key| key.len()).sum::<usize>());
        }
    }
}
