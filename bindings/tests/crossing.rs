//! Tries that go from the Rust crate to the library and back: both write the same bytes and read each other's.
use std::collections::BTreeMap;
use std::ffi::c_void;

#[repr(C)]
struct Pair {
    key: *const u8,
    len: usize,
    value: usize,
}

#[rustfmt::skip]
unsafe extern "C" {
    fn zerotrie_build_sorted(kind: u32, pairs: *const c_void, count: usize, out: *mut u8, out_len: usize, len: *mut usize) -> u32;
    fn zerotrie_is_well_formed(kind: u32, bytes: *const u8, len: usize) -> bool;
    fn zerotrie_get(kind: u32, bytes: *const u8, len: usize, key: *const u8, key_len: usize, value: *mut usize) -> bool;
}

type Map = BTreeMap<Vec<u8>, usize>;

fn built(kind: u32, map: &Map) -> Vec<u8> {
    let pairs: Vec<Pair> = map.iter().map(|(k, v)| Pair { key: k.as_ptr(), len: k.len(), value: *v }).collect();
    let (mut out, mut len) = (vec![0; 1 << 20], 0);
    let status = unsafe {
        zerotrie_build_sorted(kind, pairs.as_ptr().cast(), pairs.len(), out.as_mut_ptr(), out.len(), &mut len)
    };
    assert_eq!(status, 0);
    out.truncate(len);
    out
}

/// What the crate writes is what the library writes (its hashes may differ), and each reads the other's bytes.
fn crossed(kind: u32, map: &Map, theirs: &[u8], same: bool, get: impl Fn(&[u8], &[u8]) -> Option<usize>) {
    let ours = built(kind, map);
    assert!(!same || ours == theirs);
    assert!(unsafe { zerotrie_is_well_formed(kind, theirs.as_ptr(), theirs.len()) });
    for (key, value) in map {
        let mut found = 0;
        let has = unsafe { zerotrie_get(kind, theirs.as_ptr(), theirs.len(), key.as_ptr(), key.len(), &mut found) };
        assert!(has && found == *value);
        assert_eq!(get(&ours, key), Some(*value));
    }
}

fn main() {
    let mut seed = 9u64;
    let mut random = move |n: u64| { seed = seed.wrapping_mul(6364136223846793005).wrapping_add(1442695040888963407); (seed >> 33) % n };
    let mut tries = 0;
    for round in 0..300 {
        let letters = 1 + random(26);
        let count = if round % 50 == 0 { 3000 } else { random(200) };
        let low = if round % 3 == 0 { 0 } else { b'a' };
        let high = if round % 2 == 0 { 0 } else { 120 };
        let map: Map = (0..count)
            .map(|_| {
                let key = (0..random(9)).map(|_| low + (random(letters) as u8) + high * random(2) as u8).collect();
                // a number of up to 64 bits, and as often the last or the first of a length
                let edges = [0, 15, 16, 2063, 2064, 264207, 264208, 33818639, 33818640, usize::MAX];
                let number = (random(1 << 31) << 33 | random(1 << 31) << 2 | random(4)) >> random(64);
                (key, if random(2) == 0 { number as usize } else { edges[random(10) as usize] })
            })
            .collect();
        let hash = original::ZeroTriePerfectHash::try_from(&map).unwrap().into_store();
        crossed(3, &map, &hash, false, |bytes, key| original::ZeroTriePerfectHash::from_bytes(bytes).get(key));
        let ext = original::ZeroTrieExtendedCapacity::try_from(&map).unwrap().into_store();
        crossed(7, &map, &ext, false, |bytes, key| original::ZeroTrieExtendedCapacity::from_bytes(bytes).get(key));
        tries += 2;
        if map.keys().all(|key| key.is_ascii()) {
            let simple = original::ZeroTrieSimpleAscii::try_from(&map).unwrap().into_store();
            crossed(0, &map, &simple, true, |bytes, key| original::ZeroTrieSimpleAscii::from_bytes(bytes).get(key));
            let ignore = original::ZeroAsciiIgnoreCaseTrie::try_from(&map).unwrap().into_store();
            crossed(8, &map, &ignore, true, |bytes, key| original::ZeroAsciiIgnoreCaseTrie::from_bytes(bytes).get(key));
            tries += 2;
        }
    }
    println!("crossing: {tries} tries of the Rust crate and as many of the library, each read by the other");
}
