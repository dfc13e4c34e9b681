//! How long builds of plain Rust take over a store that sets every byte by itself, as one without `atbs_set_zeros` does, and over `VecDeque`,
//! which copies 16 bytes and more at once.

use benches::asked::Asked;
use benches::sets::{self, Random, Set, words};
use benches::table::{Contestants, Table, agreed, turned};
use zerotrie::rstd::alloc::{AllocError, Global};
use zerotrie::rstd::collections::VecDeque;
use zerotrie::rstd::vec::Vec as TrieVec;
use zerotrie::zerotrie_build::{TrieBuilderStore, ZeroTrieBuilder};
use zerotrie::zerotrie_core::{Simple, ZeroTrieBuilderOptions};

/// A `VecDeque` that copies nothing at once.
struct Bytewise(VecDeque<u8>);

impl TrieBuilderStore for Bytewise {
    fn atbs_new_empty(alloc: Global) -> Self {
        Bytewise(VecDeque::atbs_new_empty(alloc))
    }
    fn atbs_len(&self) -> usize {
        self.0.atbs_len()
    }
    fn atbs_push_front(&mut self, byte: u8) -> Result<(), AllocError> {
        self.0.atbs_push_front(byte)
    }
    fn atbs_extend_front(&mut self, bytes: &[u8]) -> Result<(), AllocError> {
        self.0.atbs_extend_front(bytes)
    }
    fn atbs_to_bytes(&self, alloc: Global) -> Result<TrieVec<u8>, AllocError> {
        self.0.atbs_to_bytes(alloc)
    }
    #[inline(always)]
    fn atbs_bitor_assign(&mut self, index: usize, bits: u8) {
        self.0.atbs_bitor_assign(index, bits);
    }
    fn atbs_pop_front(&mut self) -> u8 {
        self.0.atbs_pop_front()
    }
    fn atbs_prepend_n_zeros(&mut self, count: usize) -> Result<(), AllocError> {
        self.0.atbs_prepend_n_zeros(count)
    }
    fn atbs_permute_front(&mut self, lengths: &[usize], order: &[usize]) -> Result<(), AllocError> {
        self.0.atbs_permute_front(lengths, order)
    }
}

/// URLs of made words.
fn urls(count: usize) -> Set {
    let (hosts, mut random) = (words(53, 4_000), Random::new(59));
    let mut keys: Vec<Vec<u8>> = (0..count)
        .map(|_| {
            let mut word = || String::from_utf8(hosts[random.below(hosts.len())].clone()).unwrap();
            let (host, folder, page, id) = (word(), word(), word(), word());
            format!("https://www.{host}.example/articles/{folder}/{page}-{id}.html?lang=en").into_bytes()
        })
        .collect();
    keys.sort();
    keys.dedup();
    Set::numbered(&format!("{} URLs", sets::grouped(keys.len())), keys)
}

fn built<S: TrieBuilderStore>(pairs: &[(&[u8], usize)]) -> usize {
    let options = ZeroTrieBuilderOptions::of::<Simple>();
    ZeroTrieBuilder::<S>::from_bytes_iter(Global, pairs.iter().copied(), options).unwrap().data.atbs_len()
}

fn main() {
    let asked = Asked::begin();
    let mut sets = asked.sets();
    sets.retain(|set| set.keys.len() >= 1_000 && set.keys.iter().all(|key| key.is_ascii()));
    sets.push(urls(100_000));
    let mut table = Table::of_shares("Builds, ns a pair");
    for set in &sets {
        for order in ["sorted", "unsorted"] {
            let mut pairs: Vec<(&[u8], usize)> = set.pairs().collect();
            if order == "unsorted" {
                Random::new(47).shuffle(&mut pairs);
            }
            let turns = (50_000 / pairs.len()).max(1);
            let mut contestants: Contestants<'_> = vec![
                ("16 bytes and more at once", turned(turns, || built::<VecDeque<u8>>(&pairs))),
                ("each byte by itself", turned(turns, || built::<Bytewise>(&pairs))),
            ];
            agreed(&mut contestants, &set.name);
            table.measure(format!("{}, {order}", set.name), asked.rounds, turns * pairs.len(), contestants);
        }
    }
    table.print();
}
