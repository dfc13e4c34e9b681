//! The same look-ups, listings and moves of cursors by the crate of ICU4X.

use crate::brute::Pair;
use crate::case::Case;
use crate::random::Random;
use zerotrie::TrieKind;

/// Returns what a cursor returns for moves: steps, values that are taken, and probes.
macro_rules! moved {
    ($moves:expr, $cursor:ident = $made:expr, $byte:ident => $step:expr) => {{
        let mut $cursor = $made;
        let moved = $moves.iter().map(|&(how, $byte)| match how {
            0 => $step,
            1 => $cursor.take_value(),
            _ => $cursor.probe(usize::from($byte)).map(|edge| usize::from(edge.byte) << 16 | usize::from(edge.total_siblings)),
        });
        moved.collect::<Vec<Option<usize>>>()
    }};
}

macro_rules! answers {
    ($of:ident, $case:expr, $texts:expr, $moves:expr) => {{
        let (bytes, mut moved) = (&$case.bytes[..], Vec::new());
        let (found, pairs): (Vec<Option<usize>>, Vec<Pair>) = match $case.kind {
            TrieKind::Simple => {
                let trie = $of::ZeroTrieSimpleAscii::from_bytes(bytes);
                moved = moved!($moves, cursor = trie.cursor(), byte => { cursor.step(byte); (!cursor.is_empty()).then_some(usize::from(byte)) });
                ($texts.iter().map(|it| trie.get(it)).collect(), trie.iter().map(|(key, value)| (key.into_bytes(), value)).collect())
            }
            TrieKind::Ignore => {
                let trie = $of::ZeroAsciiIgnoreCaseTrie::from_bytes(bytes);
                moved = moved!($moves, cursor = trie.cursor(), byte => cursor.step(byte).map(usize::from));
                ($texts.iter().map(|it| trie.get(it)).collect(), trie.iter().map(|(key, value)| (key.into_bytes(), value)).collect())
            }
            TrieKind::Hash => {
                let trie = $of::ZeroTriePerfectHash::from_bytes(bytes);
                ($texts.iter().map(|it| trie.get(it)).collect(), trie.iter().collect())
            }
            TrieKind::Ext => {
                let trie = $of::ZeroTrieExtendedCapacity::from_bytes(bytes);
                ($texts.iter().map(|it| trie.get(it)).collect(), trie.iter().collect())
            }
        };
        (found, pairs, moved)
    }};
}

/// Compares answers on the bytes of a trie. On others those of the library alone have to come.
pub fn compare(random: &mut Random, case: &Case, texts: &[Vec<u8>]) {
    let moves: Vec<(usize, u8)> = (0..random.below(12))
        .map(|_| (random.below(3), if random.below(3) == 0 { random.below(4) as u8 } else { random.byte() }))
        .collect();
    let ours = answers!(zerotrie, case, texts, moves);
    if case.is_trie {
        case.same(
            format_args!("look-ups of {texts:?}, the listing, and a cursor that moves by {moves:?}"),
            &ours,
            &answers!(original, case, texts, moves),
        );
    }
}
