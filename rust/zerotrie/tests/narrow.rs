//! What becomes of numbers that no `usize` of 32 bits has: each call refuses them, or finds nothing. No call returns another number.
#![cfg(target_pointer_width = "32")]

use zerotrie::index::{ReadAt, ZeroIndex};
use zerotrie::rstd::alloc::Global;
use zerotrie::zerotrie_index::SealedIndex;
use zerotrie::zerotrie_sealed::{BLOCK_LEN, crc32c, seal_index};
use zerotrie::*;

/// The bytes of a value.
fn value(value: u64) -> Vec<u8> {
    let (mut left, mut bytes) = (value, Vec::new());
    while left >= 16 {
        left -= 16;
        bytes.push((left % 128) as u8 | if bytes.is_empty() { 0 } else { 128 });
        left /= 128;
    }
    bytes.push(0x80 | left as u8 | if bytes.is_empty() { 0 } else { 16 });
    bytes.reverse();
    bytes
}

/// A trie of "a", "b", and "c" with this value, below which is a key of sixteen bytes more.
fn with_value(of_c: u64) -> Vec<u8> {
    let front = [0xC3, b'a', b'b', b'c', 1, 2, 0x81, 0x82];
    [front.as_slice(), &value(of_c), b"abcdefghijklmnop\x85"].concat()
}

#[test]
fn a_value_that_does_not_fit_is_no_node() {
    let fits = with_value(u32::MAX.into());
    assert_eq!(ZeroTrieSimpleAscii::try_from_store(fits).unwrap().get("c"), Some(usize::MAX));
    let bytes = with_value((1 << 32) + 1279);
    let trie = ZeroTrieSimpleAscii::from_store(bytes.as_slice());
    assert!(!trie.is_well_formed());
    assert_eq!(trie.first_fault().map(|fault| fault.place), Some(8));
    assert!(ZeroTrieSimpleAscii::try_from_store(bytes.as_slice()).is_err());
    assert_eq!((trie.get("a"), trie.get("b")), (Some(1), Some(2)));
    assert_eq!((trie.get("c"), trie.get("cabcdefghijklmnop")), (None, None));
    assert_eq!(trie.longest_prefix("cabcdefghijklmnop"), None);
    assert_eq!(trie.iter().map(|(_, value)| value).collect::<Vec<_>>(), [1, 2]);
    assert_eq!(trie.count(), 2);
    assert_eq!(trie.first_key_of(1279), None);
}

#[test]
fn the_greatest_value_fits() {
    let pairs = [("", usize::MAX), ("ab", usize::MAX - 1), ("ac", 0)];
    let trie = ZeroTrieSimpleAscii::try_from_iter(pairs).unwrap();
    assert!(trie.is_well_formed());
    for (key, value) in pairs {
        assert_eq!(trie.get(key), Some(value));
        assert_eq!(trie.first_key_of(value).as_deref(), Some(key.as_bytes()));
    }
    let index = ZeroIndex::try_from_iter(pairs).unwrap();
    assert!(index.is_well_formed());
    assert_eq!(index.get(""), Some(usize::MAX));
}

/// A branch of two edges whose offset has five bytes.
#[test]
fn an_offset_that_does_not_fit_is_no_node() {
    let wide = [0xE7, 0x62, b'a', b'b', 0, 0, 0, 0, 1, 0x80, 0x81];
    let trie = ZeroTrieExtendedCapacity::from_store(&wide[..]);
    assert!(!trie.is_well_formed());
    assert_eq!(trie.first_fault().map(|fault| fault.place), Some(0));
    assert_eq!((trie.get("a"), trie.get("b"), trie.iter().count()), (None, None, 0));
    assert_eq!(trie.first_key_of(1), None);
}

#[test]
fn a_value_in_an_index_that_does_not_fit_is_refused() {
    let mut bytes = ZeroIndex::try_from_iter([("k", 5)]).unwrap().into_store();
    let high = bytes.len() - 5;
    bytes[high] = 1;
    let index = ZeroIndex::from_store(bytes.as_slice());
    assert_eq!((index.is_well_formed(), index.get("k")), (false, None));
    // as many buckets as there may be, whose table does not fit
    bytes[8..12].copy_from_slice(&[0xFF; 4]);
    let index = ZeroIndex::from_store(bytes.as_slice());
    assert_eq!((index.is_well_formed(), index.get("k")), (false, None));
}

#[test]
fn a_length_in_a_file_that_does_not_fit_is_refused() {
    let trie = ZeroTrie::try_from_iter([("k", 5)]).unwrap();
    let mut file = trie.seal();
    file[16] = 1;
    assert_eq!(ZeroTrie::open(file).err(), Some(SealError::CutShort));
    let index = ZeroIndex::try_from_iter([("k", 5)]).unwrap();
    let mut file = index.seal();
    file[16] = 1;
    assert_eq!(ZeroIndex::open(file).err(), Some(SealError::CutShort));
}

/// The table of an index of 2^32 + 1 bytes, which has the length in its header and the right checksums.
#[test]
fn a_table_of_an_index_that_does_not_fit_is_refused() {
    let mut table = (1u64 << 32 | 1).to_le_bytes().to_vec();
    table.resize(8 + 4 * 65537, 0);
    let file = seal_index(Global, &[]).unwrap();
    let mut front = file.as_slice()[..20].to_vec();
    front[12..20].copy_from_slice(&(table.len() as u64).to_le_bytes());
    let sum = crc32c(&[front.as_slice(), table.as_slice()].concat());
    let file = [front.as_slice(), &sum.to_le_bytes(), &table].concat();
    assert_eq!(ZeroIndex::open(file.as_slice()).err(), Some(SealError::Checksum));
}

/// Bytes that are read at places.
struct Bytes(Vec<u8>);

#[derive(Debug, PartialEq)]
enum Fault {
    Memory,
    Seal(SealError),
}

impl From<AllocError> for Fault {
    fn from(_: AllocError) -> Self {
        Fault::Memory
    }
}

impl From<SealError> for Fault {
    fn from(error: SealError) -> Self {
        Fault::Seal(error)
    }
}

impl ReadAt for Bytes {
    type Error = Fault;

    fn fill(&mut self, place: u64, room: &mut [u8]) -> Result<(), Fault> {
        let from = usize::try_from(place).unwrap_or(usize::MAX);
        let bytes = self.0.get(from..).and_then(|rest| rest.get(..room.len()));
        room.copy_from_slice(bytes.ok_or(SealError::CutShort)?);
        Ok(())
    }
}

#[test]
fn a_place_that_does_not_fit_is_refused() {
    let file = seal_index(Global, b"an index").unwrap();
    let mut index = SealedIndex::open(Global, Bytes(file.into_inner())).unwrap_or_else(|_| panic!("it is sealed"));
    let mut room = [0; 2];
    assert_eq!(index.fill(3, &mut room), Ok(()));
    assert_eq!(&room, b"in");
    for place in [1 << 32, 1 << 48, (BLOCK_LEN as u64) << 32, u64::MAX] {
        assert_eq!(index.fill(place, &mut room), Err(Fault::Seal(SealError::CutShort)));
    }
}

#[test]
fn lengths_in_a_record_that_do_not_fit_are_more_than_it_has() {
    use zerotrie::dense::{RecordError, ZeroAsciiDenseSparse2dTrieBorrowed};
    for at in [3, 11, 19] {
        let mut record = [0; 27];
        record[at + 4] = 1;
        let read = ZeroAsciiDenseSparse2dTrieBorrowed::try_from_record_bytes(&record);
        assert_eq!(read.err(), Some(RecordError::Truncated));
    }
}

/// All suffixes of a text are more than 2^32 bytes.
#[test]
fn a_build_that_does_not_fit_is_refused() {
    let mut state = 1u32;
    let mut letter = || {
        state = state.wrapping_mul(1_664_525).wrapping_add(1_013_904_223);
        33 + (state >> 24) as u8 % 94
    };
    let text: Vec<u8> = (0..100_000).map(|_| letter()).collect();
    let mut pairs: Vec<(&[u8], usize)> = (0..text.len()).map(|i| (&text[i..], i)).collect();
    pairs.sort();
    let refused = Some(ZeroTrieBuildError::CapacityExceeded);
    assert_eq!(ZeroTrieSimpleAscii::try_from_sorted_slice(&pairs).err(), refused);
    assert_eq!(ZeroTrieSimpleAscii::encoded_len(&pairs).err(), refused);
}
