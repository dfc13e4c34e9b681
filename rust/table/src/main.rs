//! Looks words up in tables that are part of the program: nothing is built, read or allocated when it runs.
use zerotrie::{ZeroAsciiIgnoreCaseTrie, ZeroTrie, ZeroTrieExtendedCapacity, ZeroTriePerfectHash, ZeroTrieSimpleAscii};

macro_rules! table {
    ($name:literal) => {
        include_bytes!(concat!(env!("OUT_DIR"), "/", $name))
    };
}

static SIMPLE: ZeroTrieSimpleAscii<&[u8]> = ZeroTrieSimpleAscii::from_store(table!("simple"));
static IGNORE: ZeroAsciiIgnoreCaseTrie<&[u8]> = ZeroAsciiIgnoreCaseTrie::from_store(table!("ignore"));
static HASH: ZeroTriePerfectHash<&[u8]> = ZeroTriePerfectHash::from_store(table!("hash"));
static EXTENDED: ZeroTrieExtendedCapacity<&[u8]> = ZeroTrieExtendedCapacity::from_store(table!("extended"));
// its kind is the first byte
static ANY: &[u8] = table!("any");

fn main() {
    let any = ZeroTrie::try_from_tagged_bytes(ANY).expect("the build wrote it");
    for word in ["accept", "ACCEPT", "range", "rang"] {
        println!(
            "{word}: {:?} {:?} {:?} {:?} {:?}",
            SIMPLE.get(word),
            IGNORE.get(word),
            HASH.get(word),
            EXTENDED.get(word),
            any.get(word)
        );
    }
}
