//! Names of HTTP headers, found in either case, as a server that parses requests does it.
//!
//!     cargo run --example headers

use zerotrie::{ZeroAsciiIgnoreCaseTrie, ZeroTrieBuildError};

const NAMES: [&str; 5] = ["accept", "accept-encoding", "cache-control", "content-type", "host"];

/// A table of the program itself, without an allocation.
static MONTHS: ZeroAsciiIgnoreCaseTrie<&[u8]> = ZeroAsciiIgnoreCaseTrie::from_store(b"may\x85");

/// The spelling of the table, or `None` if it does not have the name.
fn canonical(table: &ZeroAsciiIgnoreCaseTrie<Vec<u8>>, name: &str) -> Option<&'static str> {
    table.get(name).map(|number| NAMES[number])
}

fn main() -> Result<(), ZeroTrieBuildError> {
    let table = ZeroAsciiIgnoreCaseTrie::try_from_iter(NAMES.into_iter().zip(0..))?;
    println!("{:?}", canonical(&table, "Content-TYPE")); // Some("content-type")
    println!("{:?}", canonical(&table, "hos")); // None
    println!("{}", table.contains_key("HOST")); // true
    println!("{} bytes", table.byte_len()); // 53 bytes
    for (key, value) in table.iter_prefix("ACCEPT-") {
        println!("{key} {value}"); // accept-encoding 1
    }

    // names that begin alike but for case can't be in one table
    let names = [("host", 0), ("Date", 1), ("date", 2)];
    let why = ZeroAsciiIgnoreCaseTrie::why_iter_refused(&names);
    println!("{:?}", why.map(|why| (why.first, why.second))); // Some((1, 2))
    println!("{:?}", MONTHS.get("May")); // Some(5)
    Ok(())
}
