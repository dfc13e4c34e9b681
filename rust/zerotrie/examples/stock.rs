//! Lists of goods from three shops, merged: set operations of any number of tries, the last key of a
//! range, and keys by their values.
//!
//!     cargo run --example stock

use zerotrie::ZeroTrieSimpleAscii;
use zerotrie::sets::{MergeAll, Rule, RuleError, Selection};

type Shop = ZeroTrieSimpleAscii<Vec<u8>>;

/// What a set operation makes of the lists, with the rule for goods of more than one shop.
fn merged(shops: &[Shop], selection: Selection, rule: Rule) -> Result<Shop, RuleError> {
    let mut rows = MergeAll::new(shops.iter().map(|shop| shop.stream_sorted(..)));
    let mut goods = Vec::new();
    while rows.advance() {
        let number = rows.selected(selection, rule)?;
        goods.extend(number.map(|number| (rows.key().to_vec(), number)));
    }
    Ok(goods.into_iter().collect())
}

fn main() -> Result<(), Box<dyn std::error::Error>> {
    let shops = [
        Shop::try_from_iter([("apple", 5), ("bread", 2), ("milk", 1)])?,
        Shop::try_from_iter([("bread", 4), ("milk", 6)])?,
        Shop::try_from_iter([("bread", 1), ("tea", 9)])?,
    ];
    let all = merged(&shops, Selection::Union, Rule::Sum)?;
    println!("{:?}", all.iter().collect::<Vec<_>>()); // [("apple", 5), ("bread", 7), ("milk", 7), ("tea", 9)]
    let least = merged(&shops, Selection::Intersection, Rule::Min)?;
    println!("{:?}", least.iter().collect::<Vec<_>>()); // [("bread", 1)]
    let only_first = merged(&shops, Selection::Difference, Rule::First)?;
    println!("{:?}", only_first.iter().collect::<Vec<_>>()); // [("apple", 5)]
    println!("{:?}", merged(&shops, Selection::Union, Rule::Refuse)); // Err(SeveralValues)

    let last = all.last_within("b".."n").ok_or("none")?;
    println!("{} {}", String::from_utf8(last.0)?, last.1); // milk 7
    let table = all.keys_by_value();
    println!("{:?}", table.first_key_of(9).map(String::from_utf8)); // Some(Ok("tea"))
    Ok(())
}
