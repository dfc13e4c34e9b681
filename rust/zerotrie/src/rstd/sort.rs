//! Sorts that are compiled once for each type of item.
use core::cmp::Ordering;

pub fn sort_by<T>(items: &mut [T], cmp: &dyn Fn(&T, &T) -> Ordering) {
    items.sort_unstable_by(|a, b| cmp(a, b));
}
