// Made from crates/zerotrie_c/src/many.rt by rust/make: edit that.
//! Many keys, which are looked up by one call.

/// What looks keys up.
pub trait Finder {
    // Holds of what it may find of a key.

    /// Returns the value of a key, or `None` if there is none.
    fn find(&mut self, key: &[u8]) -> Option<usize>;
}

/// Returns the bytes from one place up to another. A place past all bytes counts as their end.
pub fn key_between(bytes: &[u8], from: usize, to: usize) -> &[u8] {
    let front = if to < bytes.len() {
        &bytes[..to]
    } else {
        bytes
    };
    if from < front.len() {
        &front[from..]
    } else {
        &[]
    }
}

/// Looks up keys, which are one after another, and writes the value of each, or `missing`.
pub fn look_up_all<F: Finder>(
    finder: &mut F,
    keys: &[u8],
    ends: &[usize],
    missing: usize,
    values: &mut [usize],
) {
    let mut from = 0;
    let count = ends.len().min(values.len());
    for number in 0..count {
        let to = ends[number];
        values[number] = finder.find(key_between(keys, from, to)).unwrap_or(missing);
        from = to;
    }
}
