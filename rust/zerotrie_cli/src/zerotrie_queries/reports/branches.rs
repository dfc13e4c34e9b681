// Made from crates/zerotrie_queries/src/reports/branches.rt by rust/make: edit that.
//! How many branches a trie has, by the number of their edges and the width of their offsets.

/// How many branches there are, by the number of their edges and the width of their offsets.
///
/// The numbers of edges are in eight groups: 2, 3 to 4, 5 to 8, and so on up to 129 to 256. A cell
/// is for one group and one width, from 1 to 8. The cells of the first group come first.
#[derive(Clone, Copy, PartialEq, Eq, Debug)]
pub struct Branches {
    /// How many there are.
    pub count: usize,
    /// How many there are of each group and width.
    pub cells: [usize; 64],
}

impl Branches {
    /// Returns the group of a number of edges.
    fn group_of(edges: usize) -> usize {
        match edges {
            0..=2 => 0,
            3..=4 => 1,
            5..=8 => 2,
            9..=16 => 3,
            17..=32 => 4,
            33..=64 => 5,
            65..=128 => 6,
            _ => 7,
        }
    }

    /// Returns the count of no branches.
    pub fn new() -> Self {
        Branches {
            count: 0,
            cells: [0; 64],
        }
    }

    /// Counts a branch.
    pub fn add(&mut self, edges: usize, width: usize) {
        self.count += 1;
        self.cells[8 * Self::group_of(edges) + (width - 1)] += 1;
    }
}
