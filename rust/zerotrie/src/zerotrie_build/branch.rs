// Made from crates/zerotrie_build/src/branch.rt by rust/make: edit that.
//! The search tables of branches, and the order that they give the targets.

use crate::rstd::prelude::*;
use crate::zerotrie_build::items::IndexedItems;
use crate::zerotrie_build::measure::{HASHED_FROM, Measured, is_hashed};
use crate::zerotrie_build::windows::{Window, byte_in, group_of};
use crate::rstd::alloc::{AllocError, Allocator, Global};
use crate::zerotrie_base::{PerfectByteHashMapCacheOwned, ZeroTrieBuildError, ZeroTrieWithOptions};

/// Where the next window begins: with which item, and with which slot.
#[derive(Clone, Copy)]
pub(in crate::made::zerotrie_build) struct Position {
    pub(in crate::made::zerotrie_build) from: usize,
    pub(in crate::made::zerotrie_build) slot: usize,
}

/// A window that begins where the one before it ended.
#[derive(Clone, Copy)]
pub(in crate::made::zerotrie_build) struct PendingWindow {
    pub(in crate::made::zerotrie_build) to: usize,
    pub(in crate::made::zerotrie_build) depth: usize,
}

/// What is written next.
#[derive(Clone, Copy)]
pub(in crate::made::zerotrie_build) enum Next {
    /// The next window begins at this place.
    Go(Position),
    /// The text of this window.
    Text(PendingWindow),
}

/// What the second pass goes by besides the items: what the first pass found of them.
#[derive(Clone, Copy)]
pub(in crate::made::zerotrie_build) struct WriteInput<'a> {
    pub(in crate::made::zerotrie_build) slots: &'a [usize],
    /// If it is true, all keys are ASCII.
    pub(in crate::made::zerotrie_build) ascii: bool,
}

impl<'a> WriteInput<'a> {
    /// Makes the input of the second pass from what the first one found. If `ascii` is true, all
    /// keys are ASCII.
    pub(in crate::made::zerotrie_build) fn new<A: Allocator>(measured: &'a Measured<A>, ascii: bool) -> Self {
        WriteInput {
            slots: measured.slots.as_slice(),
            ascii,
        }
    }
}

/// The layout of a branch. Its memory is reused for each branch. Hashed tables have memory of their
/// own.
pub(in crate::made::zerotrie_build) struct Layout<A: Allocator> {
    alloc: Global,
    cache: PerfectByteHashMapCacheOwned,
    last: LastTable<A>,
    /// The windows of the targets, in the order of the edges.
    pub(in crate::made::zerotrie_build) windows: Vec<Window, A>,
    /// The search table.
    pub(in crate::made::zerotrie_build) table: Vec<u8, A>,
    /// The numbers of the targets among the windows, in the order of the table.
    pub(in crate::made::zerotrie_build) numbers: Vec<usize, A>,
}

impl<A: Allocator + Copy> Layout<A> {
    /// Returns the layout of no branch.
    pub(in crate::made::zerotrie_build) fn new(alloc: Global, spare: A) -> Self {
        Layout {
            alloc,
            cache: PerfectByteHashMapCacheOwned::new_empty(alloc),
            last: LastTable::new(spare),
            windows: Vec::new(spare),
            table: Vec::new(spare),
            numbers: Vec::new(spare),
        }
    }

    /// Arranges the targets of the branch at the beginning of the window in the order of their
    /// edges. They have no numbers yet.
    fn set_sorted<'a, K: ZeroTrieWithOptions, I: IndexedItems<'a>>(
        &mut self,
        items: I,
        window: Window,
    ) -> Result<(), AllocError> {
        self.windows.clear();
        self.table.clear();
        let mut rest = window;
        let mut byte = byte_in(items, window, window.from);
        while rest.from < rest.to {
            let group = group_of::<K, I>(items, rest, byte);
            let target = Window::new(rest.from, group.end, rest.depth + 1);
            self.table.push(byte.unwrap_or(0))?;
            self.windows.push(target)?;
            rest.from = group.end;
            byte = group.next;
        }
        Ok(())
    }

    /// Arranges the targets in the order of the last hashed table.
    fn set_last(&mut self) -> Result<(), AllocError> {
        self.table.clear();
        self.numbers.clear();
        self.table.extend_from_slice(self.last.table())?;
        self.numbers.extend_from_slice(self.last.numbers())?;
        Ok(())
    }

    /// Arranges the targets in the order of a new hashed table.
    fn set_new(&mut self) -> Result<(), ZeroTrieBuildError> {
        let keys = Vec::from_slice(self.alloc, self.table.as_slice())?;
        let table = self.cache.try_get_or_insert(keys)?;
        set_places(&mut self.numbers, self.table.as_slice(), table.keys())?;
        let bytes = table.as_bytes();
        self.last
            .keep(self.table.as_slice(), bytes, self.numbers.as_slice())?;
        self.table.clear();
        self.table.extend_from_slice(bytes)?;
        Ok(())
    }

    /// Arranges the targets in the order of a hashed table.
    fn set_hashed(&mut self) -> Result<(), ZeroTrieBuildError> {
        if self.last.is_of(self.table.as_slice()) {
            self.set_last()?;
            return Ok(());
        }
        self.set_new()
    }

    /// Numbers the targets in the order of their edges.
    fn number_in_order(&mut self) -> Result<(), AllocError> {
        self.numbers.clear();
        for number in 0..self.windows.len() {
            self.numbers.push(number)?;
        }
        Ok(())
    }

    /// Adds the windows to the list of pending writes, the first on top. Its slots begin at `slot`.
    fn push_sorted(&self, slot: usize, pending: &mut Vec<Next, A>) -> Result<(), AllocError> {
        for index in (0..self.windows.len()).rev() {
            pending.push(text_of(self.windows[index]))?;
        }
        let from = self.windows[0].from;
        pending.push(Next::Go(Position { from, slot }))?;
        Ok(())
    }

    /// Adds the window of this number and its place to the list of pending writes, the place on
    /// top. `ends` and `slot` are those of `push_hashed`.
    fn push_placed(
        &self,
        number: usize,
        ends: &[usize],
        slot: usize,
        pending: &mut Vec<Next, A>,
    ) -> Result<(), AllocError> {
        let before = if number == 0 { 0 } else { ends[number - 1] };
        let window = self.windows[number];
        pending.push(text_of(window))?;
        pending.push(Next::Go(Position {
            from: window.from,
            slot: slot + before,
        }))?;
        Ok(())
    }

    /// Adds the windows to the list of pending writes, each with its place, and beneath them the
    /// place after the last. They are in the order of the table, the first on top. The slots of the
    /// first edge's window begin at `slot`, and `ends` has for each window the number of slots up
    /// to its end.
    fn push_hashed(
        &self,
        ends: &[usize],
        slot: usize,
        pending: &mut Vec<Next, A>,
    ) -> Result<(), AllocError> {
        let count = self.numbers.len();
        // So there is room too for the targets of a sorted table below the first of them.
        pending.reserve(count.saturating_mul(2).saturating_add(HASHED_FROM - 1))?;
        let last = self.windows[self.windows.len() - 1];
        pending.push(Next::Go(Position {
            from: last.to,
            slot: slot + ends[ends.len() - 1],
        }))?;
        for index in (0..count).rev() {
            let number = self.numbers[index];
            self.push_placed(number, ends, slot, pending)?;
        }
        Ok(())
    }

    /// Arranges the targets of the branch at the beginning of the window, whose slots begin at
    /// `slot`, and adds them to the list of pending writes.
    pub(in crate::made::zerotrie_build) fn set<'a, K: ZeroTrieWithOptions, I: IndexedItems<'a>>(
        &mut self,
        items: I,
        input: WriteInput<'_>,
        window: Window,
        slot: usize,
        pending: &mut Vec<Next, A>,
    ) -> Result<(), ZeroTrieBuildError> {
        let slots = input.slots;
        // That a length is below 2^64 shows the proof that so are the places of the slots.
        let _len = slots.len();
        self.set_sorted::<K, I>(items, window)?;
        let edges = self.windows.len();
        if is_hashed::<K>(edges) {
            self.set_hashed()?;
            let end = slot + 2 * edges;
            self.push_hashed(&slots[slot + edges..end], end, pending)?;
        } else {
            self.number_in_order()?;
            self.push_sorted(slot + edges, pending)?;
        }
        Ok(())
    }
}

/// Returns what is to be written at first: the window of all items.
pub(in crate::made::zerotrie_build) fn all_pending<A: Allocator + Copy>(
    spare: A,
    items: usize,
) -> Result<Vec<Next, A>, AllocError> {
    let mut pending = Vec::new(spare);
    pending.push(text_of(Window::new(0, items, 0)))?;
    Ok(pending)
}

/// Sets the numbers to those of the placed edges.
fn set_places<A: Allocator>(
    numbers: &mut Vec<usize, A>,
    edges: &[u8],
    placed: &[u8],
) -> Result<(), AllocError> {
    numbers.clear();
    for edge in placed {
        match edges.binary_search(edge) {
            Ok(place) => numbers.push(place)?,
            Err(_) => unreachable!(),
        }
    }
    Ok(())
}

/// Returns what is written for a window that begins where the one before it ended.
fn text_of(window: Window) -> Next {
    let Window { to, depth, .. } = window;
    Next::Text(PendingWindow { to, depth })
}

/// The edges of a branch, their hashed table, and their numbers in its order; or nothing.
pub(in crate::made::zerotrie_build) struct LastTable<A: Allocator> {
    edges: Vec<u8, A>,
    table: Vec<u8, A>,
    numbers: Vec<usize, A>,
}

impl<A: Allocator + Copy> LastTable<A> {
    /// Returns the table of no branch.
    pub(in crate::made::zerotrie_build) fn new(spare: A) -> Self {
        LastTable {
            edges: Vec::new(spare),
            table: Vec::new(spare),
            numbers: Vec::new(spare),
        }
    }

    /// Returns whether it is the table of these edges.
    pub(in crate::made::zerotrie_build) fn is_of(&self, edges: &[u8]) -> bool {
        !edges.is_empty() && self.edges.as_slice() == edges
    }

    pub(in crate::made::zerotrie_build) fn table(&self) -> &[u8] {
        self.table.as_slice()
    }

    /// Returns the numbers of the edges, in the order of the table.
    pub(in crate::made::zerotrie_build) fn numbers(&self) -> &[usize] {
        self.numbers.as_slice()
    }

    /// Keeps the table of these edges in place of what it was.
    pub(in crate::made::zerotrie_build) fn keep(
        &mut self,
        edges: &[u8],
        table: &[u8],
        numbers: &[usize],
    ) -> Result<(), AllocError> {
        self.edges.clear();
        self.table.clear();
        self.numbers.clear();
        self.table.extend_from_slice(table)?;
        self.numbers.extend_from_slice(numbers)?;
        self.edges.extend_from_slice(edges)?;
        Ok(())
    }
}
