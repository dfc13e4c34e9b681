// Made from crates/zerotrie_build/src/write.rt by rust/make: edit that.
//! The second pass: the bytes of the text, from the first to the last.

use crate::rstd::prelude::*;
use crate::zerotrie_build::branch::{Layout, Next, PendingWindow, Position, WriteInput};
use crate::zerotrie_build::items::IndexedItems;
use crate::zerotrie_build::number::{BRANCH, SPAN, VALUE, number_bytes};
use crate::zerotrie_build::store::TrieBuilderStore;
use crate::zerotrie_build::windows::{Step, Window, ascii_leaf, first_step, literals_end};
use crate::rstd::alloc::{AllocError, Allocator, Global};
use crate::zerotrie_base::{ZeroTrieBuildError, ZeroTrieWithOptions, least_width};

/// A text that is written from its first byte on into a store, which has its length from the start.
pub(in crate::made::zerotrie_build) struct Writing<S: TrieBuilderStore> {
    store: S,
    /// Where the next byte goes.
    place: usize,
}

impl<S: TrieBuilderStore> Writing<S> {
    /// Returns a store of this many zeros, to be written from its front.
    pub(in crate::made::zerotrie_build) fn new(alloc: Global, len: usize) -> Result<Self, AllocError> {
        let mut store = S::atbs_new_empty(alloc);
        store.atbs_prepend_n_zeros(len)?;
        Ok(Writing { store, place: 0 })
    }

    /// Returns the store, if all of it is written.
    pub(in crate::made::zerotrie_build) fn into_store(self) -> S {
        let Writing { store, place: _ } = self;
        store
    }

    /// Writes a byte.
    #[inline(always)]
    fn put(&mut self, byte: u8) {
        self.store.atbs_bitor_assign(self.place, byte);
        self.place += 1;
    }

    /// Writes bytes.
    #[inline(always)]
    fn put_all(&mut self, bytes: &[u8]) {
        self.store.atbs_set_zeros(self.place, bytes);
        self.place += bytes.len();
    }

    /// Writes a number in the form whose shortest number of two bytes is `latent`, with these bits
    /// in its lead. Most have one byte or two, which are written at once.
    #[inline(always)]
    fn put_number(&mut self, bits: u8, latent: u8, number: usize) {
        let least = latent as usize;
        if number < least {
            self.put(bits + number as u8);
            return;
        }
        let low = number - least;
        if low < 128 * least {
            self.put(bits + latent + (low / 128) as u8);
            self.put((low % 128) as u8);
            return;
        }
        self.put_large(bits, latent, number);
    }

    /// Writes a number that has three bytes or more. Three are written as they are found.
    #[inline(always)]
    fn put_large(&mut self, bits: u8, latent: u8, number: usize) {
        let least = latent as usize;
        let low = number - least;
        let high = low / 128 - least;
        if high < 128 * least {
            self.put(bits + latent + (high / 128) as u8);
            self.put(128 + (high % 128) as u8);
            self.put((low % 128) as u8);
            return;
        }
        self.put_larger(bits, latent, number);
    }

    /// Writes a number that has four bytes or more. The numbers of lines of a long file have four.
    #[inline(always)]
    fn put_larger(&mut self, bits: u8, latent: u8, number: usize) {
        let least = latent as usize;
        let low = number - least;
        let middle = low / 128 - least;
        let top = middle / 128 - least;
        if top < 128 * least {
            self.put(bits + latent + (top / 128) as u8);
            self.put(128 + (top % 128) as u8);
            self.put(128 + (middle % 128) as u8);
            self.put((low % 128) as u8);
            return;
        }
        self.put_all(&number_bytes(bits, latent, number));
    }

    /// Writes a value node.
    #[inline(always)]
    fn put_value(&mut self, value: usize) {
        self.put_number(VALUE, 16, value);
    }

    /// Writes the literals that the window's keys continue with up to a depth.
    #[inline(always)]
    fn put_literals<'a, I: IndexedItems<'a>>(&mut self, items: I, window: Window, end: usize) {
        let (key, _) = items.get(window.from);
        self.put_all(&key[window.depth..end]);
    }

    /// Writes a span of the bytes that the window's keys continue with.
    #[inline(always)]
    fn put_span<'a, I: IndexedItems<'a>>(&mut self, items: I, window: Window, run: usize) {
        let (key, _) = items.get(window.from);
        self.put_number(SPAN, 16, run);
        self.put_all(&key[window.depth..window.depth + run]);
    }

    /// Writes the bytes of this weight of the offsets of a branch to the targets of these numbers.
    #[inline(always)]
    fn put_block(&mut self, lens: &[usize], numbers: &[usize], place: usize) {
        let mut end = 0;
        for index in 1..numbers.len() {
            end += lens[numbers[index - 1]];
            self.put(((end >> (8 * place)) % 256) as u8);
        }
    }

    /// Writes `bytes` bytes of each offset of a branch to the targets of these numbers, the highest
    /// of them first.
    #[inline(always)]
    fn put_offsets(&mut self, lens: &[usize], numbers: &[usize], bytes: usize) {
        for place in (0..bytes).rev() {
            self.put_block(lens, numbers, place);
        }
    }

    /// Writes a branch with this search table in front of the targets of these numbers, which are
    /// so long.
    #[inline(always)]
    fn put_branch(&mut self, table: &[u8], lens: &[usize], numbers: &[usize]) {
        let width = least_width(total(lens, numbers));
        self.put_number(BRANCH, 32, 256 * width + numbers.len() % 256);
        self.put_all(table);
        self.put_offsets(lens, numbers, width + 1);
    }

    /// Writes the values, literals and spans that are first in the window. Returns the window after
    /// them.
    #[inline(always)]
    fn put_front<'a, K: ZeroTrieWithOptions, I: IndexedItems<'a>>(
        &mut self,
        items: I,
        window: Window,
    ) -> Window {
        let mut rest = window;
        loop {
            match first_step::<K, I>(items, rest) {
                Step::Value(value) => {
                    self.put_value(value);
                    rest.from += 1;
                }
                Step::Literal(_) => {
                    let end = literals_end(items, rest);
                    self.put_literals(items, rest, end);
                    rest.depth = end;
                }
                Step::Span(count) => {
                    self.put_span(items, rest, count);
                    rest.depth += count;
                }
                Step::Branch | Step::End => return rest,
            }
        }
    }

    /// Writes a window, whose slots begin at `slot`, node after node up to the targets of its first
    /// branch, and lays these out. A window of one item whose rest is ASCII, as most are, is
    /// written at once.
    #[inline(always)]
    fn put_nodes<'a, K: ZeroTrieWithOptions, I: IndexedItems<'a>, A: Allocator + Copy>(
        &mut self,
        items: I,
        input: WriteInput<'_>,
        window: Window,
        slot: usize,
        layout: &mut Layout<A>,
        pending: &mut Vec<Next, A>,
    ) -> Result<(), ZeroTrieBuildError> {
        if let Some((literals, value)) = ascii_leaf(items, window, input.ascii) {
            self.put_all(literals);
            self.put_value(value);
            return Ok(());
        }
        // That a length is below 2^64 shows the proof that so are the places of the slots.
        let _len = input.slots.len();
        let rest = self.put_front::<K, I>(items, window);
        if rest.from < rest.to {
            layout.set::<K, I>(items, input, rest, slot, pending)?;
            let numbers = layout.numbers.as_slice();
            let lens = &input.slots[slot..slot + numbers.len()];
            self.put_branch(layout.table.as_slice(), lens, numbers);
        }
        Ok(())
    }

    /// Writes all that is pending, if the first window begins at the first item and the first slot.
    pub(in crate::made::zerotrie_build) fn put_pending<'a, K: ZeroTrieWithOptions, I: IndexedItems<'a>, A: Allocator + Copy>(
        &mut self,
        items: I,
        input: WriteInput<'_>,
        layout: &mut Layout<A>,
        mut pending: Vec<Next, A>,
    ) -> Result<(), ZeroTrieBuildError> {
        let mut position = Position { from: 0, slot: 0 };
        while let Some(next) = pending.pop() {
            match next {
                Next::Go(there) => position = there,
                Next::Text(PendingWindow { to, depth }) => {
                    let from = position.from;
                    let window = Window { from, to, depth };
                    self.put_nodes::<K, I, A>(
                        items,
                        input,
                        window,
                        position.slot,
                        layout,
                        &mut pending,
                    )?;
                    position.from = to;
                }
            }
        }
        Ok(())
    }
}

/// Returns the sum of the lengths of the targets of these numbers.
fn total(lens: &[usize], numbers: &[usize]) -> usize {
    let mut total = 0;
    for number in numbers {
        total += lens[*number];
    }
    total
}
