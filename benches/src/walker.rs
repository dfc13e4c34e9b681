//! A walker over the pairs of a trie that is written by hand over raw pointers and tests nothing: what the format costs if nothing
//! is asked of a reader but that it lists bytes of the library's own builder. Keys have at most [`LONGEST`] bytes.

use crate::Kind;
use std::arch::x86_64::{__m128i, _mm_loadu_si128, _mm_movemask_epi8, _mm_storeu_si128};

const LONGEST: usize = 1 << 16;

/// A branch that still has targets to come.
#[derive(Clone, Copy)]
struct Open {
    /// The edge of the target that comes next.
    edge: *const u8,
    /// The highest byte of the offset at which that target ends.
    offset: *const u8,
    /// Where the targets begin.
    targets: *const u8,
    /// Where the last target ends.
    end: *const u8,
    /// How many targets come.
    left: u32,
    /// How many bytes of the key stand in front of the edge.
    depth: u32,
    /// How many offsets a block has.
    block: u32,
    /// How many blocks there are.
    width: u32,
}

/// The pairs that are still to come.
pub struct Walker {
    at: *const u8,
    end: *const u8,
    /// From no place after this one can sixteen bytes be read.
    last: *const u8,
    key: Vec<u8>,
    len: usize,
    open: Vec<Open>,
    is_hashed: bool,
}

impl Walker {
    pub fn new(kind: Kind, bytes: &[u8]) -> Walker {
        let last = bytes[..bytes.len().saturating_sub(16)].as_ptr_range().end;
        let bytes = bytes.as_ptr_range();
        let is_hashed = matches!(kind, Kind::Hash | Kind::Ext);
        Walker { at: bytes.start, end: bytes.end, last, key: vec![0; LONGEST + 16], len: 0, open: Vec::with_capacity(64), is_hashed }
    }

    /// A number whose lead has this many values below the extender bit.
    #[inline(always)]
    unsafe fn number(&mut self, latent: usize) -> usize {
        unsafe {
            let lead = *self.at as usize;
            self.at = self.at.add(1);
            let mut value = lead & (latent - 1);
            if lead & latent != 0 {
                loop {
                    let trail = *self.at as usize;
                    self.at = self.at.add(1);
                    value = value * 128 + (trail & 127) + latent;
                    if trail < 128 {
                        break;
                    }
                }
            }
            value
        }
    }

    /// Moves the literals that stand here to the key, at most sixteen, if there are any.
    #[inline(always)]
    unsafe fn literals(&mut self) {
        unsafe {
            if self.at < self.last {
                let sixteen = _mm_loadu_si128(self.at as *const __m128i);
                let count = (_mm_movemask_epi8(sixteen) as u32 | 0x10000).trailing_zeros() as usize;
                let count = count.min(self.end.offset_from(self.at) as usize);
                _mm_storeu_si128(self.key.as_mut_ptr().add(self.len) as *mut __m128i, sixteen);
                self.len += count;
                self.at = self.at.add(count);
            } else if *self.at < 0x80 {
                *self.key.get_unchecked_mut(self.len) = *self.at;
                self.len += 1;
                self.at = self.at.add(1);
            }
        }
    }

    /// Goes into the first target of the branch that stands here.
    #[inline(always)]
    unsafe fn enter(&mut self) {
        unsafe {
            let head = self.number(32);
            let (edges, width) = (if head & 255 == 0 { 256 } else { head & 255 }, head / 256 + 1);
            let mut table = self.at;
            self.at = self.at.add(edges);
            if self.is_hashed && edges > 15 {
                table = table.add(1 + edges);
                self.at = self.at.add(1 + edges);
            }
            let offset = self.at;
            self.at = self.at.add(width * (edges - 1));
            self.open.push(Open {
                edge: table,
                offset,
                targets: self.at,
                end: self.end,
                left: edges as u32,
                depth: self.len as u32,
                block: edges as u32 - 1,
                width: width as u32,
            });
            self.turn();
        }
    }

    /// Goes to the next target of the innermost open branch, which has one.
    #[inline(always)]
    unsafe fn turn(&mut self) {
        unsafe {
            let last = self.open.len() - 1;
            let top = self.open.get_unchecked_mut(last);
            *self.key.get_unchecked_mut(top.depth as usize) = *top.edge;
            self.len = top.depth as usize + 1;
            top.edge = top.edge.add(1);
            top.left -= 1;
            if top.left == 0 {
                self.end = top.end;
                self.open.set_len(last);
            } else {
                let mut offset = *top.offset as usize;
                for block in 1..top.width as usize {
                    offset = offset << 8 | *top.offset.add(block * top.block as usize) as usize;
                }
                top.offset = top.offset.add(1);
                self.end = top.targets.add(offset);
            }
        }
    }

    /// The next pair's value. Its key is [`Walker::key`].
    ///
    /// # Safety
    ///
    /// The bytes are those of a build.
    #[inline(always)]
    pub unsafe fn advance(&mut self) -> Option<usize> {
        unsafe {
            if self.at == self.end {
                if self.open.is_empty() {
                    return None;
                }
                self.turn();
            }
            loop {
                self.literals();
                let lead = *self.at;
                if (0x80..0xA0).contains(&lead) {
                    return Some(self.number(16));
                } else if lead >= 0xC0 {
                    self.enter();
                } else if lead >= 0xA0 {
                    let run = self.number(16);
                    self.at.copy_to_nonoverlapping(self.key.as_mut_ptr().add(self.len), run);
                    self.len += run;
                    self.at = self.at.add(run);
                }
            }
        }
    }

    pub fn key(&self) -> &[u8] {
        &self.key[..self.len]
    }
}

/// Lists the pairs of a build, and answers the sum of the lengths of its keys and of its values.
pub fn listed(kind: Kind, bytes: &[u8]) -> usize {
    let mut walker = Walker::new(kind, bytes);
    let mut sum = 0usize;
    // SAFETY: the bytes are those of a build.
    while let Some(value) = unsafe { walker.advance() } {
        sum = sum.wrapping_add(std::hint::black_box(walker.key()).len()).wrapping_add(value);
    }
    sum
}
