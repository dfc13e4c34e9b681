// Made from crates/zerotrie_tests/src/tests/walks.rt by rust/make: edit that.
//! Walks of a cursor, over bytes of every kind.

use crate::rstd::prelude::*;
use super::*;
use crate::zerotrie_all::CursorAnswer::{Probed, Stepped, Taken};
use crate::zerotrie_all::CursorOp::{Probe, Step, Take};
use crate::zerotrie_all::bytes::walk;

/// Bytes, a walk over them, and its results.
type Row = (&'static [u8], &'static [CursorOp], &'static [CursorAnswer]);

/// Returns whether a walk over the bytes gives the answers.
fn is_walk<K: ZeroTrieWithOptions>(alloc: Global, row: &Row) -> bool {
    let (bytes, ops, answers) = *row;
    match walk::<K>(alloc, bytes, ops) {
        Ok(given) => given.as_slice() == answers,
        Err(_) => false,
    }
}

const STEPS: &[CursorOp] = &[Step(b'A'), Step(b'b'), Step(b'C'), Take, Step(b'd')];

const CASELESS: Row = (
    MIXED_TEXT,
    STEPS,
    &[
        Stepped(Some(b'a')),
        Stepped(Some(b'B')),
        Stepped(Some(b'c')),
        Taken(Some(1)),
        Stepped(Some(b'D')),
    ],
);

const SIMPLE: &[Row] = &[
    (
        MIXED_TEXT,
        STEPS,
        &[
            Stepped(None),
            Stepped(None),
            Stepped(None),
            Taken(None),
            Stepped(None),
        ],
    ),
    (
        b"a\xC2bf\x0E\x90\x5F\xC2cd\x05xyz\x90\x06e\x92\x3Dg\x90\x1C",
        &[
            Probe(0),
            Probe(0),
            Take,
            Probe(1),
            Probe(0),
            Take,
            Take,
            Probe(0),
        ],
        &[
            Probed(Some((b'a', 1))),
            Probed(Some((b'b', 2))),
            Taken(Some(111)),
            Probed(Some((b'd', 2))),
            Probed(Some((b'e', 1))),
            Taken(Some(333)),
            Taken(None),
            Probed(None),
        ],
    ),
];

#[test]
fn walks_over_ascii_keys() {
    let rt = HostRuntime;
    let alloc = rt.alloc();
    holds(&rt, is_walk::<Ignore>(alloc, &CASELESS));
    for row in SIMPLE {
        holds(&rt, is_walk::<Simple>(alloc, row));
    }
}

const WORDS: &[u8] = b"\xC2bf\x0F\xA2\xC3\xA5\xC2rz\x01\x82z\xA4\xC3\xB8\xC3\xB8\x83oo\x81";

const SPANS: &[Row] = &[
    (
        WORDS,
        &[
            Step(b'b'),
            Step(0xC3),
            Take,
            Step(0xA5),
            Probe(1),
            Step(b'z'),
            Probe(0),
            Probe(0),
            Probe(0),
            Probe(0),
            Take,
        ],
        &[
            Stepped(Some(b'b')),
            Stepped(Some(0xC3)),
            Taken(None),
            Stepped(Some(0xA5)),
            Probed(Some((b'z', 2))),
            Stepped(Some(b'z')),
            Probed(Some((0xC3, 1))),
            Probed(Some((0xB8, 1))),
            Probed(Some((0xC3, 1))),
            Probed(Some((0xB8, 1))),
            Taken(Some(3)),
        ],
    ),
    (
        WORDS,
        &[Step(b'b'), Probe(0), Probe(1), Take],
        &[
            Stepped(Some(b'b')),
            Probed(Some((0xC3, 1))),
            Probed(None),
            Taken(None),
        ],
    ),
];

#[test]
fn walks_through_spans() {
    let rt = HostRuntime;
    let alloc = rt.alloc();
    for row in SPANS {
        holds(&rt, is_walk::<Hash>(alloc, row));
        holds(&rt, is_walk::<Ext>(alloc, row));
    }
}

/// Edges of a hashed branch are numbered as its table has them.
const TABLE: &[Row] = &[
    (
        LETTERS_TEXT,
        &[Probe(0), Take],
        &[Probed(Some((b'p', 16))), Taken(Some(15))],
    ),
    (
        LETTERS_TEXT,
        &[Probe(15), Take],
        &[Probed(Some((b'o', 16))), Taken(Some(14))],
    ),
    (
        LETTERS_TEXT,
        &[Probe(16), Take],
        &[Probed(None), Taken(None)],
    ),
];

#[test]
fn walks_in_the_order_of_a_table() {
    let rt = HostRuntime;
    for row in TABLE {
        holds(&rt, is_walk::<Hash>(rt.alloc(), row));
    }
}

/// Returns whether the last edge of a branch of 256 edges is found, and its value taken.
fn finds_the_last_edge(alloc: Global, bytes: &[u8]) -> bool {
    match walk::<Hash>(alloc, bytes, &[Probe(255), Take]) {
        Ok(answers) => answers.as_slice() == [Probed(Some((255, 256))), Taken(Some(0))].as_slice(),
        Err(_) => false,
    }
}

#[test]
fn walks_over_all_bytes() {
    let rt = HostRuntime;
    holds(&rt, finds_the_last_edge(rt.alloc(), &text_of_all_bytes()));
}

/// Results for such bytes are unspecified, but each call returns, also for a width that no branch
/// has.
const WRONG: &[&[u8]] = &[
    b"a",
    b"\x80\x80",
    b"\xC1a\x81",
    b"\xC2ba\x01\x80\x80",
    b"\xE1\x62ab\x00\x01\x80\x81",
    b"\x90",
    b"\xA1\xC3\xA1\xA5\x81",
    b"\xA1\xC3",
    b"\xE1\xDF\xDF\xDF\xDF\xDF\xDF\xDF\xDF\x5F",
    b"\xBF\xFF\xFF\xFF\xFF\xFF\xFF\xFF\xFF\x7Fa",
    b"\xF0\x70\0\0\0\0\0\0\0\0\0\0\0\0\0\0\0\0\0a",
];

/// The number of results of a walk of seven calls.
fn answers_on<K: ZeroTrieWithOptions>(alloc: Global, bytes: &[u8]) -> Option<usize> {
    let ops = [Take, Probe(0), Take, Step(b'a'), Probe(1), Step(0xA1), Take];
    match walk::<K>(alloc, bytes, &ops) {
        Ok(answers) => Some(answers.len()),
        Err(_) => None,
    }
}

#[test]
fn walks_return_on_any_bytes() {
    let rt = HostRuntime;
    let alloc = rt.alloc();
    for bytes in WRONG {
        same(&rt, answers_on::<Simple>(alloc, bytes), Some(7));
        same(&rt, answers_on::<Ignore>(alloc, bytes), Some(7));
        same(&rt, answers_on::<Hash>(alloc, bytes), Some(7));
        same(&rt, answers_on::<Ext>(alloc, bytes), Some(7));
    }
}
