//! Asks the library what random pairs and random bytes give, and prints a checksum of all answers. The
//! same number of rounds and the same seed give the same checksum on each platform.
//!
//!     cargo run --release -- ROUNDS SEED [narrow]
//!
//! With `narrow` values are small, and of damaged bytes nothing goes into the checksum: so it is the same where `usize` has 32 bits.
//!
//! With the feature `proved` it asks the proved library the same, and ends at the first answer that
//! differs.

#[cfg(feature = "proved")]
mod functions;
mod library;
mod plain;
#[cfg(feature = "proved")]
mod proved;
mod questions;

use plain::Plain;
use questions::{Random, Round, Width};

/// A checksum: FNV-1a of what is printed.
fn mixed(sum: u64, text: &str) -> u64 {
    text.bytes()
        .fold(sum, |sum, byte| (sum ^ u64::from(byte)).wrapping_mul(0x100_0000_01b3))
}

/// Asks the other library the same, and ends the program if it says something else.
#[cfg(feature = "proved")]
fn compare(round: &Round, number: usize, plain: &[String]) {
    let proved = round.ask(&proved::Proved);
    for (plain, proved) in plain.iter().zip(&proved) {
        assert_eq!(plain, proved, "round {number}: {round:?}");
    }
    assert_eq!(plain.len(), proved.len(), "round {number}");
}

#[cfg(not(feature = "proved"))]
fn compare(_round: &Round, _number: usize, _plain: &[String]) {}

fn main() {
    let arguments: Vec<_> = std::env::args().skip(1).collect();
    let number = |at: usize, else_: u64| arguments.get(at).map_or(else_, |it| it.parse().expect("a number"));
    let (rounds, seed) = (number(0, 1000), number(1, 1));
    let width = match arguments.get(2) {
        Some(word) if word == "narrow" => Width::Narrow,
        Some(word) => panic!("{word}: it is narrow, or left out"),
        None => Width::Whole,
    };
    let mut random = Random::new(seed, width);
    let (mut sum, mut answers) = (0xcbf2_9ce4_8422_2325, 0);
    for number in 0..rounds as usize {
        let round = Round::new(&mut random);
        let plain = round.ask(&Plain);
        compare(&round, number, &plain);
        answers += plain.len();
        sum = plain.iter().fold(sum, |sum, answer| mixed(sum, answer));
    }
    let beside = if cfg!(feature = "proved") {
        ", those of the proved library"
    } else {
        ""
    };
    println!("{rounds} rounds from seed {seed}: {answers} answers{beside}, checksum {sum:016x}");
}
