//! Gives inputs of hostile sizes to the calls, each at one size and at twice that, and asks that time and memory grow
//! no faster than the input does. Compiled with `--cfg rest` it also tries the calls that the library for C lacks.

#[path = "../../rust/compare/src/functions.rs"]
mod functions;
mod input;
mod library;
mod memory;
#[cfg(rest)]
mod rest;

use input::{Flat, NAMES};
use library::{Column, Rooms};
use std::process::ExitCode;

/// Pairs of one size, the text of a kind that means them, and what the calls ask for, all made before they are measured.
#[derive(Default)]
struct Input {
    kind: u8,
    pairs: Flat,
    bytes: Vec<u8>,
    /// Some keys: of short ones all, of long ones as many at each size; where each ends, and their values.
    asked: Column,
    wanted: Vec<usize>,
    /// A call of a cursor, of two bytes, along a tenth of the longest key.
    #[cfg_attr(not(rest), allow(dead_code))]
    steps: Vec<u8>,
    /// The JSON text where it is wanted.
    #[cfg_attr(not(rest), allow(dead_code))]
    json: String,
    /// The prefixes, suffixes and values of a dense table.
    rows: (Column, Column, Vec<usize>),
}

/// Where the calls write.
struct Room {
    out: Vec<u8>,
    found: Rooms,
    values: Vec<usize>,
}

/// A call, by its name and what it does to an input; it says whether the answer is right.
type Call = (&'static str, fn(&Input, &mut Room) -> bool);

/// How many bytes the keys have together.
fn key_bytes(pairs: &Flat) -> usize {
    pairs.bounds.chunks(2).map(|bound| bound[1] - bound[0]).sum()
}

/// Whether a call wrote the bytes of the trie. It does anything if they are not known yet.
fn is_trie(input: &Input, len: usize, out: &[u8]) -> bool {
    out.get(..len) == Some(&input.bytes)
}

/// The sum of lengths and values in a listing in parts.
fn sum_of_parts(Input { kind, bytes, .. }: &Input, prefix: &[u8], found: &mut Rooms) -> usize {
    let (mut sum, mut last, mut goes_on) = (0, Vec::new(), false);
    loop {
        let status = found.list_more(*kind, bytes, prefix, goes_on, &last);
        sum += found.key_bytes() + found.values[..found.count].iter().sum::<usize>();
        if status != library::BUFFER_TOO_SMALL || found.count == 0 {
            return if status == library::DONE { sum } else { usize::MAX };
        }
        last.clear();
        last.extend_from_slice(found.key(found.count - 1));
        goes_on = true;
    }
}

const SLICE: Call = ("build, slice", |input, room| {
    let len = library::build_sorted(input.kind, &input.pairs, &mut room.out);
    is_trie(input, len, &room.out)
});
const LENGTH: Call = ("encoded_len", |input, room| {
    library::encoded_len(input.kind, &input.pairs, &mut room.out) == 8 && room.out[..8] == input.bytes.len().to_le_bytes()
});
const REFUSAL: Call = ("why refused", |input, room| {
    library::why_refused(input.kind, &input.pairs, &mut room.out) == 1 && room.out[0] == 0
});
const LOOK_UPS: Call = ("look-ups", |input, _| {
    input.keys_asked().zip(&input.wanted).all(|(key, value)| library::get(input.kind, &input.bytes, key) == Some(*value))
});
/// Those keys again, by look-ups of many.
const MANY: Call = ("look-ups, many", |Input { kind, bytes, asked, wanted, .. }, room| {
    library::get_many(*kind, bytes, &asked.texts, &asked.ends, &mut room.values[..wanted.len()]);
    room.values[..wanted.len()] == **wanted
});
/// The build of an index, and look-ups of many keys in it.
const INDEX_BUILD: Call = ("build, index", |input, room| {
    let len = library::index_build(&input.pairs, &mut room.out);
    is_trie(input, len, &room.out)
});
const INDEX_MANY: Call = ("look-ups, index", |Input { bytes, asked, wanted, .. }, room| {
    library::index_get_many(bytes, &asked.texts, &asked.ends, &mut room.values[..wanted.len()]);
    room.values[..wanted.len()] == **wanted
});
const STEPS: Call = ("cursors", |input, _| {
    input.keys_asked().zip(&input.wanted).all(|(key, value)| library::stepped(input.kind, &input.bytes, key) == Some(*value))
});
const TEST: Call = ("test of bytes", |input, _| library::is_well_formed(input.kind, &input.bytes));
const FAULT: Call = ("first fault", |input, room| {
    library::first_fault(input.kind, &input.bytes, &mut room.out) == 1 && room.out[0] == 0
});
const STREAM: Call = ("list_some", |input, room| {
    sum_of_parts(input, b"", &mut room.found) == key_bytes(&input.pairs) + input.pairs.values.iter().sum::<usize>()
});
/// From the first byte of the first key.
const PREFIX: Call = ("list_some, prefix", |input, room| {
    let pairs = &input.pairs;
    let prefix = &pairs.key(0)[..1];
    let keys = (0..pairs.values.len()).map(|number| (pairs.key(number), pairs.values[number]));
    let wanted = keys.filter(|(key, _)| key.starts_with(prefix)).map(|(key, value)| key.len() + value);
    sum_of_parts(input, prefix, &mut room.found) == wanted.sum::<usize>()
});
/// A thousand suffixes for each prefix.
const DENSE: Call = ("dense table", |Input { rows: (prefixes, suffixes, values), .. }, room| {
    let len = library::dense_build(prefixes, suffixes, values, &mut room.out);
    len <= room.out.len() && len > 2 * values.len()
});

/// The calls that the library for C lacks.
#[cfg(rest)]
mod of_rest {
    use super::{Call, is_trie};
    use crate::rest;

    pub const ITERATOR: Call = ("build, iterator", |input, room| {
        let len = rest::built(input.kind, 1, &input.pairs, &mut room.out);
        is_trie(input, len, &room.out)
    });
    pub const ARRAY: Call = ("build, array", |input, room| {
        let len = rest::built(5, 2, &input.pairs, &mut room.out);
        is_trie(input, len, &room.out)
    });
    pub const PLAIN: Call = ("plain_encode", |input, room| {
        let len = rest::built(6, 0, &input.pairs, &mut room.out);
        is_trie(input, len, &room.out)
    });
    pub const WALK: Call = ("walk", |input, room| {
        rest::walked(input.kind, &input.bytes, &input.steps, &mut room.out) == 8 * input.steps.len()
    });
    pub const LISTING: Call = ("listing", |input, _| {
        rest::sum_of_listing(input.kind, &input.bytes) == super::key_bytes(&input.pairs) + input.pairs.values.iter().sum::<usize>()
    });
    pub const TAGGED: Call = ("tagged bytes", |input, room| {
        let len = rest::asked(input.kind, 1, &input.bytes, &mut room.out);
        room.out.get(1..len) == Some(&input.bytes)
    });
    pub const MAP: Call = ("ordered map", |input, _| rest::len_of_map(input.kind, &input.bytes) == input.pairs.values.len());
    pub const TO_JSON: Call = ("JSON, written", |input, room| {
        let len = rest::asked(input.kind, 0, &input.bytes, &mut room.out);
        room.out.get(..len) == Some(input.json.as_bytes())
    });
    pub const FROM_JSON: Call = ("JSON, read", |input, room| {
        let len = rest::read(input.kind, input.json.as_bytes(), &mut room.out);
        is_trie(input, len, &room.out)
    });
}

/// So many keys of eight digits.
fn pairs(size: usize, _: u8) -> Flat {
    let mut keys: Vec<String> =
        (0..size as u32).map(|number| format!("{:08x}", number.wrapping_mul(2_654_435_761))).collect();
    keys.sort();
    Flat::of(keys.iter().enumerate().map(|(number, key)| (key.as_bytes(), number)))
}

/// One key of this many letters.
fn one_key(size: usize, _: u8) -> Flat {
    let key: Vec<u8> = (0..size).map(|place| b'a' + (place % 23) as u8).collect();
    Flat::of([(key.as_slice(), 7)].into_iter())
}

/// One key of this many bytes that are no ASCII.
fn one_span(size: usize, _: u8) -> Flat {
    let key: Vec<u8> = (0..size).map(|place| 128 + (place % 101) as u8).collect();
    Flat::of([(key.as_slice(), 7)].into_iter())
}

/// The keys "b", "ab", "aab" and so on, this many. They are ends of one text.
fn nested(size: usize, _: u8) -> Flat {
    let mut keys = vec![b'a'; size];
    keys[size - 1] = b'b';
    Flat::new(keys, (0..size).flat_map(|from| [from, size]).collect(), (0..size).collect())
}

/// Keys that branch so often, each time by all bytes that the kind lets, of which "m" goes on; those above it may be
/// left out. Keys with the same last byte are ends of one text.
fn tables_without(size: usize, kind: u8, left_out: fn(usize, u8) -> bool) -> Flat {
    let lets = |byte: &u8| kind > 1 || byte.is_ascii() && !(kind == 1 && byte.is_ascii_uppercase());
    let bytes: Vec<u8> = (0..=255).filter(lets).collect();
    let mut keys = Vec::new();
    let mut place_of = [0; 256];
    for byte in &bytes {
        keys.extend(std::iter::repeat_n(b'm', size));
        place_of[*byte as usize] = keys.len();
        keys.push(*byte);
    }
    let mut bounds = Vec::new();
    let mut put = |level: usize, byte: &u8| {
        let place = place_of[*byte as usize];
        bounds.extend([place - level, place + 1]);
    };
    for level in 0..size {
        bytes.iter().filter(|byte| **byte < b'm').for_each(|byte| put(level, byte));
    }
    put(size, &b'm');
    for level in (0..size).rev() {
        bytes.iter().filter(|byte| **byte > b'm' && !left_out(level, **byte)).for_each(|byte| put(level, byte));
    }
    let values = (0..bounds.len() / 2).collect();
    Flat::new(keys, bounds, values)
}

fn tables(size: usize, kind: u8) -> Flat {
    tables_without(size, kind, |_, _| false)
}

/// Another table at each level, so that each has its hash searched.
fn searches(size: usize, kind: u8) -> Flat {
    tables_without(size, kind, |level, byte| byte as usize % 64 == level % 64 || byte as usize % 61 == level / 64 % 61)
}

/// So many prefixes, which all have a thousand suffixes.
fn rows(size: usize) -> (Column, Column, Vec<usize>) {
    let (mut prefixes, mut suffixes) = (Column::default(), Column::default());
    for row in 0..size {
        for column in 0..1000 {
            prefixes.push(format!("{row:06}").as_bytes());
            suffixes.push(format!("{column:03}").as_bytes());
        }
    }
    (prefixes, suffixes, (0..1000 * size).collect())
}

/// Inputs of a sort by their size and kind, the first of the two sizes, the kinds and the calls.
type Sort = (&'static str, fn(usize, u8) -> Flat, usize, &'static [u8], &'static [Call]);

const ALL: &[u8] = &[0, 1, 2, 3];
/// Its place in `NAMES`.
const INDEX: u8 = 7;
const MOST: &[Call] = &[
    SLICE, REFUSAL, LENGTH, LOOK_UPS, MANY, STEPS, TEST, FAULT, STREAM, PREFIX,
    #[cfg(rest)] of_rest::ITERATOR,
    #[cfg(rest)] of_rest::WALK,
    #[cfg(rest)] of_rest::LISTING,
    #[cfg(rest)] of_rest::TAGGED,
];
const SORTS: &[Sort] = &[
    ("pairs", pairs, 1_000_000, ALL, MOST),
    ("pairs", pairs, 1_000_000, &[INDEX], &[INDEX_BUILD, INDEX_MANY]),
    ("one key", one_key, 10_000_000, ALL, MOST),
    ("one key", one_key, 10_000_000, &[INDEX], &[INDEX_BUILD, INDEX_MANY]),
    ("one span", one_span, 10_000_000, &[2, 3], MOST),
    ("nested branches", nested, 50_000, ALL, MOST),
    ("full tables", tables, 500, ALL, MOST),
    ("searched tables", searches, 500, &[2, 3], MOST),
    (ROWS, |_, _| Flat::default(), 1_000, &[0], &[DENSE]),
];
const ROWS: &str = "rows";

/// These copy all keys.
#[cfg(rest)]
const COPIES: &[Call] = &[of_rest::MAP, of_rest::TO_JSON, of_rest::FROM_JSON];
#[cfg(rest)]
const SORTS_OF_REST: &[Sort] = &[
    ("pairs", pairs, 1_000_000, ALL, COPIES),
    ("pairs", pairs, 1_000_000, &[0], &[of_rest::PLAIN]),
    ("pairs", pairs, 50_000, &[0], &[of_rest::ARRAY]),
    ("one key", one_key, 10_000_000, ALL, COPIES),
    ("one key", one_key, 10_000_000, &[0], &[of_rest::PLAIN]),
    ("one key", one_key, 500_000, &[0], &[of_rest::ARRAY]),
    ("one span", one_span, 10_000_000, &[2, 3], &[of_rest::MAP]),
    ("nested branches", nested, 5_000, ALL, COPIES),
    ("full tables", tables, 500, ALL, &[of_rest::MAP]),
    ("searched tables", searches, 500, &[2, 3], &[of_rest::MAP]),
];
#[cfg(not(rest))]
const SORTS_OF_REST: &[Sort] = &[];

/// The JSON text of pairs whose keys ascend and are text.
fn json(pairs: &Flat) -> String {
    let keys = (0..pairs.values.len()).map(|number| str::from_utf8(pairs.key(number)).unwrap());
    let texts: Vec<String> = keys.zip(&pairs.values).map(|(key, value)| format!("\"{key}\":{value}")).collect();
    format!("{{{}}}", texts.join(","))
}

impl Input {
    fn of(sort: &Sort, size: usize, kind: u8, room: &mut Room) -> Input {
        if sort.0 == ROWS {
            return Input { rows: rows(size), ..Input::default() };
        }
        let pairs = sort.1(size, kind);
        let len = match kind {
            INDEX => library::index_build(&pairs, &mut room.out),
            _ => library::build_sorted(kind, &pairs, &mut room.out),
        };
        assert!(len <= room.out.len(), "{} of {size} is not built in {}: {len}", sort.0, NAMES[kind as usize]);
        let mut input = Input { kind, bytes: room.out[..len].to_vec(), ..Input::default() };
        let count = pairs.values.len();
        let step = if key_bytes(&pairs) / count > 64 { count.div_ceil(500) } else { 1 };
        for number in (0..count).step_by(step) {
            input.asked.push(pairs.key(number));
            input.wanted.push(pairs.values[number]);
        }
        let longest = (0..count).map(|number| pairs.key(number)).max_by_key(|key| key.len()).unwrap();
        input.steps = longest[..longest.len().div_ceil(10)].iter().flat_map(|byte| [0, *byte]).collect();
        if sort.4.iter().any(|call| call.0.starts_with("JSON")) {
            input.json = json(&pairs);
        }
        Input { pairs, ..input }
    }

    fn keys_asked(&self) -> impl Iterator<Item = &[u8]> {
        self.asked.ends.iter().scan(0, |from, to| Some(&self.asked.texts[std::mem::replace(from, *to)..*to]))
    }
}

unsafe extern "C" {
    fn clock_gettime(clock: i32, time: &mut [i64; 2]) -> i32;
}

/// The seconds that this thread had a processor, so that a busy machine counts little.
fn seconds() -> f64 {
    const THREAD: i32 = 3;
    let mut time = [0; 2];
    // SAFETY: a time has two numbers, seconds and nanoseconds.
    assert_eq!(unsafe { clock_gettime(THREAD, &mut time) }, 0);
    time[0] as f64 + 1e-9 * time[1] as f64
}

/// The time that a call takes, and the memory at its peak. A short time is the best of three.
fn measured(call: &Call, input: &Input, room: &mut Room) -> (f64, usize) {
    let mut best = f64::INFINITY;
    let mut peak = 0;
    for _ in 0..3 {
        memory::peak();
        let (blocks, held) = (memory::blocks(), memory::held());
        let start = seconds();
        assert!(call.1(input, room), "{} in {} answers wrong", call.0, NAMES[input.kind as usize]);
        assert_eq!(memory::blocks(), blocks, "{} in {} keeps memory", call.0, NAMES[input.kind as usize]);
        best = best.min(seconds() - start);
        peak = memory::peak() - held;
        if best > 0.5 {
            break;
        }
    }
    (best, peak)
}

/// What a call takes at a size, how much more at twice that, and whether this is as much more as the input.
struct Line {
    time: f64,
    slower: f64,
    peak: f64,
    larger: f64,
    is_linear: bool,
}

/// Measures a call at both sizes, between which the keys grow so much.
fn compared(call: &Call, inputs: &[Input; 2], growth: f64, room: &mut Room) -> Line {
    let (time, peak) = measured(call, &inputs[0], room);
    let (later_time, later_peak) = measured(call, &inputs[1], room);
    let (slower, larger) = (later_time / time, later_peak as f64 / peak.max(1) as f64);
    // Below these what is measured is the machine. What is quadratic takes nearly twice the growth.
    let is_slow = later_time > 0.05 && slower > 1.9 * growth;
    // A list that doubles may have done so between the sizes.
    let is_large = later_peak > 1 << 20 && larger > 1.5 * growth;
    let peak = peak as f64 / f64::from(1 << 20);
    Line { time, slower, peak, larger, is_linear: !is_slow && !is_large }
}

/// Measures all calls of a sort, prints a line for each, and answers how many lines there are and how many of them
/// grow faster than the input. Such a line is measured anew, as other work may have disturbed it.
fn run(sort: &Sort, room: &mut Room) -> (usize, usize) {
    let (name, _, size, kinds, calls) = sort;
    let mut faster = 0;
    for kind in *kinds {
        let inputs = [Input::of(sort, *size, *kind, room), Input::of(sort, 2 * size, *kind, room)];
        let growth = (key_bytes(&inputs[1].pairs) as f64 / key_bytes(&inputs[0].pairs).max(1) as f64).max(2.0);
        for call in *calls {
            let mut line = compared(call, &inputs, growth, room);
            for _ in 0..2 {
                if !line.is_linear {
                    line = compared(call, &inputs, growth, room);
                }
            }
            faster += usize::from(!line.is_linear);
            println!(
                "{name:<16} {size:>9} {:<7} {:<16} {:>9.1} ms {:>6.2} {:>9.2} MiB {:>6.2} {}",
                NAMES[*kind as usize],
                call.0,
                1e3 * line.time,
                line.slower,
                line.peak,
                line.larger,
                if line.is_linear { "" } else { "not linear" },
            );
        }
    }
    (kinds.len() * calls.len(), faster)
}

fn main() -> ExitCode {
    let word = std::env::args().nth(1).unwrap_or_default();
    println!("input, its pairs, bytes, levels or rows, kind and call; time, and how much longer at twice the size;");
    println!("memory at the peak, and how much more then. At twice the levels keys are four times as long together.");
    // Arrays of a MiB lie on the stack.
    let thread = std::thread::Builder::new().stack_size(1 << 28).spawn(move || {
        let mut room = Room { out: vec![0; 1 << 28], found: Rooms::of(1 << 28, 1 << 20), values: vec![0; 1 << 21] };
        let sorts = SORTS.iter().chain(SORTS_OF_REST).filter(|sort| sort.0.contains(&word));
        let counts = sorts.map(|sort| run(sort, &mut room));
        counts.fold((0, 0), |sum, one| (sum.0 + one.0, sum.1 + one.1))
    });
    let Ok((lines, faster)) = thread.unwrap().join() else {
        return ExitCode::FAILURE;
    };
    println!("{lines} lines, {faster} that grow faster than their input");
    ExitCode::from(u8::from(faster > 0))
}
