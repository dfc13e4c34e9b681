//! What is measured, by turns, as tables on standard output. Standard error tells how far it is.

use std::hint::black_box;

pub type Work<'a> = Box<dyn FnMut() -> usize + 'a>;
/// Who takes part, with the work of a round.
pub type Contestants<'a> = Vec<(&'static str, Work<'a>)>;

/// The work of a round: something this many times.
pub fn turned<'a>(turns: usize, mut work: impl FnMut() -> usize + 'a) -> Work<'a> {
    Box::new(move || (0..turns).map(|_| work()).fold(0, usize::wrapping_add))
}

/// Asks for each key and adds up what is found.
pub fn asked_by(keys: &[&[u8]], mut get: impl FnMut(&[u8]) -> Option<usize>) -> usize {
    keys.iter().map(|key| get(key).unwrap_or(usize::MAX)).fold(0, usize::wrapping_add)
}

/// The work of a round: look-ups of all keys, this many times.
pub fn all<'a>(turns: usize, keys: &'a [&'a [u8]], mut get: impl FnMut(&[u8]) -> Option<usize> + 'a) -> Work<'a> {
    turned(turns, move || asked_by(keys, &mut get))
}

/// The sums of all contestants have to be the same. Returns them.
pub fn agreed(contestants: &mut Contestants<'_>, what: &str) -> usize {
    let sums: Vec<usize> = contestants.iter_mut().map(|(_, work)| work()).collect();
    assert!(sums.iter().all(|sum| *sum == sums[0]), "the results differ: {sums:?}, {what}");
    sums[0]
}

/// A time of Linux: seconds and nanoseconds.
#[repr(C)]
struct Time {
    seconds: i64,
    nanoseconds: i64,
}

unsafe extern "C" {
    fn clock_gettime(clock: i32, time: *mut Time) -> i32;
}

/// The time in nanoseconds that this thread has had a processor, which stands still while others have it.
fn processor_time() -> f64 {
    const OF_THIS_THREAD: i32 = 3;
    let mut time = Time { seconds: 0, nanoseconds: 0 };
    // SAFETY: the function writes the time.
    let result = unsafe { clock_gettime(OF_THIS_THREAD, &mut time) };
    assert_eq!(result, 0, "the clock can't be read");
    time.seconds as f64 * 1e9 + time.nanoseconds as f64
}

/// How long a round of each takes for one of this many items, in nanoseconds, at best of this many rounds. The contestants take
/// turns, so that what disturbs the machine disturbs all of them.
pub fn best(rounds: usize, items: usize, contestants: &mut Contestants<'_>) -> Vec<(&'static str, f64)> {
    let mut times: Vec<_> = contestants.iter().map(|(name, _)| (*name, f64::INFINITY)).collect();
    for round in 0..rounds + 1 {
        for (number, (_, work)) in contestants.iter_mut().enumerate() {
            let start = processor_time();
            black_box(work());
            let taken = (processor_time() - start) / items as f64;
            if round > 0 {
                times[number].1 = times[number].1.min(taken);
            }
        }
    }
    times
}

/// A row: its name, and what was measured of each contestant.
struct Row {
    name: String,
    values: Vec<(&'static str, f64)>,
}

impl Row {
    fn value(&self, column: &str) -> Option<f64> {
        self.values.iter().find(|(name, _)| *name == column).map(|(_, value)| *value)
    }
}

/// A table in Markdown, whose title says what its numbers are.
pub struct Table {
    title: String,
    rows: Vec<Row>,
    has_shares: bool,
}

fn number(value: f64) -> String {
    match value {
        v if v < 10.0 => format!("{v:.2}"),
        v if v < 100.0 => format!("{v:.1}"),
        v => format!("{v:.0}"),
    }
}

impl Table {
    /// A table that has the first column's share of each other number after it.
    pub fn of_shares(title: &str) -> Table {
        Table { title: String::from(title), rows: Vec::new(), has_shares: true }
    }

    pub fn plain(title: &str) -> Table {
        Table { title: String::from(title), rows: Vec::new(), has_shares: false }
    }

    pub fn add(&mut self, name: String, values: Vec<(&'static str, f64)>) {
        let told: Vec<String> = values.iter().map(|(name, value)| format!("{name} {}", number(*value))).collect();
        eprintln!("{}: {name}: {}", self.title, told.join(", "));
        self.rows.push(Row { name, values });
    }

    /// Measures a row.
    pub fn measure(&mut self, name: String, rounds: usize, items: usize, mut contestants: Contestants<'_>) {
        let values = best(rounds, items, &mut contestants);
        self.add(name, values);
    }

    fn columns(&self) -> Vec<&'static str> {
        let mut columns = Vec::new();
        for (name, _) in self.rows.iter().flat_map(|row| &row.values) {
            if !columns.contains(name) {
                columns.push(*name);
            }
        }
        columns
    }

    fn cell(&self, row: &Row, column: &str, place: usize) -> String {
        let Some(value) = row.value(column) else { return String::from("–") };
        // what another makes before is no time to be beside
        let is_beside = self.has_shares && place > 0 && !column.starts_with("making");
        match row.values.first() {
            Some((_, first)) if is_beside => format!("{} ({:.2})", number(value), first / value),
            _ => number(value),
        }
    }

    pub fn print(&self) {
        if self.rows.is_empty() {
            return;
        }
        let columns = self.columns();
        println!("\n| {} | {} |\n|---|{}", self.title, columns.join(" | "), "--:|".repeat(columns.len()));
        for row in &self.rows {
            let cells: Vec<String> = columns.iter().enumerate().map(|(place, column)| self.cell(row, column, place)).collect();
            println!("| {} | {} |", row.name, cells.join(" | "));
        }
    }
}
