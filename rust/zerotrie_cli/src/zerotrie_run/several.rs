// Made from crates/zerotrie_run/src/several.rt by rust/make: edit that.
//! Runs of a command for several files.

use crate::zerotrie_run::status::Status;

/// Returns whether nothing is run for another file if the worst status so far is this.
fn ends_all(status: Status) -> bool {
    status == Status::BadUsage || status == Status::Closed
}

/// Returns the status with the greater number; if both have the same, the first.
fn worse(status: Status, next: Status) -> Status {
    if next.number() > status.number() {
        next
    } else {
        status
    }
}

/// Runs a command for files one after the other, each by its number, and returns how it ends: as the
/// worst of these runs does. Words that are wrong are told once, and after the output is closed nothing is
/// run.
pub fn run_each<F: Fn(usize) -> Status>(files: usize, run: F) -> Status {
    let mut worst = Status::Done;
    for file in 0..files {
        worst = worse(worst, run(file));
        if ends_all(worst) {
            return worst;
        }
    }
    worst
}
