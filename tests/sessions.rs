//! Lets every request for memory of the program fail in turn. A run has to end with the error for out of memory, or print the full answer, or
//! that of builds which failed.

use std::process::{Command, ExitCode, Stdio};

/// A line for the program, what it prints for it, and what it prints where the last build was refused.
type Line = (&'static str, &'static str, &'static str);

const SESSION: &[Line] = &[
    ("kind simple", "", ""),
    ("+ 11", "", ""),
    ("+ 22 ad", "", ""),
    ("+ 33 adef", "", ""),
    ("+ 44 adghk", "", ""),
    ("build", "ok 16 8b61649006c2656703669011686b901c\n", "refused OutOfMemory\n"),
    ("? ad", "22\n", "none\n"),
    ("? unknown", "none\n", "none\n"),
];

const LONGER: &[Line] = &[
    ("kind ignore", "", ""),
    ("+ 1 Accept", "", ""),
    ("+ 2 accept-language", "", ""),
    ("build", "refused MixedCase\n", "refused OutOfMemory\n"),
    ("kind hash", "", ""),
    ("+ 1 foo", "", ""),
    ("+ 2 bår", "", ""),
    ("+ 3 båzzøø", "", ""),
    ("build", "ok 22 c262660fa2c3a5c2727a01827aa4c3b8c3b8836f6f81\n", "refused OutOfMemory\n"),
    ("list", "2 62c3a572\n3 62c3a57a7ac3b8c3b8\n1 666f6f\n", ""),
    ("walk s62 p0 p1 t", "s62 pc3/1 p- t-\n", "s- p- p- t-\n"),
    ("build", "ok 22 c262660fa2c3a5c2727a01827aa4c3b8c3b8836f6f81\n", "refused OutOfMemory\n"),
    ("? bår", "2\n", "none\n"),
    ("kind auto", "", ""),
    ("+ 1 b", "", ""),
    ("+ 3 a", "", ""),
    ("build", "ok 6 c26162018381\n", "refused OutOfMemory\n"),
    ("list", "3 61\n1 62\n", ""),
];

/// All that the program may print, with its status, if this many builds at most are refused.
fn may_print(session: &[Line], most: usize) -> Vec<(String, i32)> {
    let builds = session.iter().filter(|line| line.0 == "build").count();
    let choices = (0..1u32 << builds).filter(|refused| refused.count_ones() as usize <= most);
    let printed = choices.map(|refused| {
        let (mut text, mut number, mut is_refused) = (String::new(), 0, false);
        for (line, full, without) in session {
            if *line == "build" {
                is_refused = refused >> number & 1 == 1;
                number += 1;
            }
            text += if is_refused { without } else { full };
        }
        let status = i32::from(text.contains("refused"));
        (text, status)
    });
    printed.collect()
}

/// Runs the program over a session, with each of its requests refused, alone and with all after it, up to a run in which none is. Returns how
/// many runs there were, and how many ended otherwise than they may.
fn sessions(program: &str, preload: &str, session: &[Line]) -> (usize, usize) {
    let (mut runs, mut wrong) = (0, 0);
    let input = format!("{}/session", std::path::Path::new(preload).parent().unwrap().display());
    std::fs::write(&input, session.iter().map(|line| format!("{}\n", line.0)).collect::<String>()).unwrap();
    for all in [false, true] {
        let allowed = may_print(session, if all { usize::MAX } else { 1 });
        for granted in 0.. {
            let mut command = Command::new(program);
            command.stdin(std::fs::File::open(&input).unwrap()).stdout(Stdio::piped()).stderr(Stdio::piped());
            command.env("LD_PRELOAD", preload).env("GRANTED", granted.to_string());
            if all {
                command.env("ALL", "");
            }
            let ended = command.output().unwrap();
            runs += 1;
            let (printed, told) = (String::from_utf8_lossy(&ended.stdout), String::from_utf8_lossy(&ended.stderr));
            let (met, told) = match told.strip_prefix("refused\n") {
                Some(told) => (true, told),
                None => (false, &*told),
            };
            let status = ended.status.code();
            let goes_on = allowed.iter().any(|(text, end)| *text == printed && Some(*end) == status && told.is_empty());
            let stops = printed.is_empty() && status == Some(3) && told == "out of memory\n";
            let full = printed == allowed[0].0 && status == Some(allowed[0].1) && told.is_empty();
            if !(full || met && (goes_on || stops)) {
                wrong += 1;
                println!("request {granted} refused: {status:?} {printed} {told}");
            }
            if !met {
                break;
            }
        }
    }
    (runs, wrong)
}

fn main() -> ExitCode {
    let arguments: Vec<String> = std::env::args().collect();
    let [_, program, preload] = arguments.as_slice() else {
        eprintln!("the program and what is loaded before it are wanted");
        return ExitCode::from(2);
    };
    let (runs, wrong) = [SESSION, LONGER].iter().map(|it| sessions(program, preload, it)).fold((0, 0), |sum, it| (sum.0 + it.0, sum.1 + it.1));
    println!("{runs} runs in which memory is refused, {wrong} wrong");
    ExitCode::from(u8::from(wrong > 0))
}
