// Made from crates/zerotrie_cli/src/main.rt by rust/make: edit that.
//! Makes tries in files and reads them.

#![cfg_attr(rustfmt, rustfmt::skip)]
#![forbid(unsafe_code)]
#![deny(unused_must_use)]
#![allow(clippy::complexity, clippy::manual_unwrap_or_default, clippy::perf, clippy::style)]
#![allow(dead_code, missing_docs, unused_imports, unused_variables)]

use crate::rstd::prelude::*;
use crate::rstd::fs::File;
use crate::rstd::io::{BufWriter, IsTerminal, Read, Write};
use crate::rstd::os::unix::fs::FileTypeExt;
use crate::rstd::process::ExitCode;
use crate::rstd::{env, fs, io};
use crate::zerotrie_files::{Noted, Store, SystemDisk};
use crate::zerotrie_run::{Command, Place, Status, run, run_each};
use crate::zerotrie_sealed::begins_sealed;
use crate::zerotrie_words::{Misuse, Reply, Request};

/// Prints the help or the version that the words asked for.
fn show_help(rt: &HostRuntime, text: &str) -> Status {
    match crate::rstd::print!("{text}") {
        Ok(()) => Status::Done,
        // who reads the output has enough
        Err(error) if error.kind() == io::ErrorKind::BrokenPipe => Status::Closed,
        Err(error) => {
            let _ = crate::rstd::eprintln!("zerotrie: standard output: {error}");
            Status::Unwritten
        }
    }
}

/// Prints why no command is run to standard error. If that can't be written, the status alone says
/// it.
fn refuse(rt: &HostRuntime, reply: &Reply<'_>) -> Status {
    let _ = match reply {
        Reply::Help(text) | Reply::Misuse(text) => crate::rstd::eprint!("{text}"),
        Reply::Refusal(why) => crate::rstd::eprintln!("zerotrie: {}", why.text()),
        Reply::OneFile(from, to) => {
            crate::rstd::eprintln!("zerotrie: {from} and {to}: IN and OUT are the same file")
        }
        Reply::OutOfMemory => crate::rstd::eprintln!("zerotrie: out of memory"),
    };
    reply.status()
}

/// Prints what is said in place of a command.
fn say(rt: &HostRuntime, reply: &Reply<'_>) -> Status {
    match reply {
        Reply::Help(text) => show_help(rt, text.as_str()),
        Reply::Misuse(_) | Reply::Refusal(_) | Reply::OneFile(_, _) | Reply::OutOfMemory => {
            refuse(rt, reply)
        }
    }
}

/// Runs a command over the files and streams of the system, and prints to this output.
fn run_to<W: Write>(rt: &HostRuntime, command: Command<'_>, output: W) -> Status {
    let Ok(output) = BufWriter::new(rt.alloc(), output) else {
        return say(rt, &Reply::OutOfMemory);
    };
    run(
        rt.alloc(),
        command,
        &mut Store::new(SystemDisk::new(rt, rt.process())),
        &mut Noted::new(rt.stdin()),
        &mut Noted::new(output),
        &mut Noted::new(rt.stderr()),
    )
}

/// Runs the command of a request over the files and streams of the system. If it is to be quiet, what
/// it prints is dropped.
fn run_here(rt: &HostRuntime, request: &Request<'_>, command: Command<'_>) -> Status {
    if request.is_quiet() {
        run_to(rt, command, io::sink())
    } else {
        run_to(rt, command, rt.stdout())
    }
}

/// Returns whether two paths lead to one file, by whatever links.
fn lead_to_one_file(rt: &HostRuntime, path: &str, other: &str) -> bool {
    match (fs::canonicalize(rt, path), fs::canonicalize(rt, other)) {
        (Ok(path), Ok(other)) => path == other,
        _ => false,
    }
}

/// Returns whether what is made would go to a terminal, which shows no bytes of a file.
fn goes_to_terminal(rt: &HostRuntime, command: &Command<'_>) -> bool {
    match command {
        Command::Build(build) => build.to == Place::Stream && rt.stdout().is_terminal(),
        Command::Combine(combine) => combine.to == Place::Stream && rt.stdout().is_terminal(),
        Command::Ask(_, _) | Command::Diff(_) => false,
    }
}

/// Returns whether one of these places is standard input, which is a terminal: nobody types a trie.
fn are_typed(rt: &HostRuntime, places: &[Place<'_>]) -> bool {
    places.contains(&Place::Stream) && rt.stdin().is_terminal()
}

/// Returns whether a trie would come from a terminal.
fn comes_from_terminal(rt: &HostRuntime, command: &Command<'_>) -> bool {
    match command {
        Command::Ask(file, _) => are_typed(rt, &[file.place]),
        Command::Diff(diff) => are_typed(rt, &[diff.old, diff.new]),
        Command::Combine(combine) => are_typed(rt, combine.from),
        Command::Build(_) => false,
    }
}

/// Returns whether an open device is no trie: it is a terminal, or it begins, and not as a sealed file.
/// One that is empty says so when it is read.
fn is_no_trie(mut device: File) -> bool {
    if device.is_terminal() {
        return true;
    }
    let mut front = [0; 8];
    match device.read(&mut front) {
        Ok(0) | Err(_) => false,
        Ok(count) => !begins_sealed(&front[..count]),
    }
}

/// Returns the path of a place, if it leads to a device that is no trie. It may have no end.
fn device_at<'a>(rt: &HostRuntime, place: Place<'a>) -> Option<&'a str> {
    let Place::File(path) = place else {
        return None;
    };
    let kind = fs::metadata(rt, path).ok()?.file_type();
    if !kind.is_char_device() && !kind.is_block_device() {
        return None;
    }
    if is_no_trie(File::open(rt, path).ok()?) {
        Some(path)
    } else {
        None
    }
}

/// Returns the path of the first place that leads to a device that is no trie.
fn first_device<'a>(rt: &HostRuntime, places: &[Place<'a>]) -> Option<&'a str> {
    for place in places {
        if let Some(path) = device_at(rt, *place) {
            return Some(path);
        }
    }
    None
}

/// Returns the path of a device that is read for a trie or for the input of a build, and is none. An open
/// file of the process, such as `/dev/stdin`, is the input of a build whatever it is.
fn device_in<'a>(rt: &HostRuntime, command: &Command<'a>) -> Option<&'a str> {
    match command {
        Command::Ask(file, _) => device_at(rt, file.place),
        Command::Diff(diff) => first_device(rt, &[diff.old, diff.new]),
        Command::Combine(combine) => first_device(rt, combine.from),
        Command::Build(build) => match build.from {
            Place::File(path) if path.starts_with("/dev/std") || path.starts_with("/dev/fd/") => {
                None
            }
            Place::File(_) | Place::Stream => device_at(rt, build.from),
        },
    }
}

/// Says that a device is no trie, and no input.
fn refuse_device(rt: &HostRuntime, path: &str) -> Status {
    let _ = crate::rstd::eprintln!("zerotrie: {path}: it is a device, and no sealed file; - with < reads it"
    );
    Status::BadInput
}

/// Returns why a command is not run here, if it is not: it would write a trie to a terminal or read one
/// from there, or replace its input by links.
fn refusal_here<'a>(rt: &HostRuntime, command: &Command<'a>) -> Option<Reply<'a>> {
    if goes_to_terminal(rt, command) {
        return Some(Reply::Refusal(Misuse::OutputIsTerminal));
    }
    if comes_from_terminal(rt, command) {
        return Some(Reply::Refusal(Misuse::InputIsTerminal));
    }
    let Command::Build(build) = command else {
        return None;
    };
    match (build.from, build.to) {
        (Place::File(from), Place::File(to)) if lead_to_one_file(rt, from, to) => {
            Some(Reply::OneFile(from, to))
        }
        _ => None,
    }
}

/// Says why the words of the command of this name are refused, and where its help is.
fn refuse_words(rt: &HostRuntime, name: &str, reply: &Reply<'_>) -> Status {
    let status = say(rt, reply);
    let _ = crate::rstd::eprintln!("zerotrie {name} --help shows the options");
    status
}

/// Does what a request of the command of this name asks, for the file with this number.
fn obey_for(rt: &HostRuntime, request: &Request<'_>, name: &str, file: usize) -> Status {
    let command = match request.command(file, rt.stderr().is_terminal()) {
        Ok(command) => command,
        Err(reply) => return refuse_words(rt, name, &reply),
    };
    if let Some(reply) = refusal_here(rt, &command) {
        return say(rt, &reply);
    }
    if let Some(path) = device_in(rt, &command) {
        return refuse_device(rt, path);
    }
    run_here(rt, request, command)
}

/// Does what the words of the command line ask, for one file after the other.
fn obey(rt: &HostRuntime, words: &[String]) -> Status {
    let request = match Request::read(rt.alloc(), words) {
        Ok(request) => request,
        Err(reply) => return say(rt, &reply),
    };
    let name = words.get(1).map_or("", |word| word.as_str());
    run_each(request.files(), |file| obey_for(rt, &request, name, file))
}

/// Returns the words that the program was called with.
fn arguments(rt: &HostRuntime) -> io::Result<Vec<String>> {
    Ok(env::args(rt)?.collect_in(rt.alloc())?)
}

pub fn main(rt: HostRuntime) -> ExitCode {
    let status = match arguments(&rt) {
        Ok(words) => obey(&rt, words.as_slice()),
        Err(error) if error.kind() == io::ErrorKind::InvalidData => {
            say(&rt, &Reply::Refusal(Misuse::NotUtf8))
        }
        Err(error) => {
            let _ = crate::rstd::eprintln!("zerotrie: the arguments can't be read: {error}");
            Status::Unread
        }
    };
    ExitCode::from(status.number())
}
