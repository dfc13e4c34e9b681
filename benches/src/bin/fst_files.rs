//! fst over files, which it maps, for benches/files: `build LINES OUT`, `list FILE`, `get FILE KEY`, and `get FILE` with keys from standard input.

use fst::{Map, MapBuilder, Streamer};
use std::error::Error;
use std::fs::{self, File};
use std::io::{self, BufRead, BufWriter, Write};

type Pairs<'a> = Vec<(&'a [u8], u64)>;

/// The pairs of lines of a key, a tab and a number, in the order of their keys.
fn pairs(lines: &[u8]) -> Result<Pairs<'_>, Box<dyn Error>> {
    let mut pairs = Vec::new();
    for line in lines.split(|byte| *byte == b'\n').filter(|line| !line.is_empty()) {
        let tab = line.iter().position(|byte| *byte == b'\t').ok_or("no tab")?;
        pairs.push((&line[..tab], std::str::from_utf8(&line[tab + 1..])?.parse()?));
    }
    if !pairs.is_sorted() {
        pairs.sort();
    }
    Ok(pairs)
}

fn open(file: &str) -> Result<Map, Box<dyn Error>> {
    // SAFETY: no one changes the file.
    Ok(unsafe { Map::from_path(file) }?)
}

fn answer(out: &mut impl Write, value: Option<u64>) -> io::Result<()> {
    match value {
        Some(value) => writeln!(out, "{value}"),
        None => writeln!(out, "none"),
    }
}

fn main() -> Result<(), Box<dyn Error>> {
    let words: Vec<String> = std::env::args().skip(1).collect();
    let mut out = BufWriter::new(io::stdout().lock());
    match words.iter().map(String::as_str).collect::<Vec<_>>()[..] {
        ["build", lines, to] => {
            let lines = fs::read(lines)?;
            let mut builder = MapBuilder::new(BufWriter::new(File::create(to)?))?;
            for (key, value) in pairs(&lines)? {
                builder.insert(key, value)?;
            }
            builder.finish()?;
        }
        ["list", file] => {
            let map = open(file)?;
            let mut stream = map.stream();
            while let Some((key, value)) = stream.next() {
                out.write_all(key)?;
                writeln!(out, "\t{value}")?;
            }
        }
        ["get", file, key] => answer(&mut out, open(file)?.get(key))?,
        ["get", file] => {
            let map = open(file)?;
            for key in io::stdin().lock().split(b'\n') {
                answer(&mut out, map.get(key?))?;
            }
        }
        _ => return Err("build LINES OUT, list FILE, get FILE [KEY]".into()),
    }
    Ok(out.flush()?)
}
