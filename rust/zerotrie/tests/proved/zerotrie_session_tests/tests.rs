// Made from crates/zerotrie_session_tests/src/tests.rt by rust/make: edit that.
//! Whole runs over memory, and over readers and writers that fail.

use crate::rstd::prelude::*;
use crate::rstd::fmt::Debug;
use crate::rstd::io;
use crate::rstd::io::{Read, Write};
use crate::rstd::process::Abort;
use crate::rstd::test::Fail;
use crate::zerotrie_session::{Noted, RunError, run, run_explained};

/// Ends the test if the two differ, and prints both. It is `assert_eq!` in a function, since the
/// proof of what that prints is long and is done at each place.
fn same<T: Debug + PartialEq, H: Abort>(rt: &H, left: T, right: T) {
    assert_eq!(left, right);
}

/// An input gives this output and status.
fn runs<H: AllocGlobal + Abort>(
    rt: &H,
    input: &[u8],
    output: &[u8],
    status: u8,
) -> Result<(), Fail> {
    let mut reader = Noted::new(input);
    let mut writer = Noted::new(Vec::new(rt.alloc()));
    let answer = run(rt.alloc(), &mut reader, &mut writer);
    same(rt, writer.into_inner().as_slice(), output);
    same(rt, answer, Ok(status));
    Ok(())
}

/// Inputs of each kind without a bad line, and what they print.
const SESSIONS: &[(&str, &str)] = &[
    (
        "\n\nkind simple\n\n+ 44 adghk\n+ 33 adef\n+ 22 ad\n+ 11 \nbuild\n?\n\n? \n? ade\n",
        "ok 16 8b61649006c2656703669011686b901c\n11\n11\nnone\n",
    ),
    ("kind simple\nbuild\n?\n", "ok 0 -\nnone\n"),
    ("kind simple\n+ 1 a\nbuild\n", "ok 2 6181\n"),
    (
        "kind simple\n? a\n+ 2 b\nbuild\n+ 3 c\n? c\nbuild\n? a\n? c\n",
        "none\nok 2 6282\nnone\nok 6 c26263018283\nnone\n3\n",
    ),
    (
        "kind simple\n+ 5  a b \nbuild\n?  a b \n? a b\n",
        "ok 6 206120622085\n5\nnone\n",
    ),
    (
        "kind simple\n+ 18446744073709551615 \n+ 00000000000000000001 a\nbuild\n?\n? a\n",
        "ok 12 91efefefefefefefef6f6181\n18446744073709551615\n1\n",
    ),
    (
        "kind ignore\n+ 1 Content-Type\n+ 2 Content-length\nbuild\n? content-type\n? CONTENT-LENGTH\n",
        "ok 22 436f6e74656e742dc26c5406656e6774688279706581\n1\n2\n",
    ),
    ("kind ignore\n+ 1 a\nbuild\n? A\n", "ok 2 6181\n1\n"),
    (
        "kind simple\n+ 1 ab\n+ 2 Ac\nbuild\n? ab\n? AB\n",
        "ok 8 c241610263826281\n1\nnone\n",
    ),
    (
        "kind auto\n?\n+ 1 ab\nbuild\n? ab\n? AB\n+ 2 é\nbuild\n? é\n",
        "none\nok 3 616281\n1\nnone\nok 9 c261c3026281a1a982\n2\n",
    ),
    ("kind auto\nbuild\n", "ok 0 -\n"),
    (
        "kind simple\n+ 44 adghk\n+ 33 adef\n+ 22 ad\n+ 11\nbuild\n+ 55 b\nlist\n",
        "ok 16 8b61649006c2656703669011686b901c\n11 -\n22 6164\n33 61646566\n44 616467686b\n",
    ),
    (
        "kind simple\n+ 0 abc\n+ 1 abcdef\nbuild\nwalk s61 s62 s63 t t s64 s78 p0\nwalk s61\n",
        "ok 8 6162638064656681\ns61 s62 s63 t0 t- s64 s- p-\ns61\n",
    ),
    (
        "kind simple\n+ 111 ab\n+ 22 abcxyz\n+ 333 abde\n+ 44 afg\nbuild\nwalk p0 p0 t p1 p0 t t p0\n",
        "ok 22 61c262660e905fc263640578797a900665923d67901c\np61/1 p62/2 t111 p64/2 p65/1 t333 t- p-\n",
    ),
    (
        "kind ignore\n+ 0\n+ 1 aBc\n+ 2 aBcD\n+ 3 aBce\n+ 4 aBcF\n+ 5 aBcghi\nbuild\nwalk s41 s62 s43 t s64\nwalk s61 s4B\nlist\n",
        "ok 19 8061426381c444654667010203828384686985\ns61 s42 s63 t1 s44\ns61 s-\n0 -\n1 614263\n2 61426344\n3 61426365\n4 61426346\n5 614263676869\n",
    ),
    (
        "kind hash\n+ 1 foo\n+ 2 bår\n+ 3 båzzøø\nbuild\n? bår\nwalk s62 sC3 t sA5 p1 s7a p0 p0 p0 p0 t\nwalk s62 p0 p1 t\n",
        "ok 22 c262660fa2c3a5c2727a01827aa4c3b8c3b8836f6f81\n2\ns62 sc3 t- sa5 p7a/2 s7a pc3/1 pb8/1 pc3/1 pb8/1 t3\ns62 pc3/1 p- t-\n",
    ),
    (
        "kind ext\n+ 1 å\n+ 2 ø\nbuild\n? ø\n",
        "ok 8 a1c3c2a5b8018182\n2\n",
    ),
    (
        "kind hash\n+ 0 a\n+ 1 b\n+ 2 c\n+ 3 d\n+ 4 e\n+ 5 f\n+ 6 g\n+ 7 h\n+ 8 i\n+ 9 j\n+ 10 k\n+ 11 l\n+ 12 m\n+ 13 n\n+ 14 o\n+ 15 p\nbuild\nwalk p0 t\nwalk p15 t\nwalk p16\n",
        "ok 65 d00000000000000000000000000000000000706162636465666768696a6b6c6d6e6f0102030405060708090a0b0c0d0e0f8f808182838485868788898a8b8c8d8e\np70/16 t15\np6f/16 t14\np-\n",
    ),
    (
        "kind auto\n+ 1 b\n+ 2 é\n+ 3 a\nbuild\nlist\n",
        "ok 11 c36162c301028381a1a982\n3 61\n1 62\n2 c3a9\n",
    ),
];

#[test]
#[cfg_attr(not(target_pointer_width = "64"), ignore = "needs 64 bits")]
fn sessions_of_each_kind() -> Result<(), Fail> {
    let rt = HostRuntime;
    for (input, output) in SESSIONS {
        runs(&rt, input.as_bytes(), output.as_bytes(), 0)?;
    }
    Ok(())
}

/// The statuses, and what a refusal leaves.
#[test]
fn builds_are_refused() -> Result<(), Fail> {
    let rt = HostRuntime;
    let rows: [(&[u8], &[u8], u8); 8] = [
        (b"", b"", 0),
        // The last line may lack its end.
        (b"kind hash\n+ 1 b\nbuild\n? b", b"ok 2 6281\n1\n", 0),
        (
            b"kind simple\n+ 11\n+ 22 ad\n+ 33 adef\n+ 44 adghk\nbuild\n? a",
            b"ok 16 8b61649006c2656703669011686b901c\nnone\n",
            0,
        ),
        // A key that comes twice is an error, and the pairs stay.
        (
            b"kind simple\n+ 1 b\nbuild\n? b\n+ 2 b\nbuild\n? b\n",
            b"ok 2 6281\n1\nrefused DuplicateKey\nnone\n",
            1,
        ),
        (
            b"kind simple\n+ 7 \xC3\xA9\nbuild\n? \xC3\xA9\nkind simple\nbuild\n",
            b"refused NonAsciiError\nnone\nok 0 -\n",
            1,
        ),
        // Two keys agree in front up to case and not exactly.
        (
            b"kind ignore\n+ 1 ab\n+ 2 Ac\nbuild\n? ab\n",
            b"refused MixedCase\nnone\n",
            1,
        ),
        // Before a build, and after one that returned an error, there is nothing to list or to walk.
        (
            b"kind ext\nlist\nwalk t p0\n+ 1 a\n+ 1 a\nbuild\nlist\nwalk s61 t\n",
            b"t- p-\nrefused DuplicateKey\ns- t-\n",
            1,
        ),
        // A bad line counts for more than a refusal, and stops the run.
        (
            b"kind simple\n+ 1\n+ 1\nbuild\nlists\nbuild\n",
            b"refused DuplicateKey\nbad line 5\n",
            2,
        ),
    ];
    for (input, output, status) in rows {
        runs(&rt, input, output, status)?;
    }
    Ok(())
}

/// If no kind was chosen, a walk is no command; keys may be no text.
#[test]
fn bad_lines_after_a_build() -> Result<(), Fail> {
    let rt = HostRuntime;
    let rows: [(&[u8], &[u8]); 2] = [
        (
            b"kind auto\n+ 1 b\nbuild\nwalk t\n",
            b"ok 2 6281\nbad line 4\n",
        ),
        (
            b"kind ext\n+ 2 a\xC3\n+ 1 a\nbuild\nlist\nwalk s61 t pa\n",
            b"ok 5 6181a1c382\n1 61\n2 61c3\nbad line 6\n",
        ),
    ];
    for (input, output) in rows {
        runs(&rt, input, output, 2)?;
    }
    Ok(())
}

/// Lines that are no command, each as the second of an input.
#[test]
fn bad_lines() -> Result<(), Fail> {
    let rt = HostRuntime;
    let lines: [&[u8]; 39] = [
        b"kind",
        b"kind ",
        b"kind  simple",
        b" kind simple",
        b"kind simple ",
        b"KIND simple",
        b"kind Ignore",
        b"kind hashed",
        b"+",
        b"+ ",
        b"+ x a",
        b"+  1",
        b"+ 1x",
        b"+ -1",
        b"+ +1",
        b"+1 a",
        b"+ 123456789012345678901",
        b"+ 000000000000000000001",
        b"+ 18446744073709551616",
        b"?x",
        b" ?",
        b"build ",
        b"builds",
        b"lists",
        b"list ",
        b"walk",
        b"walk ",
        b"walk  t",
        b"walk t ",
        b"walk t  t",
        b"walk s",
        b"walk s6",
        b"walk s6g",
        b"walk s061",
        b"walk tt",
        b"walk p",
        b"walk p-1",
        b"walk p18446744073709551616",
        b"\r",
    ];
    for line in lines {
        let mut input = crate::rstd::vec_in![in rt.alloc()]?;
        input.extend_from_slice(b"kind simple\n")?;
        input.extend_from_slice(line)?;
        input.extend_from_slice(b"\nbuild\n")?;
        runs(&rt, input.as_slice(), b"bad line 2\n", 2)?;
    }
    // Before the first choice only a choice is none.
    for line in [
        b"build".as_slice(),
        b"?",
        b"? a",
        b"+ 1 a",
        b"list",
        b"walk t",
        b"kind",
    ] {
        runs(&rt, line, b"bad line 1\n", 2)?;
    }
    Ok(())
}

/// Why a line is bad, and its number.
#[test]
fn reasons_of_bad_lines() -> Result<(), Fail> {
    let rt = HostRuntime;
    let rows: [(&[u8], &str); 9] = [
        (
            b"\nbuild",
            "line 2: no kind is chosen yet: begin with kind NAME",
        ),
        (
            b"kind simple\n+ 1 a\x0D\nbuild\x0D\n",
            "line 3: it ends in a carriage return: end lines in a line feed alone",
        ),
        (
            b"kind auto\nbuild ",
            "line 2: it is none of: kind NAME, + VALUE KEY, build, ? KEY, list, walk CALLS",
        ),
        (
            b"kind auto\nkind Auto\n",
            "line 2: the kind is none of: simple, ignore, hash, ext, auto",
        ),
        (
            b"kind simple\n+  1\n",
            "line 2: there is no value: write + VALUE KEY, with one space between",
        ),
        (
            b"kind simple\n+ 1x a\n",
            "line 2: the value is not a decimal number",
        ),
        (
            b"kind simple\n+ 000000000000000000001\n",
            "line 2: the value has more than 20 digits",
        ),
        (
            b"kind simple\n+ 18446744073709551616 a\n",
            "line 2: the value is not below 2^64",
        ),
        (
            b"kind simple\nwalk t  t\n",
            "line 2: a call is none of: sHH, t, pN, with one space between two",
        ),
    ];
    for (input, message) in rows {
        let mut reader = Noted::new(input);
        let mut writer = Noted::new(Vec::new(rt.alloc()));
        let ended = run_explained(rt.alloc(), &mut reader, &mut writer).map_err(|_| "an error")?;
        let (number, bad) = ended.bad.ok_or("no bad line")?;
        let text = format!("line {number}: {bad}");
        same(&rt, text.as_str(), message);
    }
    Ok(())
}

/// Gives its bytes eight at a time, and a fault after its calls are used up.
struct FailingReader<'a> {
    bytes: &'a [u8],
    calls: usize,
}

impl Read for FailingReader<'_> {
    fn read(&mut self, buf: &mut [u8]) -> io::Result<usize> {
        if self.calls == 0 {
            return Err(io::Error::from(io::ErrorKind::Interrupted));
        }
        self.calls -= 1;
        let room = buf.len().min(8);
        self.bytes.read(&mut buf[..room])
    }
}

#[test]
fn faults_of_readers() -> Result<(), Fail> {
    let rt = HostRuntime;
    // The third call finds the end of the input, so no fault comes if four are given.
    for calls in 0..5 {
        let bytes = b"kind simple\n?\n".as_slice();
        let mut reader = Noted::new(FailingReader { bytes, calls });
        let mut writer = Noted::new(Vec::new(rt.alloc()));
        let answer = run(rt.alloc(), &mut reader, &mut writer);
        let output = writer.into_inner();
        if calls < 3 {
            assert!(answer == Err(RunError::Read) && reader.failed() && !reader.ended());
            assert!(output.is_empty());
        } else {
            assert!(answer == Ok(0) && !reader.failed() && reader.ended());
            same(&rt, output.as_slice(), b"none\n".as_slice());
        }
    }
    Ok(())
}

/// Takes sixteen bytes at a time, and fails after its calls are used up.
struct FailingWriter {
    calls: usize,
}

impl FailingWriter {
    fn call(&mut self) -> io::Result<()> {
        if self.calls == 0 {
            return Err(io::Error::from(io::ErrorKind::Other));
        }
        self.calls -= 1;
        Ok(())
    }
}

impl Write for FailingWriter {
    fn write(&mut self, buf: &[u8]) -> io::Result<usize> {
        self.call()?;
        Ok(buf.len().min(16))
    }

    fn flush(&mut self) -> io::Result<()> {
        self.call()
    }
}

#[test]
fn faults_of_writers() -> Result<(), Fail> {
    let rt = HostRuntime;
    let input = b"kind simple\n+ 11\n+ 22 ad\n+ 33 adef\n+ 44 adghk\nbuild\n? ad\n? unknown\n";
    // The answer's 47 bytes take three calls, and the fourth flushes.
    for calls in 0..6 {
        let mut reader = Noted::new(input.as_slice());
        let mut writer = Noted::new(FailingWriter { calls });
        let answer = run(rt.alloc(), &mut reader, &mut writer);
        let status = if calls < 4 {
            Err(RunError::Write)
        } else {
            Ok(0)
        };
        same(&rt, answer, status);
        assert!(writer.failed() == (calls < 4) && !reader.failed());
    }
    Ok(())
}

/// Shows what it has taken when it is flushed, and nothing before.
struct BufferedCount {
    taken: usize,
    shown: usize,
}

impl Write for BufferedCount {
    fn write(&mut self, buf: &[u8]) -> io::Result<usize> {
        self.taken = self.taken.wrapping_add(buf.len());
        Ok(buf.len())
    }

    fn flush(&mut self) -> io::Result<()> {
        self.shown = self.taken;
        Ok(())
    }
}

#[test]
fn what_is_written_is_flushed() -> Result<(), Fail> {
    let rt = HostRuntime;
    let mut reader = Noted::new(b"kind simple\n?\n".as_slice());
    let mut writer = Noted::new(BufferedCount { taken: 0, shown: 0 });
    let answer = run(rt.alloc(), &mut reader, &mut writer);
    same(&rt, answer, Ok(0));
    same(&rt, writer.into_inner().shown, b"none\n".len());
    Ok(())
}

/// The text of each error, and what the program prints for it.
#[test]
fn error_texts() -> Result<(), Fail> {
    let rt = HostRuntime;
    let rows = [
        (RunError::Read, "Read", "read failed"),
        (RunError::Write, "Write", "write failed"),
        (RunError::OutOfMemory, "OutOfMemory", "out of memory"),
    ];
    for (error, text, message) in rows {
        same(&rt, format!("{error}").as_str(), text);
        same(&rt, error.message(), message);
    }
    Ok(())
}
