//! Runs the program `list` on a text and compares what it prints.

use std::env;
use std::ffi::OsString;
use std::io::{ErrorKind, Write};
use std::path::Path;
use std::process::{ChildStdin, Command, Stdio};
use std::thread;
use std::time::Duration;

use crate::comparison::{Comparison, Difference, Outcome};

/// Names the program; else it is the one that `rt check list` leaves.
const PROGRAM: &str = "LIST_PROGRAM";
/// Long enough for the program to read what stands in the pipe.
const PAUSE: Duration = Duration::from_millis(2);

/// Runs the program on a text and holds its print to the expected one.
pub fn compare(comparison: &mut Comparison, text: &[u8], expected: &str) -> Outcome {
    compare_pieces(comparison, &[text], expected)
}

/// The same, with the text written in pieces.
pub fn compare_pieces(comparison: &mut Comparison, pieces: &[&[u8]], expected: &str) -> Outcome {
    comparison.comparisons += 1;
    let print = run(pieces).map_err(|fault| difference(pieces, expected, fault.as_bytes()))?;
    if print == expected.as_bytes() {
        return Ok(());
    }
    Err(difference(pieces, expected, &print))
}

/// What the program prints, or in words what else it did.
fn run(pieces: &[&[u8]]) -> Result<Vec<u8>, String> {
    let mut child = Command::new(program())
        .stdin(Stdio::piped())
        .stdout(Stdio::piped())
        .stderr(Stdio::piped())
        .spawn()
        .map_err(|error| format!("{:?} does not start: {error}", program()))?;
    let input = child.stdin.take().expect("the input is a pipe");
    let written = write(input, pieces);
    let output = child
        .wait_with_output()
        .map_err(|error| error.to_string())?;
    written?;
    if !output.status.success() || !output.stderr.is_empty() {
        let errors = output.stderr.escape_ascii();
        return Err(format!("{}, error output \"{errors}\"", output.status));
    }
    Ok(output.stdout)
}

pub fn program() -> OsString {
    let built = Path::new(env!("CARGO_MANIFEST_DIR")).join("../target/bin/list");
    env::var_os(PROGRAM).unwrap_or(built.into_os_string())
}

/// The program may leave bytes unread that no sheet can have.
fn write(mut input: ChildStdin, pieces: &[&[u8]]) -> Result<(), String> {
    for (number, piece) in pieces.iter().enumerate() {
        if number > 0 {
            thread::sleep(PAUSE);
        }
        match input.write_all(piece) {
            Err(error) if error.kind() == ErrorKind::BrokenPipe => return Ok(()),
            written => written.map_err(|error| error.to_string())?,
        }
    }
    Ok(())
}

/// The sheet and both prints, line by line.
fn difference(pieces: &[&[u8]], expected: &str, print: &[u8]) -> Difference {
    let sheet = pieces.concat();
    let length = sheet.len();
    Difference(format!(
        "on the sheet of {length} bytes\n{}expected\n{}printed\n{}",
        readable(&sheet),
        readable(expected.as_bytes()),
        readable(print)
    ))
}

/// Each line between quotes, its newline and bytes that cannot be seen escaped.
fn readable(text: &[u8]) -> String {
    const MOST_BYTES: usize = 10_000;
    let shown = &text[..text.len().min(MOST_BYTES)];
    let lines = shown.split_inclusive(|&byte| byte == b'\n');
    let mut words: String = lines
        .map(|line| format!("    \"{}\"\n", line.escape_ascii()))
        .collect();
    if shown.len() < text.len() {
        words += &format!("    and {} bytes more\n", text.len() - shown.len());
    }
    words
}

/// Compares so many cases in two threads. Each stops at its first difference.
pub fn compare_cases(
    comparison: &mut Comparison,
    cases: u64,
    compare: impl Fn(&mut Comparison, u64) -> Outcome + Sync,
) -> Outcome {
    const THREADS: usize = 2;
    let compare_every_second = |first: usize| -> Result<u64, Difference> {
        let mut own = Comparison::default();
        for case in (0..cases).skip(first).step_by(THREADS) {
            compare(&mut own, case)?;
        }
        Ok(own.comparisons)
    };
    thread::scope(|scope| {
        let start = |first| scope.spawn(move || compare_every_second(first));
        let threads = [0, 1].map(start);
        for thread in threads {
            comparison.comparisons += thread.join().expect("a thread does not panic")?;
        }
        Ok(())
    })
}
