//! A replay script on standard input, one line out for each line in.
//! With `--coverage`: what the script reached instead.

use second::coverage::{Coverage, Watched};
use second::input::{Lines, Piece};
use second::replay::{bad, Replay, LONGEST_LINE};
use std::io::{self, Write};
use std::process::ExitCode;

/// Printed bytes that are worth a write of their own.
const FULL: usize = 1 << 16;

/// Answers the script on standard input, or tells how the program is used.
fn main() -> ExitCode {
    let arguments: Vec<String> = std::env::args().skip(1).collect();
    let done = match arguments.iter().map(String::as_str).collect::<Vec<_>>()[..] {
        [] => replay(),
        ["--coverage"] => cover(),
        _ => {
            eprintln!("usage: second-replay [--coverage] < SCRIPT");
            return ExitCode::from(2);
        }
    };
    match done {
        Ok(()) => ExitCode::SUCCESS,
        // A reader that has seen enough is no failure of ours.
        Err(error) if error.kind() == io::ErrorKind::BrokenPipe => ExitCode::SUCCESS,
        Err(error) => {
            eprintln!("second-replay: {error}");
            ExitCode::FAILURE
        }
    }
}

/// Flushes whenever the next line is not there yet, so that the lines can be
/// watched one by one and still run fast from a file.
fn replay() -> io::Result<()> {
    let mut lines = Lines::new(io::stdin().lock(), LONGEST_LINE);
    let mut output = io::stdout().lock();
    let mut replay = Replay::new();
    let mut line = Vec::new();
    let mut printed = Vec::new();
    while let Some(piece) = lines.next(&mut line)? {
        match piece {
            Piece::Line => replay.line(&line, &mut printed),
            Piece::TooLong | Piece::Unended => bad(&mut printed),
        }
        printed.push(b'\n');
        if printed.len() > FULL || lines.must_wait() {
            output.write_all(&printed)?;
            output.flush()?;
            printed.clear();
        }
    }
    Ok(())
}

/// Runs the script and prints what it reached, as a report.
fn cover() -> io::Result<()> {
    let mut lines = Lines::new(io::stdin().lock(), LONGEST_LINE);
    let mut coverage = Coverage::of_scripts();
    let mut watched = Watched::default();
    let mut line = Vec::new();
    while let Some(piece) = lines.next(&mut line)? {
        match piece {
            Piece::Line => watched.line(&line, &mut coverage),
            Piece::TooLong => watched.too_long(&mut coverage),
            Piece::Unended => watched.unended(&mut coverage),
        }
    }
    io::stdout().write_all(coverage.report().as_bytes())
}
