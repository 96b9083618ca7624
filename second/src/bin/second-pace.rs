//! One run of the speed measurement on standard input, its digest or `bad` out.

use second::input::read_up_to;
use second::pace::{pace, LONGEST_LINE};
use std::fs::File;
use std::io::{self, Write};
use std::os::fd::AsFd;
use std::process::ExitCode;

/// Runs what the line on standard input asks for, or tells how the program is used.
fn main() -> ExitCode {
    if std::env::args().len() > 1 {
        eprintln!("usage: second-pace < LINE");
        return ExitCode::from(2);
    }
    match io::stdout().write_all(&pace(&read_line())) {
        Err(error) if error.kind() != io::ErrorKind::BrokenPipe => {
            eprintln!("second-pace: {error}");
            ExitCode::FAILURE
        }
        _ => ExitCode::SUCCESS,
    }
}

/// All that is there, or one byte more than the longest line, which settles it.
/// What cannot be read is no line, as an empty input is none.
fn read_line() -> Vec<u8> {
    let mut line = vec![0; LONGEST_LINE + 1];
    let length = match io::stdin().as_fd().try_clone_to_owned() {
        Ok(input) => read_up_to(&mut File::from(input), &mut line).unwrap_or(0),
        Err(_) => 0,
    };
    line.truncate(length);
    line
}
