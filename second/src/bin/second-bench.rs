//! One session sheet on standard input, its transcript or a refusal out.
//! With `--coverage`: what the sheet reached instead.

use second::coverage::Coverage;
use second::input::read_up_to;
use second::sheet::{bench, LONGEST_SHEET};
use std::fs::File;
use std::io::{self, Write};
use std::os::fd::AsFd;
use std::process::ExitCode;

/// Answers the sheet on standard input, or tells how the program is used.
fn main() -> ExitCode {
    let arguments: Vec<String> = std::env::args().skip(1).collect();
    let sheet = read_sheet();
    let printed = match arguments.iter().map(String::as_str).collect::<Vec<_>>()[..] {
        [] => bench(&sheet),
        ["--coverage"] => cover(&sheet),
        _ => {
            eprintln!("usage: second-bench [--coverage] < SHEET");
            return ExitCode::from(2);
        }
    };
    match io::stdout().write_all(&printed) {
        Err(error) if error.kind() != io::ErrorKind::BrokenPipe => {
            eprintln!("second-bench: {error}");
            ExitCode::FAILURE
        }
        _ => ExitCode::SUCCESS,
    }
}

/// The sheet, or its first 65,537 bytes: one byte over the limit settles it.
/// Standard input is read without its buffer, which would ask for more. What
/// cannot be read is no sheet, as an empty input is none.
fn read_sheet() -> Vec<u8> {
    let mut sheet = vec![0; LONGEST_SHEET + 1];
    let length = match io::stdin().as_fd().try_clone_to_owned() {
        Ok(input) => read_up_to(&mut File::from(input), &mut sheet).unwrap_or(0),
        Err(_) => 0,
    };
    sheet.truncate(length);
    sheet
}

/// What the sheet reached, as a report.
fn cover(sheet: &[u8]) -> Vec<u8> {
    let mut coverage = Coverage::of_sheets();
    coverage.see_sheet(sheet);
    coverage.report().into_bytes()
}
