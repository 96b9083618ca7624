//! What a session sheet reaches.

use super::{Coverage, MODES};
use crate::sheet::{self, Cause, Fault, Part, SheetRefusal, LONGEST_SHEET};

const NUMBER: [Cause; 4] = [Cause::NoNumber, Cause::NotDigit, Cause::LeadingZero, Cause::TooLarge];
const LINE: [Cause; 2] = [Cause::NoLine, Cause::NoLineEnd];

/// Each part of the form with the ways it can be broken.
fn faults() -> Vec<(Part, Vec<Cause>)> {
    let counted = [&LINE[..], &[Cause::WrongWord], &NUMBER].concat();
    let listed = [&LINE[..], &NUMBER, &[Cause::NotRising, Cause::CountDisagrees]].concat();
    vec![
        (Part::Sheet, vec![Cause::TooLong, Cause::BytesBehind]),
        (Part::Board, counted.clone()),
        (Part::Fitted, counted.clone()),
        (Part::FittedList, listed.clone()),
        (Part::Forced, counted.clone()),
        (Part::ForcedList, listed),
        (Part::Ticks, counted),
        (Part::TickLine, [&LINE[..], &[Cause::FieldMissing]].concat()),
        (Part::Rail, [&NUMBER[..], &[Cause::MinusZero]].concat()),
        (Part::Overcurrent, vec![Cause::NotHex]),
        (Part::Command, vec![Cause::NotHex, Cause::TooLong]),
    ]
}

/// Adds every cell of session sheets.
pub fn universe(coverage: &mut Coverage) {
    for (part, causes) in faults() {
        for cause in causes {
            coverage.add(refused_14(part, cause));
        }
    }
    for fault in ["Bid", "NothingFitted", "ForcedNotFitted"] {
        coverage.add(format!("sheet refused 8 {fault}"));
    }
    coverage.add("sheet refused 14 behind a bad profile".to_string());
    for size in ["65535", "65536", "65537"] {
        coverage.add(format!("sheet size {size}"));
    }
    for what in ["ok", "no ticks", "4096 ticks", "command of 256 bytes", "no forced channel"] {
        coverage.add(format!("sheet {what}"));
    }
    for mode in MODES {
        coverage.add(format!("sheet prints mode {mode}"));
    }
}

/// The cell of a fault of form.
fn refused_14(part: Part, cause: Cause) -> String {
    format!("sheet refused 14 {part:?} {cause:?}")
}

/// Whether the five lines before the ticks, taken alone, are refused with 8.
fn has_bad_profile(input: &[u8]) -> bool {
    let lines: Vec<&[u8]> = input.split_inclusive(|byte| *byte == b'\n').take(5).collect();
    let alone = [&lines.concat()[..], b"ticks 0\n"].concat();
    matches!(sheet::run(&alone), Err(SheetRefusal::Profile(_)))
}

impl Coverage {
    /// Counts what a sheet reaches.
    pub fn see_sheet(&mut self, input: &[u8]) {
        self.hit_if_any(format_args!("sheet size {}", input.len().min(LONGEST_SHEET + 1)));
        match sheet::run(input) {
            Ok(transcript) => self.see_transcript(input, &transcript),
            Err(SheetRefusal::Form(Fault { part, cause })) => {
                self.hit(format_args!("{}", refused_14(part, cause)));
                if has_bad_profile(input) {
                    self.hit(format_args!("sheet refused 14 behind a bad profile"));
                }
            }
            Err(SheetRefusal::Profile(fault)) => {
                self.hit(format_args!("sheet refused 8 {fault:?}"))
            }
        }
    }

    /// Counts what a sound sheet holds and prints.
    fn see_transcript(&mut self, input: &[u8], transcript: &[u8]) {
        self.hit(format_args!("sheet ok"));
        let Ok(sheet) = sheet::parse(input) else { return };
        match sheet.ticks.len() {
            0 => self.hit(format_args!("sheet no ticks")),
            4096 => self.hit(format_args!("sheet 4096 ticks")),
            _ => {}
        }
        if sheet.forced == 0 {
            self.hit(format_args!("sheet no forced channel"));
        }
        let longest = 3 * sheet::LONGEST_COMMAND - 1;
        if sheet.ticks.iter().flat_map(|tick| &tick.command).any(|text| text.len() == longest) {
            self.hit(format_args!("sheet command of 256 bytes"));
        }
        for line in transcript.split(|byte| *byte == b'\n').skip(1) {
            if let Some(mode) = line.split(|byte| *byte == b' ').nth(1) {
                self.hit(format_args!("sheet prints mode {}", char::from(mode[0])));
            }
        }
    }
}
