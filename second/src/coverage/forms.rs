//! What a start names for the text line, which form a reset leads back to, and what is
//! read and framed in the profile's form before any switch.

use super::script::event_and_answer;
use super::{text, Coverage};
use crate::board::Board;
use crate::model::Model;
use crate::replay::{parse, Bytes, Latest, Line, Replay};
use crate::text::Form;
use std::fmt::Arguments;

const BOARDS: [&str; 2] = ["distribution", "battery"];

/// What a profile names.
const NAMED: [&str; 2] = ["raw", "nothing"];

/// What leads to the profile's form.
const BEGINNINGS: [&str; 3] = ["start", "AA", "W"];

/// Texts that do not say what a start names, where that is said, with the names of their cells.
pub const WRONG_FORMS: [(&str, &str); 9] = [
    ("A", " A"),
    ("r", " r"),
    ("0", " 0"),
    ("a space", "  "),
    ("missing", ""),
    ("RR", " RR"),
    ("--", " --"),
    ("R R", " R R"),
    ("- -", " - -"),
];

/// Adds the cells of forms.
pub fn universe(coverage: &mut Coverage) {
    for (board, named) in BOARDS.into_iter().flat_map(|board| NAMED.map(|named| (board, named))) {
        let profile = format!("form {board} naming {named}");
        for stored in ["stored", "nothing stored"] {
            coverage.add(format!("{profile}: start, {stored}"));
        }
        for by in &BEGINNINGS[1..] {
            for form in ["raw", "ascii"] {
                coverage.add(format!("{profile}: {by} in {form}"));
            }
            for refused in NAMED {
                coverage.add(format!("{profile}: {by} behind a refused start naming {refused}"));
            }
        }
        for beginning in BEGINNINGS {
            for found in ["command", "form", "refused"] {
                coverage.add(format!("{profile}: read behind {beginning}, {found}"));
            }
            coverage.add(format!("{profile}: reply framed behind {beginning}"));
        }
    }
    for letter in ['Q', 'V'] {
        for (name, _) in WRONG_FORMS {
            coverage.add(format!("line {letter} with form {name}"));
        }
    }
}

/// The name of what a profile names.
fn name(names_raw: bool) -> &'static str {
    if names_raw {
        NAMED[0]
    } else {
        NAMED[1]
    }
}

/// What has come since a start or a reset led to the profile's form.
pub struct Since {
    beginning: &'static str,
    switched: bool,
    /// What the latest start that was refused named.
    refused: Option<&'static str>,
}

impl Default for Since {
    /// Nothing but a start.
    fn default() -> Since {
        Since::new(BEGINNINGS[0])
    }
}

impl Since {
    /// Nothing but what led to the profile's form.
    fn new(beginning: &'static str) -> Since {
        Since { beginning, switched: false, refused: None }
    }

    /// Counts what a line of a form did, given the script before and after it and what it printed.
    pub fn see(
        &mut self,
        (before, after): (&Replay, &Replay),
        line: &Line,
        bytes: &Bytes,
        printed: &[u8],
        coverage: &mut Coverage,
    ) {
        let Some(board) = after.board() else { return };
        let frames_reply = before.latest() == Latest::Tick && board.reply_of_tick().is_some();
        match *line {
            Line::Start { save_count, .. } if printed == b"ok" => {
                *self = Since::default();
                let stored = if save_count.is_some() { "stored" } else { "nothing stored" };
                hit(coverage, board, format_args!("start, {stored}"));
            }
            Line::Start { names_raw, .. } => self.refused = Some(name(names_raw)),
            Line::Tick { command, .. } => {
                let command = command.map(|length| &bytes[..length]);
                if let (Some(by), Some(board)) = (reset_by(command, printed), before.board()) {
                    self.see_reset(board, by, coverage);
                }
            }
            Line::Text { .. } if !self.switched => self.see_read(board, printed, coverage),
            Line::Frame { .. } if !self.switched && frames_reply => {
                hit(coverage, board, format_args!("reply framed behind {}", self.beginning))
            }
            _ => {}
        }
    }

    /// Counts a reset by the form that it found.
    fn see_reset(&mut self, board: &Board, by: &'static str, coverage: &mut Coverage) {
        hit(coverage, board, format_args!("{by} in {}", text::name(board.form())));
        if let Some(refused) = self.refused {
            hit(coverage, board, format_args!("{by} behind a refused start naming {refused}"));
        }
        *self = Since::new(by);
    }

    /// Counts a read in the profile's form.
    fn see_read(&mut self, board: &Board, printed: &[u8], coverage: &mut Coverage) {
        let found = printed.split(|byte| *byte == b' ').next().unwrap_or(&[]);
        let found = String::from_utf8_lossy(found);
        hit(coverage, board, format_args!("read behind {}, {found}", self.beginning));
        self.switched = found == "form";
    }
}

/// Hits a cell of the board and of what its profile names.
fn hit(coverage: &mut Coverage, board: &Board, what: Arguments) {
    let model = match board.model() {
        Model::Distribution => BOARDS[0],
        Model::Battery => BOARDS[1],
    };
    let named = name(board.form_of_profile() == Form::Raw);
    coverage.hit(format_args!("form {model} naming {named}: {what}"));
}

/// What reset the board in a tick, if anything did.
fn reset_by(command: Option<&[u8]>, printed: &[u8]) -> Option<&'static str> {
    let (event, answer) = event_and_answer(printed)?;
    let code = command.and_then(|bytes| bytes.get(2));
    if event == 'W' {
        Some("W")
    } else if answer == '0' && code == Some(&0xAA) {
        Some("AA")
    } else {
        None
    }
}

impl Coverage {
    /// Counts a start that would be of a form if it named raw or nothing.
    pub fn see_wrong_form(&mut self, line: &[u8]) {
        for (name, wrong) in WRONG_FORMS {
            if is_sound_but_for(line, wrong.as_bytes()) {
                self.hit(format_args!("line {} with form {name}", char::from(line[0])));
            }
        }
    }
}

/// Whether a start is of a form once this text in it is one that names raw.
fn is_sound_but_for(line: &[u8], wrong: &[u8]) -> bool {
    // All that comes before is of fixed width.
    const AT: usize = "Q 12 01 00000000 00000000 0".len();
    let Some(rest) = line.get(AT..).and_then(|rest| rest.strip_prefix(wrong)) else { return false };
    let repaired = [&line[..AT], b" R", rest].concat();
    let mut bytes: Bytes = [0; 1024];
    parse(&repaired, &mut bytes).is_some()
}
