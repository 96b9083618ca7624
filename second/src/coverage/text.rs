//! The text line: each refusal in each form, each success, each framing.

use super::{letter, Coverage, MODES};
use crate::board::Board;
use crate::hex;
use crate::replay::Latest;
use crate::text::{find, Form, CLOSE, OPEN};

/// What a read may find in either form.
const EITHER: [&str; 13] = [
    "10 no opening tag",
    "10 no closing tag",
    "10 closing tag before the opening one",
    "11 of 257",
    "11 of more",
    "12",
    "13",
    "command",
    "switch to raw",
    "switch to ascii",
    "bytes before the frame",
    "bytes behind the frame",
    "inner opening tag",
];

const RAW: [&str; 3] = ["command of 0", "command of 255", "command of 256"];

const ASCII: [&str; 12] = [
    "12 empty",
    "12 leading space",
    "12 trailing space",
    "12 double space",
    "12 alien byte",
    "12 grouping",
    "12 of 255",
    "12 of 256",
    "command of 254",
    "13 with no scratch",
    "13 one short",
    "command with exact scratch",
];

/// Adds the cells of the text line.
pub fn universe(coverage: &mut Coverage) {
    for form in ["raw", "ascii"] {
        for found in EITHER {
            coverage.add(format!("text {form} {found}"));
        }
        for result in ["written", "refused", "into no room"] {
            for what in ["reply", "echo", "nothing"] {
                coverage.add(format!("frame {form} {what} {result}"));
            }
        }
        for result in ["exact", "one short"] {
            for what in ["reply", "echo"] {
                coverage.add(format!("frame {form} {what} {result}"));
            }
        }
    }
    for mode in MODES {
        for form in ["raw", "ascii"] {
            for found in ["command", "form", "refused"] {
                coverage.add(format!("text in {mode} {form} {found}"));
            }
            for what in ["reply", "echo", "nothing"] {
                coverage.add(format!("frame in {mode} {form} {what}"));
            }
        }
        for waiting in ["a reply", "nothing"] {
            coverage.add(format!("read in {mode} {waiting} waiting"));
        }
    }
    for found in RAW {
        coverage.add(format!("text raw {found}"));
    }
    for found in ASCII {
        coverage.add(format!("text ascii {found}"));
    }
}

/// The name of a form.
pub fn name(form: Form) -> &'static str {
    match form {
        Form::Raw => "raw",
        Form::Ascii => "ascii",
    }
}

impl Coverage {
    /// Counts a read of the text line.
    pub fn see_text(&mut self, board: &Board, received: &[u8], scratch: usize, printed: &[u8]) {
        let words: Vec<&[u8]> = printed.split(|byte| *byte == b' ').collect();
        let what = String::from_utf8_lossy(words[0]);
        self.hit(format_args!(
            "text in {} {} {what}",
            letter(board.mode().mode()),
            name(board.form())
        ));
        let found = match (words[0], words[1]) {
            (b"command", _) => "command".to_string(),
            (b"form", to) => format!("switch to {}", String::from_utf8_lossy(to)),
            (_, number) => String::from_utf8_lossy(number).into_owned(),
        };
        let form = name(board.form());
        let Some(start) = find(received, OPEN).map(|at| at + OPEN.len()) else {
            return self.hit(format_args!("text {form} 10 no opening tag"));
        };
        let Some(length) = find(&received[start..], CLOSE) else {
            let early = find(&received[..start], CLOSE).is_some();
            let why = if early { "closing tag before the opening one" } else { "no closing tag" };
            return self.hit(format_args!("text {form} 10 {why}"));
        };
        let payload = &received[start..start + length];
        self.see_surroundings(form, received, start, payload);
        self.see_found(form, &found, payload, scratch);
    }

    /// Counts what stands around a frame and within it.
    fn see_surroundings(&mut self, form: &str, received: &[u8], start: usize, payload: &[u8]) {
        if start > OPEN.len() {
            self.hit(format_args!("text {form} bytes before the frame"));
        }
        if start + payload.len() + CLOSE.len() < received.len() {
            self.hit(format_args!("text {form} bytes behind the frame"));
        }
        if find(payload, OPEN).is_some() {
            self.hit(format_args!("text {form} inner opening tag"));
        }
    }

    /// Counts what a read made of a frame.
    fn see_found(&mut self, form: &str, found: &str, payload: &[u8], scratch: usize) {
        let length = payload.len();
        match found {
            "11" if length == 257 => self.hit(format_args!("text {form} 11 of 257")),
            "11" => self.hit(format_args!("text {form} 11 of more")),
            _ => self.hit(format_args!("text {form} {found}")),
        }
        self.hit_if_any(format_args!("text {form} {found} of {length}"));
        if form == "raw" {
            return;
        }
        let count = hex::spaced_length(payload).unwrap_or(0);
        match found {
            "12" => self.hit(format_args!("text ascii 12 {}", defect(payload))),
            "13" if scratch == 0 => self.hit(format_args!("text ascii 13 with no scratch")),
            "13" if scratch + 1 == count => self.hit(format_args!("text ascii 13 one short")),
            "command" if scratch == count => {
                self.hit(format_args!("text ascii command with exact scratch"))
            }
            _ => {}
        }
    }

    /// Counts a framing.
    pub fn see_frame(&mut self, board: &Board, latest: Latest, room: usize, printed: &[u8]) {
        let form = name(board.form());
        let (what, body) = match (latest, board.reply_of_tick()) {
            (Latest::Echo(switched), _) => ("echo", switched.text().len()),
            (Latest::Tick, None) => ("nothing", 0),
            (Latest::Tick, Some(reply)) if form == "raw" => ("reply", reply.len()),
            (Latest::Tick, Some(reply)) => ("reply", 3 * reply.len() - 1),
        };
        let whole = if what == "nothing" { 0 } else { body + 13 };
        let result = if printed.starts_with(b"written") { "written" } else { "refused" };
        self.hit(format_args!("frame {form} {what} {result}"));
        self.hit(format_args!("frame in {} {form} {what}", letter(board.mode().mode())));
        if room == whole && room > 0 {
            self.hit(format_args!("frame {form} {what} exact"));
        }
        if room + 1 == whole {
            self.hit(format_args!("frame {form} {what} one short"));
        }
        if room == 0 {
            self.hit(format_args!("frame {form} {what} into no room"));
        }
    }
}

/// What is wrong with an ASCII payload, the most telling first.
fn defect(payload: &[u8]) -> &'static str {
    if payload.is_empty() {
        "empty"
    } else if payload.iter().any(|byte| *byte != b' ' && hex::digit(*byte).is_none()) {
        "alien byte"
    } else if payload.starts_with(b" ") {
        "leading space"
    } else if payload.ends_with(b" ") {
        "trailing space"
    } else if find(payload, b"  ").is_some() {
        "double space"
    } else {
        "grouping"
    }
}
