//! The replay script: one line drives the board, one line tells what it did.

use crate::board::{Board, Event, Profile, Tick};
use crate::hex;
use crate::model::Model;
use crate::settings::SIZE;
use crate::text::{self, Form, Read, Refusal};

/// The longest line that can be of a form is one with all the words that can be lent.
pub const LONGEST_LINE: usize = 7 + 4 * MOST_WORDS;

const MOST_WORDS: usize = 0x200;
const MOST_COMMAND: usize = 300;
const MOST_READ: usize = 0x200;
const MOST_SCRATCH: usize = 0x200;
const MOST_RECEIVED: usize = 600;
const MOST_FRAME: usize = 0x400;

/// What the buffers hold before a call.
const UNTOUCHED: u8 = 0xEE;

/// A script line of a form. Its byte string, if it has one, is in the buffer
/// that it was parsed into.
#[derive(Clone, Copy, Debug, PartialEq, Eq)]
pub enum Line {
    Start {
        model: Model,
        bid: u8,
        fitted: u32,
        forced: u32,
        abf: bool,
        names_raw: bool,
        save_count: Option<u16>,
    },
    Words {
        count: usize,
    },
    Tick {
        rail: i16,
        overcurrent: u32,
        command: Option<usize>,
    },
    Read {
        length: usize,
    },
    Text {
        scratch: usize,
        received: usize,
    },
    Frame {
        length: usize,
    },
    Show,
}

/// Room for the byte string of a line.
pub type Bytes = [u8; 2 * MOST_WORDS];

/// The line, or none where it is not of a form.
pub fn parse(line: &[u8], bytes: &mut Bytes) -> Option<Line> {
    let mut fields = line.split(|byte| *byte == b' ');
    let letter = fields.next()?;
    let parsed = match letter {
        b"B" => parse_start(&mut fields, None),
        b"P" => parse_start(&mut fields, Some(bytes)),
        b"Q" => parse_start_of(&mut fields, None),
        b"V" => parse_start_of(&mut fields, Some(bytes)),
        b"W" => parse_words(&mut fields, bytes),
        b"T" => parse_tick(&mut fields, bytes),
        b"R" => Some(Line::Read { length: size(fields.next()?, MOST_READ)? }),
        b"L" => parse_text(&mut fields, bytes),
        b"F" => Some(Line::Frame { length: size(fields.next()?, MOST_FRAME)? }),
        b"S" => Some(Line::Show),
        _ => None,
    }?;
    match fields.next() {
        Some(_) => None,
        None => Some(parsed),
    }
}

/// The fields of `B`, and with room for stored values those of `P`. Both name raw.
fn parse_start<'a>(
    fields: &mut impl Iterator<Item = &'a [u8]>,
    stored: Option<&mut Bytes>,
) -> Option<Line> {
    let (bid, fitted, forced) = parse_profile(fields)?;
    let save_count = parse_stored(fields, stored)?;
    let (model, abf, names_raw) = (Model::Distribution, false, true);
    Some(Line::Start { model, bid, fitted, forced, abf, names_raw, save_count })
}

/// The fields of `Q`, and with room for stored values those of `V`.
fn parse_start_of<'a>(
    fields: &mut impl Iterator<Item = &'a [u8]>,
    stored: Option<&mut Bytes>,
) -> Option<Line> {
    let model = Model::of_stid(hex::number(fields.next()?, 2)? as u8)?;
    let (bid, fitted, forced) = parse_profile(fields)?;
    let abf = parse_options(fields.next()?)?;
    let names_raw = parse_form(fields.next()?)?;
    let save_count = parse_stored(fields, stored)?;
    Some(Line::Start { model, bid, fitted, forced, abf, names_raw, save_count })
}

/// BID, fitted set and forced set.
fn parse_profile<'a>(fields: &mut impl Iterator<Item = &'a [u8]>) -> Option<(u8, u32, u32)> {
    let bid = hex::number(fields.next()?, 2)? as u8;
    let fitted = hex::number(fields.next()?, 8)?;
    let forced = hex::number(fields.next()?, 8)?;
    Some((bid, fitted, forced))
}

/// Whether the option digit places the ABF. Its other bit is of no board yet.
fn parse_options(digit: &[u8]) -> Option<bool> {
    match digit {
        b"0" | b"2" => Some(false),
        b"1" | b"3" => Some(true),
        _ => None,
    }
}

/// Whether the profile names raw; `-` names nothing.
fn parse_form(form: &[u8]) -> Option<bool> {
    match form {
        b"R" => Some(true),
        b"-" => Some(false),
        _ => None,
    }
}

/// The save count of stored values that go where there is room for them; where
/// there is none, the line has no such fields.
fn parse_stored<'a>(
    fields: &mut impl Iterator<Item = &'a [u8]>,
    stored: Option<&mut Bytes>,
) -> Option<Option<u16>> {
    let Some(bytes) = stored else {
        return Some(None);
    };
    let save_count = hex::number(fields.next()?, 4)? as u16;
    (hex::decode_joined(fields.next()?, bytes)? == SIZE).then_some(Some(save_count))
}

/// The fields of `W`.
fn parse_words<'a>(fields: &mut impl Iterator<Item = &'a [u8]>, bytes: &mut Bytes) -> Option<Line> {
    let count = size(fields.next()?, MOST_WORDS)?;
    let length = byte_string(fields.next()?, bytes)?;
    (length == 2 * count).then_some(Line::Words { count })
}

/// The fields of `T`.
fn parse_tick<'a>(fields: &mut impl Iterator<Item = &'a [u8]>, bytes: &mut Bytes) -> Option<Line> {
    let rail = hex::number(fields.next()?, 4)? as u16 as i16;
    let overcurrent = hex::number(fields.next()?, 8)?;
    let command = match fields.next()? {
        b"-" => None,
        b"." => Some(0),
        digits => Some(byte_string(digits, &mut bytes[..MOST_COMMAND])?),
    };
    Some(Line::Tick { rail, overcurrent, command })
}

/// The fields of `L`.
fn parse_text<'a>(fields: &mut impl Iterator<Item = &'a [u8]>, bytes: &mut Bytes) -> Option<Line> {
    let scratch = size(fields.next()?, MOST_SCRATCH)?;
    let received = byte_string(fields.next()?, &mut bytes[..MOST_RECEIVED])?;
    Some(Line::Text { scratch, received })
}

/// A number of four digits up to a limit.
fn size(digits: &[u8], most: usize) -> Option<usize> {
    let size = hex::number(digits, 4)? as usize;
    (size <= most).then_some(size)
}

/// Bytes with nothing between them, or `-` for none at all.
fn byte_string(digits: &[u8], bytes: &mut [u8]) -> Option<usize> {
    match digits {
        b"" => None,
        b"-" => Some(0),
        _ => hex::decode_joined(digits, bytes),
    }
}

/// What a framing would frame.
#[derive(Clone, Copy, Debug, PartialEq, Eq)]
pub enum Latest {
    /// The reply of the latest tick, if it made one.
    Tick,
    /// The echo of a form switch since then.
    Echo(Form),
}

/// A script under way.
#[derive(Clone)]
pub struct Replay {
    board: Option<Board>,
    /// Words for the next tick line.
    lent: [u16; MOST_WORDS],
    lent_count: usize,
    latest: Latest,
}

impl Default for Replay {
    /// The same as `new`.
    fn default() -> Replay {
        Replay::new()
    }
}

impl Replay {
    /// A script that has not begun.
    pub fn new() -> Replay {
        Replay { board: None, lent: [0; MOST_WORDS], lent_count: 0, latest: Latest::Tick }
    }

    /// The board, once one was started.
    pub fn board(&self) -> Option<&Board> {
        self.board.as_ref()
    }

    /// The words that wait for the next tick line.
    pub fn lent(&self) -> &[u16] {
        &self.lent[..self.lent_count]
    }

    /// What a framing would frame.
    pub fn latest(&self) -> Latest {
        self.latest
    }

    /// Takes one line and appends the one it prints, without its LF.
    pub fn line(&mut self, line: &[u8], out: &mut Vec<u8>) {
        let mut bytes = [0; 2 * MOST_WORDS];
        match parse(line, &mut bytes) {
            Some(parsed) => self.run(&parsed, &bytes, out),
            None => bad(out),
        }
    }

    /// Takes one line of a form and appends the one it prints, without its LF.
    pub fn run(&mut self, line: &Line, bytes: &Bytes, out: &mut Vec<u8>) {
        if let Line::Start { model, bid, fitted, forced, abf, names_raw, save_count } = *line {
            let stored = save_count.zip(bytes.first_chunk());
            let profile = Profile { model, bid, fitted, forced, abf, names_raw, stored };
            return self.start(&profile, out);
        }
        let Some(board) = &mut self.board else {
            return bad(out);
        };
        match *line {
            Line::Start { .. } => {}
            Line::Words { count } => self.lend(&bytes[..2 * count], out),
            Line::Tick { rail, overcurrent, command } => {
                let words = &self.lent[..self.lent_count];
                let command = command.map(|length| &bytes[..length]);
                if tick(board, &Tick { rail, overcurrent, words, command }, out) {
                    self.latest = Latest::Tick;
                }
                self.lent_count = 0;
            }
            Line::Read { length } => bus_read(board, length, out),
            Line::Text { scratch, received } => {
                if let Some(form) = read_text(board, &bytes[..received], scratch, out) {
                    self.latest = Latest::Echo(form);
                }
            }
            Line::Frame { length } => frame(board, self.latest, length, out),
            Line::Show => show(board, out),
        }
    }

    /// `B`, `P`, `Q` and `V`.
    fn start(&mut self, profile: &Profile, out: &mut Vec<u8>) {
        match Board::start(profile) {
            Ok(board) => {
                self.board = Some(board);
                self.latest = Latest::Tick;
                out.extend_from_slice(b"ok");
            }
            Err(_) => out.extend_from_slice(b"refused 8"),
        }
    }

    /// `W`.
    fn lend(&mut self, bytes: &[u8], out: &mut Vec<u8>) {
        for (word, pair) in self.lent.iter_mut().zip(bytes.chunks_exact(2)) {
            *word = u16::from_be_bytes([pair[0], pair[1]]);
        }
        self.lent_count = bytes.len() / 2;
        out.extend_from_slice(b"ok");
    }
}

/// What stands for a line that is not of a form.
pub fn bad(out: &mut Vec<u8>) {
    out.extend_from_slice(b"bad");
}

/// Runs and prints a tick; tells whether it happened.
fn tick(board: &mut Board, tick: &Tick, out: &mut Vec<u8>) -> bool {
    let Ok(told) = board.tick(tick) else {
        out.extend_from_slice(b"refused 9");
        return false;
    };
    out.push(board.mode().mode().letter());
    push_field(out, board.mode().age(), 16);
    push_field(out, board.timer(), 16);
    push_field(out, u64::from(board.channels().on()), 8);
    push_field(out, u64::from(board.channels().latched()), 8);
    out.extend_from_slice(match told.event {
        Event::None => b" - ",
        Event::PeripheralReset => b" P ",
        Event::WatchdogReset => b" W ",
    });
    out.push(told.answer.map_or(b'-', |answer| b'0' + answer as u8));
    push_string(out, board.reply_of_tick().unwrap_or(&[]));
    true
}

/// Appends a space and a number of this many digits.
fn push_field(out: &mut Vec<u8>, value: u64, width: u32) {
    out.push(b' ');
    hex::push_number(out, value, width);
}

/// Appends a space and bytes.
fn push_string(out: &mut Vec<u8>, bytes: &[u8]) {
    out.push(b' ');
    hex::push_bytes(out, bytes);
}

/// `R`.
fn bus_read(board: &Board, length: usize, out: &mut Vec<u8>) {
    let mut buffer = [UNTOUCHED; MOST_READ];
    board.read(&mut buffer[..length]);
    hex::push_bytes(out, &buffer[..length]);
}

/// Runs and prints a read of the text line; tells the form it switched to.
fn read_text(
    board: &mut Board,
    received: &[u8],
    scratch: usize,
    out: &mut Vec<u8>,
) -> Option<Form> {
    let mut buffer = [UNTOUCHED; MOST_SCRATCH];
    let mut switched = None;
    match board.read_text(received, &mut buffer[..scratch]) {
        Ok(Read::Command { payload, place }) => {
            push_place(out, "command", place);
            push_string(out, payload);
        }
        Ok(Read::Switch { form, place }) => {
            push_place(out, if form == Form::Raw { "form raw" } else { "form ascii" }, place);
            switched = Some(form);
        }
        Err(Refusal::NoFrame) => out.extend_from_slice(b"refused 10"),
        Err(Refusal::TooLong { place }) => push_place(out, "refused 11", place),
        Err(Refusal::NotHex { place }) => push_place(out, "refused 12", place),
        Err(Refusal::ScratchTooShort { place }) => push_place(out, "refused 13", place),
    }
    push_string(out, &buffer[..scratch]);
    switched
}

/// Appends what was found and a number of four digits.
fn push_place(out: &mut Vec<u8>, what: &str, place: usize) {
    out.extend_from_slice(what.as_bytes());
    push_field(out, place as u64, 4);
}

/// `F`.
fn frame(board: &Board, latest: Latest, length: usize, out: &mut Vec<u8>) {
    let mut buffer = [UNTOUCHED; MOST_FRAME];
    let lent = &mut buffer[..length];
    let framed = match latest {
        Latest::Tick => board.frame_reply(lent),
        Latest::Echo(form) => text::frame_echo(form, lent),
    };
    match framed {
        Ok(written) => push_place(out, "written", written),
        Err(text::Short) => out.extend_from_slice(b"refused 13"),
    }
    push_string(out, &buffer[..length]);
}

/// `S`.
fn show(board: &Board, out: &mut Vec<u8>) {
    out.push(if board.form() == Form::Raw { b'R' } else { b'A' });
    push_field(out, board.cause() as u64, 2);
    let resets = board.resets();
    let shown = board.shown();
    let counts = [resets.power, resets.watchdog, resets.command, shown.save_count, shown.checksum];
    for count in counts {
        push_field(out, u64::from(count), 4);
    }
    match board.store() {
        Some(store) => push_field(out, u64::from(store.save_count), 4),
        None => out.extend_from_slice(b" -"),
    }
    push_string(out, board.settings().bytes());
    push_words(out, board.channels().counts());
    push_words(out, board.words());
    push_string(out, board.waiting_reply());
}

/// Appends a space and words of four digits each.
fn push_words(out: &mut Vec<u8>, words: &[u16]) {
    out.push(b' ');
    for word in words {
        hex::push_number(out, u64::from(*word), 4);
    }
}
