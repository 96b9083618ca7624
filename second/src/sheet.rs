//! The session sheet: a whole session as text, and the transcript of it.

use crate::board::{Board, Profile, ProfileFault, Tick};
use crate::hex;
use std::ops::Range;

/// The most bytes of a sheet.
pub const LONGEST_SHEET: usize = 65_536;

pub const MOST_TICKS: u32 = 4_096;
pub const LONGEST_COMMAND: usize = 256;

/// The part of the form that a sheet breaks.
#[derive(Clone, Copy, Debug, PartialEq, Eq, PartialOrd, Ord)]
pub enum Part {
    Sheet,
    Board,
    Fitted,
    FittedList,
    Forced,
    ForcedList,
    Ticks,
    TickLine,
    Rail,
    Overcurrent,
    Command,
}

/// How it breaks it.
#[derive(Clone, Copy, Debug, PartialEq, Eq, PartialOrd, Ord)]
pub enum Cause {
    TooLong,
    NoLine,
    NoLineEnd,
    WrongWord,
    NoNumber,
    NotDigit,
    LeadingZero,
    TooLarge,
    MinusZero,
    NotRising,
    CountDisagrees,
    FieldMissing,
    NotHex,
    BytesBehind,
}

/// Why a sheet is refused with 14.
#[derive(Clone, Copy, Debug, PartialEq, Eq, PartialOrd, Ord)]
pub struct Fault {
    pub part: Part,
    pub cause: Cause,
}

/// Why a sheet is refused at all.
#[derive(Clone, Copy, Debug, PartialEq, Eq)]
pub enum SheetRefusal {
    /// 14
    Form(Fault),
    /// 8
    Profile(ProfileFault),
}

/// A sheet of the form. Commands are kept as the place of their text.
#[derive(Clone, Debug)]
pub struct Sheet {
    pub bid: u8,
    pub fitted: u32,
    pub forced: u32,
    pub ticks: Vec<TickLine>,
}

#[derive(Clone, Debug)]
pub struct TickLine {
    pub rail: i16,
    pub overcurrent: u32,
    pub command: Option<Range<usize>>,
}

/// What the program prints for a sheet.
pub fn bench(input: &[u8]) -> Vec<u8> {
    match run(input) {
        Ok(transcript) => transcript,
        Err(SheetRefusal::Form(_)) => b"refused 14\n".to_vec(),
        Err(SheetRefusal::Profile(_)) => b"refused 8\n".to_vec(),
    }
}

/// The form of the whole sheet comes before the profile in it.
pub fn run(input: &[u8]) -> Result<Vec<u8>, SheetRefusal> {
    let sheet = parse(input).map_err(SheetRefusal::Form)?;
    let profile = Profile::distribution(sheet.bid, sheet.fitted, sheet.forced).naming_raw();
    let board = Board::start(&profile).map_err(SheetRefusal::Profile)?;
    Ok(transcript(board, &sheet, input))
}

/// What a sound sheet prints.
fn transcript(mut board: Board, sheet: &Sheet, input: &[u8]) -> Vec<u8> {
    let mut out = format!("ticks {}\n", sheet.ticks.len()).into_bytes();
    let mut command = [0; LONGEST_COMMAND];
    for (i, line) in sheet.ticks.iter().enumerate() {
        let command = line.command.clone().map(|text| decode(&input[text], &mut command));
        let tick = Tick { rail: line.rail, overcurrent: line.overcurrent, words: &[], command };
        // No words are lent, so the tick always happens.
        let _ = board.tick(&tick);
        push_tick(&mut out, i + 1, &board);
    }
    out
}

/// The bytes of a command that was found to be of the form.
fn decode<'a>(text: &[u8], command: &'a mut [u8; LONGEST_COMMAND]) -> &'a [u8] {
    let length = hex::spaced_length(text).unwrap_or(0);
    hex::decode_spaced(text, &mut command[..length]);
    &command[..length]
}

/// Appends the line of one tick.
fn push_tick(out: &mut Vec<u8>, number: usize, board: &Board) {
    out.extend_from_slice(number.to_string().as_bytes());
    out.push(b' ');
    out.push(board.mode().mode().letter());
    for set in [board.channels().on(), board.channels().latched()] {
        out.push(b' ');
        hex::push_number(out, u64::from(set), 8);
    }
    out.push(b' ');
    match board.reply_of_tick() {
        Some(reply) => push_spaced(out, reply),
        None => out.push(b'-'),
    }
    out.push(b'\n');
}

/// Appends bytes in ASCII form.
fn push_spaced(out: &mut Vec<u8>, bytes: &[u8]) {
    let start = out.len();
    out.resize(start + hex::spaced_size(bytes.len()), 0);
    hex::encode_spaced(bytes, &mut out[start..]);
}

/// The sheet, or the first fault of its form.
pub fn parse(input: &[u8]) -> Result<Sheet, Fault> {
    if input.len() > LONGEST_SHEET {
        return Err(Fault { part: Part::Sheet, cause: Cause::TooLong });
    }
    let mut lines = SheetLines { input, at: 0 };
    let bid = lines.count(Part::Board, b"board ", 255)? as u8;
    let fitted_count = lines.count(Part::Fitted, b"fitted ", 32)?;
    let fitted = lines.list(Part::FittedList, fitted_count)?;
    let forced_count = lines.count(Part::Forced, b"forced ", 32)?;
    let forced = lines.list(Part::ForcedList, forced_count)?;
    let tick_count = lines.count(Part::Ticks, b"ticks ", MOST_TICKS)?;
    let mut ticks = Vec::with_capacity(tick_count as usize);
    for _ in 0..tick_count {
        ticks.push(lines.tick()?);
    }
    lines.end()?;
    Ok(Sheet { bid, fitted, forced, ticks })
}

struct SheetLines<'a> {
    input: &'a [u8],
    at: usize,
}

impl<'a> SheetLines<'a> {
    /// The place of the next line without its LF.
    fn line(&mut self) -> Result<Range<usize>, Cause> {
        let rest = &self.input[self.at..];
        match rest.iter().position(|byte| *byte == b'\n') {
            Some(length) => {
                let start = self.at;
                self.at = start + length + 1;
                Ok(start..start + length)
            }
            None if rest.is_empty() => Err(Cause::NoLine),
            None => Err(Cause::NoLineEnd),
        }
    }

    /// A word, a space and a number.
    fn count(&mut self, part: Part, word: &[u8], most: u32) -> Result<u32, Fault> {
        let found = self.line().and_then(|line| {
            let digits = self.input[line].strip_prefix(word).ok_or(Cause::WrongWord)?;
            number(digits, most)
        });
        found.map_err(|cause| Fault { part, cause })
    }

    /// A line of channels, as many as the count says.
    fn list(&mut self, part: Part, count: u32) -> Result<u32, Fault> {
        let found = self.line().and_then(|line| channel_list(&self.input[line], count));
        found.map_err(|cause| Fault { part, cause })
    }

    /// A tick line.
    fn tick(&mut self) -> Result<TickLine, Fault> {
        let line = self.line().map_err(|cause| Fault { part: Part::TickLine, cause })?;
        let missing = Fault { part: Part::TickLine, cause: Cause::FieldMissing };
        let mut fields = self.input[line.clone()].splitn(3, |byte| *byte == b' ');
        let rail_text = fields.next().ok_or(missing)?;
        let overcurrent_text = fields.next().ok_or(missing)?;
        let command_text = fields.next().ok_or(missing)?;
        let rail = rail(rail_text).map_err(|cause| Fault { part: Part::Rail, cause })?;
        let overcurrent = hex::number(overcurrent_text, 8)
            .ok_or(Fault { part: Part::Overcurrent, cause: Cause::NotHex })?;
        let brings =
            brings_command(command_text).map_err(|cause| Fault { part: Part::Command, cause })?;
        let command = brings.then(|| line.end - command_text.len()..line.end);
        Ok(TickLine { rail, overcurrent, command })
    }

    /// That nothing stands behind the last line.
    fn end(&self) -> Result<(), Fault> {
        if self.at == self.input.len() {
            Ok(())
        } else {
            Err(Fault { part: Part::Sheet, cause: Cause::BytesBehind })
        }
    }
}

/// A decimal number without leading zeros. It is given up as soon as it passes
/// `most`, so that one of any length does no harm.
fn number(digits: &[u8], most: u32) -> Result<u32, Cause> {
    if digits.is_empty() {
        return Err(Cause::NoNumber);
    }
    if !digits.iter().all(u8::is_ascii_digit) {
        return Err(Cause::NotDigit);
    }
    if digits.len() > 1 && digits[0] == b'0' {
        return Err(Cause::LeadingZero);
    }
    let mut value = 0;
    for digit in digits {
        value = 10 * value + u32::from(digit - b'0');
        if value > most {
            return Err(Cause::TooLarge);
        }
    }
    Ok(value)
}

/// A rail in millivolts.
fn rail(text: &[u8]) -> Result<i16, Cause> {
    match text.strip_prefix(b"-") {
        Some(digits) => match number(digits, 32_768)? {
            0 => Err(Cause::MinusZero),
            below => Ok((-i64::from(below)) as i16),
        },
        None => Ok(number(text, 32_767)? as i16),
    }
}

/// The channels of a list line, as many as the count says.
fn channel_list(text: &[u8], count: u32) -> Result<u32, Cause> {
    let mut set = 0u32;
    if !text.is_empty() {
        for item in text.split(|byte| *byte == b' ') {
            let bit = 1 << number(item, 31)?;
            if bit <= set {
                return Err(Cause::NotRising);
            }
            set |= bit;
        }
    }
    if set.count_ones() == count {
        Ok(set)
    } else {
        Err(Cause::CountDisagrees)
    }
}

/// Whether the tick brings a command; its text is of the form if it does.
fn brings_command(text: &[u8]) -> Result<bool, Cause> {
    if text == b"-" {
        return Ok(false);
    }
    let length = hex::spaced_length(text).ok_or(Cause::NotHex)?;
    if length > LONGEST_COMMAND {
        return Err(Cause::TooLong);
    }
    Ok(true)
}
