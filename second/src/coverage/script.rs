//! What a replay script reaches: lines, starts, commands, events.

use super::battery::{self, is_battery};
use super::forms::{self, Since};
use super::{channels, letter, modes, parameters, readings, text, Coverage, CODES, MODES};
use crate::board::Board;
use crate::mode::Mode;
use crate::model::Model;
use crate::replay::{bad, parse, Bytes, Line, Replay};

const ANSWERS: [char; 7] = ['0', '2', '3', '4', '5', '6', '7'];

/// The lines of a script and what each may print.
const LINES: [(char, &[&str]); 10] = [
    ('B', &["ok", "refused", "bad"]),
    ('P', &["ok", "refused", "bad"]),
    ('Q', &["ok", "refused", "bad"]),
    ('V', &["ok", "refused", "bad"]),
    ('W', &["ok", "bad", "before a board"]),
    ('T', &["ok", "refused", "bad", "before a board"]),
    ('R', &["ok", "bad", "before a board"]),
    ('L', &["ok", "refused", "bad", "before a board"]),
    ('F', &["ok", "refused", "bad", "before a board"]),
    ('S', &["ok", "bad", "before a board"]),
];

/// What a reset may wipe.
const LOST: [&str; 5] = ["waiting", "words", "words new to 50", "words new to 52", "latches"];

/// Watchdogs by size: a short one, and those whose ticks are more than 8, 15
/// and 16 bits hold.
const SIZES: [&str; 4] = ["up to 3 s", "up to 327 s", "up to 655 s", "above 655 s"];

/// The size of a watchdog.
fn size_of(seconds: u16) -> &'static str {
    match seconds {
        0..=3 => SIZES[0],
        4..=327 => SIZES[1],
        328..=655 => SIZES[2],
        _ => SIZES[3],
    }
}

/// One tick as the watcher sees it.
pub struct Ticked<'a> {
    pub before: &'a Board,
    pub after: &'a Board,
    pub rail: i16,
    pub overcurrent: u32,
    pub brought_words: bool,
    pub command: Option<&'a [u8]>,
    /// The mode that the command found.
    pub mode: Mode,
    pub answer: char,
    pub event: char,
}

impl Ticked<'_> {
    /// The letter of the mode that the command found.
    pub fn letter(&self) -> char {
        letter(self.mode)
    }

    /// Whether this command came and was accepted.
    pub fn accepted(&self, code: u8) -> bool {
        self.answer == '0' && self.code() == Some(code)
    }

    /// The code byte, if the transfer has one.
    pub fn code(&self) -> Option<u8> {
        self.command.and_then(|bytes| bytes.get(2).copied())
    }
}

/// Adds every cell of replay scripts.
pub fn universe(coverage: &mut Coverage) {
    for (letter, results) in LINES {
        for result in results {
            coverage.add(format!("line {letter} {result}"));
        }
    }
    for what in ["empty", "unended", "over the limit", "of no letter"] {
        coverage.add(format!("line {what}"));
    }
    for letter in ['Q', 'V'] {
        coverage.add(format!("line {letter} of a board that has not come"));
    }
    command_universe(coverage);
    event_universe(coverage);
    save_universe(coverage);
    for count in ["0", "1", "121", "122", "123", "256", "other"] {
        coverage.add(format!("words {count}"));
    }
    for read in ["nothing waiting", "none", "shorter", "exact", "longer", "0200"] {
        coverage.add(format!("read {read}"));
    }
    parameters::universe(coverage);
    readings::universe(coverage);
    modes::universe(coverage);
    channels::universe(coverage);
    text::universe(coverage);
    battery::universe(coverage);
    forms::universe(coverage);
}

/// Adds the cells of commands by code, length and header.
fn command_universe(coverage: &mut Coverage) {
    let codes = CODES.iter().map(|code| format!("{code:02X}"));
    for code in codes.chain(["odd".to_string(), "even".to_string()]) {
        for mode in MODES {
            for answer in ANSWERS {
                coverage.add(format!("command {code} {mode} {answer}"));
            }
        }
    }
    for mode in MODES {
        for length in 0..4 {
            coverage.add(format!("short {length} {mode}"));
        }
    }
    for code in CODES {
        for length in 4..=parameters::needed(code) + 3 {
            coverage.add(format!("length {code:02X} {length}"));
        }
    }
    for byte in ["STID", "IVID", "BID"] {
        for value in ["0", "other"] {
            coverage.add(format!("header {byte} {value}"));
        }
    }
}

/// Adds the cells of the watchdog, of resets and of tops.
fn event_universe(coverage: &mut Coverage) {
    for mode in MODES {
        for event in ['-', 'P', 'W'] {
            coverage.add(format!("event {event} {mode}"));
        }
    }
    for answer in ['0', '3', '4', '5', '6', '7'] {
        coverage.add(format!("lost made W {answer}"));
    }
    for by in ["AA", "W"] {
        for what in LOST {
            coverage.add(format!("lost {what} {by}"));
        }
    }
    for event in ['P', 'W'] {
        for size in SIZES {
            coverage.add(format!("watchdog {event} {size}"));
        }
    }
    for size in ["of 0 beyond 65535 ticks", "above 655 s beyond 65535 ticks"] {
        coverage.add(format!("watchdog {size}"));
    }
    for count in ["power", "watchdog", "command", "age", "timer"] {
        coverage.add(format!("top {count}"));
    }
}

/// Adds the cells of saves and loads.
fn save_universe(coverage: &mut Coverage) {
    for stored in ["first", "again"] {
        for checksum in ["0", "right", "wrong"] {
            coverage.add(format!("save {stored} {checksum}"));
        }
    }
    for what in ["key wrong", "real checksum 0", "to 65535", "at 65535"] {
        coverage.add(format!("save {what}"));
    }
    for code in ["90", "92", "AA", "W"] {
        for stored in ["stored", "nothing stored"] {
            coverage.add(format!("settings by {code} {stored}"));
        }
    }
}

/// The mode that a command finds in the next tick, given its rail.
fn mode_found(board: &Board, rail: i16) -> Mode {
    let mut mode = board.mode();
    mode.rise();
    mode.step(rail, &board.limits());
    mode.mode()
}

/// The event and the answer that a tick line tells; none for a tick that was refused.
pub fn event_and_answer(printed: &[u8]) -> Option<(char, char)> {
    let mut fields = printed.split(|byte| *byte == b' ').skip(5);
    let mut field = || fields.next().map(|field| char::from(field[0]));
    field().zip(field())
}

/// A script under watch.
#[derive(Default)]
pub struct Watched {
    replay: Replay,
    since: Since,
    printed: Vec<u8>,
}

impl Watched {
    /// Runs one line and counts what it reached.
    pub fn line(&mut self, line: &[u8], coverage: &mut Coverage) {
        let mut bytes: Bytes = [0; 1024];
        let before = self.replay.clone();
        let parsed = parse(line, &mut bytes);
        self.printed.clear();
        match &parsed {
            Some(parsed) => self.replay.run(parsed, &bytes, &mut self.printed),
            None => bad(&mut self.printed),
        }
        let early = parsed.is_some() && before.board().is_none();
        coverage.see_line(line, &self.printed, early);
        if let Some(parsed) = parsed {
            coverage.see_form(&before, &parsed, &bytes, &self.replay, &self.printed);
            let scripts = (&before, &self.replay);
            self.since.see(scripts, &parsed, &bytes, &self.printed, coverage);
        }
    }

    /// A last piece without its LF.
    pub fn unended(&self, coverage: &mut Coverage) {
        coverage.hit(format_args!("line unended"));
    }

    /// A line longer than any of a form.
    pub fn too_long(&self, coverage: &mut Coverage) {
        coverage.hit(format_args!("line over the limit"));
    }
}

impl Coverage {
    /// What a line printed, by its letter; `early` is one of a form without a board.
    fn see_line(&mut self, line: &[u8], printed: &[u8], early: bool) {
        let Some(letter) = line.first() else {
            return self.hit(format_args!("line empty"));
        };
        if !b"BPQVWTRLFS".contains(letter) {
            return self.hit(format_args!("line of no letter"));
        }
        let result = match printed {
            b"bad" if early => "before a board",
            b"bad" => "bad",
            _ if printed.starts_with(b"refused") => "refused",
            _ => "ok",
        };
        self.hit(format_args!("line {} {result}", char::from(*letter)));
        if b"QV".contains(letter) && result == "bad" {
            self.see_not_come(line);
            self.see_wrong_form(line);
        }
    }

    /// A start of a board that has not come; all else is of the form.
    fn see_not_come(&mut self, line: &[u8]) {
        let mut fields: Vec<&[u8]> = line.split(|byte| *byte == b' ').collect();
        if fields.get(1) != Some(&&b"1A"[..]) {
            return;
        }
        fields[1] = b"12";
        let mut bytes: Bytes = [0; 1024];
        if parse(&fields.join(&b' '), &mut bytes).is_some() {
            self.hit(format_args!("line {} of a board that has not come", char::from(line[0])));
        }
    }

    /// Counts what a line of a form did with the board it found.
    fn see_form(
        &mut self,
        before: &Replay,
        line: &Line,
        bytes: &Bytes,
        after: &Replay,
        printed: &[u8],
    ) {
        if let Line::Start { model, bid, fitted, forced, abf, save_count, .. } = *line {
            let stored = save_count.zip(bytes.first_chunk());
            return match model {
                Model::Distribution => self.see_start(bid, fitted, forced, stored),
                Model::Battery => self.see_battery_start(bid, fitted, forced, abf, stored),
            };
        }
        let (Some(board), Some(board_after)) = (before.board(), after.board()) else { return };
        match *line {
            Line::Start { .. } | Line::Words { .. } | Line::Show => {}
            Line::Tick { rail, overcurrent, command } => {
                let lent = before.lent().len();
                match board.model() {
                    Model::Distribution => self.see_word_count(lent),
                    Model::Battery => self.see_battery_word_count(lent),
                }
                let Some((event, answer)) = event_and_answer(printed) else { return };
                let tick = Ticked {
                    before: board,
                    after: board_after,
                    rail,
                    overcurrent,
                    brought_words: lent != 0,
                    command: command.map(|length| &bytes[..length]),
                    mode: mode_found(board, rail),
                    answer,
                    event,
                };
                match board.model() {
                    Model::Distribution => self.see_tick(&tick),
                    Model::Battery => self.see_battery_tick(&tick),
                }
            }
            Line::Read { .. } if is_battery(board) => self.see_battery_read(board),
            Line::Text { .. } if is_battery(board) => self.see_battery_text(board, printed),
            Line::Frame { .. } if is_battery(board) => self.see_battery_frame(board, before),
            Line::Read { length } => self.see_read(board, length),
            Line::Text { scratch, received } => {
                self.see_text(board, &bytes[..received], scratch, printed)
            }
            Line::Frame { length } => self.see_frame(board, before.latest(), length, printed),
        }
    }

    /// Counts how many words were lent to a tick.
    fn see_word_count(&mut self, count: usize) {
        self.hit_if_any(format_args!("words {count} on a distribution board"));
        match count {
            0 | 1 | 121 | 122 | 123 | 256 => self.hit(format_args!("words {count}")),
            _ => self.hit(format_args!("words other")),
        }
    }

    /// Counts a bus read.
    fn see_read(&mut self, board: &Board, length: usize) {
        let waiting = board.waiting_reply().len();
        let what = if waiting == 0 { "nothing" } else { "a reply" };
        self.hit(format_args!("read in {} {what} waiting", letter(board.mode().mode())));
        let what = match length {
            0 => "none",
            _ if waiting == 0 => "nothing waiting",
            _ if length < waiting => "shorter",
            _ if length == waiting => "exact",
            _ => "longer",
        };
        self.hit(format_args!("read {what}"));
        if length == 0x200 {
            self.hit(format_args!("read 0200"));
        }
    }

    /// Counts a tick that happened.
    fn see_tick(&mut self, tick: &Ticked) {
        self.see_modes(tick);
        self.see_channels(tick);
        self.see_event(tick);
        if let Some(command) = tick.command {
            self.see_command(tick, command);
            self.see_parameter(tick, command);
        }
    }

    /// Counts a transfer by its code, its length and its answer.
    fn see_command(&mut self, tick: &Ticked, command: &[u8]) {
        let mode = tick.letter();
        if command.len() < 4 {
            return self.hit(format_args!("short {} {mode}", command.len()));
        }
        let code = command[2];
        let name = match code {
            _ if CODES.contains(&code) => format!("{code:02X}"),
            _ if code % 2 == 1 => "odd".to_string(),
            _ => "even".to_string(),
        };
        self.hit(format_args!("command {name} {mode} {}", tick.answer));
        match tick.answer {
            '2' => return,
            '3' => self.see_header(tick, command),
            _ => self.see_good_header(tick, command),
        }
        self.see_stranger(tick);
        self.see_readings(tick);
    }

    /// Counts which byte of a header was wrong.
    fn see_header(&mut self, tick: &Ticked, command: &[u8]) {
        let right = [0x11, 7, tick.before.bid()];
        for (i, byte) in [0, 1, 3].into_iter().enumerate() {
            let others_right = (0..3).all(|j| j == i || command[[0, 1, 3][j]] == right[j]);
            if others_right && command[byte] != right[i] {
                let value = if command[byte] == 0 { "0" } else { "other" };
                self.hit(format_args!("header {} {value}", ["STID", "IVID", "BID"][i]));
            }
        }
    }

    /// Counts a command for this board.
    fn see_good_header(&mut self, tick: &Ticked, command: &[u8]) {
        let code = command[2];
        self.hit_if_any(format_args!("length {code:02X} {}", command.len()));
        if code == 0x94 && command.len() >= 7 {
            self.see_save(tick, command);
        }
        for code in [0x90, 0x92, 0xAA] {
            if tick.accepted(code) {
                self.see_settings_by(&format!("{code:02X}"), tick.before);
            }
        }
    }

    /// Counts what brought settings back, and from where.
    fn see_settings_by(&mut self, by: &str, board: &Board) {
        let stored = if board.store().is_some() { "stored" } else { "nothing stored" };
        self.hit(format_args!("settings by {by} {stored}"));
    }

    /// Counts a save by its key, its checksum and its save count.
    fn see_save(&mut self, tick: &Ticked, command: &[u8]) {
        if command[4] != 0xA7 {
            return self.hit(format_args!("save key wrong"));
        }
        let real = tick.before.settings().checksum();
        let stored = tick.before.store().map(|store| store.save_count);
        let which = if stored.is_some() { "again" } else { "first" };
        let given = u16::from_le_bytes([command[5], command[6]]);
        let checksum = match given {
            0 => "0",
            _ if given == real => "right",
            _ => "wrong",
        };
        self.hit(format_args!("save {which} {checksum}"));
        if checksum == "wrong" {
            return;
        }
        match stored {
            Some(65_534) => self.hit(format_args!("save to 65535")),
            Some(65_535) => self.hit(format_args!("save at 65535")),
            _ => {}
        }
        if real == 0 {
            self.hit(format_args!("save real checksum 0"));
        }
    }

    /// Counts what the watchdog did, what a reset lost, and tops.
    fn see_event(&mut self, tick: &Ticked) {
        // The command may have moved the mode once more before step 5.
        let mode = match tick.event {
            'W' => tick.mode,
            _ => tick.after.mode().mode(),
        };
        self.hit(format_args!("event {} {}", tick.event, letter(mode)));
        self.see_timeout(tick);
        if tick.event == 'W' {
            if ('3'..='7').contains(&tick.answer) || tick.answer == '0' {
                self.hit(format_args!("lost made W {}", tick.answer));
            }
            self.see_settings_by("W", tick.before);
            self.see_lost("W", tick);
        }
        if tick.accepted(0xAA) {
            self.see_lost("AA", tick);
        }
        let resets = tick.after.resets();
        let tops =
            [("power", resets.power), ("watchdog", resets.watchdog), ("command", resets.command)];
        for (name, _) in tops.iter().filter(|(_, count)| *count == u16::MAX) {
            self.hit(format_args!("top {name}"));
        }
        for (name, value) in [("age", tick.after.mode().age()), ("timer", tick.after.timer())] {
            if value == u64::MAX {
                self.hit(format_args!("top {name}"));
            }
        }
    }

    /// A tick with an event has not set the timeout: that would have fed the timer.
    fn see_timeout(&mut self, tick: &Ticked) {
        let seconds = tick.before.settings().watchdog_timeout();
        if tick.event != '-' {
            self.hit(format_args!("watchdog {} {}", tick.event, size_of(seconds)));
        } else if tick.after.timer() > 65_535 && seconds == 0 {
            self.hit(format_args!("watchdog of 0 beyond 65535 ticks"));
        } else if tick.after.timer() > 65_535 {
            self.hit(format_args!("watchdog above 655 s beyond 65535 ticks"));
        }
    }

    /// Counts what a reset wiped.
    fn see_lost(&mut self, by: &str, tick: &Ticked) {
        let [raw, engineering] = readings::untold(tick.before);
        let lost = [
            !tick.before.waiting_reply().is_empty(),
            tick.brought_words,
            raw,
            engineering,
            tick.before.channels().latched() != 0,
        ];
        for (what, _) in LOST.iter().zip(lost).filter(|(_, was)| *was) {
            self.hit(format_args!("lost {what} {by}"));
        }
    }
}
