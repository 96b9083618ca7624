//! The author of a replay script: writes lines and runs them on a machine of
//! its own, so that it always knows what state the board is in and can steer.

use crate::rng::Rng;
use second::board::{Board, EMERGENCY_HIGH, EMERGENCY_LOW};
use second::hex;
use second::mode::Mode;
use second::replay::Replay;
use second::text::Form;
use std::io::{self, Write};

/// Bytes of a script that are worth a write of their own.
const FULL: usize = 1 << 16;

/// What a script is to be, besides its kind.
#[derive(Clone, Copy)]
pub struct Wish {
    pub seed: u64,
    /// Whether the script goes through its thing by samples, short enough to be committed.
    pub brief: bool,
    /// Whether the lines of the text line, `L` and `F`, are written.
    pub with_text: bool,
}

pub struct Author {
    pub rng: Rng,
    /// A lot of its own for the forms, so that what they are leaves all other draws alone.
    pub forms: Rng,
    brief: bool,
    with_text: bool,
    replay: Replay,
    lines: usize,
    out: Vec<u8>,
    /// How the writes so far went.
    written: io::Result<()>,
    printed: Vec<u8>,
}

impl Author {
    /// An author with an empty script before it.
    pub fn new(wish: Wish) -> Author {
        Author {
            rng: Rng::new(wish.seed),
            forms: Rng::new(!wish.seed),
            brief: wish.brief,
            with_text: wish.with_text,
            replay: Replay::new(),
            lines: 0,
            out: Vec::new(),
            written: Ok(()),
            printed: Vec::new(),
        }
    }

    /// Whether the script is to be short.
    pub fn is_brief(&self) -> bool {
        self.brief
    }

    /// Whether a step is left out: two of three are in a brief script, by lot.
    pub fn skips(&mut self) -> bool {
        self.brief && !self.rng.once_in(3)
    }

    /// Either form, by lot.
    pub fn either_form(&mut self) -> Form {
        self.forms.pick(&[Form::Raw, Form::Ascii])
    }

    /// What a start names, by lot: raw or nothing.
    pub fn named(&mut self) -> &'static str {
        named(self.either_form())
    }

    /// How many lines the script has so far, those left out among them.
    pub fn lines(&self) -> usize {
        self.lines
    }

    /// Writes what is left of the script, and tells whether all of it could be written.
    pub fn finish(mut self) -> io::Result<()> {
        self.write();
        self.written
    }

    /// Writes what is there; after a failure nothing more is written.
    fn write(&mut self) {
        if self.written.is_ok() {
            self.written = io::stdout().write_all(&self.out);
        }
        self.out.clear();
    }

    /// Whether a board was started.
    pub fn has_board(&self) -> bool {
        self.replay.board().is_some()
    }

    /// Scenes run only once a board was started.
    pub fn board(&self) -> &Board {
        self.replay.board().expect("a scene needs a board")
    }

    /// The board to look at while the dice are thrown.
    pub fn board_and_rng(&mut self) -> (&Board, &mut Rng) {
        (self.replay.board().expect("a scene needs a board"), &mut self.rng)
    }

    /// The mode the board is in.
    pub fn mode(&self) -> Mode {
        self.board().mode().mode()
    }

    /// Writes one line of text and runs it.
    pub fn say(&mut self, line: &str) {
        self.say_bytes(line.as_bytes());
    }

    /// Writes one line and runs it.
    pub fn say_bytes(&mut self, line: &[u8]) {
        if self.with_text || !line.starts_with(b"L") && !line.starts_with(b"F") {
            self.out.extend_from_slice(line);
            self.out.push(b'\n');
        }
        if self.out.len() > FULL {
            self.write();
        }
        self.lines += 1;
        self.printed.clear();
        self.replay.line(line, &mut self.printed);
    }

    /// A last piece without its LF.
    pub fn break_off(&mut self, piece: &str) {
        self.out.extend_from_slice(piece.as_bytes());
    }

    /// A line that shows the state.
    pub fn show(&mut self) {
        self.say("S");
    }

    /// A tick with this rail and overcurrent set, and a transfer if there is one.
    pub fn tick(&mut self, rail: i16, overcurrent: u32, command: Option<&[u8]>) {
        let command = match command {
            None => "-".to_string(),
            Some([]) => ".".to_string(),
            Some(bytes) => hex(bytes),
        };
        self.say(&format!("T {:04X} {overcurrent:08X} {command}", rail as u16));
    }

    /// A tick that brings nothing and leaves the mode alone if that can be.
    pub fn idle(&mut self) {
        let rail = self.steady();
        self.tick(rail, 0, None);
    }

    /// A transfer of these bytes under a rail that leaves the mode alone.
    pub fn send(&mut self, bytes: &[u8]) {
        let rail = self.steady();
        self.tick(rail, 0, Some(bytes));
    }

    /// A command with a right header.
    pub fn give(&mut self, code: u8, rest: &[u8]) {
        let bytes = self.command(code, rest);
        self.send(&bytes);
    }

    /// The bytes of a command with a right header.
    pub fn command(&self, code: u8, rest: &[u8]) -> Vec<u8> {
        let mut bytes = vec![self.board().model().stid(), 0x07, code, self.board().bid()];
        bytes.extend_from_slice(rest);
        bytes
    }

    /// Sets a 16-bit parameter.
    pub fn set(&mut self, id: u16, value: u16) {
        let rest = [id.to_le_bytes(), value.to_le_bytes()].concat();
        self.give(0x84, &rest);
    }

    /// A rail under which the mode stays, as far as there is one.
    pub fn steady(&mut self) -> i16 {
        let low = i64::from(self.board().settings().safety_low());
        let high = i64::from(self.board().settings().safety_high());
        let (from, to) = match self.mode() {
            Mode::Startup => (-32_768, 32_767),
            Mode::Nominal => (low.min(32_767), 32_767),
            Mode::Safety => (i64::from(EMERGENCY_LOW), high.min(32_767)),
            Mode::Emergency => (-32_768, i64::from(EMERGENCY_HIGH)),
        };
        let span = from.min(to)..=from.max(to);
        // Mostly close to the edge, where a wrong comparison shows.
        match self.rng.below(4) {
            0 => *span.start() as i16,
            1 => *span.end() as i16,
            _ => self.rng.between(*span.start(), *span.end()) as i16,
        }
    }

    /// Safety low as the settings stand.
    fn safety_low(&self) -> u16 {
        self.board().settings().safety_low()
    }

    /// Drives the board into a mode.
    pub fn reach(&mut self, mode: Mode) {
        while self.mode() != mode {
            match (self.mode(), mode) {
                (Mode::Startup, _) => self.leave_startup(mode),
                (_, Mode::Startup) => self.give(0xAA, &[0xA6]),
                (Mode::Emergency, _) => self.tick(12_401, 0, None),
                (Mode::Nominal, _) => self.give(0x32, &[]),
                (Mode::Safety, Mode::Nominal) => self.to_nominal(),
                (Mode::Safety, _) => self.to_emergency(),
            }
        }
    }

    /// Waits startup out under a rail that leads to nominal where that is wanted.
    fn leave_startup(&mut self, wanted: Mode) {
        let low = i64::from(self.safety_low());
        let up = wanted == Mode::Nominal && low <= 32_767;
        let rail = if up {
            self.rng.between(low, 32_767)
        } else {
            self.rng.between(-32_768, low.min(32_768) - 1)
        };
        self.startup_at(rail as i16);
    }

    /// Ticks with one rail until startup is over.
    pub fn startup_at(&mut self, rail: i16) {
        while self.mode() == Mode::Startup {
            self.tick(rail, 0, None);
        }
    }

    /// Ticks that bring nothing but their rail.
    pub fn run(&mut self, rail: i16, ticks: usize) {
        for _ in 0..ticks {
            self.tick(rail, 0, None);
        }
    }

    /// 0x30 from safety, with safety low brought within reach of the rail.
    fn to_nominal(&mut self) {
        if self.safety_low() > 32_767 {
            self.give(0x86, &[0x42, 0x40]);
        }
        let low = i64::from(self.safety_low());
        let rail = self.rng.between(low, 32_767) as i16;
        let command = self.command(0x30, &[]);
        self.tick(rail, 0, Some(&command));
    }

    /// Waits in safety until the linger is over and emergency begins.
    fn to_emergency(&mut self) {
        self.calm_watchdog();
        while self.mode() == Mode::Safety {
            // At or below 0 no safety high lets it leave upwards.
            let rail = self.rng.between(-32_768, 0) as i16;
            self.tick(rail, 0, None);
        }
    }

    /// Makes sure the watchdog does not bite within a linger.
    pub fn calm_watchdog(&mut self) {
        let timeout = self.board().settings().watchdog_timeout();
        if timeout > 0 && timeout < 100 {
            self.set(0x4000, 0);
        } else {
            self.give(0x06, &[]);
        }
    }
}

/// What a start names for its board to have this form.
pub fn named(form: Form) -> &'static str {
    match form {
        Form::Raw => "R",
        Form::Ascii => "-",
    }
}

/// Bytes as a script writes them: pairs with nothing between them, or `-` for none at all.
pub fn hex(bytes: &[u8]) -> String {
    let mut text = Vec::new();
    hex::push_bytes(&mut text, bytes);
    text.into_iter().map(char::from).collect()
}
