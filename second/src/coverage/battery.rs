//! What a script reaches on a battery board, and of its codes on the other one.
//! No cell of a distribution board counts what happens here.

use super::readings::{result, untold, RESULTS, WORDS};
use super::script::Ticked;
use super::{letter, parameters, text, Coverage, BATTERY_CODES, CODES, LIT, MODES};
use crate::board::Board;
use crate::model::Model;
use crate::readings::{battery_word, BatteryWord};
use crate::replay::{Latest, Replay};
use crate::settings::{Settings, SIZE};

const ANSWERS: [char; 7] = ['0', '2', '3', '4', '5', '6', '7'];

/// The codes that only a battery board knows.
const OWN: [u8; 3] = [0x44, 0x60, 0x62];

/// Numbers of words, each a cell of its own.
const COUNTS: [usize; 10] = [0, 1, 38, 39, 40, 121, 122, 123, 256, 512];

/// The fields of the reply that go by a row, those of one row and one block together.
const FIELDS: [&str; 10] = [
    "VOLT_BRDSUP",
    "TEMP_MCU",
    "VIP_INPUT_VOLT",
    "VIP_INPUT_CURR",
    "VIP_INPUT_POWE",
    "VIP_BP_INPUT_VOLT",
    "VIP_BP_INPUT_CURR",
    "VIP_BP_INPUT_POWE",
    "VOLT_CELL",
    "BAT_TEMP1",
];

/// The pack temperatures of the three packs.
const TEMPERATURES: [&str; 6] = [
    "BP1 BAT_TEMP2",
    "BP1 BAT_TEMP3",
    "BP2 BAT_TEMP2",
    "BP2 BAT_TEMP3",
    "BP3 BAT_TEMP2",
    "BP3 BAT_TEMP3",
];

/// Codes on both sides of each edge of the table.
const EDGES: [u16; 11] = [0, 1, 55, 56, 2_114, 2_115, 3_158, 3_159, 4_095, 4_096, 0xFFFF];

/// Where a code lies in the table.
const REGIONS: [&str; 5] =
    ["held at the top", "above zero", "below zero", "held at the bottom", "past the table"];

const PROFILES: [&str; 14] = [
    "bid 0",
    "bid 1",
    "bid 4",
    "bid 5",
    "bid 8",
    "bid 255",
    "fitted alone",
    "forced alone",
    "fitted and forced",
    "ABF placed",
    "ABF not placed",
    "stored",
    "stored out of range",
    "save count FFFE",
];

/// The changes of mode by the table.
const CHANGES: [&str; 6] = ["U N", "U F", "N F", "F N", "F E", "E F"];

/// What a reset wipes, and what entering and leaving emergency leave alone.
const HELD: [&str; 5] =
    ["a waiting reply", "words", "words new to 60", "words new to 62", "a form switched to"];

/// The name of a code; those that no board knows are told apart by their last bit.
fn name(code: u8) -> String {
    match code {
        _ if CODES.contains(&code) || OWN.contains(&code) => format!("{code:02X}"),
        _ if code % 2 == 1 => "odd".to_string(),
        _ => "even".to_string(),
    }
}

/// Adds the cells of the battery board.
pub fn universe(coverage: &mut Coverage) {
    command_universe(coverage);
    reading_universe(coverage);
    for count in COUNTS.map(|count| count.to_string()).iter().chain(["other".to_string()].iter()) {
        coverage.add(format!("battery words {count}"));
    }
    for count in [39, 512] {
        coverage.add(format!("words {count} on a distribution board"));
    }
    for profile in PROFILES {
        coverage.add(format!("battery profile {profile}"));
    }
    for change in CHANGES {
        coverage.add(format!("battery mode {change}"));
    }
    for switch in ["30 from safety", "32 from nominal"] {
        coverage.add(format!("battery mode by {switch}"));
    }
    for mode in MODES {
        coverage.add(format!("battery overcurrent {mode}"));
        for event in ['-', 'P', 'W'] {
            coverage.add(format!("battery event {event} {mode}"));
        }
        for form in ["raw", "ascii"] {
            for found in ["command", "form", "refused"] {
                coverage.add(format!("battery text {mode} {form} {found}"));
            }
            for what in ["reply", "echo", "nothing"] {
                coverage.add(format!("battery frame {mode} {form} {what}"));
            }
        }
        for what in ["a reply", "nothing"] {
            coverage.add(format!("battery read {mode} {what} waiting"));
        }
    }
    for held in HELD {
        for by in ["lost to AA", "lost to W", "kept entering emergency", "kept leaving emergency"] {
            coverage.add(format!("battery {by}: {held}"));
        }
    }
    for code in ["90", "92", "AA", "W"] {
        for stored in ["stored", "nothing stored"] {
            coverage.add(format!("battery settings by {code} {stored}"));
        }
    }
    for checksum in ["0", "right", "wrong"] {
        coverage.add(format!("battery save {checksum}"));
    }
    for cell in parameters::of_each_id() {
        coverage.add(format!("battery {cell}"));
    }
}

/// Adds the cells of commands by code, length and header.
fn command_universe(coverage: &mut Coverage) {
    let codes = CODES.into_iter().chain(OWN).map(|code| format!("{code:02X}"));
    for code in codes.chain(["odd".to_string(), "even".to_string()]) {
        for mode in MODES {
            for answer in ANSWERS {
                coverage.add(format!("battery command {code} {mode} {answer}"));
            }
        }
    }
    for mode in MODES {
        for length in 0..4 {
            coverage.add(format!("battery short {length} {mode}"));
        }
    }
    for code in BATTERY_CODES {
        for length in 4..=parameters::needed(code) + 3 {
            coverage.add(format!("battery length {code:02X} {length}"));
        }
    }
    for header in ["STID 0", "STID 11", "STID other", "IVID 0", "IVID other", "BID 0", "BID other"]
    {
        coverage.add(format!("battery header {header}"));
    }
    for mode in LIT {
        for code in OWN {
            coverage.add(format!("command {code:02X} {mode} on a distribution board"));
        }
        for placed in ["placed", "not placed"] {
            coverage.add(format!("battery ABF {mode} {placed}"));
        }
    }
}

/// Adds the cells of what 0x62 makes of the words.
fn reading_universe(coverage: &mut Coverage) {
    for field in FIELDS {
        for word in WORDS {
            coverage.add(format!("battery reading {field} of {word:04X}"));
        }
        for result in RESULTS {
            coverage.add(format!("battery reading {field} {result}"));
        }
    }
    for status in ["STAT_BU", "STAT_BP"] {
        for word in WORDS {
            coverage.add(format!("battery reading {status} of {word:04X}"));
        }
    }
    for temperature in TEMPERATURES {
        for code in EDGES {
            coverage.add(format!("battery reading {temperature} of code {code}"));
        }
        for region in REGIONS {
            coverage.add(format!("battery reading {temperature} {region}"));
        }
    }
}

/// The field that a word with a row belongs to.
fn field(place: usize) -> &'static str {
    match place {
        0..=4 => FIELDS[place],
        _ => match (place - 6) % 11 {
            of_vipd @ 0..=2 => FIELDS[5 + of_vipd],
            4..=7 => "VOLT_CELL",
            _ => "BAT_TEMP1",
        },
    }
}

/// Where a code lies in the table, by the edges that the document's line has.
fn region(code: u16) -> &'static str {
    match code {
        0..=55 => REGIONS[0],
        56..=2_114 => REGIONS[1],
        2_115..=3_158 => REGIONS[2],
        3_159..=4_095 => REGIONS[3],
        _ => REGIONS[4],
    }
}

/// What there is to lose or to keep before a tick, in the order of `HELD`; words
/// count where the tick brings them or some are there.
fn held(tick: &Ticked) -> [bool; 5] {
    let [raw, engineering] = untold(tick.before);
    [
        !tick.before.waiting_reply().is_empty(),
        tick.brought_words || tick.before.words().iter().any(|word| *word != 0),
        raw,
        engineering,
        tick.before.form() != tick.before.form_of_profile(),
    ]
}

impl Coverage {
    /// Counts how many words were lent to a tick.
    pub fn see_battery_word_count(&mut self, count: usize) {
        if COUNTS.contains(&count) {
            self.hit(format_args!("battery words {count}"));
        } else {
            self.hit(format_args!("battery words other"));
        }
    }

    /// Counts a start, sound or refused.
    pub fn see_battery_start(
        &mut self,
        bid: u8,
        fitted: u32,
        forced: u32,
        abf: bool,
        stored: Option<(u16, &[u8; SIZE])>,
    ) {
        self.hit_if_any(format_args!("battery profile bid {bid}"));
        if !(1..=4).contains(&bid) {
            return;
        }
        match (fitted != 0, forced != 0) {
            (true, false) => return self.hit(format_args!("battery profile fitted alone")),
            (false, true) => return self.hit(format_args!("battery profile forced alone")),
            (true, true) => return self.hit(format_args!("battery profile fitted and forced")),
            (false, false) => {}
        }
        let placed = if abf { "placed" } else { "not placed" };
        self.hit(format_args!("battery profile ABF {placed}"));
        if let Some((count, bytes)) = stored {
            let sound = Settings::from_store(bytes).is_some();
            let stored = if sound { "stored" } else { "stored out of range" };
            self.hit(format_args!("battery profile {stored}"));
            self.hit_if_any(format_args!("battery profile save count {count:04X}"));
        }
    }

    /// Counts a tick that happened.
    pub fn see_battery_tick(&mut self, tick: &Ticked) {
        self.see_battery_mode(tick);
        self.see_battery_event(tick);
        if tick.overcurrent != 0 {
            self.hit(format_args!("battery overcurrent {}", letter(tick.before.mode().mode())));
        }
        if let Some(command) = tick.command {
            self.see_battery_command(tick, command);
            self.see_parameter_of("battery ", tick, command);
        }
    }

    /// Counts a change of mode, by the table or by a command.
    fn see_battery_mode(&mut self, tick: &Ticked) {
        let before = letter(tick.before.mode().mode());
        if before != tick.letter() {
            self.hit(format_args!("battery mode {before} {}", tick.letter()));
        }
        let after = letter(tick.after.mode().mode());
        if tick.accepted(0x30) && (tick.letter(), after) == ('F', 'N') {
            self.hit(format_args!("battery mode by 30 from safety"));
        }
        if tick.accepted(0x32) && (tick.letter(), after) == ('N', 'F') {
            self.hit(format_args!("battery mode by 32 from nominal"));
        }
        match (before, tick.letter()) {
            ('F', 'E') => self.see_held("kept entering emergency", tick),
            ('E', 'F') => self.see_held("kept leaving emergency", tick),
            _ => {}
        }
    }

    /// Counts what was there to be wiped or left alone.
    fn see_held(&mut self, by: &str, tick: &Ticked) {
        for (what, _) in HELD.iter().zip(held(tick)).filter(|(_, is)| *is) {
            self.hit(format_args!("battery {by}: {what}"));
        }
    }

    /// Counts what the watchdog did, and what a reset lost.
    fn see_battery_event(&mut self, tick: &Ticked) {
        let mode = match tick.event {
            'W' => tick.mode,
            _ => tick.after.mode().mode(),
        };
        self.hit(format_args!("battery event {} {}", tick.event, letter(mode)));
        if tick.event == 'W' {
            self.see_battery_settings("W", tick.before);
            self.see_held("lost to W", tick);
        }
        if tick.accepted(0xAA) {
            self.see_held("lost to AA", tick);
        }
    }

    /// Counts what brought settings back, and from where.
    fn see_battery_settings(&mut self, by: &str, board: &Board) {
        let stored = if board.store().is_some() { "stored" } else { "nothing stored" };
        self.hit(format_args!("battery settings by {by} {stored}"));
    }

    /// Counts a transfer by its code, its length and its answer.
    fn see_battery_command(&mut self, tick: &Ticked, command: &[u8]) {
        let mode = tick.letter();
        if command.len() < 4 {
            return self.hit(format_args!("battery short {} {mode}", command.len()));
        }
        let code = command[2];
        self.hit(format_args!("battery command {} {mode} {}", name(code), tick.answer));
        match tick.answer {
            '2' => return,
            '3' => self.see_battery_header(tick, command),
            _ => self.see_battery_good_header(tick, command),
        }
        self.see_readings(tick);
    }

    /// Counts which byte of a header was wrong.
    fn see_battery_header(&mut self, tick: &Ticked, command: &[u8]) {
        let wrong = [command[0] != 0x12, command[1] != 7, command[3] != tick.before.bid()];
        let (byte, value) = match wrong {
            [true, false, false] => ("STID", command[0]),
            [false, true, false] => ("IVID", command[1]),
            [false, false, true] => ("BID", command[3]),
            _ => return,
        };
        let value = match (byte, value) {
            (_, 0) => "0",
            ("STID", 0x11) => "11",
            _ => "other",
        };
        self.hit(format_args!("battery header {byte} {value}"));
    }

    /// Counts a command for this board.
    fn see_battery_good_header(&mut self, tick: &Ticked, command: &[u8]) {
        let code = command[2];
        self.hit_if_any(format_args!("battery length {code:02X} {}", command.len()));
        if tick.accepted(0x44) {
            let placed = if tick.before.abf() { "placed" } else { "not placed" };
            self.hit(format_args!("battery ABF {} {placed}", tick.letter()));
        }
        for code in [0x90, 0x92, 0xAA] {
            if tick.accepted(code) {
                self.see_battery_settings(&format!("{code:02X}"), tick.before);
            }
        }
        if code == 0x94 && command.len() >= 7 && command[4] == 0xA7 {
            let given = u16::from_le_bytes([command[5], command[6]]);
            let checksum = match given {
                0 => "0",
                _ if given == tick.before.settings().checksum() => "right",
                _ => "wrong",
            };
            self.hit(format_args!("battery save {checksum}"));
        }
    }

    /// Counts the words that 0x62 told.
    pub fn see_packs(&mut self, words: &[u16]) {
        let mut temperature = TEMPERATURES.iter();
        for (place, raw) in words.iter().enumerate() {
            match battery_word(place) {
                BatteryWord::Measured(row) => {
                    let field = field(place);
                    self.hit(format_args!("battery reading {field} {}", result(&row, *raw)));
                    self.hit_if_any(format_args!("battery reading {field} of {raw:04X}"));
                }
                BatteryWord::Status => {
                    let field = if place == 5 { "STAT_BU" } else { "STAT_BP" };
                    self.hit_if_any(format_args!("battery reading {field} of {raw:04X}"));
                }
                BatteryWord::PackTemperature => {
                    let Some(field) = temperature.next() else { continue };
                    self.hit(format_args!("battery reading {field} {}", region(*raw)));
                    self.hit_if_any(format_args!("battery reading {field} of code {raw}"));
                }
            }
        }
    }

    /// Counts a code of the battery board that came to a distribution board.
    pub fn see_stranger(&mut self, tick: &Ticked) {
        if let ('4', Some(code)) = (tick.answer, tick.code()) {
            self.hit_if_any(format_args!(
                "command {code:02X} {} on a distribution board",
                tick.letter()
            ));
        }
    }

    /// Counts a bus read.
    pub fn see_battery_read(&mut self, board: &Board) {
        let what = if board.waiting_reply().is_empty() { "nothing" } else { "a reply" };
        self.hit(format_args!("battery read {} {what} waiting", letter(board.mode().mode())));
    }

    /// Counts a read of the text line.
    pub fn see_battery_text(&mut self, board: &Board, printed: &[u8]) {
        let found = printed.split(|byte| *byte == b' ').next().unwrap_or(&[]);
        self.hit(format_args!(
            "battery text {} {} {}",
            letter(board.mode().mode()),
            text::name(board.form()),
            String::from_utf8_lossy(found)
        ));
    }

    /// Counts a framing.
    pub fn see_battery_frame(&mut self, board: &Board, before: &Replay) {
        let what = match (before.latest(), board.reply_of_tick()) {
            (Latest::Echo(_), _) => "echo",
            (Latest::Tick, Some(_)) => "reply",
            (Latest::Tick, None) => "nothing",
        };
        self.hit(format_args!(
            "battery frame {} {} {what}",
            letter(board.mode().mode()),
            text::name(board.form())
        ));
    }
}

/// Whether what happens is counted here.
pub fn is_battery(board: &Board) -> bool {
    board.model() == Model::Battery
}
