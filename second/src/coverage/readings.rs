//! 0x50 and 0x52, 0x60 and 0x62: what was new to each, and what 0x52 made of the
//! words.

use super::battery::is_battery;
use super::script::Ticked;
use super::{Coverage, LIT};
use crate::board::Board;
use crate::readings::{row, Conversion};

/// The codes that tell the measured words, raw and in engineering units.
const TELLING: [u8; 2] = [0x50, 0x52];

/// The same on a battery board.
const BATTERY_TELLING: [u8; 2] = [0x60, 0x62];

/// The fields of the reply, those of one row and one block together.
const FIELDS: [&str; 11] = [
    "VOLT_BRDSUP",
    "TEMP_MCU",
    "VIP_INPUT_VOLT",
    "VIP_INPUT_CURR",
    "VIP_INPUT_POWE",
    "VIP_VD_VOLT",
    "VIP_VD_CURR",
    "VIP_VD_POWE",
    "VIP_CH_VOLT",
    "VIP_CH_CURR",
    "VIP_CH_POWE",
];

/// Raw words at the ends of both types.
pub const WORDS: [u16; 5] = [0x0000, 0x0001, 0x7FFF, 0x8000, 0xFFFF];

/// How an exact value lies to the reading.
pub const RESULTS: [&str; 9] = [
    "whole",
    "above zero, told lower",
    "above zero, told higher",
    "above zero, a half",
    "below zero, told lower",
    "below zero, told higher",
    "below zero, a half",
    "held at the top",
    "held at the bottom",
];

/// The name of new or told words.
fn name(new: bool) -> &'static str {
    if new {
        "new"
    } else {
        "stale"
    }
}

/// The field that a measured word belongs to.
fn field(place: usize) -> &'static str {
    match place {
        0..=4 => FIELDS[place],
        5..=25 => FIELDS[5 + (place - 5) % 3],
        _ => FIELDS[8 + (place - 26) % 3],
    }
}

/// Which of the results a raw word has by its row.
pub fn result(row: &Conversion, raw: u16) -> &'static str {
    let dividend = (row.raw.decode(&raw.to_le_bytes()) + row.bias) * row.pre_mul;
    let rest = dividend.rem_euclid(row.pos_div);
    let at = match dividend {
        _ if dividend > i64::from(i16::MAX) * row.pos_div => 7,
        _ if dividend < i64::from(i16::MIN) * row.pos_div => 8,
        _ if rest == 0 => 0,
        _ if 2 * rest == row.pos_div => 3,
        _ if 2 * rest < row.pos_div => 1,
        _ => 2,
    };
    RESULTS[if dividend < 0 && (1..=3).contains(&at) { at + 3 } else { at }]
}

/// Adds the cells of both commands and of the readings.
pub fn universe(coverage: &mut Coverage) {
    for code in TELLING.into_iter().chain(BATTERY_TELLING) {
        for mode in LIT {
            for (own, other) in [(true, true), (true, false), (false, true), (false, false)] {
                coverage.add(told_cell(code, mode, own, other));
            }
            for what in ["new in the same tick", "refused with new words"] {
                coverage.add(format!("housekeeping {code:02X} {mode} {what}"));
            }
        }
    }
    for field in FIELDS {
        for word in WORDS {
            coverage.add(format!("reading {field} of {word:04X}"));
        }
        for result in RESULTS {
            coverage.add(format!("reading {field} {result}"));
        }
    }
}

/// The cell of an accepted command by what was new to it and to the other.
fn told_cell(code: u8, mode: char, own: bool, other: bool) -> String {
    format!("housekeeping {code:02X} {mode} {}, the other {}", name(own), name(other))
}

/// Whether words are new to a code before it is carried out.
fn is_new_to(code: u8, tick: &Ticked) -> bool {
    let engineering = code == TELLING[1] || code == BATTERY_TELLING[1];
    tick.brought_words || untold(tick.before)[usize::from(engineering)]
}

/// Whether words wait for 0x50 and for 0x52, or for 0x60 and for 0x62.
pub fn untold(board: &Board) -> [bool; 2] {
    [board.raw_is_new, board.engineering_is_new]
}

impl Coverage {
    /// Counts a transfer of the codes that tell words, if it got past startup.
    pub fn see_readings(&mut self, tick: &Ticked) {
        let battery = is_battery(tick.before);
        let [first, second] = if battery { BATTERY_TELLING } else { TELLING };
        for (code, other) in [(first, second), (second, first)] {
            if tick.code() != Some(code) {
                continue;
            }
            let letter = tick.letter();
            if tick.accepted(code) {
                let (own, other) = (is_new_to(code, tick), is_new_to(other, tick));
                self.hit(format_args!("{}", told_cell(code, letter, own, other)));
                if tick.brought_words {
                    self.hit(format_args!("housekeeping {code:02X} {letter} new in the same tick"));
                }
            } else if is_new_to(code, tick) {
                self.hit(format_args!("housekeeping {code:02X} {letter} refused with new words"));
            }
        }
        if tick.accepted(second) && battery {
            self.see_packs(tick.after.words());
        } else if tick.accepted(second) {
            self.see_words(tick.after.words());
        }
    }

    /// Counts the words that 0x52 told.
    fn see_words(&mut self, words: &[u16]) {
        for (place, raw) in words.iter().enumerate() {
            let field = field(place);
            self.hit(format_args!("reading {field} {}", result(&row(place), *raw)));
            self.hit_if_any(format_args!("reading {field} of {raw:04X}"));
        }
    }
}
