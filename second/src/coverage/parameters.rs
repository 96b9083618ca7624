//! Parameters by id, values by range, stored settings and profiles.

use super::script::Ticked;
use super::Coverage;
use crate::settings::{self, Kind, Row, READ_ONLY, ROWS, SIZE};

/// Ids beside the known ones, and some of types that no parameter has.
pub const STRANGERS: [u16; 24] = [
    0x0000, 0x0FFF, 0x1015, 0x17FF, 0x1801, 0x1FFF, 0x2003, 0x27FF, 0x2804, 0x2FFF, 0x302A, 0x37FF,
    0x3802, 0x3FFF, 0x4044, 0x47FF, 0x4814, 0x5000, 0x5FFF, 0x6006, 0x67FF, 0x6815, 0x9000, 0xFFFF,
];

const PROFILES: [&str; 8] = [
    "bid 0",
    "bid 9",
    "bid 255",
    "nothing fitted",
    "forced not fitted",
    "bid 1",
    "bid 8",
    "all fitted",
];

/// The bytes a command needs; for 0x84 those of the widest value.
pub fn needed(code: u8) -> usize {
    match code {
        0xAA | 0x16 | 0x18 | 0x90 | 0x92 => 5,
        0x10 | 0x12 | 0x14 | 0x82 | 0x86 => 6,
        0x94 => 7,
        0x84 => 10,
        _ => 4,
    }
}

/// What a parameter command does, none for other commands.
fn verb(code: u8) -> Option<&'static str> {
    match code {
        0x82 => Some("get"),
        0x84 => Some("set"),
        0x86 => Some("reset"),
        _ => None,
    }
}

/// The places a value can have in its range; those the type cannot hold fall away.
pub fn value_classes(row: &Row) -> Vec<(&'static str, i64)> {
    let all =
        [("below", row.low - 1), ("low", row.low), ("high", row.high), ("above", row.high + 1)];
    all.into_iter()
        .filter(|(_, value)| row.kind.lowest() <= *value && *value <= row.kind.highest())
        .collect()
}

/// Adds the cells of parameters, stored values and profiles.
pub fn universe(coverage: &mut Coverage) {
    for cell in of_each_id() {
        coverage.add(cell);
    }
    for row in &ROWS {
        for (class, _) in value_classes(row) {
            coverage.add(format!("value {:04X} {class}", row.first));
            coverage.add(format!("stored {:04X} {class}", row.first));
        }
    }
    for kind in [Kind::Int8, Kind::Uint8, Kind::Int16, Kind::Uint16, Kind::Uint32] {
        for length in 0..=kind.size() + 3 {
            coverage.add(format!("set {kind:?} with {length} value bytes"));
        }
    }
    for profile in PROFILES {
        coverage.add(format!("profile {profile}"));
    }
    for count in ["0000", "FFFE", "FFFF", "other"] {
        coverage.add(format!("profile save count {count}"));
    }
}

/// The cells of a get, set and reset of each id.
pub fn of_each_id() -> Vec<String> {
    let mut cells = Vec::new();
    for id in ROWS.iter().flat_map(|row| row.first..=row.last) {
        cells.extend(["get", "set", "reset"].map(|verb| format!("parameter {verb} {id:04X} 0")));
    }
    for id in READ_ONLY.iter().flat_map(|row| row.first..=row.last) {
        cells.push(format!("parameter get {id:04X} 0"));
        cells.extend(["set", "reset"].map(|verb| format!("parameter {verb} {id:04X} 7")));
    }
    for id in STRANGERS {
        cells.extend(["get", "set", "reset"].map(|verb| format!("parameter {verb} {id:04X} 7")));
    }
    cells
}

impl Coverage {
    /// Counts a get, set or reset of one.
    pub fn see_parameter(&mut self, tick: &Ticked, command: &[u8]) {
        let Some(id) = self.see_parameter_of("", tick, command) else { return };
        if let (0x84, Some(place)) = (command[2], settings::find(id)) {
            self.see_value(&place.row, &command[6..], tick.answer);
        }
    }

    /// The same in cells of a board whose names begin so; tells the id of the command.
    pub fn see_parameter_of(&mut self, of: &str, tick: &Ticked, command: &[u8]) -> Option<u16> {
        let verb = tick.code().and_then(verb)?;
        if command.len() < 6 || matches!(tick.answer, '1' | '2' | '3') {
            return None;
        }
        let id = u16::from_le_bytes([command[4], command[5]]);
        if tick.answer != '5' {
            self.hit_if_any(format_args!("{of}parameter {verb} {id:04X} {}", tick.answer));
        }
        Some(id)
    }

    /// Counts the value of a set.
    fn see_value(&mut self, row: &Row, value: &[u8], answer: char) {
        self.hit_if_any(format_args!("set {:?} with {} value bytes", row.kind, value.len()));
        if answer == '0' {
            self.see_class("value", row, value);
        }
    }

    /// Counts where in its range a value lies.
    fn see_class(&mut self, what: &str, row: &Row, wire: &[u8]) {
        for (class, value) in value_classes(row) {
            let size = row.kind.size();
            if value.to_le_bytes()[..size] == wire[..size] {
                self.hit(format_args!("{what} {:04X} {class}", row.first));
            }
        }
    }

    /// Counts a start, sound or refused.
    pub fn see_start(
        &mut self,
        bid: u8,
        fitted: u32,
        forced: u32,
        stored: Option<(u16, &[u8; SIZE])>,
    ) {
        self.hit_if_any(format_args!("profile bid {bid}"));
        let good_bid = (1..=8).contains(&bid);
        if good_bid && fitted == 0 {
            self.hit(format_args!("profile nothing fitted"));
        } else if good_bid && forced & !fitted != 0 {
            self.hit(format_args!("profile forced not fitted"));
        } else if good_bid {
            if fitted == u32::MAX {
                self.hit(format_args!("profile all fitted"));
            }
            if let Some((count, bytes)) = stored {
                self.see_stored(count, bytes);
            }
        }
    }

    /// Counts the save count and the values of a store.
    fn see_stored(&mut self, count: u16, bytes: &[u8; SIZE]) {
        match count {
            0 | 0xFFFE | 0xFFFF => self.hit(format_args!("profile save count {count:04X}")),
            _ => self.hit(format_args!("profile save count other")),
        }
        let mut offset = 0;
        for row in &ROWS {
            for _ in row.first..=row.last {
                self.see_class("stored", row, &bytes[offset..]);
                offset += row.kind.size();
            }
        }
    }
}
