//! What a script or a sheet reaches, counted cell by cell.
//!
//! The watcher stands outside: it looks at a board before and after a line and
//! at what was printed, so that the machine itself carries no trace of it.

mod battery;
mod channels;
mod forms;
mod modes;
mod parameters;
mod readings;
mod script;
mod sheets;
mod text;

use crate::mode::Mode;
use std::collections::HashMap;
use std::fmt::{Arguments, Write};

pub use forms::WRONG_FORMS;
pub use modes::rails;
pub use parameters::{needed, value_classes, STRANGERS};
pub use script::Watched;

/// The commands that a distribution board knows.
pub const CODES: [u8; 20] = [
    0xAA, 0x02, 0x04, 0x06, 0x10, 0x12, 0x14, 0x16, 0x18, 0x30, 0x32, 0x42, 0x50, 0x52, 0x82, 0x84,
    0x86, 0x90, 0x92, 0x94,
];

/// The commands that a battery board knows.
pub const BATTERY_CODES: [u8; 14] =
    [0xAA, 0x02, 0x06, 0x30, 0x32, 0x44, 0x60, 0x62, 0x82, 0x84, 0x86, 0x90, 0x92, 0x94];

/// The letters of the modes.
const MODES: [char; 4] = ['U', 'N', 'F', 'E'];

/// Those in which commands are carried out.
const LIT: [char; 3] = ['N', 'F', 'E'];

/// The letter of one mode.
fn letter(mode: Mode) -> char {
    char::from(mode.letter())
}

/// All cells of a universe with the times each was hit.
#[derive(Default)]
pub struct Coverage {
    cells: HashMap<String, u64>,
    /// Room for the name of a cell that is hit: a tick hits several.
    name: String,
}

impl Coverage {
    /// Every cell that replay scripts can hit, none hit so far.
    pub fn of_scripts() -> Coverage {
        let mut coverage = Coverage::default();
        script::universe(&mut coverage);
        coverage
    }

    /// Every cell that session sheets can hit, none hit so far.
    pub fn of_sheets() -> Coverage {
        let mut coverage = Coverage::default();
        sheets::universe(&mut coverage);
        coverage
    }

    /// Makes the cell one of the universe.
    fn add(&mut self, cell: String) {
        self.cells.insert(cell, 0);
    }

    /// Every hit must be a cell that was foreseen: a watcher that invents cells
    /// would let others stay unhit unseen.
    fn hit(&mut self, cell: Arguments) {
        if !self.hit_if_any(cell) {
            panic!("no such cell: {cell}");
        }
    }

    /// Hits the cell where the universe has it, and tells whether it does.
    fn hit_if_any(&mut self, cell: Arguments) -> bool {
        self.name.clear();
        let _ = self.name.write_fmt(cell);
        match self.cells.get_mut(&self.name) {
            Some(count) => {
                *count += 1;
                true
            }
            None => false,
        }
    }

    /// How often the cell was hit.
    pub fn times(&self, cell: &str) -> u64 {
        self.cells.get(cell).copied().unwrap_or(0)
    }

    /// One cell a line, in the order of their names.
    pub fn report(&self) -> String {
        let mut cells: Vec<_> = self.cells.iter().collect();
        cells.sort_unstable();
        let mut report = String::new();
        for (cell, count) in cells {
            match count {
                0 => report += &format!("{cell}: not hit\n"),
                _ => report += &format!("{cell}: {count}\n"),
            }
        }
        report
    }
}
