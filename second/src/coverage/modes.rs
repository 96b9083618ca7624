//! The mode table, row by row, at and beside its edges.

use super::readings::untold;
use super::script::Ticked;
use super::{letter, Coverage, MODES};
use crate::board::Board;
use crate::mode::{Limits, Mode, STARTUP_TICKS};

const CELLS: [&str; 30] = [
    "startup one tick short",
    "startup to nominal at its tick",
    "startup to nominal at safety low",
    "startup to safety at its tick",
    "startup to safety one millivolt below",
    "nominal to safety",
    "nominal to safety one millivolt below",
    "nominal stays at safety low",
    "safety to nominal",
    "safety to nominal at its tick",
    "safety to nominal one millivolt above",
    "safety to nominal one tick short",
    "safety to nominal one millivolt short",
    "safety to emergency",
    "safety to emergency at its tick",
    "safety to emergency one millivolt below",
    "safety to emergency one tick short",
    "safety to emergency one millivolt short",
    "safety with both rows true",
    "emergency to safety by rail",
    "emergency to safety one millivolt above",
    "emergency one millivolt short",
    "emergency to safety by age",
    "emergency one tick short",
    "command 30 from safety at safety low",
    "command 30 from safety one millivolt short",
    "command 30 in nominal",
    "command 32 from nominal",
    "command 32 in safety",
    "no change with a threshold above every rail",
];

/// What entering and leaving emergency leave alone.
const KEPT: [&str; 8] = [
    "a form switched to",
    "waiting reply",
    "words",
    "words new to 50",
    "words new to 52",
    "settings off the store",
    "shown save",
    "overcurrent counts",
];

/// Where safety low lies when emergency is entered or left.
const ORDERS: [&str; 3] =
    ["below emergency low", "between the emergency thresholds", "above emergency high"];

/// Rails that lie on and beside each threshold, and the ends of the type.
const RAILS: [&str; 16] = [
    "-32768",
    "-1",
    "0",
    "32767",
    "safety low -1",
    "safety low +0",
    "safety low +1",
    "safety high -1",
    "safety high +0",
    "safety high +1",
    "emergency low -1",
    "emergency low +0",
    "emergency low +1",
    "emergency high -1",
    "emergency high +0",
    "emergency high +1",
];

/// The millivolts of these rails, in their order, as the settings stand.
pub fn rails(board: &Board) -> [i32; 16] {
    let limits = board.limits();
    let thresholds =
        [limits.safety_low, limits.safety_high, limits.emergency_low, limits.emergency_high];
    let mut rails = [-32_768, -1, 0, 32_767, 0, 0, 0, 0, 0, 0, 0, 0, 0, 0, 0, 0];
    for (beside, threshold) in rails[4..].chunks_exact_mut(3).zip(thresholds) {
        beside.copy_from_slice(&[threshold - 1, threshold, threshold + 1]);
    }
    rails
}

/// Which of the orders the thresholds have.
fn order(limits: &Limits) -> &'static str {
    if limits.safety_low < limits.emergency_low {
        ORDERS[0]
    } else if limits.safety_low <= limits.emergency_high {
        ORDERS[1]
    } else {
        ORDERS[2]
    }
}

/// Adds the cells of the modes.
pub fn universe(coverage: &mut Coverage) {
    for cell in CELLS {
        coverage.add(format!("mode {cell}"));
    }
    for way in ["entering", "leaving"] {
        for kept in KEPT {
            coverage.add(format!("{way} emergency with {kept}"));
        }
        for what in ["no command", "an accepted command", "a refused command"] {
            coverage.add(format!("{way} emergency in a tick with {what}"));
        }
        for order in ORDERS {
            coverage.add(format!("{way} emergency with safety low {order}"));
        }
    }
    for mode in MODES {
        for name in RAILS {
            coverage.add(format!("rail {mode} {name}"));
        }
    }
}

impl Coverage {
    /// Hits a cell of the mode table if its condition holds.
    fn mode_cell(&mut self, cell: &str, when: bool) {
        if when {
            self.hit(format_args!("mode {cell}"));
        }
    }

    /// Counts what a tick did with the mode.
    pub fn see_modes(&mut self, tick: &Ticked) {
        let before = tick.before.mode();
        let limits = tick.before.limits();
        let rail = i32::from(tick.rail);
        let age = before.age() + 1;
        for (name, value) in RAILS.iter().zip(rails(tick.before)) {
            if value == rail {
                self.hit(format_args!("rail {} {name}", letter(before.mode())));
            }
        }
        match before.mode() {
            Mode::Startup => self.see_startup(tick, age, rail - limits.safety_low),
            Mode::Nominal => self.see_nominal(tick, rail, &limits),
            Mode::Safety => self.see_safety(tick, age, rail, &limits),
            Mode::Emergency => self.see_emergency(tick, age, rail, &limits),
        }
        self.see_switches(tick, rail - limits.safety_low);
        match (before.mode(), tick.mode) {
            (Mode::Safety, Mode::Emergency) => self.see_emergency_edge("entering", tick),
            (Mode::Emergency, Mode::Safety) => self.see_emergency_edge("leaving", tick),
            _ => {}
        }
    }

    /// What there was to keep in a tick that enters or leaves emergency.
    fn see_emergency_edge(&mut self, way: &str, tick: &Ticked) {
        let board = tick.before;
        let stored = board.store().map(|store| store.settings);
        let [raw, engineering] = untold(board);
        let here = [
            board.form() != board.form_of_profile(),
            !board.waiting_reply().is_empty(),
            board.words().iter().any(|word| *word != 0),
            raw,
            engineering,
            stored.is_some_and(|stored| stored != *board.settings()),
            board.shown().save_count != 0,
            board.channels().counts().iter().any(|count| *count != 0),
        ];
        for (kept, _) in KEPT.iter().zip(here).filter(|(_, is)| *is) {
            self.hit(format_args!("{way} emergency with {kept}"));
        }
        let what = match tick.answer {
            '-' => "no command",
            '0' => "an accepted command",
            _ => "a refused command",
        };
        self.hit(format_args!("{way} emergency in a tick with {what}"));
        self.hit(format_args!("{way} emergency with safety low {}", order(&board.limits())));
    }

    /// A tick that finds the board in startup.
    fn see_startup(&mut self, tick: &Ticked, age: u64, above_low: i32) {
        self.mode_cell("startup one tick short", age == STARTUP_TICKS - 1);
        let nominal = tick.mode == Mode::Nominal;
        let safety = tick.mode == Mode::Safety;
        self.mode_cell("startup to nominal at its tick", nominal && age == STARTUP_TICKS);
        self.mode_cell("startup to nominal at safety low", nominal && above_low == 0);
        self.mode_cell("startup to safety at its tick", safety && age == STARTUP_TICKS);
        self.mode_cell("startup to safety one millivolt below", safety && above_low == -1);
    }

    /// A tick that finds the board in nominal.
    fn see_nominal(&mut self, tick: &Ticked, rail: i32, limits: &Limits) {
        let left = tick.mode == Mode::Safety;
        let above_low = rail - limits.safety_low;
        self.mode_cell("nominal to safety", left);
        self.mode_cell("nominal to safety one millivolt below", left && above_low == -1);
        self.mode_cell("nominal stays at safety low", !left && above_low == 0);
    }

    /// A tick that finds the board in safety.
    fn see_safety(&mut self, tick: &Ticked, age: u64, rail: i32, limits: &Limits) {
        let up = rail - limits.safety_high;
        let down = rail - limits.emergency_low;
        let first = age == limits.linger + 1;
        let lingers = age == limits.linger;
        let nominal = tick.mode == Mode::Nominal;
        let emergency = tick.mode == Mode::Emergency;
        let stays = age > limits.linger && tick.mode == Mode::Safety;
        self.mode_cell("safety to nominal", nominal);
        self.mode_cell("safety to nominal at its tick", nominal && first);
        self.mode_cell("safety to nominal one millivolt above", nominal && up == 1);
        self.mode_cell("safety to nominal one tick short", lingers && up > 0);
        self.mode_cell("safety to nominal one millivolt short", stays && up == 0);
        self.mode_cell("safety to emergency", emergency);
        self.mode_cell("safety to emergency at its tick", emergency && first);
        self.mode_cell("safety to emergency one millivolt below", emergency && down == -1);
        self.mode_cell("safety to emergency one tick short", lingers && up <= 0 && down < 0);
        self.mode_cell("safety to emergency one millivolt short", stays && down == 0);
        self.mode_cell("safety with both rows true", nominal && down < 0);
        let out_of_reach = limits.safety_high > i32::from(i16::MAX);
        self.mode_cell("no change with a threshold above every rail", stays && out_of_reach);
    }

    /// A tick that finds the board in emergency.
    fn see_emergency(&mut self, tick: &Ticked, age: u64, rail: i32, limits: &Limits) {
        let left = tick.mode == Mode::Safety;
        let up = rail - limits.emergency_high;
        let period = limits.emergency_period;
        self.mode_cell("emergency to safety by rail", left && up > 0 && age < period);
        self.mode_cell("emergency to safety one millivolt above", left && up == 1);
        self.mode_cell("emergency one millivolt short", !left && up == 0);
        self.mode_cell("emergency to safety by age", left && up <= 0 && age == period);
        self.mode_cell("emergency one tick short", !left && age == period - 1);
    }

    /// 0x30 and 0x32 at the edges of what they ask.
    fn see_switches(&mut self, tick: &Ticked, above_low: i32) {
        let nominal = tick.mode == Mode::Nominal;
        let safety = tick.mode == Mode::Safety;
        let up = tick.accepted(0x30);
        let refused = tick.answer == '6' && tick.code() == Some(0x30);
        self.mode_cell("command 30 from safety at safety low", up && safety && above_low == 0);
        self.mode_cell(
            "command 30 from safety one millivolt short",
            refused && safety && above_low == -1,
        );
        self.mode_cell("command 30 in nominal", up && nominal);
        self.mode_cell("command 32 from nominal", tick.accepted(0x32) && nominal);
        self.mode_cell("command 32 in safety", tick.accepted(0x32) && safety);
    }
}
