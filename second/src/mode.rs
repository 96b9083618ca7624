//! The operating mode and its age, and the table by which the mode changes on its own.

#[derive(Clone, Copy, Debug, PartialEq, Eq, PartialOrd, Ord)]
pub enum Mode {
    Startup,
    Nominal,
    Safety,
    Emergency,
}

impl Mode {
    /// The letter that stands for the mode.
    pub fn letter(self) -> u8 {
        match self {
            Mode::Startup => b'U',
            Mode::Nominal => b'N',
            Mode::Safety => b'F',
            Mode::Emergency => b'E',
        }
    }

    /// The modes in which no channel is on and the watchdog timer stands still.
    pub fn is_dark(self) -> bool {
        matches!(self, Mode::Startup | Mode::Emergency)
    }
}

/// How long startup lasts, in ticks.
pub const STARTUP_TICKS: u64 = 50;

/// What the mode table compares with. The thresholds are wider than the rail
/// because an unsigned setting may lie above every rail there is.
#[derive(Clone, Copy, Debug)]
pub struct Limits {
    pub safety_low: i32,
    pub safety_high: i32,
    pub emergency_low: i32,
    pub emergency_high: i32,
    pub linger: u64,
    pub emergency_period: u64,
}

/// A mode and the ticks since it began; one never changes without the other.
#[derive(Clone, Copy, Debug, PartialEq, Eq)]
pub struct ModeAge {
    mode: Mode,
    age: u64,
}

impl ModeAge {
    /// A mode that begins now.
    pub const fn new(mode: Mode) -> ModeAge {
        ModeAge { mode, age: 0 }
    }

    /// The mode.
    pub fn mode(&self) -> Mode {
        self.mode
    }

    /// The ticks since the mode began.
    pub fn age(&self) -> u64 {
        self.age
    }

    /// A tick has passed.
    pub fn rise(&mut self) {
        self.age = self.age.saturating_add(1);
    }

    /// Begins a mode.
    pub fn enter(&mut self, mode: Mode) {
        *self = ModeAge::new(mode);
    }

    /// One change by the table at most; tells whether there was one.
    pub fn step(&mut self, rail: i16, limits: &Limits) -> bool {
        match self.next(i32::from(rail), limits) {
            Some(mode) => {
                self.enter(mode);
                true
            }
            None => false,
        }
    }

    /// The mode that the table leads to, if it leads anywhere.
    fn next(&self, rail: i32, limits: &Limits) -> Option<Mode> {
        match self.mode {
            Mode::Startup if self.age >= STARTUP_TICKS => Some(after_startup(rail, limits)),
            Mode::Startup => None,
            Mode::Nominal => (rail < limits.safety_low).then_some(Mode::Safety),
            Mode::Safety if self.age > limits.linger => after_linger(rail, limits),
            Mode::Safety => None,
            Mode::Emergency => (rail > limits.emergency_high
                || self.age >= limits.emergency_period)
                .then_some(Mode::Safety),
        }
    }
}

/// Where startup ends.
fn after_startup(rail: i32, limits: &Limits) -> Mode {
    if rail >= limits.safety_low {
        Mode::Nominal
    } else {
        Mode::Safety
    }
}

/// The thresholds may stand in any order, so the way up is asked for first.
fn after_linger(rail: i32, limits: &Limits) -> Option<Mode> {
    if rail > limits.safety_high {
        Some(Mode::Nominal)
    } else if rail < limits.emergency_low {
        Some(Mode::Emergency)
    } else {
        None
    }
}

#[cfg(test)]
mod tests {
    use super::*;

    #[test]
    fn ages_are_64_bit_and_stop_at_the_top() {
        let mut mode = ModeAge { mode: Mode::Nominal, age: u64::MAX - 1 };
        mode.rise();
        assert_eq!(mode.age, u64::MAX);
        mode.rise();
        assert_eq!(mode.age, u64::MAX);
    }
}
