//! Every kind of channel under each channel command and under overcurrent.

use super::script::Ticked;
use super::Coverage;
use crate::board::Board;
use crate::mode::Mode;

const KINDS: [&str; 7] = [
    "forced on",
    "forced off",
    "forced latched",
    "commandable on",
    "commandable off",
    "commandable latched",
    "not fitted",
];

/// What an overcurrent may name besides those.
const TRIPS: [&str; 4] =
    ["forced that came on", "commandable that went off", "to 65535", "at 65535"];

/// Adds the cells of the channels.
pub fn universe(coverage: &mut Coverage) {
    for kind in KINDS {
        for half in ["low", "extended"] {
            for code in ["10", "12", "14"] {
                for named in ["in", "out"] {
                    coverage.add(format!("channel {code} {kind} {half} {named}"));
                }
                if half == "extended" {
                    coverage.add(format!("channel {code} {kind} {half} absent"));
                }
            }
            for code in ["16", "18", "04", "32"] {
                coverage.add(format!("channel {code} {kind} {half}"));
            }
            coverage.add(format!("overcurrent {kind} {half}"));
        }
    }
    for trip in TRIPS {
        coverage.add(format!("overcurrent {trip}"));
    }
    for index in ["31", "32", "255"] {
        for code in ["16", "18"] {
            coverage.add(format!("channel {code} index {index}"));
        }
    }
}

/// What a channel is and in which state.
fn kind(board: &Board, channel: usize) -> &'static str {
    let channels = board.channels();
    let has = |set: u32| set >> channel & 1 != 0;
    if !has(channels.fitted()) {
        return "not fitted";
    }
    let state = if has(channels.on()) {
        0
    } else if has(channels.latched()) {
        2
    } else {
        1
    };
    KINDS[state + if has(channels.forced()) { 0 } else { 3 }]
}

/// Which half of a mask a channel is in.
fn half(channel: usize) -> &'static str {
    if channel < 16 {
        "low"
    } else {
        "extended"
    }
}

impl Coverage {
    /// Counts what a tick did with channels.
    pub fn see_channels(&mut self, tick: &Ticked) {
        self.see_overcurrent(tick);
        // The kinds are those before the tick; a tick that trips or changes the
        // mode before its command is left out.
        if tick.overcurrent != 0 || tick.mode != tick.before.mode().mode() {
            return;
        }
        let Some(command) = tick.command else { return };
        match tick.code() {
            Some(0x10 | 0x12 | 0x14) if tick.answer == '0' => self.see_group(tick, command),
            Some(0x16 | 0x18) if command.len() > 4 && tick.mode == Mode::Nominal => {
                self.see_single(tick, command)
            }
            Some(0x04) if tick.answer == '0' && tick.mode == Mode::Nominal => {
                self.see_all("04", tick)
            }
            Some(0x32) if tick.answer == '0' && tick.mode == Mode::Nominal => {
                self.see_all("32", tick)
            }
            _ => {}
        }
    }

    /// An accepted group command, channel by channel.
    fn see_group(&mut self, tick: &Ticked, command: &[u8]) {
        let mut mask = [0; 4];
        let given = if command.len() < 8 { 2 } else { 4 };
        mask[..given].copy_from_slice(&command[4..4 + given]);
        let mask = u32::from_le_bytes(mask);
        for channel in 0..32 {
            let named = match mask >> channel & 1 {
                _ if channel >= 16 && given == 2 => "absent",
                0 => "out",
                _ => "in",
            };
            let kind = kind(tick.before, channel);
            self.hit(format_args!("channel {:02X} {kind} {} {named}", command[2], half(channel)));
        }
    }

    /// A command for one channel.
    fn see_single(&mut self, tick: &Ticked, command: &[u8]) {
        let index = command[4];
        if tick.answer != '0' && tick.answer != '7' {
            return;
        }
        self.hit_if_any(format_args!("channel {:02X} index {index}", command[2]));
        if index < 32 {
            let channel = usize::from(index);
            let kind = kind(tick.before, channel);
            self.hit(format_args!("channel {:02X} {kind} {}", command[2], half(channel)));
        }
    }

    /// A command that speaks of every channel.
    fn see_all(&mut self, code: &str, tick: &Ticked) {
        for channel in 0..32 {
            self.hit(format_args!(
                "channel {code} {} {}",
                kind(tick.before, channel),
                half(channel)
            ));
        }
    }

    /// Every channel that an overcurrent named.
    fn see_overcurrent(&mut self, tick: &Ticked) {
        let before = tick.before.mode().mode();
        let left_dark = before.is_dark() && !tick.mode.is_dark();
        for channel in (0..32).filter(|channel| tick.overcurrent >> channel & 1 != 0) {
            let kind = kind(tick.before, channel);
            self.hit(format_args!("overcurrent {kind} {}", half(channel)));
            let forced = tick.before.channels().forced() >> channel & 1 != 0;
            if left_dark && forced {
                self.hit(format_args!("overcurrent forced that came on"));
            }
            if before == Mode::Nominal && tick.mode == Mode::Safety && kind == "commandable on" {
                self.hit(format_args!("overcurrent commandable that went off"));
            }
            if before == tick.mode && kind.ends_with(" on") {
                self.see_count(tick.before.channels().counts()[channel]);
            }
        }
    }

    /// An overcurrent count at its top.
    fn see_count(&mut self, before: u16) {
        match before {
            65_534 => self.hit(format_args!("overcurrent to 65535")),
            65_535 => self.hit(format_args!("overcurrent at 65535")),
            _ => {}
        }
    }
}
