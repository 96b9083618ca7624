//! Command transfers: the checks in their order, the effects, the replies.

use crate::board::{Answer, Board, Cause, Store, IVID};
use crate::board::{EMERGENCY_HIGH, EMERGENCY_LOW, EMERGENCY_PERIOD_SECONDS, LINGER_SECONDS};
use crate::channels::CHANNELS;
use crate::mode::Mode;
use crate::model::{Model, BATTERY_WORDS};
use crate::readings;
use crate::reply::{HEAD, LONGEST};
use crate::settings::{self, Kind};

const HEADER: usize = 4;
const RESET_KEY: u8 = 0xA6;
const CONFIGURATION_KEY: u8 = 0xA7;
const NEW: u8 = 0x80;

/// Where the id and the value stand in the replies of 0x82, 0x84 and 0x86.
const ID_AT: usize = 6;
const VALUE_AT: usize = 8;

const COUNTS_AT: usize = 14;
const WORDS_AT: usize = 6;
const HOUSEKEEPING_CHANNELS_AT: usize = 16;
const LATER_WORDS_AT: usize = 24;
/// The words that stand before the channel sets in the housekeeping replies.
const EARLY_WORDS: usize = 5;

/// Where the two bytes of 0x44 stand, and what they are where the ABF is placed.
const ABF_AT: usize = 6;
const ABF_PLACED: u8 = 0xAB;

/// How an accepted command ends.
enum Done {
    /// A reply of this many bytes; those past its head are in place.
    Reply(usize),
    /// The same, but with nothing new to tell.
    Stale(usize),
    /// The board was reset and no reply waits.
    Reset,
}

const PLAIN: Result<Done, Answer> = Ok(Done::Reply(HEAD));

impl Board {
    /// Takes one transfer and answers it.
    pub(crate) fn obey(&mut self, command: &[u8], rail: i16) -> Answer {
        if command.len() < HEADER {
            return Answer::TooShort;
        }
        if self.mode.mode() == Mode::Startup {
            return Answer::InStartup;
        }
        let code = command[2];
        if command[0] != self.model.stid() || command[1] != IVID || command[3] != self.bid {
            return self.refuse(code, Answer::WrongBoard);
        }
        self.timer = 0;
        match self.carry_out(code, command, rail) {
            Ok(Done::Reply(length)) => self.reply_with(code, NEW, length),
            Ok(Done::Stale(length)) => self.reply_with(code, 0, length),
            Ok(Done::Reset) => {}
            Err(answer) => return self.refuse(code, answer),
        }
        Answer::Accepted
    }

    /// Makes the reply of a refusal and hands the answer on.
    fn refuse(&mut self, code: u8, answer: Answer) -> Answer {
        self.reply_with(code, status(answer), HEAD);
        answer
    }

    /// Completes the reply with its head; it waits from now on.
    fn reply_with(&mut self, code: u8, stat: u8, length: usize) {
        self.reply.finish([self.model.stid(), IVID, code | 1, self.bid, stat], length);
        self.replied = true;
    }

    /// Checks 4 to 7, then the effect; tells how the command ends.
    fn carry_out(&mut self, code: u8, command: &[u8], rail: i16) -> Result<Done, Answer> {
        need(command, needed(self.model, code).ok_or(Answer::UnknownCode)?)?;
        match code {
            0xAA => self.system_reset(command[4]),
            0x04 => self.cancel(),
            0x10 | 0x12 | 0x14 => self.group(code, command),
            0x16 | 0x18 => self.single(code, command[4]),
            0x30 => self.switch_to_nominal(rail),
            0x32 => self.switch_to_safety(),
            0x42 => self.overcurrent_state(),
            0x44 => self.abf_state(),
            0x50 => self.raw_readings(),
            0x52 => self.engineering_readings(),
            0x60 => self.raw_packs(),
            0x62 => self.engineering_packs(),
            0x82 => self.get_parameter(id_of(command)),
            0x84 => self.set_parameter(id_of(command), command),
            0x86 => self.reset_parameter(id_of(command)),
            0x90 | 0x92 => self.defaults_or_load(code, command[4]),
            0x94 => self.save(command),
            _ => PLAIN,
        }
    }

    /// 0xAA
    fn system_reset(&mut self, key: u8) -> Result<Done, Answer> {
        if key != RESET_KEY {
            return Err(Answer::Invalid);
        }
        self.resets.command = self.resets.command.saturating_add(1);
        self.reset(Cause::Commanded);
        Ok(Done::Reset)
    }

    /// 0x04
    fn cancel(&mut self) -> Result<Done, Answer> {
        self.channels.drop_commandable();
        PLAIN
    }

    /// Check 6 of the channel commands.
    fn only_in_nominal(&self) -> Result<(), Answer> {
        if self.mode.mode() == Mode::Nominal {
            Ok(())
        } else {
            Err(Answer::NotNow)
        }
    }

    /// 0x10, 0x12 and 0x14
    fn group(&mut self, code: u8, command: &[u8]) -> Result<Done, Answer> {
        self.only_in_nominal()?;
        let (mask, reach) = group_mask(command);
        match code {
            0x10 => self.channels.group_on(mask),
            0x12 => self.channels.group_off(mask),
            _ => self.channels.group_state(mask, reach),
        }
        PLAIN
    }

    /// 0x16 and 0x18
    fn single(&mut self, code: u8, index: u8) -> Result<Done, Answer> {
        self.only_in_nominal()?;
        if code == 0x16 {
            if !self.channels.is_fitted(index) {
                return Err(Answer::Invalid);
            }
            self.channels.channel_on(index);
        } else {
            if !self.channels.is_commandable(index) {
                return Err(Answer::Invalid);
            }
            self.channels.channel_off(index);
        }
        PLAIN
    }

    /// 0x30
    fn switch_to_nominal(&mut self, rail: i16) -> Result<Done, Answer> {
        match self.mode.mode() {
            Mode::Nominal => PLAIN,
            Mode::Safety if i32::from(rail) >= i32::from(self.settings.safety_low()) => {
                self.mode.enter(Mode::Nominal);
                PLAIN
            }
            _ => Err(Answer::NotNow),
        }
    }

    /// 0x32
    fn switch_to_safety(&mut self) -> Result<Done, Answer> {
        match self.mode.mode() {
            Mode::Nominal => {
                self.mode.enter(Mode::Safety);
                self.channels.drop_commandable();
                PLAIN
            }
            Mode::Safety => PLAIN,
            _ => Err(Answer::NotNow),
        }
    }

    /// 0x42
    fn overcurrent_state(&mut self) -> Result<Done, Answer> {
        self.put_channel_sets(6);
        for (channel, count) in self.channels.counts().iter().enumerate() {
            self.reply.put_word(COUNTS_AT + 2 * channel, *count);
        }
        Ok(Done::Reply(COUNTS_AT + 2 * CHANNELS))
    }

    /// Puts the channels that are on and those that are latched into the reply.
    fn put_channel_sets(&mut self, at: usize) {
        self.reply.put_channels(at, self.channels.on());
        self.reply.put_channels(at + 4, self.channels.latched());
    }

    /// 0x44
    fn abf_state(&mut self) -> Result<Done, Answer> {
        let state = if self.abf { ABF_PLACED } else { 0x00 };
        self.reply.put(ABF_AT, &[state, state]);
        Ok(Done::Reply(ABF_AT + 2))
    }

    /// 0x50
    fn raw_readings(&mut self) -> Result<Done, Answer> {
        let new = self.raw_is_new;
        self.raw_is_new = false;
        self.housekeeping(new, |_, raw| raw.to_le_bytes())
    }

    /// 0x52
    fn engineering_readings(&mut self) -> Result<Done, Answer> {
        let new = self.engineering_is_new;
        self.engineering_is_new = false;
        self.housekeeping(new, |place, raw| readings::engineering(place, raw).to_le_bytes())
    }

    /// The layout that both share. Raw and engineering readings meet only here,
    /// where they are bytes already.
    fn housekeeping(
        &mut self,
        new: bool,
        bytes_of: impl Fn(usize, u16) -> [u8; 2],
    ) -> Result<Done, Answer> {
        for (place, raw) in self.words.iter().enumerate() {
            self.reply.put(word_at(place), &bytes_of(place, *raw));
        }
        self.put_channel_sets(HOUSEKEEPING_CHANNELS_AT);
        Ok(if new { Done::Reply(LONGEST) } else { Done::Stale(LONGEST) })
    }

    /// 0x60
    fn raw_packs(&mut self) -> Result<Done, Answer> {
        let new = std::mem::take(&mut self.raw_is_new);
        self.packs(new, |_, raw| raw.to_le_bytes())
    }

    /// 0x62
    fn engineering_packs(&mut self) -> Result<Done, Answer> {
        let new = std::mem::take(&mut self.engineering_is_new);
        self.packs(new, |place, raw| match readings::battery_engineering(place, raw) {
            Some(reading) => reading.to_le_bytes(),
            None => raw.to_le_bytes(),
        })
    }

    /// The layout that both share: word behind word.
    fn packs(
        &mut self,
        new: bool,
        bytes_of: impl Fn(usize, u16) -> [u8; 2],
    ) -> Result<Done, Answer> {
        for (place, raw) in self.words[..BATTERY_WORDS].iter().enumerate() {
            self.reply.put(WORDS_AT + 2 * place, &bytes_of(place, *raw));
        }
        let length = WORDS_AT + 2 * BATTERY_WORDS;
        Ok(if new { Done::Reply(length) } else { Done::Stale(length) })
    }

    /// 0x82
    fn get_parameter(&mut self, id: u16) -> Result<Done, Answer> {
        if let Some(place) = settings::find(id) {
            return self.parameter_reply(id, &place);
        }
        let kind = settings::read_only_kind(id).ok_or(Answer::Invalid)?;
        let value = self.read_only_value(id).to_le_bytes();
        Ok(self.value_reply(id, kind, value))
    }

    /// 0x84 from the check of its id on.
    fn set_parameter(&mut self, id: u16, command: &[u8]) -> Result<Done, Answer> {
        let place = settings::find(id).ok_or(Answer::Invalid)?;
        let value = &command[ID_END..];
        need(value, place.row.kind.size())?;
        self.settings.set(&place, value);
        self.parameter_reply(id, &place)
    }

    /// 0x86
    fn reset_parameter(&mut self, id: u16) -> Result<Done, Answer> {
        let place = settings::find(id).ok_or(Answer::Invalid)?;
        self.settings.reset(&place, self.model);
        self.parameter_reply(id, &place)
    }

    /// The value as it stands after the command.
    fn parameter_reply(&mut self, id: u16, place: &settings::Place) -> Result<Done, Answer> {
        let mut value = [0; 4];
        let size = place.row.kind.size();
        value[..size].copy_from_slice(self.settings.value(place));
        Ok(self.value_reply(id, place.row.kind, value))
    }

    /// Puts an id and its value into the reply.
    fn value_reply(&mut self, id: u16, kind: Kind, value: [u8; 4]) -> Done {
        self.reply.put_word(ID_AT, id);
        self.reply.put(VALUE_AT, &value[..kind.size()]);
        Done::Reply(VALUE_AT + kind.size())
    }

    /// Read-only values that no rule names read 0.
    fn read_only_value(&self, id: u16) -> u32 {
        match id {
            0x2800 => u32::from(self.model.stid()),
            0x2801 => u32::from(IVID),
            0x2802 => u32::from(self.bid),
            0x4801 => u32::from(self.shown.save_count),
            0x4802 => u32::from(self.shown.checksum),
            0x4803 => self.cause as u32,
            0x4804 => u32::from(self.resets.power),
            0x4805 => u32::from(self.resets.watchdog),
            0x4806 => u32::from(self.resets.command),
            0x480A => u32::from(EMERGENCY_LOW),
            0x480B => u32::from(EMERGENCY_HIGH),
            0x480C => u32::from(EMERGENCY_PERIOD_SECONDS),
            0x480D => u32::from(self.settings.safety_low()),
            0x480E => u32::from(self.settings.safety_high()),
            0x480F => u32::from(LINGER_SECONDS),
            0x4810 => u32::from(self.settings.watchdog_timeout()),
            0x6809 => self.channels.forced(),
            _ => 0,
        }
    }

    /// 0x90 and 0x92
    fn defaults_or_load(&mut self, code: u8, key: u8) -> Result<Done, Answer> {
        if key != CONFIGURATION_KEY {
            return Err(Answer::Invalid);
        }
        if code == 0x90 {
            self.take_defaults();
        } else {
            self.load();
        }
        PLAIN
    }

    /// 0x94
    fn save(&mut self, command: &[u8]) -> Result<Done, Answer> {
        let given = u16::from_le_bytes([command[5], command[6]]);
        let checksum = self.settings.checksum();
        if command[4] != CONFIGURATION_KEY || (given != 0 && given != checksum) {
            return Err(Answer::Invalid);
        }
        let stored = self.store.map_or(0, |store| store.save_count);
        let save_count = stored.saturating_add(1);
        self.store = Some(Store { save_count, settings: self.settings });
        self.shown.save_count = save_count;
        self.shown.checksum = checksum;
        PLAIN
    }
}

/// Where the id ends and the value of 0x84 begins.
const ID_END: usize = 6;

/// The bytes a command needs, none for a code that boards of the model do not
/// know. For 0x84 it is the id alone: how long the value is hangs on the id.
fn needed(model: Model, code: u8) -> Option<usize> {
    match code {
        0x02 | 0x06 | 0x30 | 0x32 => Some(4),
        0xAA | 0x90 | 0x92 => Some(5),
        0x82 | 0x84 | 0x86 => Some(6),
        0x94 => Some(7),
        _ => match model {
            Model::Distribution => needed_on_distribution(code),
            Model::Battery => needed_on_battery(code),
        },
    }
}

/// The same for the codes that a distribution board has for itself.
fn needed_on_distribution(code: u8) -> Option<usize> {
    match code {
        0x04 | 0x42 | 0x50 | 0x52 => Some(4),
        0x16 | 0x18 => Some(5),
        0x10 | 0x12 | 0x14 => Some(6),
        _ => None,
    }
}

/// The same for the codes that a battery board has for itself.
fn needed_on_battery(code: u8) -> Option<usize> {
    match code {
        0x44 | 0x60 | 0x62 => Some(4),
        _ => None,
    }
}

/// Where a measured word stands in the housekeeping replies.
fn word_at(place: usize) -> usize {
    if place < EARLY_WORDS {
        WORDS_AT + 2 * place
    } else {
        LATER_WORDS_AT + 2 * (place - EARLY_WORDS)
    }
}

/// Check 5 for this many bytes.
fn need(bytes: &[u8], length: usize) -> Result<(), Answer> {
    if bytes.len() < length {
        Err(Answer::Missing)
    } else {
        Ok(())
    }
}

/// The id of a parameter command that is long enough.
fn id_of(command: &[u8]) -> u16 {
    u16::from_le_bytes([command[4], command[5]])
}

/// The mask, and the channels it speaks of: without both bytes of the extended
/// part, channels 16 to 31 are left alone.
fn group_mask(command: &[u8]) -> (u32, u32) {
    let low = u32::from(u16::from_le_bytes([command[4], command[5]]));
    if command.len() < 8 {
        return (low, 0x0000_FFFF);
    }
    let high = u32::from(u16::from_le_bytes([command[6], command[7]]));
    (low | high << 16, 0xFFFF_FFFF)
}

/// Table 3-11's code of each refusal's meaning.
fn status(answer: Answer) -> u8 {
    match answer {
        Answer::UnknownCode => 0x02,
        Answer::Missing => 0x03,
        Answer::Invalid => 0x04,
        Answer::NotNow => 0x05,
        Answer::WrongBoard => 0x06,
        Answer::Accepted | Answer::TooShort | Answer::InStartup => 0x00,
    }
}
