//! The board: one machine, moved on by ticks.

use crate::channels::Channels;
use crate::mode::{Limits, Mode, ModeAge};
use crate::model::{Model, WORDS};
use crate::reply::Reply;
use crate::settings::{Settings, SIZE};
use crate::text::{self, Form};

/// The same for every model.
pub const IVID: u8 = 0x07;

pub const TICKS_PER_SECOND: u64 = 100;

pub const EMERGENCY_LOW: u16 = 12_000;
pub const EMERGENCY_HIGH: u16 = 12_400;
pub const EMERGENCY_PERIOD_SECONDS: u16 = 600;
pub const LINGER_SECONDS: u16 = 60;

/// What a board is built as.
#[derive(Clone, Copy, Debug)]
pub struct Profile<'a> {
    pub model: Model,
    pub bid: u8,
    pub fitted: u32,
    pub forced: u32,
    /// Whether the ABF is placed; only a battery board has one.
    pub abf: bool,
    /// Whether it names raw. One that names nothing has ASCII form.
    pub names_raw: bool,
    /// Save count and read/write values, lowest id first.
    pub stored: Option<(u16, &'a [u8; SIZE])>,
}

impl Profile<'_> {
    /// A new profile of a distribution board: nothing is stored, and it names no form.
    pub const fn distribution(bid: u8, fitted: u32, forced: u32) -> Profile<'static> {
        let model = Model::Distribution;
        Profile { model, bid, fitted, forced, abf: false, names_raw: false, stored: None }
    }

    /// A new profile of a battery board: nothing is stored, and it names no form.
    pub const fn battery(bid: u8, abf: bool) -> Profile<'static> {
        let model = Model::Battery;
        Profile { model, bid, fitted: 0, forced: 0, abf, names_raw: false, stored: None }
    }

    /// The same profile, but it names raw.
    pub const fn naming_raw(self) -> Self {
        Profile { names_raw: true, ..self }
    }

    /// The form in which its board starts, and to which a reset leads back.
    pub const fn form(&self) -> Form {
        if self.names_raw {
            Form::Raw
        } else {
            Form::Ascii
        }
    }
}

/// Why a profile is refused with 8.
#[derive(Clone, Copy, Debug, PartialEq, Eq)]
pub enum ProfileFault {
    Bid,
    NothingFitted,
    ForcedNotFitted,
    /// A battery board has no channels.
    ChannelsFitted,
    StoredOutOfRange,
}

#[derive(Clone, Copy, Debug, PartialEq, Eq)]
pub enum Cause {
    PowerOn = 0,
    Watchdog = 1,
    Commanded = 2,
    Emergency = 4,
}

/// Resets of each kind since the board was started.
#[derive(Clone, Copy, Debug, Default, PartialEq, Eq)]
pub struct ResetCounts {
    pub power: u16,
    pub watchdog: u16,
    pub command: u16,
}

/// What the two read-only values of a save show.
#[derive(Clone, Copy, Debug, Default, PartialEq, Eq)]
pub struct Shown {
    pub save_count: u16,
    pub checksum: u16,
}

/// Settings that outlive a reset.
#[derive(Clone, Copy, Debug)]
pub struct Store {
    pub save_count: u16,
    pub settings: Settings,
}

/// What a tick brings.
#[derive(Clone, Copy, Debug)]
pub struct Tick<'a> {
    pub rail: i16,
    pub overcurrent: u32,
    /// None or all of them.
    pub words: &'a [u16],
    /// A transfer of no bytes is still a transfer.
    pub command: Option<&'a [u8]>,
}

#[derive(Clone, Copy, Debug, PartialEq, Eq)]
pub enum Event {
    None,
    PeripheralReset,
    WatchdogReset,
}

/// The numbers of the command table.
#[derive(Clone, Copy, Debug, PartialEq, Eq)]
pub enum Answer {
    Accepted = 0,
    TooShort = 1,
    InStartup = 2,
    WrongBoard = 3,
    UnknownCode = 4,
    Missing = 5,
    NotNow = 6,
    Invalid = 7,
}

/// What a tick tells.
#[derive(Clone, Copy, Debug, PartialEq, Eq)]
pub struct Told {
    pub event: Event,
    pub answer: Option<Answer>,
}

/// Refusal 9: the tick did not happen.
#[derive(Clone, Copy, Debug, PartialEq, Eq)]
pub struct WrongWordCount;

#[derive(Clone, Debug)]
pub struct Board {
    pub(crate) model: Model,
    pub(crate) bid: u8,
    pub(crate) abf: bool,
    pub(crate) channels: Channels,
    pub(crate) mode: ModeAge,
    pub(crate) timer: u64,
    pub(crate) settings: Settings,
    pub(crate) shown: Shown,
    pub(crate) store: Option<Store>,
    pub(crate) cause: Cause,
    pub(crate) resets: ResetCounts,
    /// As many from the first on as the model has; the others stay 0.
    pub(crate) words: [u16; WORDS],
    /// Whether words came that no accepted 0x50, or 0x60, has told since.
    pub(crate) raw_is_new: bool,
    /// The same of 0x52, or 0x62.
    pub(crate) engineering_is_new: bool,
    pub(crate) reply: Reply,
    /// Whether the reply that waits was made in the latest tick.
    pub(crate) replied: bool,
    /// The form that the profile has.
    pub(crate) form_of_profile: Form,
    /// The form in force.
    pub(crate) form: Form,
}

impl Board {
    /// The board that a profile starts, or why the profile is refused.
    pub fn start(profile: &Profile) -> Result<Board, ProfileFault> {
        let store = check(profile)?;
        let mut board = Board {
            model: profile.model,
            bid: profile.bid,
            abf: profile.abf,
            channels: Channels::new(profile.fitted, profile.forced),
            mode: ModeAge::new(Mode::Startup),
            timer: 0,
            settings: Settings::defaults(profile.model),
            shown: Shown::default(),
            store,
            cause: Cause::PowerOn,
            resets: ResetCounts::default(),
            words: [0; WORDS],
            raw_is_new: false,
            engineering_is_new: false,
            reply: Reply::none(),
            replied: false,
            form_of_profile: profile.form(),
            form: profile.form(),
        };
        board.load();
        Ok(board)
    }

    /// One tick of 10 ms. The steps work one after the other on one state.
    pub fn tick(&mut self, tick: &Tick) -> Result<Told, WrongWordCount> {
        if !tick.words.is_empty() && tick.words.len() != self.model.words() {
            return Err(WrongWordCount);
        }
        self.replied = false;
        self.rise(tick.words);
        self.change_mode(tick.rail);
        self.channels.overcurrent(tick.overcurrent);
        let answer = tick.command.map(|command| self.obey(command, tick.rail));
        let event = self.watch();
        Ok(Told { event, answer })
    }

    /// Step 1: the age and the timer rise, and words brought take the place of the last.
    fn rise(&mut self, words: &[u16]) {
        self.mode.rise();
        self.timer = self.timer.saturating_add(1);
        if !words.is_empty() {
            self.words[..words.len()].copy_from_slice(words);
            self.raw_is_new = true;
            self.engineering_is_new = true;
        }
    }

    /// Step 2: one change by the table at most.
    fn change_mode(&mut self, rail: i16) {
        let before = self.mode.mode();
        let limits = self.limits();
        if self.mode.step(rail, &limits) {
            self.follow(before, self.mode.mode());
        }
        if before.is_dark() || self.mode.mode().is_dark() {
            self.timer = 0;
        }
    }

    /// What a change by the table does besides the change itself.
    fn follow(&mut self, before: Mode, after: Mode) {
        if before == Mode::Emergency {
            self.resets.power = self.resets.power.saturating_add(1);
            self.cause = Cause::Emergency;
        }
        if before.is_dark() {
            self.channels.light_up();
        } else if after == Mode::Emergency {
            self.channels.go_dark();
        } else if after == Mode::Safety {
            self.channels.drop_commandable();
        }
    }

    /// What the mode table compares with, as the settings stand.
    pub(crate) fn limits(&self) -> Limits {
        Limits {
            safety_low: i32::from(self.settings.safety_low()),
            safety_high: i32::from(self.settings.safety_high()),
            emergency_low: i32::from(EMERGENCY_LOW),
            emergency_high: i32::from(EMERGENCY_HIGH),
            linger: u64::from(LINGER_SECONDS) * TICKS_PER_SECOND,
            emergency_period: u64::from(EMERGENCY_PERIOD_SECONDS) * TICKS_PER_SECOND,
        }
    }

    /// Step 5: what the watchdog does, a reset of the board included.
    fn watch(&mut self) -> Event {
        let timeout = u64::from(self.settings.watchdog_timeout()) * TICKS_PER_SECOND;
        let event = judge(self.timer, timeout);
        if event == Event::WatchdogReset {
            self.resets.watchdog = self.resets.watchdog.saturating_add(1);
            self.reset(Cause::Watchdog);
        }
        event
    }

    /// Back to startup. The store and the reset counts outlive it.
    pub(crate) fn reset(&mut self, cause: Cause) {
        self.mode.enter(Mode::Startup);
        self.timer = 0;
        self.channels.reset();
        self.words = [0; WORDS];
        self.raw_is_new = false;
        self.engineering_is_new = false;
        self.load();
        self.reply.discard();
        self.replied = false;
        self.form = self.form_of_profile;
        self.cause = cause;
    }

    /// Settings from the store, or the defaults where nothing is stored.
    pub(crate) fn load(&mut self) {
        match self.store {
            Some(store) => {
                self.settings = store.settings;
                self.shown =
                    Shown { save_count: store.save_count, checksum: store.settings.checksum() };
            }
            None => self.take_defaults(),
        }
    }

    /// The defaults, with nothing to show as saved.
    pub(crate) fn take_defaults(&mut self) {
        self.settings = Settings::defaults(self.model);
        self.shown = Shown::default();
    }

    /// A bus read: the waiting reply from its first byte, then 0xFF.
    pub fn read(&self, buffer: &mut [u8]) {
        let reply = self.reply.bytes();
        let shared = reply.len().min(buffer.len());
        buffer[..shared].copy_from_slice(&reply[..shared]);
        buffer[shared..].fill(0xFF);
    }

    /// The read call of the text line.
    pub fn read_text<'a>(
        &mut self,
        received: &'a [u8],
        scratch: &'a mut [u8],
    ) -> Result<text::Read<'a>, text::Refusal> {
        text::read(&mut self.form, received, scratch)
    }

    /// Frames the reply of the latest tick; 0 bytes where it made none or lost it.
    pub fn frame_reply(&self, out: &mut [u8]) -> Result<usize, text::Short> {
        match self.reply_of_tick() {
            Some(reply) => text::frame(self.form, reply, out),
            None => Ok(0),
        }
    }

    /// The reply that the latest tick made and that still waits.
    pub fn reply_of_tick(&self) -> Option<&[u8]> {
        self.replied.then(|| self.reply.bytes())
    }

    /// The bytes of the reply that waits, none of them where none does.
    pub fn waiting_reply(&self) -> &[u8] {
        self.reply.bytes()
    }

    /// What the board is.
    pub fn model(&self) -> Model {
        self.model
    }

    /// Whether the ABF is placed, as the profile says.
    pub fn abf(&self) -> bool {
        self.abf
    }

    /// The number of the board.
    pub fn bid(&self) -> u8 {
        self.bid
    }

    /// The mode and its age.
    pub fn mode(&self) -> ModeAge {
        self.mode
    }

    /// The watchdog timer, in ticks.
    pub fn timer(&self) -> u64 {
        self.timer
    }

    /// The output channels.
    pub fn channels(&self) -> &Channels {
        &self.channels
    }

    /// The settings in force.
    pub fn settings(&self) -> &Settings {
        &self.settings
    }

    /// What the two read-only values of a save show.
    pub fn shown(&self) -> Shown {
        self.shown
    }

    /// What is stored, if anything is.
    pub fn store(&self) -> Option<&Store> {
        self.store.as_ref()
    }

    /// What the last reset came from.
    pub fn cause(&self) -> Cause {
        self.cause
    }

    /// The three reset counts.
    pub fn resets(&self) -> ResetCounts {
        self.resets
    }

    /// The measured words, as they last came.
    pub fn words(&self) -> &[u16] {
        &self.words[..self.model.words()]
    }

    /// The form that the profile has: a switch leaves it alone.
    pub fn form_of_profile(&self) -> Form {
        self.form_of_profile
    }

    /// The form of the text line that is in force.
    pub fn form(&self) -> Form {
        self.form
    }
}

/// Looks a profile over and hands back its store.
fn check(profile: &Profile) -> Result<Option<Store>, ProfileFault> {
    if profile.bid < 1 || profile.bid > profile.model.highest_bid() {
        return Err(ProfileFault::Bid);
    }
    check_channels(profile)?;
    match profile.stored {
        Some((save_count, bytes)) => match Settings::from_store(bytes) {
            Some(settings) => Ok(Some(Store { save_count, settings })),
            None => Err(ProfileFault::StoredOutOfRange),
        },
        None => Ok(None),
    }
}

/// Looks the channels of a profile over.
fn check_channels(profile: &Profile) -> Result<(), ProfileFault> {
    match profile.model {
        Model::Distribution if profile.fitted == 0 => Err(ProfileFault::NothingFitted),
        Model::Distribution if profile.forced & !profile.fitted != 0 => {
            Err(ProfileFault::ForcedNotFitted)
        }
        Model::Battery if profile.fitted | profile.forced != 0 => Err(ProfileFault::ChannelsFitted),
        Model::Distribution | Model::Battery => Ok(()),
    }
}

/// The watchdog's verdict, both times in ticks. Below the timeout the products
/// cannot overflow, and a timer of 0 never reaches the 65 parts.
fn judge(timer: u64, timeout: u64) -> Event {
    if timeout == 0 {
        Event::None
    } else if timer >= timeout {
        Event::WatchdogReset
    } else if 100 * timer >= 65 * timeout && 100 * (timer - 1) < 65 * timeout {
        Event::PeripheralReset
    } else {
        Event::None
    }
}

/// Tops, among them those that no script of a sensible length drives up to.
#[cfg(test)]
mod tests {
    use super::*;

    const HIGH: i16 = 15_000;

    /// A board that has just left startup for nominal.
    fn nominal() -> Board {
        let mut board = Board::start(&Profile::distribution(1, 3, 1)).unwrap();
        for _ in 0..50 {
            run(&mut board, HIGH, None);
        }
        board
    }

    /// One tick without overcurrent and words.
    fn run(board: &mut Board, rail: i16, command: Option<&[u8]>) -> Told {
        board.tick(&Tick { rail, overcurrent: 0, words: &[], command }).unwrap()
    }

    #[test]
    fn the_command_reset_count_stops_at_65535() {
        for before in [65_534, 65_535] {
            let mut board = nominal();
            board.resets.command = before;
            run(&mut board, HIGH, Some(&[0x11, 7, 0xAA, 1, 0xA6]));
            let expected = ResetCounts { command: 65_535, ..ResetCounts::default() };
            assert_eq!((board.resets, board.cause), (expected, Cause::Commanded));
        }
    }

    #[test]
    fn the_watchdog_reset_count_stops_at_65535() {
        for before in [65_534, 65_535] {
            let mut board = nominal();
            board.resets.watchdog = before;
            board.timer = 29_999;
            assert_eq!(run(&mut board, HIGH, None).event, Event::WatchdogReset);
            let expected = ResetCounts { watchdog: 65_535, ..ResetCounts::default() };
            assert_eq!((board.resets, board.cause), (expected, Cause::Watchdog));
        }
    }

    #[test]
    fn the_power_reset_count_stops_at_65535() {
        for before in [65_534, 65_535] {
            let mut board = nominal();
            board.resets.power = before;
            board.mode.enter(Mode::Emergency);
            run(&mut board, HIGH, None);
            let expected = ResetCounts { power: 65_535, ..ResetCounts::default() };
            assert_eq!((board.resets, board.cause), (expected, Cause::Emergency));
        }
    }

    #[test]
    fn the_timer_stops_at_the_top() {
        let mut board = nominal();
        run(&mut board, HIGH, Some(&[0x11, 7, 0x84, 1, 0x00, 0x40, 0, 0]));
        board.timer = u64::MAX - 1;
        for _ in 0..2 {
            assert_eq!(run(&mut board, HIGH, None).event, Event::None);
            assert_eq!(board.timer, u64::MAX);
        }
    }

    #[test]
    fn the_watchdog_speaks_up_once_at_65_parts() {
        for timeout in (1..=65_535).map(|seconds| seconds * TICKS_PER_SECOND) {
            let first = (65 * timeout).div_ceil(100);
            assert_eq!(judge(first - 1, timeout), Event::None);
            assert_eq!(judge(first, timeout), Event::PeripheralReset);
            assert_eq!(judge(first + 1, timeout), Event::None);
            assert_eq!(judge(timeout - 1, timeout), Event::None);
            assert_eq!(judge(timeout, timeout), Event::WatchdogReset);
            assert_eq!(judge(u64::MAX, timeout), Event::WatchdogReset);
        }
    }
}
