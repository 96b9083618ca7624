//! The fifteen rows of the boundary table.

mod common;

use common::*;
use second::board::{Answer, Event};
use second::mode::{Limits, Mode, ModeAge};

const NOOP: [u8; 4] = [0x11, 0x07, 0x02, 0x01];
const NOOP_REPLY: [u8; 5] = [0x11, 0x07, 0x03, 0x01, 0x80];

const LIMITS: Limits = Limits {
    safety_low: 6_500,
    safety_high: 7_000,
    emergency_low: 6_000,
    emergency_high: 6_400,
    linger: 100,
    emergency_period: 300,
};

/// The mode after a step that follows the rise to this age.
fn after(mode: Mode, age: u64, rail: i16) -> ModeAge {
    let mut state = ModeAge::new(mode);
    for _ in 0..age {
        state.rise();
    }
    state.step(rail, &LIMITS);
    state
}

#[test]
fn row_01_noop_in_nominal() {
    let mut board = nominal();
    assert_eq!(send(&mut board, &NOOP), Answer::Accepted);
    assert_eq!(board.waiting_reply(), NOOP_REPLY);
}

#[test]
fn row_02_noop_with_one_byte_more() {
    let mut board = nominal();
    assert_eq!(send(&mut board, &[0x11, 0x07, 0x02, 0x01, 0x55]), Answer::Accepted);
    assert_eq!(board.waiting_reply(), NOOP_REPLY);
}

#[test]
fn row_03_three_bytes_make_no_reply() {
    let mut board = nominal();
    assert_eq!(send(&mut board, &NOOP[..3]), Answer::TooShort);
    assert_eq!(board.waiting_reply(), []);
}

#[test]
fn row_04_an_odd_code_is_refused_with_4() {
    let mut board = nominal();
    assert_eq!(send(&mut board, &[0x11, 0x07, 0x03, 0x01]), Answer::UnknownCode);
    assert_eq!(board.waiting_reply(), [0x11, 0x07, 0x03, 0x01, 0x02]);
}

#[test]
fn row_05_startup_stays_at_49() {
    assert_eq!(after(Mode::Startup, 49, 7_000).mode(), Mode::Startup);
    let mut board = started(FITTED, FORCED);
    ticks(&mut board, HIGH, 49);
    assert_eq!((board.mode().mode(), board.mode().age()), (Mode::Startup, 49));
}

#[test]
fn row_06_startup_leaves_at_50() {
    assert_eq!(after(Mode::Startup, 50, 7_000), ModeAge::new(Mode::Nominal));
    let mut board = started(FITTED, FORCED);
    ticks(&mut board, HIGH, 50);
    assert_eq!((board.mode().mode(), board.mode().age()), (Mode::Nominal, 0));
}

#[test]
fn row_07_safety_lingers_at_100() {
    assert_eq!(after(Mode::Safety, 100, 7_001).mode(), Mode::Safety);
}

#[test]
fn row_08_safety_leaves_at_101() {
    assert_eq!(after(Mode::Safety, 101, 7_001), ModeAge::new(Mode::Nominal));
}

#[test]
fn row_09_emergency_stays_at_299() {
    assert_eq!(after(Mode::Emergency, 299, -20).mode(), Mode::Emergency);
}

#[test]
fn row_10_emergency_leaves_at_300() {
    assert_eq!(after(Mode::Emergency, 300, -20), ModeAge::new(Mode::Safety));
}

#[test]
fn row_11_a_rail_below_zero_goes_to_safety() {
    assert_eq!(after(Mode::Nominal, 1, -20), ModeAge::new(Mode::Safety));
    let mut board = nominal();
    set(&mut board, 0x4042, 6_500);
    tick(&mut board, -20);
    assert_eq!(board.mode().mode(), Mode::Safety);
}

#[test]
fn row_12_a_rail_at_the_threshold_stays_nominal() {
    assert_eq!(after(Mode::Nominal, 1, 6_500).mode(), Mode::Nominal);
    let mut board = nominal();
    set(&mut board, 0x4042, 6_500);
    tick(&mut board, 6_500);
    assert_eq!(board.mode().mode(), Mode::Nominal);
    tick(&mut board, 6_499);
    assert_eq!(board.mode().mode(), Mode::Safety);
}

/// A board in nominal with channels 0 and 1 on.
fn with_0_and_1_on() -> second::board::Board {
    let mut board = in_mode(Mode::Nominal, 0b1111, 0b0001);
    assert_eq!(give(&mut board, 0x16, &[1]), Answer::Accepted);
    assert_eq!(board.channels().on(), 0b0011);
    board
}

#[test]
fn row_13_group_state_keeps_the_forced_channel() {
    let mut board = with_0_and_1_on();
    assert_eq!(give(&mut board, 0x14, &[0b1100, 0]), Answer::Accepted);
    assert_eq!(board.channels().on(), 0b1101);
}

#[test]
fn row_14_group_off_keeps_the_forced_channel() {
    let mut board = with_0_and_1_on();
    assert_eq!(give(&mut board, 0x12, &[0b0011, 0]), Answer::Accepted);
    assert_eq!(board.channels().on(), 0b0001);
}

#[test]
fn row_15_watchdog_of_1000_ticks() {
    let mut board = nominal();
    set(&mut board, 0x4000, 10);
    assert_eq!(board.timer(), 0);
    for timer in 1..1_000 {
        let expected = if timer == 650 { Event::PeripheralReset } else { Event::None };
        assert_eq!(tick(&mut board, HIGH), expected, "at {timer}");
        assert_eq!(board.timer(), timer);
    }
    assert_eq!(tick(&mut board, HIGH), Event::WatchdogReset);
    assert_eq!((board.mode().mode(), board.mode().age(), board.timer()), (Mode::Startup, 0, 0));
}
