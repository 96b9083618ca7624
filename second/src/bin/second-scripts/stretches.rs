//! The long stretches: lingers, a whole emergency period, counts to their top.

use crate::author::Author;
use crate::commands;
use crate::data_scenes::{lend, told_apart, TELLING};
use crate::starts::{stored_start, with};
use second::board::EMERGENCY_HIGH;
use second::coverage::rails;
use second::mode::Mode;

/// Waits in safety or emergency up to an age, with harmless things going on.
fn linger_until(author: &mut Author, age: u64) {
    let mode = author.mode();
    while author.board().mode().age() < age {
        match author.rng.below(30) {
            0 => commands::random_harmless(author),
            1 => overcurrent_only(author),
            2 => author.give(0x06, &[]),
            3 if author.rng.once_in(20) => author.show(),
            4 if author.rng.once_in(10) => {
                lend(author, 122);
                let code = author.rng.pick(&TELLING);
                author.give(code, &[]);
            }
            _ => author.idle(),
        }
        assert_eq!(author.mode(), mode, "the stretch must hold its mode");
    }
}

/// A tick that brings an overcurrent set and nothing else.
fn overcurrent_only(author: &mut Author) {
    let (rail, tripped) = (author.steady(), author.rng.channels());
    author.tick(rail, tripped, None);
}

/// One stay in safety up to the tick before the linger is over.
fn linger(author: &mut Author) {
    author.reach(Mode::Safety);
    author.calm_watchdog();
    linger_until(author, 5_999);
}

/// A tick with this rail that feeds the watchdog.
fn feed_at(author: &mut Author, rail: i64) {
    let command = author.command(0x06, &[]);
    author.tick(rail as i16, 0, Some(&command));
}

/// All ways out of safety by the table, each missed by one tick and by one
/// millivolt before it is taken.
pub fn lingers(author: &mut Author) {
    author.say("B 05 0F0FF0F0 01011010");
    let high = i64::from(author.board().settings().safety_high());
    linger(author);
    feed_at(author, high + 1);
    for rail in [high, 12_000, 12_001, high - 1, high + 1] {
        feed_at(author, rail);
    }
    linger(author);
    feed_at(author, 32_767);
    feed_at(author, 32_767);
    linger(author);
    feed_at(author, 11_999);
    feed_at(author, 11_999);
    author.show();
    all_rails_in_emergency(author);
    linger(author);
    feed_at(author, -32_768);
    feed_at(author, -32_768);
    author.give(0x50, &[]);
    author.give(0x52, &[]);
    author.tick(32_767, u32::MAX, None);
    author.show();
    commands::status(author);
    odd_lingers(author);
}

/// Lingers with safety high below emergency low, and above every rail.
fn odd_lingers(author: &mut Author) {
    author.reach(Mode::Safety);
    author.set(0x4043, 5_000);
    author.calm_watchdog();
    while author.board().mode().age() < 5_999 {
        author.tick(12_000, 0, None);
    }
    feed_at(author, 5_001);
    feed_at(author, 5_001);
    author.reach(Mode::Safety);
    author.set(0x4043, 40_000);
    author.calm_watchdog();
    linger_until(author, 6_010);
    feed_at(author, 32_767);
    feed_at(author, 12_000);
    feed_at(author, 11_999);
    author.give(0xAA, &[0xA6]);
    author.show();
}

/// Every edge rail in emergency that does not end it, then the one that does.
fn all_rails_in_emergency(author: &mut Author) {
    let below = |rail: &i32| *rail <= i32::from(EMERGENCY_HIGH);
    for rail in rails(author.board()).into_iter().filter(below) {
        author.tick(rail as i16, u32::MAX, None);
    }
    author.tick(12_401, 0, None);
    author.idle();
    author.show();
    commands::status(author);
}

/// A whole emergency period, with every command tried in it.
pub fn period(author: &mut Author) {
    author.say("B 06 FFFF0FFF 00F00F00");
    author.reach(Mode::Nominal);
    lend(author, 122);
    author.give(0x16, &[0]);
    overcurrent_only(author);
    author.reach(Mode::Emergency);
    for code in [0x50, 0x50, 0x52, 0x52] {
        author.give(code, &[]);
    }
    for code in TELLING {
        lend(author, 122);
        author.give(code, &[]);
    }
    told_apart(author);
    commands::all_in(author, Mode::Emergency, false);
    let wrong_key = author.command(0xAA, &[0xA5]);
    author.send(&wrong_key);
    author.send(&wrong_key[..4]);
    author.send(&[0, 7, 0xAA, 1, 0xA6]);
    author.give(0x90, &[0xA7]);
    linger_until(author, 59_998);
    author.tick(12_400, u32::MAX, None);
    let tripped = author.rng.channels();
    author.tick(12_400, tripped, None);
    author.show();
    author.idle();
    // In emergency once more, with the safety thresholds within reach.
    author.reach(Mode::Emergency);
    author.set(0x4042, 3_000);
    author.set(0x4043, 5_000);
    for rail in [2_999, 3_000, 3_001, 4_999, 5_000, 5_001] {
        author.tick(rail, 0, None);
    }
    author.give(0xAA, &[0xA6]);
    author.show();
}

/// Overcurrent counts to their top: each tick trips the channels that the
/// command of the same tick turns on again.
pub fn counts(author: &mut Author) {
    author.say("B 01 FFFFFFFF 0F0F0F0F");
    author.reach(Mode::Nominal);
    author.give(0x10, &[0xFF; 4]);
    let on = author.command(0x10, &[0xFF; 4]);
    for _ in 0..65_537 {
        author.tick(32_767, 0xFFFF_FFFE, Some(&on));
    }
    author.give(0x42, &[]);
    author.show();
}

/// Watchdogs that are long: the default, one just above 32,767 ticks, one above
/// 65,535 ticks, none at all, and the longest. Each is left alone.
pub fn timeouts(author: &mut Author) {
    author.say("B 08 0000FFFF 000000F0");
    author.reach(Mode::Nominal);
    idle_for(author, 30_100);
    for (mode, seconds) in [(Mode::Nominal, 4), (Mode::Safety, 10), (Mode::Safety, 328)] {
        author.reach(mode);
        author.set(0x4000, seconds);
        idle_for(author, usize::from(seconds) * 100 + 10);
    }
    for seconds in [700, 0, 65_535] {
        author.reach(Mode::Nominal);
        author.set(0x4000, seconds);
        idle_for(author, 70_010);
    }
    commands::status(author);
}

/// Leaves the watchdog alone for this many ticks, then shows the state.
fn idle_for(author: &mut Author, ticks: usize) {
    for _ in 0..ticks {
        author.idle();
    }
    author.show();
}

/// The command reset count to its top and past it, each reset in the first tick
/// that takes it.
pub fn resets(author: &mut Author) {
    author.say("B 01 00000001 00000000");
    let reset = author.command(0xAA, &[0xA6]);
    for _ in 0..65_537 {
        author.run(0, 49);
        author.tick(0, 0, Some(&reset));
    }
    author.show();
    author.startup_at(0);
    commands::status(author);
}

/// The watchdog reset count to its top and one past it, from nominal and from
/// safety in turn. The timeout of 1 s is stored, so that each reset brings it back.
pub fn bites(author: &mut Author) {
    author.say(&stored_start("01 00000003 00000001", 1, &with(&[(0x4000, 1)])));
    for bitten in 0..=65_535 {
        let rail = if bitten % 2 == 0 { 0 } else { 32_767 };
        author.startup_at(rail);
        if bitten >= 65_534 {
            author.show();
            commands::status(author);
        }
        while author.mode() != Mode::Startup {
            author.tick(rail, 0, None);
        }
    }
    author.show();
    author.startup_at(0);
    commands::status(author);
}
