//! Into emergency and out of it: what works in it, and what entering and leaving keep.

use crate::author::Author;
use crate::commands;
use crate::data_scenes::{lend, told_apart};
use crate::text_scenes;
use second::mode::Mode;
use second::text::Form;

/// Just below emergency low, and just above emergency high.
const DEEP: i16 = 11_999;
const UP: i16 = 12_401;

/// Every way into emergency and out of it.
pub fn all(author: &mut Author) {
    author.say("B 03 FF00FF0F 11001103");
    never_spoken_to(author);
    nothing_but_the_table(author);
    read_at_the_edges(author, 0x50, 0x52);
    read_at_the_edges(author, 0x52, 0x50);
    counts_at_the_edges(author);
    refused_at_the_edges(author);
    reset_at_the_edge(author);
    low_below_emergency_low(author);
    low_above_emergency_high(author);
    high_of_its_own(author);
    high_below_emergency_low(author);
    author.show();
}

/// Into emergency and out without a transfer, words or a reply.
fn never_spoken_to(author: &mut Author) {
    author.startup_at(-1);
    enter(author, None);
    look(author);
    author.give(0x50, &[]);
    look(author);
    author.give(0x52, &[]);
    look(author);
    author.tick(UP, 0, None);
    author.give(0xAA, &[0xA6]);
}

/// Counts, latches, a save and settings that differ from it; then safety up to
/// shortly before the linger is over.
fn prepare(author: &mut Author) {
    author.reach(Mode::Nominal);
    author.give(0x10, &[0xFF; 4]);
    let (rail, tripped) = (author.steady(), author.rng.channels() | 0x0100_0101);
    author.tick(rail, tripped, None);
    author.give(0x94, &[0xA7, 0, 0]);
    let value = author.rng.between(1, 100) as u8;
    author.give(0x84, &[0x01, 0x10, value]);
    author.reach(Mode::Safety);
    author.calm_watchdog();
    wait(author, 5_980);
}

/// Idles up to an age in safety; until the linger is over no rail ends it.
fn wait(author: &mut Author, age: u64) {
    while author.board().mode().age() < age {
        author.tick(13_000, 0, None);
    }
}

/// The tick that enters emergency.
fn enter(author: &mut Author, command: Option<&[u8]>) {
    wait(author, 6_000);
    author.tick(DEEP, u32::MAX, command);
    assert_eq!(author.mode(), Mode::Emergency, "the linger is over and the rail is low");
}

/// Shows the state, and what a framing and a bus read make of it.
fn look(author: &mut Author) {
    author.show();
    author.say("F 0030");
    author.say("R 000C");
}

/// New words that nothing has read, the form ASCII and a reply that waits.
fn load_up(author: &mut Author) {
    text_scenes::switch(author, Form::Ascii);
    lend(author, 122);
    author.idle();
    author.give(0x82, &[0x42, 0x40]);
}

/// What is new is told once by each of the two codes.
fn read_words(author: &mut Author) {
    let codes = author.rng.pick(&[[0x50, 0x52], [0x52, 0x50]]);
    for code in [codes[0], codes[0], codes[1], codes[1]] {
        author.give(code, &[]);
    }
}

/// Entered and left with no command in either tick; a watchdog reset later.
fn nothing_but_the_table(author: &mut Author) {
    prepare(author);
    load_up(author);
    enter(author, None);
    look(author);
    author.idle();
    author.say("F 0030");
    read_words(author);
    told_apart(author);
    text_scenes::some(author);
    load_up(author);
    look(author);
    author.tick(12_400, u32::MAX, None);
    author.tick(UP, 0, None);
    look(author);
    author.idle();
    look(author);
    read_words(author);
    author.give(0x42, &[]);
    commands::all_read_only(author);
    author.set(0x4000, 1);
    text_scenes::some(author);
    for _ in 0..100 {
        author.idle();
    }
    look(author);
    author.reach(Mode::Nominal);
    commands::all_read_only(author);
}

/// Words and the code that tells them in the very ticks that enter and leave;
/// the other code tells them behind it.
fn read_at_the_edges(author: &mut Author, code: u8, other: u8) {
    prepare(author);
    load_up(author);
    lend(author, 122);
    let housekeeping = author.command(code, &[]);
    enter(author, Some(&housekeeping));
    look(author);
    author.give(code, &[]);
    author.give(other, &[]);
    lend(author, 122);
    author.tick(UP, u32::MAX, Some(&housekeeping));
    look(author);
    author.give(code, &[]);
    author.give(other, &[]);
    author.give(0xAA, &[0xA6]);
    look(author);
    author.reach(Mode::Nominal);
    author.give(other, &[]);
    commands::all_read_only(author);
}

/// Forced channels that trip in the tick that turns them on, and 0x30 in it.
fn counts_at_the_edges(author: &mut Author) {
    prepare(author);
    author.say("L 0000 -");
    let counts = author.command(0x42, &[]);
    enter(author, Some(&counts));
    author.give(0x04, &[]);
    author.give(0x92, &[0xA7]);
    look(author);
    load_up(author);
    author.tick(UP, 0x0100_0001, Some(&counts));
    look(author);
    prepare(author);
    enter(author, None);
    load_up(author);
    let nominal = author.command(0x30, &[]);
    author.tick(UP, 0, Some(&nominal));
    look(author);
    author.idle();
    read_words(author);
}

/// Refusals of each kind in the ticks that enter and leave.
fn refused_at_the_edges(author: &mut Author) {
    prepare(author);
    load_up(author);
    let safety = author.command(0x32, &[]);
    enter(author, Some(&safety));
    look(author);
    author.send(&[0x11, 7, 0x02]);
    look(author);
    let on = author.command(0x10, &[0xFF; 4]);
    author.tick(UP, u32::MAX, Some(&on));
    look(author);
}

/// A reset by command in the tick that leaves.
fn reset_at_the_edge(author: &mut Author) {
    prepare(author);
    load_up(author);
    enter(author, Some(&[0x12, 7, 0x02, 3]));
    look(author);
    let reset = author.command(0xAA, &[0xA6]);
    author.tick(UP, u32::MAX, Some(&reset));
    look(author);
    author.reach(Mode::Nominal);
    commands::status(author);
}

/// Emergency is entered and left by its own thresholds alone.
fn low_below_emergency_low(author: &mut Author) {
    author.reach(Mode::Nominal);
    author.set(0x4042, 5_000);
    prepare(author);
    wait(author, 6_000);
    for rail in [12_000, 13_000, 14_000] {
        author.tick(rail, 0, None);
    }
    author.tick(DEEP, 0, None);
    for rail in [4_999, 5_000, 5_001, 12_399, 12_400] {
        author.tick(rail, 0, None);
    }
    author.tick(UP, 0, None);
    let nominal = author.command(0x30, &[]);
    author.tick(4_999, 0, Some(&nominal));
    author.tick(5_000, 0, Some(&nominal));
    author.idle();
}

/// Safety low above both emergency thresholds: neither way out of emergency asks for it.
fn low_above_emergency_high(author: &mut Author) {
    author.reach(Mode::Nominal);
    author.set(0x4042, 20_000);
    author.tick(20_000, 0, None);
    author.tick(19_999, 0, None);
    author.calm_watchdog();
    wait(author, 6_000);
    for rail in [13_000, 12_001, 12_000, 14_000] {
        author.tick(rail, 0, None);
    }
    author.tick(DEEP, 0, None);
    author.tick(12_400, 0, None);
    let nominal = author.command(0x30, &[]);
    author.tick(UP, 0, Some(&nominal));
    author.tick(19_999, 0, Some(&nominal));
    author.tick(20_000, 0, Some(&nominal));
    author.show();
}

/// Safety is left upwards by safety high, whatever safety low says to that.
fn high_of_its_own(author: &mut Author) {
    author.reach(Mode::Nominal);
    author.set(0x4043, 20_000);
    author.set(0x4042, 25_000);
    author.reach(Mode::Safety);
    author.calm_watchdog();
    wait(author, 6_000);
    for rail in [14_001, 20_000, 20_001, 24_999] {
        author.tick(rail, 0, None);
    }
    author.give(0x90, &[0xA7]);
}

/// At safety high and below emergency low: not above the one, so below the other.
fn high_below_emergency_low(author: &mut Author) {
    author.reach(Mode::Nominal);
    author.set(0x4043, 5_000);
    author.reach(Mode::Safety);
    author.calm_watchdog();
    wait(author, 6_000);
    for rail in [5_000, 5_001, 12_400, UP] {
        author.tick(rail, 0, None);
    }
}
