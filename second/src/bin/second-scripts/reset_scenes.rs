//! Short watchdogs left to bite, and resets by command.

use crate::author::Author;
use crate::commands;
use crate::data_scenes::{lend_all, telling};
use crate::text_scenes::switch_by_lot;
use second::mode::Mode;

/// A short watchdog left to bite, with something happening near each edge.
pub fn watchdog(author: &mut Author) {
    author.reach(Mode::Nominal);
    let seconds = author.rng.pick(&[1, 1, 1, 1, 2, 3]);
    author.set(0x4000, seconds);
    if author.rng.once_in(2) {
        author.give(0x94, &[0xA7, 0, 0]);
    }
    if author.rng.once_in(3) {
        author.give(0x32, &[]);
    }
    bite(author, u64::from(seconds) * 100);
    author.show();
    if author.rng.once_in(2) {
        author.reach(Mode::Nominal);
        author.give(0x90, &[0xA7]);
        author.give(0x94, &[0xA7, 0, 0]);
    }
}

/// The shortest watchdog in every setting: in nominal and in safety, with and
/// without a store, and with each kind of last transfer.
pub fn all_bites(author: &mut Author) {
    for last in 0..5 {
        if last != 1 || !author.is_brief() {
            one_bite(author, last);
        }
    }
    // From the store the watchdog is short again at once.
    author.reach(Mode::Nominal);
    commands::status(author);
    if author.is_brief() {
        return;
    }
    run_timer(author, 99);
    author.idle();
    author.reach(Mode::Nominal);
    author.give(0x90, &[0xA7]);
    commands::status(author);
}

/// The shortest watchdog left to bite with one kind of last transfer; words that
/// nothing has read are lost to some of the bites.
fn one_bite(author: &mut Author, last: usize) {
    author.reach(Mode::Nominal);
    author.set(0x4000, 1);
    if last == 3 {
        author.give(0x94, &[0xA7, 0, 0]);
    }
    author.give(if last % 2 == 0 { 0x32 } else { 0x06 }, &[]);
    run_timer(author, 64);
    if last < 2 {
        lend_all(author);
        author.idle();
    }
    if last == 2 {
        author.send(&[0x11, 7, 6, 0]);
    }
    run_timer(author, 98);
    author.send(&[0x11, 7]);
    before_the_bite(author, last);
    author.say("F 0020");
    author.say("R 0006");
    author.show();
    if last < 2 {
        author.reach(Mode::Nominal);
        for code in telling(author) {
            author.give(code, &[]);
        }
    }
}

/// The tick in which the watchdog bites, with one kind of last transfer.
fn before_the_bite(author: &mut Author, last: usize) {
    if last < 2 {
        switch_by_lot(author);
        lend_all(author);
    }
    let rail = author.steady();
    match last {
        0 | 3 => author.tick(rail, u32::MAX, Some(&[0x12, 7, 2, 1])),
        1 => author.tick(rail, u32::MAX, None),
        2 => author.tick(rail, 0, Some(&[0x11, 7, 2])),
        _ => {
            let command = author.command(0x10, &[]);
            author.tick(rail, 0, Some(&command));
        }
    }
}

/// Waits until the watchdog bites, with something by lot at each of its two edges.
fn bite(author: &mut Author, timeout: u64) {
    // What happens at 65 parts: nothing, a feed, or a command for another board.
    run_timer(author, timeout * 65 / 100 - 1);
    match author.rng.below(4) {
        0 => author.give(0x06, &[]),
        1 => author.send(&[0x11, 7, 6, 0]),
        2 => author.send(&[0x11, 7]),
        _ => author.idle(),
    }
    run_timer(author, timeout - 1);
    if author.rng.once_in(2) {
        switch_by_lot(author);
    }
    if author.rng.once_in(2) {
        lend_all(author);
    }
    let (rail, tripped) = (author.steady(), author.rng.channels());
    match author.rng.below(5) {
        0 => author.tick(rail, tripped, Some(&[0x12, 7, 2, 1])),
        1 => author.tick(rail, tripped, Some(&[0x11, 7, 2])),
        2 => {
            let command = commands::draw(author);
            author.tick(rail, tripped, Some(&command));
        }
        _ => author.tick(rail, tripped, None),
    }
    author.say("F 0020");
}

/// Idles until the timer stands at a value, as long as the board stays up.
fn run_timer(author: &mut Author, until: u64) {
    if author.mode() == Mode::Nominal && author.rng.once_in(2) {
        let (rail, tripped) = (author.steady(), author.rng.channels());
        author.tick(rail, tripped, None);
    }
    while author.board().timer() < until && !author.mode().is_dark() {
        author.idle();
    }
}

/// A reset by command that wipes what the same tick and earlier ones brought.
pub fn reset(author: &mut Author) {
    author.reach(Mode::Nominal);
    author.give(0x02, &[]);
    let (rail, tripped) = (author.steady(), author.rng.channels());
    author.tick(rail, tripped, None);
    switch_by_lot(author);
    lend_all(author);
    let command = author.command(0xAA, &[0xA6]);
    author.tick(rail, u32::MAX, Some(&command));
    author.say("F 0020");
    author.say("R 0006");
    author.show();
    for _ in 0..author.rng.below(60) {
        if author.rng.once_in(6) {
            commands::random(author);
        } else {
            author.idle();
        }
    }
}
