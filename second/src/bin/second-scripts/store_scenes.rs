//! Stored settings that move the mode or bite, saves with a wrong checksum, and
//! the read-only values that must stay 0.

use crate::author::Author;
use crate::commands;
use crate::data_scenes::lend;
use crate::starts::{distribution, with};
use crate::text_scenes::switch_by_lot;
use second::mode::Mode;

/// Everything that a store may do.
pub fn all(author: &mut Author) {
    low_above_every_rail(author);
    all_three_stored(author);
    if !author.is_brief() {
        ends_stored(author);
    }
    saved_and_loaded(author);
    checksums(author);
    unlike_the_store(author);
    commands::all_read_only(author);
    author.show();
}

/// Starts with the defaults stored but for some values, and shows the state.
fn start_with(author: &mut Author, save_count: u16, values: &[(u16, i64)]) {
    distribution(author, "02 00FF00FF 00110011", Some((save_count, &with(values))));
    author.show();
}

/// A stored safety low that no rail reaches keeps the board in safety.
fn low_above_every_rail(author: &mut Author) {
    start_with(author, 9, &[(0x4042, 40_000)]);
    author.run(32_767, 51);
    let nominal = author.command(0x30, &[]);
    author.tick(32_767, 0, Some(&nominal));
    author.give(0x82, &[0x0D, 0x48]);
    author.give(0x90, &[0xA7]);
    author.give(0x92, &[0xA7]);
    author.tick(32_767, 0, Some(&nominal));
    author.give(0xAA, &[0xA6]);
    author.show();
    author.run(32_767, 50);
}

/// Stored thresholds and a stored watchdog are in force from the start on.
fn all_three_stored(author: &mut Author) {
    let seconds = if author.is_brief() { 1 } else { 2 };
    let stored = [(0x4042, 500), (0x4043, 5_000), (0x4000, seconds as i64)];
    start_with(author, 0xABCD, &stored);
    author.run(500, 50);
    author.run(499, 1);
    let nominal = author.command(0x30, &[]);
    author.tick(499, 0, Some(&nominal));
    author.tick(500, 0, Some(&nominal));
    // The watchdog speaks up at 65 parts and alters nothing; at 100 it bites.
    switch_by_lot(author);
    lend(author, 122);
    let counts = author.command(0x42, &[]);
    author.tick(500, 0x0011_0000, Some(&counts));
    author.run(500, 65 * seconds);
    author.show();
    author.run(500, 35 * seconds);
    author.show();
    author.run(500, 52);
    author.give(0x82, &[0x0E, 0x48]);
}

/// The three live settings at the ends of their type.
fn ends_stored(author: &mut Author) {
    for value in [0, 0x7FFF, 0x8000, 0xFFFF] {
        start_with(author, value as u16, &[(0x4042, value), (0x4043, 1), (0x4000, value)]);
        author.run(32_767, 51);
        start_with(author, 1, &[(0x4043, value)]);
        author.run(12_400, 51);
    }
}

/// Each of the three changed, saved, reset and loaded.
fn saved_and_loaded(author: &mut Author) {
    distribution(author, "04 0000FFFF 0000000F", None);
    author.reach(Mode::Nominal);
    // Nothing is stored yet: a load gives the defaults.
    author.give(0x84, &[0x02, 0x10, 0x55]);
    author.give(0x92, &[0xA7]);
    author.show();
    let changes = [(0x4042, 300, 700), (0x4043, 70, 20_000), (0x4000, 1, 0), (0x4042, 13_000, 2)];
    for (id, saved, after) in changes.into_iter().skip(if author.is_brief() { 1 } else { 0 }) {
        author.set(id, saved);
        author.give(0x94, &[0xA7, 0, 0]);
        author.set(id, after);
        if !author.is_brief() {
            author.show();
        }
        author.give(0x92, &[0xA7]);
        author.give(0x82, &id.to_le_bytes());
        author.give(0x86, &id.to_le_bytes());
        author.reach(Mode::Nominal);
        author.set(id, after);
        author.give(0xAA, &[0xA6]);
        author.show();
        author.reach(Mode::Nominal);
    }
    // The stored watchdog bites, and is there again after it.
    author.run(13_000, 101);
    author.show();
    author.run(13_000, 49);
    author.run(12_999, 1);
    author.give(0x90, &[0xA7]);
    author.show();
    if !author.is_brief() {
        author.run(13_000, 101);
    }
}

/// Nothing that a read-only value might show is 0 or like the store.
fn unlike_the_store(author: &mut Author) {
    author.reach(Mode::Nominal);
    for (id, value) in [(0x4042, 11_000), (0x4043, 13_500), (0x4000, 55)] {
        author.set(id, value);
    }
    author.give(0x10, &[0xFF; 4]);
    lend(author, 122);
    author.tick(12_000, 0x0000_0FF1, None);
    let (channels, resets) = (author.board().channels(), author.board().resets());
    assert!(channels.on() != 0 && channels.latched() != 0);
    assert!(resets.watchdog != 0 && resets.command != 0);
}

/// Checksums that are nearly right: swapped, all ones, and the one shown where
/// it is not the current one.
fn checksums(author: &mut Author) {
    author.reach(Mode::Nominal);
    author.give(0x94, &[0xA7, 0, 0]);
    author.give(0x84, &[0x03, 0x10, 0x21]);
    let shown = author.board().shown().checksum;
    let right = author.board().settings().checksum();
    assert_ne!(right, right.swap_bytes(), "a swapped checksum must show");
    assert_ne!(shown, right, "the shown checksum must be out of date");
    let wrong = [shown, right.swap_bytes(), 0xFFFF, !right, right.wrapping_add(1), right & 0xFF];
    for checksum in wrong {
        author.give(0x94, &[&[0xA7][..], &checksum.to_le_bytes()].concat());
    }
    author.show();
    author.give(0x94, &[&[0xA7][..], &right.to_le_bytes()].concat());
    // A reset of one goes to the default, not to what is stored.
    author.give(0x84, &[0x03, 0x10, 0x22]);
    author.give(0x86, &[0x03, 0x10]);
    author.give(0x84, &[0x04, 0x10, 0x23]);
}
