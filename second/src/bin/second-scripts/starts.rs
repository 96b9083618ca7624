//! Starts from a profile, sound ones and those at the edge of refusal.

use crate::author::{hex, Author};
use second::coverage::value_classes;
use second::mode::Mode;
use second::model::Model;
use second::settings::{self, Settings, ROWS};

/// A board with some channels of each kind in both halves.
pub fn start(author: &mut Author) {
    let rng = &mut author.rng;
    let fitted = match rng.below(4) {
        0 => u32::MAX,
        _ => (rng.next() | rng.next()) as u32 | 0x0001_0001,
    };
    let forced = (rng.next() & rng.next()) as u32 & fitted;
    let bid = rng.between(1, 8);
    let profile = format!("{bid:02X} {fitted:08X} {forced:08X}");
    if rng.once_in(3) {
        let count = rng.pick(&[0u16, 1, 7, 0x00FF, 0x0100, 0xFFFD, 0xFFFE, 0xFFFF]);
        let stored = stored(author);
        distribution(author, &profile, Some((count, &stored)));
        author.show();
    } else {
        distribution(author, &profile, None);
    }
}

/// Starts a distribution board with its BID and its two sets. Of the lines that do so
/// the short one names raw, and the long one names raw or nothing by lot.
pub fn distribution(author: &mut Author, profile: &str, stored: Option<(u16, &[u8])>) {
    let (short, long, stored) = match stored {
        None => ("B", "Q", String::new()),
        Some((count, bytes)) => ("P", "V", format!(" {count:04X} {}", hex(bytes))),
    };
    let named = author.named();
    if named == "R" && author.forms.once_in(2) {
        author.say(&format!("{short} {profile}{stored}"));
    } else {
        author.say(&format!("{long} 11 {profile} 0 {named}{stored}"));
    }
}

/// Stored values in range, some moved off their defaults.
fn stored(author: &mut Author) -> Vec<u8> {
    stored_of(author, Model::Distribution)
}

/// The same for a board of a model.
fn stored_of(author: &mut Author, model: Model) -> Vec<u8> {
    let mut bytes = Settings::defaults(model).bytes().to_vec();
    for _ in 0..author.rng.below(8) {
        let row = &ROWS[author.rng.below(ROWS.len())];
        let id = author.rng.between(i64::from(row.first), i64::from(row.last)) as u16;
        let value = author.rng.between(row.low, row.high);
        if ![0x4000, 0x4042, 0x4043].contains(&id) {
            put(&mut bytes, id, value);
        }
    }
    bytes
}

/// A start of either board in any of its lines, at times behind one that is refused
/// or not of a form.
pub fn any(author: &mut Author) {
    if author.rng.once_in(3) {
        let line = author.rng.pick(&NO_START);
        author.say(line);
    }
    match author.rng.below(5) {
        0..=1 => battery(author),
        2 => distribution_by_stid(author),
        _ => start(author),
    }
}

/// Starts that are refused or not of a form, or of what has not come.
const NO_START: [&str; 22] = [
    "Q 12 00 00000000 00000000 0 R",
    "Q 12 05 00000000 00000000 1 -",
    "Q 12 08 00000000 00000000 2 R",
    "Q 12 FF 00000000 00000000 3 -",
    "Q 12 01 00000001 00000000 1 R",
    "Q 12 04 FFFFFFFF 00000001 0 -",
    "Q 12 02 00000000 80000000 0 R",
    "Q 11 00 00000001 00000000 0 -",
    "Q 11 09 00000001 00000000 1 R",
    "Q 11 01 00000000 00000000 2 -",
    "Q 11 01 00000001 00000003 3 R",
    "Q 1A 01 00000001 00000000 0 R",
    "Q 1A 01 00000001 00000000 2 -",
    "Q 10 01 00000000 00000000 0 R",
    "Q 13 01 00000000 00000000 0 -",
    "Q 12 01 00000000 00000000 0 r",
    "Q 11 01 00000001 00000000 0 0",
    "Q 12 01 00000000 00000000 4 R",
    "Q 12 01 00000000 00000000 0 A",
    "Q 12 01 00000000 00000000 0",
    "Q 12 01 00000000 00000000 00 R",
    "V 12 01 00000000 00000000 0 R",
];

/// A battery board with each option, at times with something stored.
fn battery(author: &mut Author) {
    let (bid, option) = (author.rng.between(1, 4), author.rng.below(4));
    start_by_stid(author, &format!("12 {bid:02X} 00000000 00000000 {option}"));
}

/// A distribution board by the line that names its STID.
fn distribution_by_stid(author: &mut Author) {
    let rng = &mut author.rng;
    let fitted = (rng.next() | rng.next()) as u32 | 0x0001_0001;
    let forced = (rng.next() & rng.next()) as u32 & fitted;
    let (bid, option) = (rng.between(1, 8), rng.below(4));
    start_by_stid(author, &format!("11 {bid:02X} {fitted:08X} {forced:08X} {option}"));
}

/// A start of a profile that names its STID, with or without a store.
fn start_by_stid(author: &mut Author, profile: &str) {
    if author.rng.once_in(2) {
        return by_stid(author, profile);
    }
    let model = if profile.starts_with("12") { Model::Battery } else { Model::Distribution };
    let count = author.rng.pick(&[0u16, 1, 0x00FF, 0xFFFE, 0xFFFF]);
    let stored = stored_of(author, model);
    stored_by_stid(author, profile, count, &stored);
    author.show();
}

/// Starts a board with its STID, BID, two sets and options; it names raw or nothing by lot.
pub fn by_stid(author: &mut Author, profile: &str) {
    let named = author.named();
    author.say(&format!("Q {profile} {named}"));
}

/// The same with stored values.
pub fn stored_by_stid(author: &mut Author, profile: &str, save_count: u16, stored: &[u8]) {
    let named = author.named();
    author.say(&format!("V {profile} {named} {save_count:04X} {}", hex(stored)));
}

/// The line that starts from a profile with stored values.
pub fn stored_start(profile: &str, save_count: u16, stored: &[u8]) -> String {
    format!("P {profile} {save_count:04X} {}", hex(stored))
}

/// The defaults with some values changed.
pub fn with(values: &[(u16, i64)]) -> Vec<u8> {
    with_of(Model::Distribution, values)
}

/// The same for a board of a model.
pub fn with_of(model: Model, values: &[(u16, i64)]) -> Vec<u8> {
    let mut bytes = Settings::defaults(model).bytes().to_vec();
    for (id, value) in values {
        put(&mut bytes, *id, *value);
    }
    bytes
}

/// Puts a value in its place among the stored ones.
fn put(bytes: &mut [u8], id: u16, value: i64) {
    if let Some(place) = settings::find(id) {
        let size = place.row.kind.size();
        bytes[place.offset..place.offset + size].copy_from_slice(&value.to_le_bytes()[..size]);
    }
}

/// Starts that are refused, and starts at the edge of it.
pub fn edge_starts(author: &mut Author) {
    for line in [
        "B 00 00000001 00000000",
        "B 09 00000001 00000000",
        "B FF 0000000F 0000000F",
        "B 01 00000000 00000000",
        "B 01 00000000 00000001",
        "B 08 80000000 80000000",
        "B 03 7FFFFFFF 80000000",
        "B 01 FFFFFFFF FFFFFFFF",
        "B 01 0000FFFF 00010000",
        "B 02 00000001 00000000",
    ] {
        author.say(line);
    }
    author.show();
    save_counts(author);
}

/// Stored values at the ends of each range and beside them.
pub fn stored_ends(author: &mut Author) {
    for row in &ROWS {
        for (_, value) in value_classes(row) {
            let id = author.rng.pick(&[row.first, row.last]);
            author.say(&stored_start("04 0000FF0F 00000101", id, &with(&[(id, value)])));
            if value >= row.low && value <= row.high {
                author.show();
                author.idle();
                author.idle();
            }
        }
    }
}

/// Stored save counts at the top, saved once more.
fn save_counts(author: &mut Author) {
    let counts = [(6, 0xFFFEu16), (1, 0), (5, 0xFFFD), (7, 0xFFFF)];
    for (bid, count) in counts.into_iter().take(if author.is_brief() { 1 } else { 4 }) {
        let bytes = stored(author);
        author.say(&stored_start(&format!("{bid:02X} 000F000F 00010001"), count, &bytes));
        author.show();
        author.reach(Mode::Nominal);
        author.give(0x82, &[0x01, 0x48]);
        author.give(0x94, &[0xA7, 0, 0]);
        author.give(0x94, &[0xA7, 0, 0]);
        author.show();
    }
}
