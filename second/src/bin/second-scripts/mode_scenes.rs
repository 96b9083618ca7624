//! Rails around the thresholds, and the ways from mode to mode that are short.

use crate::author::Author;
use crate::commands;
use second::coverage::rails;
use second::mode::Mode;

/// The first tick out of startup: forced channels come on and may trip at once.
pub fn out_of_startup(author: &mut Author) {
    let low = i64::from(author.board().settings().safety_low());
    for offset in [0, -1, 1].into_iter().take(if author.is_brief() { 2 } else { 3 }) {
        author.reach(Mode::Nominal);
        author.give(0xAA, &[0xA6]);
        while author.board().mode().age() < 49 {
            author.tick(edge_rail(author), 0, None);
        }
        let rail = (low + offset).clamp(-32_768, 32_767) as i16;
        let tripped = author.rng.pick(&[0, u32::MAX, 0x0001_0001]);
        let command = author.command(0x42, &[]);
        author.tick(rail, tripped, Some(&command));
        author.idle();
    }
}

/// A rail on or beside a threshold, or an end of the type. A number of the state
/// picks, so that the call needs no dice.
fn edge_rail(author: &Author) -> i16 {
    let rails = rails(author.board());
    let pick = author.lines() * 7 % rails.len();
    rails[pick].clamp(-32_768, 32_767) as i16
}

/// Every edge rail in one mode, coming back to it each time.
pub fn all_rails(author: &mut Author, mode: Mode) {
    for rail in rails(author.board()).into_iter().filter(|rail| *rail <= 32_767) {
        author.reach(mode);
        author.tick(rail as i16, 0, None);
    }
}

/// Thresholds in any order, zero, and above every rail; then rails around them.
pub fn thresholds(author: &mut Author) {
    author.reach(Mode::Nominal);
    let pair = author.rng.pick(&[
        (12_400, 14_000),
        (0, 0),
        (1, 0),
        (32_767, 32_767),
        (32_768, 40_000),
        (65_535, 65_535),
        (14_000, 12_400),
        (500, 5_000),
        (12_000, 12_400),
        (11_999, 12_401),
    ]);
    author.set(0x4042, pair.0);
    author.set(0x4043, pair.1);
    for _ in 0..author.rng.between(5, 20) {
        let rail = edge_rail(author);
        let command = match author.rng.below(4) {
            0 => Some(author.command(0x30, &[])),
            1 => Some(author.command(0x32, &[])),
            2 => Some(commands::draw_harmless(author)),
            _ => None,
        };
        author.tick(rail, 0, command.as_deref());
    }
    author.give(0x86, &[0x42, 0x40]);
    author.give(0x86, &[0x43, 0x40]);
}

/// 0x30 and 0x32 at the edges of what they ask.
pub fn switches(author: &mut Author) {
    author.reach(Mode::Nominal);
    author.give(0x30, &[]);
    author.give(0x32, &[]);
    author.give(0x32, &[]);
    let low = i64::from(author.board().settings().safety_low());
    for offset in [-1, 0, 1] {
        author.reach(Mode::Safety);
        let rail = (low + offset).clamp(-32_768, 32_767) as i16;
        let command = author.command(0x30, &[]);
        author.tick(rail, 0, Some(&command));
    }
    author.reach(Mode::Nominal);
    author.give(0x10, &[0xFF; 4]);
    for offset in [0, -1] {
        if offset == -1 {
            author.give(0x10, &[0xFF; 4]);
        }
        let rail = (low + offset).clamp(-32_768, 32_767) as i16;
        author.tick(rail, author.board().channels().fitted(), None);
    }
}
