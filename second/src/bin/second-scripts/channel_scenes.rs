//! Channels of every kind under commands and overcurrents.

use crate::author::Author;
use crate::commands;
use second::mode::Mode;

/// Channels of every kind and state under every channel command.
pub fn channels(author: &mut Author) {
    author.reach(Mode::Nominal);
    for _ in 0..author.rng.between(3, 10) {
        author.reach(Mode::Nominal);
        let on = author.rng.channels();
        author.give(0x10, &on.to_le_bytes());
        let (rail, tripped) = (author.steady(), author.rng.channels());
        author.tick(rail, tripped, None);
        let off = author.rng.channels();
        if author.rng.once_in(3) {
            author.give(0x12, &off.to_le_bytes());
        }
        let code = author.rng.pick(&[0x10, 0x12, 0x14, 0x14, 0x16, 0x16, 0x18, 0x18, 0x04, 0x32]);
        channel_command(author, code);
    }
    author.give(0x42, &[]);
}

/// One channel command with a mask or an index drawn by lot.
fn channel_command(author: &mut Author, code: u8) {
    let rest = match code {
        0x16 | 0x18 => {
            let low = author.rng.below(32) as u8;
            vec![author.rng.pick(&[low, low, low, low, 31, 32, 255])]
        }
        0x04 | 0x32 => vec![],
        _ => {
            let length = author.rng.pick(&[2, 3, 4, 4, 5]);
            let mut mask = author.rng.channels().to_le_bytes().to_vec();
            mask.push(0xFF);
            mask.truncate(length);
            mask
        }
    };
    author.give(code, &rest);
}

/// One channel of each kind, on, off and latched, turned on and off by itself.
pub fn singles(author: &mut Author) {
    if !author.is_brief() {
        author.say("B 04 00FF00FF 00030003");
    }
    author.reach(Mode::Nominal);
    for code in [0x16, 0x18] {
        for channel in [0, 1, 2, 7, 8, 15, 16, 17, 18, 23, 24, 31, 32, 255] {
            if ![0, 2, 8, 17, 23, 32].contains(&channel) && author.is_brief() {
                continue;
            }
            for state in 0..3 {
                let mask = 1u32.checked_shl(channel).unwrap_or(0);
                author.give(if state == 1 { 0x12 } else { 0x10 }, &mask.to_le_bytes());
                if state == 2 {
                    let rail = author.steady();
                    author.tick(rail, mask, None);
                }
                author.give(code, &[channel as u8]);
            }
        }
    }
    author.give(0x42, &[]);
}

/// 0x04 with channels of every kind on, off and latched.
pub fn cancel(author: &mut Author) {
    author.reach(Mode::Nominal);
    author.give(0x10, &[0x3F, 0x00, 0x3F, 0x00]);
    let rail = author.steady();
    author.tick(rail, 0x0005_0005, None);
    author.give(0x04, &[]);
    author.give(0x42, &[]);
}

/// Overcurrents together with a command of the same tick.
pub fn overcurrents(author: &mut Author) {
    for _ in 0..author.rng.between(1, 6) {
        let (rail, tripped) = (author.steady(), author.rng.channels());
        let command = commands::draw(author);
        author.tick(rail, tripped, Some(&command));
        if author.has_board() && author.rng.once_in(3) {
            author.give(0x42, &[]);
        }
    }
}
