//! What is carried over from line to line, and digits of either case.

use crate::author::{hex, Author};
use crate::data_scenes::{lend, told_apart, TELLING};
use crate::starts::{stored_start, with};
use crate::text_scenes;
use second::mode::Mode;
use second::text::Form;

const SOUND: &str = "B 05 00FF00FF 00010001";
const REFUSED: &str = "B 09 00FF00FF 00010001";

/// Everything that a line may carry over to the next ones.
pub fn all(author: &mut Author) {
    author.say(SOUND);
    text_scenes::switch(author, Form::Ascii);
    text_scenes::some(author);
    words(author);
    never_spoken_to(author);
    echoes(author);
    same_words(author);
    new_words(author);
    waiting_reply(author);
    last_channel(author);
    either_case(author);
    for mode in [Mode::Nominal, Mode::Safety] {
        author.reach(mode);
        text_scenes::some(author);
    }
    author.show();
}

/// Lent words outlive a start, refused or not, but not a tick.
fn words(author: &mut Author) {
    for start in [
        SOUND.to_string(),
        REFUSED.to_string(),
        stored_start("06 00FF00FF 00010001", 3, &with(&[])),
    ] {
        for count in [122, 5] {
            lend(author, count);
            author.say(&start);
            author.say("T 3A98 00000000 -");
            if count == 122 || !author.is_brief() {
                author.show();
            }
            author.say("T 3A98 00000000 -");
        }
    }
    lend(author, 122);
    author.say("W 0000 -");
    author.say("T 3A98 00000000 -");
    lend(author, 7);
    lend(author, 122);
    author.say("T 3A98 00000000 -");
    author.show();
}

/// Nominal and safety before any transfer.
fn never_spoken_to(author: &mut Author) {
    for rail in [32_767, -1].into_iter().skip(if author.is_brief() { 1 } else { 0 }) {
        author.say(SOUND);
        author.startup_at(rail);
        author.say("R 0004");
        author.say("F 0004");
    }
}

/// An echo outlives all but a tick that happens and a start that is not refused.
fn echoes(author: &mut Author) {
    for form in [Form::Ascii, Form::Raw] {
        author.reach(Mode::Nominal);
        author.give(0x02, &[]);
        text_scenes::switch(author, form);
        for line in [REFUSED, "L 0001 3C", "R 0004", "S", "W 0001 ABCD"] {
            author.say(line);
            author.say("F 001C");
        }
        author.say("T 3A98 00000000 -");
        author.say("F 001C");
        author.give(0x02, &[]);
        author.say("F 001C");
        lend(author, 1);
        author.say("T 3A98 00000000 1107020505");
        author.say("F 001C");
        author.say(REFUSED);
        author.say("F 001C");
        text_scenes::switch(author, form);
        author.idle();
        author.say("F 001C");
        text_scenes::switch(author, form);
        author.say(if form == Form::Raw { SOUND } else { "B 02 00000003 00000001" });
        author.say("F 001C");
    }
    author.reach(Mode::Nominal);
    author.give(0x02, &[]);
    author.say(&stored_start("06 00FF00FF 00010001", 3, &with(&[])));
    author.say("F 001C");
    author.say("R 0006");
}

/// The same words once more are new words, and so are zeros.
fn same_words(author: &mut Author) {
    author.reach(Mode::Nominal);
    let words = ["0000", "A5C3", "A5C3", "0000"];
    for word in words.into_iter().take(if author.is_brief() { 2 } else { 4 }) {
        for code in TELLING {
            author.say(&format!("W 007A {}", word.repeat(122)));
            author.give(code, &[]);
        }
        for code in TELLING {
            author.give(code, &[]);
        }
    }
}

/// What leaves words new and what does not: startup, other commands, a load and
/// defaults leave them so, a reset does not.
fn new_words(author: &mut Author) {
    author.reach(Mode::Startup);
    lend(author, 122);
    author.send(&[0x11, 7, 0x52, 0]);
    author.reach(Mode::Nominal);
    tell_both(author);
    lend(author, 122);
    author.idle();
    for (code, key) in [(0x42, 0), (0x92, 0xA7), (0x90, 0xA7), (0x94, 0xA7), (0x04, 0)] {
        author.give(code, &[key, 0, 0]);
    }
    author.reach(Mode::Safety);
    author.reach(Mode::Nominal);
    tell_both(author);
    lend(author, 122);
    author.idle();
    author.give(0xAA, &[0xA6]);
    author.reach(Mode::Nominal);
    tell_both(author);
    author.reach(Mode::Safety);
    told_apart(author);
}

/// Both codes that tell the words.
fn tell_both(author: &mut Author) {
    for code in TELLING {
        author.give(code, &[]);
    }
}

/// A reply waits through ticks without one and transfers that make none.
fn waiting_reply(author: &mut Author) {
    author.give(0x82, &[0x42, 0x40]);
    author.idle();
    for short in 0..4 {
        author.send(&[0x11, 7, 2][..short]);
        author.say("R 000B");
        author.say("F 0002");
    }
    let nominal = author.command(0x30, &[]);
    author.reach(Mode::Safety);
    for rail in [-1, -32_768, 12_399, 12_400] {
        author.tick(rail, 0, Some(&nominal));
    }
}

/// Channels 31 and 0 as any other, commandable and forced.
fn last_channel(author: &mut Author) {
    for forced in ["80000000", "00000001"].into_iter().take(if author.is_brief() { 1 } else { 2 }) {
        author.say(&format!("B 07 80000001 {forced}"));
        author.reach(Mode::Nominal);
        for code in [0x16, 0x18, 0x16] {
            for channel in [31, 0, 30] {
                author.give(code, &[channel]);
            }
        }
        author.tick(32_767, 0x8000_0001, None);
        author.give(0x42, &[]);
    }
}

/// Capitals, small letters and both, in every field of every line.
fn either_case(author: &mut Author) {
    let stored = hex(&with(&[])).replace("00C8", "00c8");
    let lines = [
        "B 0a 00000abc 00000aBc".to_string(),
        "B 05 abcdefab 0a0c0e0a".to_string(),
        "B 05 AbCdEfaB 0a0C0e0A".to_string(),
        "B 0A ABCDEFAB 00000000".to_string(),
        format!("P 06 fedcbafe 0c0c0a0e abcd {}", stored.to_lowercase()),
        format!("P 06 FeDcBafE 0C0c0A0e aBcD {stored}"),
        format!("P 0b fedcbafe 0c0c0a0e 00ff {stored}"),
        format!("W 007a {}", "abcd".repeat(122)),
        "T abcd abcdefab 1107ff06".to_string(),
        format!("W 007A {}", "aBcD".repeat(122)),
        "T ffFF AbcDefaB 1107aA05a6".to_string(),
        format!("W 000a {}", "Fe".repeat(20)),
        "T 3a98 00000000 -".to_string(),
        "R 000a".to_string(),
        "R 000A".to_string(),
        "R 00fF".to_string(),
        "L 000a 3c636d643e61623c2f636d643e".to_string(),
        "L 000A 3C636D643E61623C2F636D643E".to_string(),
        "L 00aB 3c636d643E3C6366673a61736369692f3e3c2F636d643e".to_string(),
        "F 000a".to_string(),
        "F 00aB".to_string(),
        "F 00FF".to_string(),
    ];
    for line in &lines {
        author.say(line);
        if line.starts_with('P') || line.starts_with(['B', 'T']) && !author.is_brief() {
            author.show();
        }
    }
    author.reach(Mode::Nominal);
    author.say("T 7fff abcdefab 1107aa06a6");
    author.show();
    author.reach(Mode::Nominal);
    author.say("T 7fFf 0c0C0a0E 11071006ffFFfFFf");
    author.say("T 7ffF ffffffff 1107aA06a6");
    author.show();
}
