//! The battery board: starts, the codes of both boards, packs and their words,
//! settings, the watchdog, the text line and the modes.

use crate::author::{hex, Author};
use crate::commands;
use crate::data_scenes::TELLING_WORDS;
use crate::data_scenes::{lend, lend_all, lend_telling, lend_words, telling, told_apart};
use crate::mode_scenes;
use crate::starts::{by_stid, stored_by_stid, with_of};
use crate::text_scenes;
use second::coverage::{BATTERY_CODES, CODES};
use second::mode::Mode;
use second::model::{Model, BATTERY_WORDS};
use second::text::Form;

/// Profiles up to the form that they name.
const PLACED: &str = "12 02 00000000 00000000 1";
const NOT_PLACED: &str = "12 04 00000000 00000000 2";
const DISTRIBUTION: &str = "11 01 00FF00FF 00030003 1";

/// The commands of 0x44, 0x60 and 0x62.
const OWN: [u8; 3] = [0x44, 0x60, 0x62];

/// Everything that a battery board does, and what it refuses.
pub fn all(author: &mut Author) {
    starts(author);
    by_stid(author, PLACED);
    in_startup(author);
    in_nominal(author);
    packs_by_line(author);
    temperatures(author);
    word_counts(author);
    new_words(author);
    settings(author);
    in_safety(author);
    another(author);
    watchdog(author);
    text(author);
    distribution(author);
    if !author.is_brief() {
        every_code_at_every_length(author, PLACED);
        every_code_at_every_length(author, DISTRIBUTION);
        parameters(author);
        rails(author);
        emergency(author);
        across_boards(author);
    }
    author.show();
}

/// Starts that are refused or not of a form, and sound ones beside them.
const STARTS: [&str; 46] = [
    "Q 12 00 00000000 00000000 0 R",
    "Q 12 05 00000000 00000000 1 -",
    "Q 12 08 00000000 00000000 1 R",
    "Q 12 FF 00000000 00000000 1 -",
    "Q 12 01 00000001 00000000 1 R",
    "Q 12 01 80000000 80000000 0 -",
    "Q 12 02 FFFFFFFF FFFFFFFF 0 R",
    "Q 12 03 00000000 00000001 1 -",
    "Q 12 04 00000000 80000000 0 R",
    "Q 11 00 00000001 00000000 0 -",
    "Q 11 09 00000001 00000001 0 R",
    "Q 11 01 00000000 00000000 0 -",
    "Q 11 01 00000001 00000002 0 R",
    "Q 1A 01 00000001 00000000 0 R",
    "Q 1A 01 00000001 00000000 3 R",
    "Q 10 01 00000000 00000000 0 R",
    "Q 13 01 00000000 00000000 0 R",
    "Q 00 01 00000000 00000000 0 R",
    "Q FF 01 00000000 00000000 0 R",
    "Q 12 01 00000000 00000000 0 -",
    "Q 11 01 00000001 00000000 0 -",
    "Q 12 01 00000000 00000000 0 r",
    "Q 12 01 00000000 00000000 0 A",
    "Q 12 01 00000000 00000000 4 R",
    "Q 12 01 00000000 00000000 F R",
    "Q 12 01 00000000 00000000 - R",
    "Q 12 01 00000000 00000000 00 R",
    "Q 12 01 00000000 00000000 0",
    "Q 12 01 00000000 00000000 0 ",
    "Q 12 01 00000000 00000000 0 R ",
    "Q 12 01 00000000 00000000 0 R 0000",
    "Q 12 01 00000000 00000000 R",
    "Q 12 01 0000000 00000000 0 R",
    "Q 12 1 00000000 00000000 0 R",
    "Q 2 01 00000000 00000000 0 R",
    "Q",
    "V",
    "V 12 01 00000000 00000000 0 R",
    "V 12 01 00000000 00000000 0 R 0000 -",
    "Q 12 01 00000000 00000000 0 R",
    "Q 12 04 00000000 00000000 1 R",
    "Q 11 08 abcdefAB 00000000 2 -",
    "Q 12 02 00000000 00000000 2 R",
    "Q 11 01 00000001 00000001 3 R",
    "Q 12 03 00000000 00000000 3 -",
    "Q 12 06 00000000 00000000 3 R",
];

/// Every start, sound and not, with and without a store.
fn starts(author: &mut Author) {
    for line in STARTS {
        author.say(line);
    }
    author.show();
    let stored = with_of(Model::Battery, &[(0x6002, 0x1234_5678), (0x4043, 13_000)]);
    let outside = with_of(Model::Battery, &[(0x3000, 3_001)]);
    let cut = stored[1..].to_vec();
    for (profile, count, bytes) in [
        ("12 05 00000000 00000000 1", 1, &stored),
        ("12 01 00000001 00000000 1", 2, &stored),
        ("12 01 00000000 00000000 1", 3, &outside),
        ("12 01 00000000 00000000 1", 4, &cut),
        ("1A 01 00000001 00000000 1", 5, &stored),
        ("12 01 00000000 00000000 5", 6, &stored),
        ("11 01 00000000 00000000 0", 7, &stored),
        ("11 08 000F000F 00010001 0", 8, &stored),
        ("12 03 00000000 00000000 0", 0xFFFE, &stored),
    ] {
        stored_by_stid(author, profile, count, bytes);
    }
    author.say(&format!("V 12 01 00000000 00000000 0 - 0001 {}", hex(&stored)));
    author.show();
}

/// Transfers in startup, words that come in it, and the tick that leaves it.
fn in_startup(author: &mut Author) {
    lend_all(author);
    author.give(0x62, &[]);
    if !author.is_brief() {
        commands::all_in(author, Mode::Startup, true);
        strangers(author);
    }
    for code in [0x44, 0x60, 0x50, 0xAA, 0x02] {
        author.reach(Mode::Startup);
        author.give(code, &[0xA6]);
    }
    for length in 0..4 {
        author.reach(Mode::Startup);
        author.send(&[0x12, 7, 0x60, 2][..length]);
    }
    while author.board().mode().age() < 49 {
        author.tick(12_400, u32::MAX, None);
    }
    let housekeeping = author.command(0x60, &[]);
    author.tick(12_400, u32::MAX, Some(&housekeeping));
}

/// Every code in nominal.
fn in_nominal(author: &mut Author) {
    author.reach(Mode::Nominal);
    author.give(0x44, &[]);
    commands::all_in(author, Mode::Nominal, !author.is_brief());
    strangers(author);
    author.give(0xAA, &[0xA6]);
    author.show();
    author.reach(Mode::Nominal);
}

/// Every code in safety; in a brief script once.
fn in_safety(author: &mut Author) {
    author.reach(Mode::Safety);
    if author.is_brief() {
        for code in BATTERY_CODES.into_iter().filter(|code| *code != 0xAA) {
            author.reach(Mode::Safety);
            commands::sized(author, code, 12);
        }
    } else {
        commands::all_in(author, Mode::Safety, true);
        author.reach(Mode::Safety);
        told_apart(author);
    }
    strangers(author);
    mode_scenes::switches(author);
}

/// The codes of the other board, and lengths that do not matter to it.
pub fn strangers(author: &mut Author) {
    let mode = author.mode();
    let strange: Vec<u8> = match author.board().model() {
        Model::Distribution => OWN.to_vec(),
        Model::Battery => CODES.into_iter().filter(|code| !BATTERY_CODES.contains(code)).collect(),
    };
    for code in strange {
        for length in if author.is_brief() { 8..9 } else { 3..9 } {
            author.reach(mode);
            commands::sized(author, code, length);
        }
        let mut other = author.command(code, &[]);
        other[0] ^= 3;
        if !author.skips() {
            author.send(&other);
        }
    }
}

/// Words drawn by lot, told raw and in engineering units, and the ABF.
pub fn packs(author: &mut Author) {
    for _ in 0..author.rng.between(1, 4) {
        lend_all(author);
        let [raw, engineering] = telling(author);
        let code = author.rng.pick(&[raw, engineering, engineering, 0x44]);
        author.give(code, &[]);
        let code = author.rng.pick(&[raw, engineering, 0x44, 0x50]);
        author.give(code, &[]);
    }
}

/// Words that tell the rows and the ways to round apart; each line both ways at
/// times.
fn packs_by_line(author: &mut Author) {
    author.reach(Mode::Nominal);
    for line in 0..if author.is_brief() { 7 } else { TELLING_WORDS } {
        lend_telling(author, line);
        author.give(0x62, &[]);
        if line == 1 || !author.is_brief() {
            author.give(0x60, &[]);
        }
    }
    if !author.is_brief() {
        spread_packs(author);
    }
}

/// Words spread over the whole of each row, no two of them alike at a place.
fn spread_packs(author: &mut Author) {
    let start = author.rng.below(0x1_0000);
    for line in start..start + 512 {
        let spread = |place: usize| match place % 3 {
            0 => 40_503 * (BATTERY_WORDS * line + place) % 0x1_0000,
            1 => 53 * line % 26_840,
            _ => 5 * (line + place) % 4_100,
        };
        let words: Vec<u16> = (0..BATTERY_WORDS).map(|place| spread(place) as u16).collect();
        lend_words(author, &words);
        author.give(0x62, &[]);
    }
}

/// The places of BAT_TEMP2 and BAT_TEMP3 among the words.
const TEMPERATURES: [usize; 6] = [15, 16, 26, 27, 37, 38];

/// How many codes there are to tell: 0 to 4096, and the highest word.
const TOLD_CODES: usize = 4_098;

/// Every code at every one of the six places; the brief script has a line of them
/// that has the edges.
fn temperatures(author: &mut Author) {
    author.reach(Mode::Nominal);
    if author.is_brief() {
        for codes in [[55, 56, 57, 2_114, 2_115, 0], [3_158, 3_159, 4_095, 4_096, 0xFFFF, 3_000]] {
            tell_temperatures(author, codes);
        }
        return;
    }
    for line in 0..TOLD_CODES {
        let code = |turn: usize| match (line + turn * TOLD_CODES / 6) % TOLD_CODES {
            4_097 => 0xFFFF,
            code => code as u16,
        };
        tell_temperatures(author, std::array::from_fn(code));
    }
}

/// 0x62 over packs of these temperatures.
fn tell_temperatures(author: &mut Author, codes: [u16; 6]) {
    let mut words = [0; BATTERY_WORDS];
    for (place, code) in TEMPERATURES.into_iter().zip(codes) {
        words[place] = code;
    }
    lend_words(author, &words);
    author.give(0x62, &[]);
}

/// Words in every number, the right one among them, before a code that tells them.
fn word_counts(author: &mut Author) {
    let right = author.board().model().words();
    let counts = [right, 39, 122, 0, right - 1, right + 1, 512, 1, 121, 123, 256, 257, 511, 60];
    let [raw, engineering] = telling(author);
    for count in counts.into_iter().take(if author.is_brief() { 7 } else { counts.len() }) {
        author.reach(Mode::Nominal);
        lend(author, count);
        author.give(raw, &[]);
        if count != right || !author.is_brief() {
            author.give(engineering, &[]);
        }
    }
    author.show();
}

/// What leaves words new to each of the two codes, and what does not.
fn new_words(author: &mut Author) {
    author.reach(Mode::Nominal);
    told_apart(author);
    lend_all(author);
    author.idle();
    for code in [0x44, 0x50, 0x52, 0x42, 0x06] {
        author.give(code, &[]);
    }
    author.give(0x92, &[0xA7]);
    author.give(0x62, &[]);
    let words = ["0000", "A5C3", "A5C3"];
    for word in words.into_iter().take(if author.is_brief() { 1 } else { 3 }) {
        author.say(&format!("W 0027 {}", word.repeat(BATTERY_WORDS)));
        author.give(0x60, &[]);
        author.give(0x62, &[]);
    }
    if author.is_brief() {
        return;
    }
    author.reach(Mode::Startup);
    lend_all(author);
    author.give(0x60, &[]);
    author.reach(Mode::Nominal);
    author.give(0x62, &[]);
    author.give(0x60, &[]);
    lend_all(author);
    let reset = author.command(0xAA, &[0xA6]);
    author.send(&reset);
    author.reach(Mode::Nominal);
    author.give(0x60, &[]);
    author.give(0x62, &[]);
}

/// The settings whose defaults are others than on the distribution board.
const OF_CHANNELS: [u16; 4] = [0x6002, 0x6003, 0x6004, 0x6005];

/// Defaults, sets, saves and loads, and the read-only values of this board.
fn settings(author: &mut Author) {
    author.reach(Mode::Nominal);
    author.give(0x90, &[0xA7]);
    for id in OF_CHANNELS.into_iter().chain([0x2800, 0x2801, 0x2802, 0x6809, 0x4802]) {
        author.give(0x82, &id.to_le_bytes());
    }
    for id in OF_CHANNELS {
        author.give(0x84, &[&id.to_le_bytes()[..], &[0x78, 0x56, 0x34, id as u8]].concat());
    }
    author.give(0x86, &[0x03, 0x60]);
    author.give(0x94, &[0xA7, 0, 0]);
    author.show();
    author.give(0x86, &[0x05, 0x60]);
    author.give(0x84, &[0x01, 0x10, 0x55]);
    author.give(0x92, &[0xA7]);
    author.give(0x82, &[0x05, 0x60]);
    calibrations(author);
    author.give(0x90, &[0xA7]);
    author.show();
    if author.is_brief() {
        return;
    }
    commands::all_saves(author);
    commands::zero_checksum(author);
    author.give(0xAA, &[0xA6]);
    author.show();
    author.reach(Mode::Nominal);
    commands::status(author);
    commands::all_read_only(author);
}

/// The settings of temperatures, which no rule names: 0x62 tells the same with them.
fn calibrations(author: &mut Author) {
    let ids = [0x3010, 0x300C, 0x301A].into_iter().chain(0x300D..=0x3029);
    for id in ids.take(if author.is_brief() { 3 } else { usize::MAX }) {
        author.set(id, 1_000);
    }
    lend_telling(author, 2);
    author.give(0x62, &[]);
}

/// A board without an ABF that starts from a store, into safety.
fn another(author: &mut Author) {
    let stored = with_of(Model::Battery, &[(0x6004, 0x0000_0111), (0x4042, 5_000)]);
    stored_by_stid(author, "12 01 00000000 00000000 0", 7, &stored);
    author.startup_at(4_999);
    author.give(0x44, &[]);
    author.give(0x62, &[]);
    author.give(0x82, &[0x04, 0x60]);
    author.give(0x86, &[0x04, 0x60]);
    author.give(0x82, &[0x01, 0x48]);
    author.show();
    if !author.is_brief() {
        by_stid(author, NOT_PLACED);
        for mode in [Mode::Nominal, Mode::Safety] {
            author.reach(mode);
            author.give(0x44, &[]);
            commands::status(author);
        }
    }
}

/// The shortest watchdog: reported, fed, and left to bite with words unread.
fn watchdog(author: &mut Author) {
    for (round, mode) in [Mode::Safety, Mode::Nominal, Mode::Safety, Mode::Nominal]
        .into_iter()
        .take(if author.is_brief() { 1 } else { 4 })
        .enumerate()
    {
        author.reach(mode);
        author.set(0x4000, 1);
        if round == 2 {
            author.give(0x94, &[0xA7, 0, 0]);
        }
        author.give(if round % 2 == 0 { 0x50 } else { 0x44 }, &[]);
        while author.board().timer() < 98 {
            author.idle();
        }
        if round % 2 == 0 {
            text_scenes::switch_by_lot(author);
            lend_all(author);
            author.idle();
        }
        if round > 1 {
            lend_all(author);
        }
        let rail = author.steady();
        author.tick(rail, u32::MAX, Some(&[0x11, 7, 2, author.board().bid()]));
        author.say("F 0020");
        author.say("R 0006");
        author.show();
        if round > 1 {
            author.reach(Mode::Nominal);
            author.give(0x60, &[]);
            author.give(0x62, &[]);
        }
    }
    if !author.is_brief() {
        author.reach(Mode::Nominal);
        author.give(0x90, &[0xA7]);
        author.give(0x94, &[0xA7, 0, 0]);
    }
}

/// Replies of this board's own lengths read and framed in both forms.
fn text(author: &mut Author) {
    author.reach(Mode::Nominal);
    for form in [Form::Raw, Form::Ascii] {
        text_scenes::switch(author, form);
        for code in [0x44, 0x62, 0x50] {
            author.give(code, &[]);
            let reply = author.board().waiting_reply().len();
            let framed = if form == Form::Raw { reply + 13 } else { 3 * reply + 12 };
            for room in [framed - 1, framed, 0].into_iter().take(if code == 0x62 { 1 } else { 3 }) {
                author.say(&format!("F {room:04X}"));
            }
            if code == 0x44 || !author.is_brief() {
                for length in [0, reply - 1, reply, reply + 1] {
                    author.say(&format!("R {length:04X}"));
                }
            }
        }
    }
    if !author.is_brief() {
        text_scenes::some(author);
        author.reach(Mode::Safety);
        text_scenes::some(author);
        author.reach(Mode::Startup);
        text_scenes::some(author);
        text_scenes::switch(author, Form::Ascii);
    }
}

/// The distribution board refuses the battery board's codes and words.
fn distribution(author: &mut Author) {
    by_stid(author, DISTRIBUTION);
    author.reach(Mode::Nominal);
    strangers(author);
    for count in [39, 122, 512] {
        lend(author, count);
        author.give(0x50, &[]);
    }
    for id in OF_CHANNELS.into_iter().chain([0x2800]) {
        author.give(0x82, &id.to_le_bytes());
    }
    if !author.is_brief() {
        word_counts(author);
        for mode in [Mode::Startup, Mode::Safety] {
            author.reach(mode);
            strangers(author);
        }
    }
}

/// All 256 codes at every length from 0 to 12, in nominal.
fn every_code_at_every_length(author: &mut Author, profile: &str) {
    by_stid(author, profile);
    for code in 0..=255 {
        for length in 0..=12 {
            author.reach(Mode::Nominal);
            commands::sized(author, code, length);
        }
    }
    author.show();
}

/// Every id by get, set and reset.
fn parameters(author: &mut Author) {
    by_stid(author, NOT_PLACED);
    commands::all_parameters(author);
    author.give(0xAA, &[0xA6]);
    author.show();
}

/// Every edge rail in the modes that are near.
fn rails(author: &mut Author) {
    by_stid(author, PLACED);
    mode_scenes::out_of_startup(author);
    for mode in [Mode::Startup, Mode::Nominal, Mode::Safety] {
        author.reach(mode);
        mode_scenes::all_rails(author, mode);
    }
}

/// Into emergency with words unread, every code in it, and out by the rail; once
/// more with nothing placed, and a reset in it.
fn emergency(author: &mut Author) {
    by_stid(author, PLACED);
    author.reach(Mode::Safety);
    lend_all(author);
    author.idle();
    author.give(0x62, &[]);
    text_scenes::switch_away(author);
    author.reach(Mode::Emergency);
    author.show();
    in_emergency(author);
    text_scenes::switch_away(author);
    lend_all(author);
    author.idle();
    author.tick(12_400, u32::MAX, None);
    author.tick(12_401, u32::MAX, None);
    author.show();
    author.give(0x60, &[]);
    author.give(0x62, &[]);
    commands::status(author);
    while author.mode() == Mode::Safety {
        author.tick(14_001, 0, None);
    }
    author.show();
    never_spoken_to(author);
    author.give(0x44, &[]);
    author.give(0x62, &[]);
    author.give(0xAA, &[0xA6]);
    author.show();
    by_stid(author, DISTRIBUTION);
    author.reach(Mode::Emergency);
    strangers(author);
}

/// Every code in emergency, words that come in it, and the text line.
fn in_emergency(author: &mut Author) {
    for code in [0x44, 0x60, 0x62, 0x60] {
        author.give(code, &[]);
    }
    told_apart(author);
    for code in telling(author) {
        lend_all(author);
        author.give(code, &[]);
    }
    lend(author, 122);
    author.give(0x60, &[]);
    commands::all_in(author, Mode::Emergency, false);
    strangers(author);
    text_scenes::switch(author, Form::Ascii);
    text_scenes::some(author);
    author.give(0x30, &[]);
    author.give(0x32, &[]);
    commands::status(author);
    author.give(0xAA, &[0xA5]);
    let reset = author.command(0xAA, &[]);
    author.send(&reset);
    author.send(&[0x11, 7, 0xAA, 2, 0xA6]);
}

/// Into every mode without a transfer, with words that nothing has told.
fn never_spoken_to(author: &mut Author) {
    for rail in [12_400, -1] {
        by_stid(author, NOT_PLACED);
        author.startup_at(rail);
        lend_all(author);
        author.tick(rail, 0, None);
        author.say("R 0006");
        author.say("F 0006");
    }
    while author.mode() == Mode::Safety {
        author.tick(-1, u32::MAX, None);
    }
    author.say("R 0006");
    author.say("F 0006");
}

/// A board of one model takes the place of one of the other: nothing but lent words
/// passes over.
fn across_boards(author: &mut Author) {
    for (first, then) in [(PLACED, DISTRIBUTION), (DISTRIBUTION, NOT_PLACED)] {
        by_stid(author, first);
        author.reach(Mode::Nominal);
        lend_all(author);
        for code in telling(author) {
            author.give(code, &[]);
        }
        text_scenes::switch_by_lot(author);
        for count in [39, 122] {
            lend(author, count);
            author.say("Q 12 09 00000000 00000000 0 R");
            author.say("Q 1A 01 00000001 00000000 0 R");
            by_stid(author, then);
            author.say("T 3A98 00000000 -");
            author.say("F 0017");
            author.say("R 0006");
            author.show();
        }
    }
}
