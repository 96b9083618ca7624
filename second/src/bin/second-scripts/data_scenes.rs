//! Measured words, housekeeping and bus reads.

use crate::author::{hex, Author};
use crate::commands;
use crate::rng::Rng;
use crate::text_scenes;
use second::mode::Mode;
use second::model::{Model, WORDS};
use second::readings::{self, battery_word, row, BatteryWord, Conversion};
use second::settings::Kind;
use second::text::Form;

/// The codes that tell the measured words of a distribution board, raw and in
/// engineering units.
pub const TELLING: [u8; 2] = [0x50, 0x52];

/// The same for the board that is there.
pub fn telling(author: &Author) -> [u8; 2] {
    match author.board().model() {
        Model::Distribution => TELLING,
        Model::Battery => [0x60, 0x62],
    }
}

/// Words for the next tick: the right number, or a wrong one.
pub fn words(author: &mut Author) {
    let right = author.board().model().words();
    let counts = [0, 1, right - 1, right, right, right, right, right + 1, 39, 122, 256, 512, 60];
    let count = author.rng.pick(&counts);
    lend(author, count);
    if author.rng.once_in(8) {
        lend_all(author);
    }
    let telling = telling(author);
    let command = match author.rng.below(3) {
        0 => {
            let code = author.rng.pick(&telling);
            Some(author.command(code, &[]))
        }
        1 => Some(commands::draw(author)),
        _ => None,
    };
    let rail = author.steady();
    author.tick(rail, 0, command.as_deref());
    for _ in 0..author.rng.below(4) {
        let code = author.rng.pick(&telling);
        author.give(code, &[]);
    }
    if author.rng.once_in(4) {
        author.show();
    }
}

/// Every number of words, with housekeeping before, in and after the tick.
pub fn all_words(author: &mut Author) {
    author.reach(Mode::Nominal);
    let counts = [122, 60, 121, 123, 122, 0, 1, 256, 122];
    for (i, count) in counts.into_iter().take(if author.is_brief() { 4 } else { 9 }).enumerate() {
        let (first, then) = (TELLING[i % 2], TELLING[(i + 1) % 2]);
        author.give(first, &[]);
        lend(author, count);
        if count == 60 {
            author.say("T 3A98 00000000");
            author.say("B 00 00000001 00000001");
        }
        if count == 121 {
            text_scenes::switch(author, Form::Raw);
        }
        author.give(first, &[]);
        author.say("F 0017");
        author.give(first, &[]);
        author.give(then, &[]);
    }
    told_apart(author);
}

/// New words, refused in two ways, told and told again by one of the two codes,
/// and only then by the other; in either order.
pub fn told_apart(author: &mut Author) {
    let [raw, engineering] = telling(author);
    let stid = author.board().model().stid();
    for (first, then) in [(raw, engineering), (engineering, raw)] {
        lend_all(author);
        author.idle();
        author.send(&[stid, 7, first]);
        author.send(&[stid, 7, first, 0]);
        for code in [first, first, then, then] {
            author.give(code, &[]);
        }
    }
}

/// Words that tell the rows and the ways to round apart, with channels on and
/// latched in both halves: each reading beside what it was made of.
pub fn all_readings(author: &mut Author) {
    author.reach(Mode::Nominal);
    author.give(0x10, &[0xFF; 4]);
    let rail = author.steady();
    author.tick(rail, 0x5A5A_A5A5, None);
    let lines = if author.is_brief() { 7 } else { TELLING_WORDS };
    for line in 0..lines {
        lend_telling(author, line);
        author.give(0x52, &[]);
    }
    author.give(0x50, &[]);
    if !author.is_brief() {
        spread_readings(author);
    }
}

/// Words spread over the whole of each row, no two of them alike at a place.
fn spread_readings(author: &mut Author) {
    let start = author.rng.below(0x1_0000);
    for line in start..start + 512 {
        let words: Vec<u16> = (0..WORDS).map(|place| spread_word(place, line)).collect();
        lend_words(author, &words);
        author.give(0x52, &[]);
    }
}

/// One of the spread words of a place. Those that are held from some word on
/// have only the ones up to it; for all others each step is a far one.
fn spread_word(place: usize, line: usize) -> u16 {
    let spread = match place {
        0 => 53 * line % 26_840,
        1 => 5 * line % 2_512,
        _ => 40_503 * (WORDS * line + place) % 0x1_0000,
    };
    spread as u16
}

/// Lends one line of telling words; the blocks take turns, so that a line has all
/// of them.
pub fn lend_telling(author: &mut Author, line: usize) {
    let model = author.board().model();
    let telling = |place| telling_words(model, place)[(line + place / 3) % TELLING_WORDS];
    let words: Vec<u16> = (0..model.words()).map(telling).collect();
    lend_words(author, &words);
}

/// How many telling words each place has.
pub const TELLING_WORDS: usize = 14;

/// Raw words at the ends of the type, about zero, at the halves of the row and
/// where it is held.
fn telling_words(model: Model, place: usize) -> [u16; TELLING_WORDS] {
    match model {
        Model::Distribution => telling_of_row(&row(place)),
        Model::Battery => match battery_word(place) {
            BatteryWord::Measured(row) => telling_of_row(&row),
            BatteryWord::PackTemperature => TELLING_TEMPERATURES,
            BatteryWord::Status => TELLING_STATUS,
        },
    }
}

/// Codes of a pack temperature: at the ends, about zero, and where it is held.
const TELLING_TEMPERATURES: [u16; TELLING_WORDS] =
    [55, 56, 2_000, 2_114, 2_115, 3_158, 3_159, 4_095, 4_096, 0, 3_000, 0xFFFF, 0x8000, 1];

/// Status words with flags at both ends.
const TELLING_STATUS: [u16; TELLING_WORDS] = [
    0x8000, 0x0FFF, 1, 0xFFFF, 0, 0x1234, 0x7FFF, 0x8001, 0x00FF, 0xFF00, 0x5AA5, 0x1000, 0x6000,
    0x9000,
];

/// The telling words of a row.
fn telling_of_row(row: &Conversion) -> [u16; TELLING_WORDS] {
    match *row {
        readings::VOLT_BRDSUP => {
            [26_837, 0xFFFF, 26_836, 1, 0x8000, 2_703, 3, 0, 26_838, 0x7FFF, 4, 2, 819, 5]
        }
        readings::VOLT_CELL => {
            [513, 22_357, 511, 0, 0xFFFF, 512, 510, 514, 22_356, 22_358, 1, 0x7FFF, 0x8000, 22_355]
        }
        readings::BAT_TEMP1 => [
            1_967, 221, 1_971, 3_717, 0, 1_969, 0xFFFF, 222, 3_716, 220, 1_968, 1_970, 0x8000,
            0x7FFF,
        ],
        row if row.raw == Kind::Uint16 => [
            0, 2_509, 1_167, 0xFFFF, 2_508, 1_168, 1_169, 1, 2_510, 0x7FFF, 0x8000, 1_159, 1_177,
            1_300,
        ],
        row => {
            let half = half(&row);
            let below = half.wrapping_neg();
            let (near, far) = (half - 1, 3 * half);
            [
                half, 0xFFEB, below, 0x8000, 0x7FFF, 0xFFFF, far, 1, near, 0, 0xFFEC, !near, !far,
                0x8001,
            ]
        }
    }
}

/// The lowest raw word above 0 whose exact value is a half, for a row that has one.
fn half(row: &Conversion) -> u16 {
    let is_half = |raw: &i64| 2 * raw * row.pre_mul % (2 * row.pos_div) == row.pos_div;
    (1..=0x7FFF).find(is_half).expect("a row of VIPD has halves") as u16
}

/// Bus reads around the length of replies of every size.
pub fn all_reads(author: &mut Author) {
    for code in [0x02, 0x42, 0x50, 0x52, 0x16] {
        if code == 0x52 && author.is_brief() {
            continue;
        }
        author.give(code, &[]);
        let waiting = author.board().waiting_reply().len();
        for length in [0, 1, waiting - 1, waiting, waiting + 1] {
            author.say(&format!("R {length:04X}"));
        }
    }
    author.say("R 0200");
}

/// Lends as many words as the board has, drawn by lot.
pub fn lend_all(author: &mut Author) {
    lend(author, author.board().model().words());
}

/// Lends this many words drawn by lot.
pub fn lend(author: &mut Author, count: usize) {
    let model = author.board().model();
    let words: Vec<u16> = (0..count).map(|place| word(model, place, &mut author.rng)).collect();
    lend_words(author, &words);
}

/// A word of any kind: close to 0, a little below it, a telling one, or any.
fn word(model: Model, place: usize, rng: &mut Rng) -> u16 {
    match rng.below(6) {
        0 => rng.between(-3, 3) as u16,
        1 => rng.between(-64, -1) as u16,
        2 => rng.pick(&telling_words(model, place)),
        _ => rng.next() as u16,
    }
}

/// Lends these words.
pub fn lend_words(author: &mut Author, words: &[u16]) {
    let bytes: Vec<u8> = words.iter().flat_map(|word| word.to_be_bytes()).collect();
    author.say(&format!("W {:04X} {}", words.len(), hex(&bytes)));
}

/// Bus reads of lengths around that of the waiting reply.
pub fn reads(author: &mut Author) {
    let waiting = author.board().waiting_reply().len();
    let lengths = [0, 1, 4, 5, 6, waiting.saturating_sub(1), waiting, waiting + 1, 0x1FF, 0x200];
    for _ in 0..2 {
        let length = author.rng.pick(&lengths);
        author.say(&format!("R {length:04X}"));
    }
}
