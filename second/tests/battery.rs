//! The battery board: its codes beside those of the distribution board, 0x44, 0x60
//! and 0x62, the table of pack temperatures, starts, defaults, and what it shares.

mod common;

use common::*;
use second::board::{Answer, Board, Cause, Event, Profile, ProfileFault, Tick, WrongWordCount};
use second::mode::Mode;
use second::model::Model;
use second::settings::{Settings, SIZE};

const ABF: u8 = 0x44;
const RAW: u8 = 0x60;
const ENGINEERING: u8 = 0x62;

/// How many words a battery board has.
const COUNT: usize = 39;

/// A battery board in the first tick of startup.
fn battery(abf: bool) -> Board {
    Board::start(&Profile::battery(1, abf)).unwrap()
}

/// A battery board that has just come into the mode.
fn battery_in(mode: Mode) -> Board {
    brought_to(mode, battery(true))
}

/// The modes in which commands are carried out.
const LIT: [Mode; 3] = [Mode::Nominal, Mode::Safety, Mode::Emergency];

/// The word of the reply that stands at a byte.
fn word_at(board: &Board, at: usize) -> u16 {
    u16::from_le_bytes([board.waiting_reply()[at], board.waiting_reply()[at + 1]])
}

// Codes.

const OF_BOTH: [u8; 11] = [0xAA, 0x02, 0x06, 0x30, 0x32, 0x82, 0x84, 0x86, 0x90, 0x92, 0x94];
const OF_DISTRIBUTION: [u8; 9] = [0x04, 0x10, 0x12, 0x14, 0x16, 0x18, 0x42, 0x50, 0x52];
const OF_BATTERY: [u8; 3] = [ABF, RAW, ENGINEERING];

/// Whether boards of the model know the code, by the lists of the documents.
fn is_known(model: Model, code: u8) -> bool {
    let own: &[u8] = match model {
        Model::Distribution => &OF_DISTRIBUTION,
        Model::Battery => &OF_BATTERY,
    };
    OF_BOTH.contains(&code) || own.contains(&code)
}

/// Twelve bytes that begin with a right header and make each command valid.
fn sound(board: &Board, code: u8) -> Vec<u8> {
    let rest: [u8; 3] = match code {
        0xAA => [0xA6, 0, 0],
        0x16 | 0x18 => [1, 0, 0],
        0x82 | 0x84 | 0x86 => [0x02, 0x20, 0],
        0x90 | 0x92 | 0x94 => [0xA7, 0, 0],
        _ => [0; 3],
    };
    let mut bytes = command(board, code, &rest);
    bytes.resize(12, 0xFF);
    bytes
}

/// The answer that the tables of the documents give.
fn by_the_tables(model: Model, mode: Mode, code: u8, length: usize) -> Answer {
    let switches = (mode, code) == (Mode::Safety, 0x30)
        || mode == Mode::Emergency && matches!(code, 0x30 | 0x32);
    let of_channels = (0x10..=0x18).contains(&code) && mode != Mode::Nominal;
    match length {
        0..=3 => Answer::TooShort,
        _ if mode == Mode::Startup => Answer::InStartup,
        _ if !is_known(model, code) => Answer::UnknownCode,
        _ if length < needed(code) => Answer::Missing,
        _ if switches || of_channels => Answer::NotNow,
        _ => Answer::Accepted,
    }
}

/// A new board of each model.
fn one_of_each() -> [Board; 2] {
    [started(FITTED, FORCED), battery(false)]
}

#[test]
fn all_256_codes_at_every_length_from_0_to_12_on_both_boards_in_every_mode() {
    for board in one_of_each() {
        for mode in [Mode::Startup, Mode::Nominal, Mode::Safety, Mode::Emergency] {
            let board = brought_to(mode, board.clone());
            for code in 0..=255 {
                let bytes = sound(&board, code);
                for length in 0..=12 {
                    let mut board = board.clone();
                    let answer = send(&mut board, &bytes[..length]);
                    let expected = by_the_tables(board.model(), mode, code, length);
                    assert_eq!(answer, expected, "{code:02X} at {length} in {mode:?}");
                    check_refusal(&board, code, answer);
                }
            }
        }
    }
}

/// That a refusal left the reply it must leave.
fn check_refusal(board: &Board, code: u8, answer: Answer) {
    let stat = match answer {
        Answer::Accepted => return,
        Answer::TooShort | Answer::InStartup => return assert_eq!(board.waiting_reply(), []),
        Answer::WrongBoard => 6,
        Answer::UnknownCode => 2,
        Answer::Missing => 3,
        Answer::NotNow => 5,
        Answer::Invalid => 4,
    };
    assert_eq!(board.waiting_reply(), [board.model().stid(), 7, code | 1, 1, stat]);
}

#[test]
fn the_codes_of_the_other_board_are_refused_and_feed_the_timer() {
    for board in one_of_each() {
        for mode in LIT {
            let board = brought_to(mode, board.clone());
            for code in OF_DISTRIBUTION.into_iter().chain(OF_BATTERY) {
                let mut board = board.clone();
                overcurrent(&mut board, 0);
                if !is_known(board.model(), code) {
                    assert_eq!(give(&mut board, code, &[0; 8]), Answer::UnknownCode);
                    assert_eq!(board.timer(), 0);
                    assert_eq!(stat(&board), 2);
                }
            }
        }
    }
}

#[test]
fn a_header_of_the_other_board_is_refused() {
    for board in one_of_each() {
        let board = brought_to(Mode::Nominal, board);
        for code in 0..=255 {
            let mut board = board.clone();
            let mut bytes = sound(&board, code);
            for (at, value) in [(0, bytes[0] ^ 3), (0, 0), (0, 0x1A), (1, 6), (3, 0), (3, 2)] {
                let right = std::mem::replace(&mut bytes[at], value);
                assert_eq!(send(&mut board, &bytes), Answer::WrongBoard);
                check_refusal(&board, code, Answer::WrongBoard);
                bytes[at] = right;
            }
            assert_eq!(board.timer(), 6, "no answer 3 feeds the timer");
        }
    }
}

#[test]
fn reply_lengths() {
    for code in OF_BOTH.into_iter().chain(OF_BATTERY) {
        let mut board = battery_in(Mode::Nominal);
        let bytes = sound(&board, code);
        assert_eq!(send(&mut board, &bytes), Answer::Accepted);
        let expected = match code {
            0xAA => 0,
            ABF => 8,
            RAW | ENGINEERING => 84,
            0x82 | 0x84 | 0x86 => 9,
            _ => 5,
        };
        assert_eq!(board.waiting_reply().len(), expected, "{code:02X}");
        if expected > 5 {
            assert_eq!(board.waiting_reply()[5], 0);
        }
    }
}

// 0x44.

#[test]
fn both_bytes_of_0x44_say_whether_the_abf_is_placed() {
    for (abf, byte) in [(true, 0xAB), (false, 0x00)] {
        for mode in LIT {
            let mut board = brought_to(mode, battery(abf));
            // What was in the place of the reply before does not matter.
            give(&mut board, RAW, &[]);
            bring(&mut board, &[0x5A5A; COUNT], None);
            give(&mut board, RAW, &[]);
            for _ in 0..2 {
                assert_eq!(give(&mut board, ABF, &[]), Answer::Accepted);
                assert_eq!(board.waiting_reply(), [0x12, 7, 0x45, 1, 0x80, 0, byte, byte]);
            }
            give(&mut board, ENGINEERING, &[]);
            assert_eq!(stat(&board), 0x80, "0x44 tells no words");
        }
    }
}

#[test]
fn the_abf_outlives_resets_of_both_kinds() {
    let mut board = battery_in(Mode::Nominal);
    set(&mut board, 0x4000, 1);
    ticks(&mut board, HIGH, 99);
    assert_eq!(tick(&mut board, HIGH), Event::WatchdogReset);
    ticks(&mut board, HIGH, 50);
    give(&mut board, 0xAA, &[0xA6]);
    ticks(&mut board, HIGH, 50);
    give(&mut board, ABF, &[]);
    assert_eq!(board.waiting_reply()[6..], [0xAB, 0xAB]);
}

// 0x60 and 0x62.

/// What 0x62 makes of a word.
#[derive(Clone, Copy, Debug, PartialEq, Eq)]
enum Meaning {
    /// Signed or not, bias, factor, divisor.
    Row(bool, i128, i128, i128),
    Temperature,
    Status,
}

/// The words of the reply in their order, written out once more from the pages.
fn meanings() -> Vec<Meaning> {
    let vipd = [
        Meaning::Row(true, 0, 125, 128),
        Meaning::Row(true, 0, 3125, 10_240),
        Meaning::Row(true, 0, 3125, 3200),
    ];
    let mut meanings = vec![Meaning::Row(false, 0, 1000, 819), Meaning::Row(false, -1168, 220, 9)];
    meanings.extend(vipd);
    meanings.push(Meaning::Status);
    for _ in 0..3 {
        meanings.extend(vipd);
        meanings.push(Meaning::Status);
        meanings.extend([Meaning::Row(false, -512, 3, 2); 4]);
        meanings.push(Meaning::Row(false, -1969, 75, 4));
        meanings.extend([Meaning::Temperature; 2]);
    }
    assert_eq!(meanings.len(), COUNT);
    meanings
}

/// Whether a reading is the right one for an exact value: past an end it is that
/// end, else at most half a unit away and on a tie not the nearer to zero.
fn is_right(exact: i128, parts: i128, reading: i16) -> bool {
    let told = i128::from(reading) * parts;
    if exact > 32_767 * parts {
        return reading == i16::MAX;
    }
    if exact < -32_768 * parts {
        return reading == i16::MIN;
    }
    let twice_off = 2 * (told - exact).abs();
    twice_off < parts || twice_off == parts && told.abs() > exact.abs()
}

/// Table 3-13's coefficients from the constant one up, as the page prints them.
const PRINTED: [&str; 6] = [
    "3.7552963972E+02",
    "-9.2772286526E-01",
    "1.0990992164E-03",
    "-6.8793650476E-07",
    "2.1730661079E-10",
    "-2.7639336690E-14",
];

/// A printed number in parts of 10^24.
fn parts_of(printed: &str) -> i128 {
    let (digits, exponent) = printed.split_once('E').unwrap();
    let places = digits.split_once('.').unwrap().1.len() as i32;
    let whole: i128 = digits.replace('.', "").parse().unwrap();
    whole * 10i128.pow((24 + exponent.parse::<i32>().unwrap() - places) as u32)
}

/// A hundredth of a degree in these parts.
const HUNDREDTH: i128 = 10_000_000_000_000_000_000_000;

/// The line at a code, in parts of 10^24 of a degree; codes above 4095 count as 4095.
fn exact_temperature(code: u16) -> i128 {
    let code = i128::from(code.min(4095));
    (0..6u32).map(|power| parts_of(PRINTED[power as usize]) * code.pow(power)).sum()
}

/// That 0x62 tells a word rightly.
fn check_word(meaning: Meaning, raw: u16, told: u16) {
    let right = match meaning {
        Meaning::Row(signed, bias, factor, divisor) => {
            let raw = if signed { i128::from(raw as i16) } else { i128::from(raw) };
            is_right((raw + bias) * factor, divisor, told as i16)
        }
        Meaning::Temperature => is_right(exact_temperature(raw), HUNDREDTH, told as i16),
        Meaning::Status => told == raw,
    };
    assert!(right, "{raw:04X} told as {told:04X} by {meaning:?}");
}

#[test]
fn every_raw_word_at_every_place_but_those_of_the_table() {
    let meanings = meanings();
    let mut board = battery_in(Mode::Nominal);
    let told = command(&board, ENGINEERING, &[]);
    for raw in 0..=u16::MAX {
        bring(&mut board, &[raw; COUNT], Some(&told));
        for (place, meaning) in meanings.iter().enumerate() {
            if *meaning != Meaning::Temperature {
                check_word(*meaning, raw, word_at(&board, 6 + 2 * place));
            }
        }
    }
}

/// Where BAT_TEMP2 and BAT_TEMP3 of the three packs stand in the reply.
const TEMPERATURES_AT: [usize; 6] = [36, 38, 58, 60, 80, 82];

#[test]
fn every_code_at_all_six_places_of_pack_temperatures() {
    let at: Vec<usize> = (0..COUNT)
        .filter(|place| meanings()[*place] == Meaning::Temperature)
        .map(|place| 6 + 2 * place)
        .collect();
    assert_eq!(at, TEMPERATURES_AT);
    let mut board = battery_in(Mode::Nominal);
    let told = command(&board, ENGINEERING, &[]);
    for code in (0..=4096).chain([4097, 8191, 0x7FFF, 0x8000, 0xFFFE, 0xFFFF]) {
        let mut words = [0; COUNT];
        for at in TEMPERATURES_AT {
            words[(at - 6) / 2] = code;
        }
        bring(&mut board, &words, Some(&told));
        for at in TEMPERATURES_AT {
            check_word(Meaning::Temperature, code, word_at(&board, at));
        }
    }
}

/// What 0x62 tells of a code at BAT_TEMP2 of the first pack.
fn temperature(code: u16) -> i16 {
    let mut board = battery_in(Mode::Nominal);
    let mut words = [0; COUNT];
    words[15] = code;
    let told = command(&board, ENGINEERING, &[]);
    bring(&mut board, &words, Some(&told));
    word_at(&board, 36) as i16
}

#[test]
fn the_entries_that_are_known() {
    for code in 0..=55 {
        assert_eq!(temperature(code), 32_767);
    }
    let known = [
        (56, 32_691),
        (2000, 544),
        (3000, -20_455),
        (3158, -32_729),
        (3159, -32_768),
        (4095, -32_768),
        (4096, -32_768),
        (65_535, -32_768),
    ];
    for (code, reading) in known {
        assert_eq!(temperature(code), reading, "{code}");
    }
    assert!(temperature(2114) > 0 && temperature(2115) < 0);
}

#[test]
fn no_entry_is_a_half_and_the_printed_line_is_in_whole_parts() {
    assert_eq!(parts_of(PRINTED[5]), -27_639_336_690);
    assert_eq!(parts_of(PRINTED[0]), 375_529_639_720_000_000_000_000_000);
    for code in 0..=4095 {
        assert_ne!(2 * exact_temperature(code).abs() % (2 * HUNDREDTH), HUNDREDTH, "{code}");
    }
}

/// A word of its own for each place.
fn telling(first: u16) -> [u16; COUNT] {
    std::array::from_fn(|place| first.wrapping_add(0x0101 * place as u16))
}

#[test]
fn the_layout_of_0x60_in_every_mode() {
    for mode in LIT {
        let mut board = battery_in(mode);
        bring(&mut board, &telling(0x8001), None);
        assert_eq!(give(&mut board, RAW, &[]), Answer::Accepted);
        let mut expected = vec![0x12, 7, 0x61, 1, 0x80, 0];
        expected.extend(telling(0x8001).iter().flat_map(|word| word.to_le_bytes()));
        assert_eq!(board.waiting_reply(), expected);
        assert_eq!((board.mode().mode(), board.timer()), (mode, 0));
    }
}

#[test]
fn the_layout_of_0x62_in_every_mode() {
    for mode in LIT {
        for first in [0, 0x0800, 0x7000, 0x8001, 0xF000] {
            let mut board = battery_in(mode);
            bring(&mut board, &telling(first), None);
            assert_eq!(give(&mut board, ENGINEERING, &[]), Answer::Accepted);
            assert_eq!(board.waiting_reply()[..6], [0x12, 7, 0x63, 1, 0x80, 0]);
            for (place, meaning) in meanings().into_iter().enumerate() {
                check_word(meaning, telling(first)[place], word_at(&board, 6 + 2 * place));
            }
        }
    }
}

#[test]
fn status_words_stay_and_that_of_the_unit_is_no_sum_of_the_packs() {
    let mut board = battery_in(Mode::Nominal);
    let mut words = [0; COUNT];
    (words[5], words[9], words[20], words[31]) = (0x1234, 0x8FFF, 0xFFFF, 0x0001);
    bring(&mut board, &words, None);
    for code in [RAW, ENGINEERING] {
        give(&mut board, code, &[]);
        let told = [16, 24, 46, 68].map(|at| word_at(&board, at));
        assert_eq!(told, [0x1234, 0x8FFF, 0xFFFF, 0x0001]);
    }
}

#[test]
fn no_words_yet_are_zeros_and_their_readings() {
    let mut board = battery_in(Mode::Safety);
    give(&mut board, RAW, &[]);
    let mut expected = [0; 84];
    expected[..5].copy_from_slice(&[0x12, 7, 0x61, 1, 0]);
    assert_eq!(board.waiting_reply(), expected);
    give(&mut board, ENGINEERING, &[]);
    assert_eq!(stat(&board), 0);
    for (place, meaning) in meanings().into_iter().enumerate() {
        check_word(meaning, 0, word_at(&board, 6 + 2 * place));
    }
}

#[test]
fn words_by_the_board_s_own_number() {
    for board in one_of_each() {
        let count = board.model().words();
        assert_eq!(count, if board.model() == Model::Battery { 39 } else { 122 });
        let before = brought_to(Mode::Nominal, board);
        for lent in 0..=512 {
            let mut board = before.clone();
            let words = vec![7; lent];
            let tick = Tick { rail: HIGH, overcurrent: 0, words: &words, command: None };
            let told = board.tick(&tick);
            if lent == 0 || lent == count {
                assert!(told.is_ok(), "{lent}");
            } else {
                assert_eq!(told, Err(WrongWordCount), "{lent}");
                assert_eq!(board.mode(), before.mode());
            }
            assert_eq!(board.words().iter().all(|word| *word == 7), lent == count);
            assert_eq!(board.words().len(), count);
        }
    }
}

// NEW.

/// What may happen to words and to NEW of both commands.
#[derive(Clone, Copy, Debug, PartialEq, Eq)]
enum Step {
    Words,
    RefusedWords,
    Told(u8),
    WordsTold(u8),
    WrongBoard(u8),
    TooShort(u8),
    Other(u8),
    Reset,
}

const STEPS: [Step; 14] = [
    Step::Words,
    Step::RefusedWords,
    Step::Told(RAW),
    Step::Told(ENGINEERING),
    Step::WordsTold(RAW),
    Step::WordsTold(ENGINEERING),
    Step::WrongBoard(RAW),
    Step::WrongBoard(ENGINEERING),
    Step::TooShort(RAW),
    Step::TooShort(ENGINEERING),
    Step::Other(ABF),
    Step::Other(0x50),
    Step::Other(0x52),
    Step::Reset,
];

/// Which of 0x60 and 0x62 have words that they have not told, by the rule's wording.
type Untold = [bool; 2];

/// Takes one step on the board and by the rule, and compares NEW where there is one.
fn take(board: &mut Board, untold: &mut Untold, step: Step) {
    if step == Step::RefusedWords {
        let tick = Tick { rail: HIGH, overcurrent: 0, words: &[1; 122], command: None };
        assert_eq!(board.tick(&tick), Err(WrongWordCount));
        return;
    }
    let brings = matches!(step, Step::Words | Step::WordsTold(_));
    let words: &[u16] = if brings { &[0x8000; COUNT] } else { &[] };
    let bytes = match step {
        Step::Words | Step::RefusedWords => None,
        Step::Told(code) | Step::WordsTold(code) | Step::Other(code) => {
            Some(command(board, code, &[]))
        }
        Step::WrongBoard(code) => Some(vec![0x11, 7, code, 1]),
        Step::TooShort(code) => Some(vec![0x12, 7, code]),
        Step::Reset => Some(command(board, 0xAA, &[0xA6])),
    };
    bring(board, words, bytes.as_deref());
    if brings {
        *untold = [true; 2];
    }
    match step {
        Step::Told(code) | Step::WordsTold(code) => {
            let own = usize::from(code == ENGINEERING);
            assert_eq!(stat(board) == 0x80, untold[own], "{step:?}");
            untold[own] = false;
        }
        Step::Reset => {
            *untold = [false; 2];
            ticks(board, HIGH, 50);
        }
        _ => {}
    }
}

#[test]
fn new_of_each_is_ended_by_its_own_accepted_code_and_by_a_reset() {
    every_order(&battery_in(Mode::Nominal), [false; 2], &STEPS, 4, take);
    every_order(&battery_in(Mode::Safety), [false; 2], &STEPS, 3, take);
    every_order(&battery_in(Mode::Emergency), [false; 2], &STEPS, 3, take);
}

#[test]
fn words_of_startup_are_new_and_a_bite_of_the_watchdog_ends_that() {
    let mut board = battery(false);
    bring(&mut board, &[3; COUNT], Some(&[0x12, 7, RAW, 1]));
    ticks(&mut board, HIGH, 49);
    for (code, new) in [(ENGINEERING, 0x80), (RAW, 0x80), (ENGINEERING, 0), (RAW, 0)] {
        give(&mut board, code, &[]);
        assert_eq!(stat(&board), new);
    }
    set(&mut board, 0x4000, 1);
    bring(&mut board, &[3; COUNT], None);
    ticks(&mut board, HIGH, 98);
    assert_eq!(tick(&mut board, HIGH), Event::WatchdogReset);
    assert_eq!(board.words(), [0; COUNT]);
    ticks(&mut board, HIGH, 50);
    for code in [RAW, ENGINEERING] {
        give(&mut board, code, &[]);
        assert_eq!(stat(&board), 0);
    }
}

#[test]
fn emergency_leaves_words_new_to_both() {
    for code in [RAW, ENGINEERING] {
        let mut board = battery_in(Mode::Safety);
        bring(&mut board, &[9; COUNT], None);
        give(&mut board, code, &[]);
        ticks(&mut board, DEEP, 6_000);
        assert_eq!(board.mode().mode(), Mode::Emergency);
        tick(&mut board, HIGH);
        for other in [RAW, ENGINEERING] {
            give(&mut board, other, &[]);
            assert_eq!(stat(&board), if other == code { 0 } else { 0x80 });
        }
    }
}

// Starts.

#[test]
fn profiles_that_break_a_rule() {
    let of = |bid, fitted, forced| {
        Board::start(&Profile { fitted, forced, ..Profile::battery(bid, true) }).err()
    };
    for bid in 0..=255 {
        let expected = if (1..=4).contains(&bid) { None } else { Some(ProfileFault::Bid) };
        assert_eq!(of(bid, 0, 0), expected, "{bid}");
    }
    for channel in 0..32 {
        assert_eq!(of(1, 1 << channel, 0), Some(ProfileFault::ChannelsFitted));
        assert_eq!(of(4, 0, 1 << channel), Some(ProfileFault::ChannelsFitted));
        assert_eq!(of(2, 1 << channel, 1 << channel), Some(ProfileFault::ChannelsFitted));
    }
    assert_eq!(of(1, u32::MAX, u32::MAX), Some(ProfileFault::ChannelsFitted));
}

#[test]
fn the_bids_of_a_distribution_board_stay_1_to_8() {
    for bid in 0..=255 {
        let started = Board::start(&Profile::distribution(bid, 1, 0));
        assert_eq!(started.is_ok(), (1..=8).contains(&bid));
    }
}

#[test]
fn stored_settings_have_the_same_ranges() {
    let mut bytes = *Settings::defaults(Model::Battery).bytes();
    let start = |bytes: &[u8; SIZE]| {
        Board::start(&Profile { stored: Some((9, bytes)), ..Profile::battery(4, false) })
            .map(|board| (board.shown().save_count, board.shown().checksum))
    };
    let checksum = Settings::defaults(Model::Battery).checksum();
    assert_eq!(start(&bytes), Ok((9, checksum)));
    bytes[24..26].copy_from_slice(&3001i16.to_le_bytes());
    assert_eq!(start(&bytes), Err(ProfileFault::StoredOutOfRange));
    bytes[24..26].copy_from_slice(&3000i16.to_le_bytes());
    bytes[252..].fill(0xFF);
    assert!(start(&bytes).is_ok());
}

// Settings.

/// The bytes of 0x6002 to 0x6005 among all read/write values.
const OF_CHANNELS: std::ops::Range<usize> = SIZE - 16..SIZE;

#[test]
fn the_defaults_are_those_of_the_distribution_board_but_for_four_zeros() {
    let mut expected = *Settings::defaults(Model::Distribution).bytes();
    assert!(expected[OF_CHANNELS].chunks(4).all(|value| value != [0; 4]));
    expected[OF_CHANNELS].fill(0);
    assert_eq!(Settings::defaults(Model::Battery).bytes(), &expected);
    assert_eq!(battery(false).settings().bytes(), &expected);
}

#[test]
fn the_four_can_be_set_and_each_way_back_leads_to_0() {
    for id in 0x6002u16..=0x6005 {
        let [low, high] = id.to_le_bytes();
        let mut board = battery_in(Mode::Nominal);
        assert_eq!(get(&mut board, id), [0; 4]);
        let change = |board: &mut Board| give(board, 0x84, &[low, high, 1, 2, 3, 4]);
        assert_eq!(change(&mut board), Answer::Accepted);
        assert_eq!(get(&mut board, id), [1, 2, 3, 4]);
        give(&mut board, 0x86, &[low, high]);
        assert_eq!(get(&mut board, id), [0; 4]);
        for code in [0x90, 0x92] {
            change(&mut board);
            give(&mut board, code, &[0xA7]);
            assert_eq!(get(&mut board, id), [0; 4]);
        }
        change(&mut board);
        give(&mut board, 0xAA, &[0xA6]);
        assert_eq!(board.settings(), &Settings::defaults(Model::Battery));
        ticks(&mut board, HIGH, 50);
        change(&mut board);
        assert_eq!(give(&mut board, 0x94, &[0xA7, 0, 0]), Answer::Accepted);
        give(&mut board, 0x86, &[low, high]);
        give(&mut board, 0x92, &[0xA7]);
        assert_eq!(get(&mut board, id), [1, 2, 3, 4]);
    }
}

#[test]
fn settings_of_temperatures_have_no_effect() {
    let mut plain = battery_in(Mode::Nominal);
    let mut set_otherwise = plain.clone();
    for id in 0x300C..=0x3029 {
        set(&mut set_otherwise, id, 1_000);
    }
    for board in [&mut plain, &mut set_otherwise] {
        bring(board, &telling(0x0700), None);
        give(board, ENGINEERING, &[]);
    }
    assert_eq!(plain.waiting_reply(), set_otherwise.waiting_reply());
}

#[test]
fn read_only_values() {
    let mut board = brought_to(Mode::Nominal, Board::start(&Profile::battery(3, true)).unwrap());
    assert_eq!(get(&mut board, 0x2800), [0x12]);
    assert_eq!(get(&mut board, 0x2801), [7]);
    assert_eq!(get(&mut board, 0x2802), [3]);
    assert_eq!(get(&mut board, 0x6809), [0; 4]);
    assert_eq!(get_word(&mut board, 0x480A), 12_000);
    assert_eq!(get_word(&mut board, 0x480B), 12_400);
    assert_eq!(get_word(&mut board, 0x480C), 600);
    assert_eq!(get_word(&mut board, 0x480D), 12_400);
    assert_eq!(get_word(&mut board, 0x480E), 14_000);
    assert_eq!(get_word(&mut board, 0x480F), 60);
    assert_eq!(get_word(&mut board, 0x4810), 300);
}

// What both boards share.

/// A walk that the two boards take alike: a number for each step.
fn walk(steps: usize) -> impl Iterator<Item = u64> {
    let mut state = 7u64;
    (0..steps).map(move |_| {
        state =
            state.wrapping_mul(6_364_136_223_846_793_005).wrapping_add(1_442_695_040_888_963_407);
        state >> 33
    })
}

/// A transfer of a code that both boards know, at any length; settings that differ
/// by board are left out.
fn transfer(model: Model, drawn: u64) -> Vec<u8> {
    let code = OF_BOTH[drawn as usize % OF_BOTH.len()];
    let id: u16 = [0x4000, 0x4042, 0x4043, 0x1001, 0x4803, 0x4804, 0x4805, 0x4806, 0x9999]
        [drawn as usize / 16 % 9];
    let [low, high] = id.to_le_bytes();
    let value = (drawn / 256 % 3 * 6_200) as u16;
    let [first, second] = if id == 0x4000 { [1, 0] } else { value.to_le_bytes() };
    let mut bytes = match code {
        0xAA if drawn % 8 != 0 => vec![model.stid(), 7, code, 1, 0xA5],
        0xAA => vec![model.stid(), 7, code, 1, 0xA6],
        0x90 | 0x92 => vec![model.stid(), 7, code, 1, 0xA7],
        0x94 => vec![model.stid(), 7, code, 1, 0xA7, 0, 0],
        _ => vec![model.stid(), 7, code, 1, low, high, first, second],
    };
    if drawn / 32 % 8 == 0 {
        bytes.truncate(drawn as usize / 512 % 8);
    }
    if let (0, Some(bid)) = (drawn / 64 % 16, bytes.get_mut(3)) {
        *bid = 2;
    }
    bytes
}

/// What both boards tell alike: the head of a reply without its STID, and the rest.
fn shared(board: &Board) -> (Mode, u64, u64, Vec<u8>, Cause) {
    let reply = board.waiting_reply().iter().skip(1).copied().collect();
    (board.mode().mode(), board.mode().age(), board.timer(), reply, board.cause())
}

#[test]
fn modes_ages_timers_events_and_resets_go_as_on_a_distribution_board() {
    let mut boards = [started(1, 0), battery(true)];
    let (mut events, mut modes) = (Vec::new(), Vec::new());
    for drawn in walk(120_000) {
        let rails = [-32_768, 6_199, 6_200, 11_999, 12_399, 12_400, 14_001, 32_767];
        let rail = rails[drawn as usize / 3 % 8];
        // Long quiet stretches, so that lingers end and watchdogs bite.
        let told = boards.each_mut().map(|board| {
            let bytes = transfer(board.model(), drawn);
            let quiet = board.mode().age() % 7_000 > 60 && board.mode().mode() != Mode::Nominal;
            let sent = !quiet && drawn / 5 % 9 == 0;
            let rail = if quiet { 5_000 } else { rail };
            board
                .tick(&Tick { rail, overcurrent: 1, words: &[], command: sent.then_some(&bytes) })
                .unwrap()
        });
        assert_eq!(told[0], told[1]);
        assert_eq!(shared(&boards[0]), shared(&boards[1]));
        assert_eq!(boards[0].resets(), boards[1].resets());
        if !events.contains(&told[1].event) {
            events.push(told[1].event);
        }
        let mode = boards[1].mode().mode();
        if !modes.contains(&mode) {
            modes.push(mode);
        }
    }
    assert_eq!((events.len(), modes.len()), (3, 4), "the walk must reach all of them");
}

#[test]
fn an_overcurrent_finds_no_channel() {
    for mode in LIT {
        let mut board = battery_in(mode);
        overcurrent(&mut board, u32::MAX);
        assert_eq!((board.channels().on(), board.channels().latched()), (0, 0));
        assert_eq!(board.channels().counts(), &[0; 32]);
    }
}
