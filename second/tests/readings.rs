//! 0x52: every raw word through every row of Table 3-12, those that it does not have
//! among them, and NEW counted by itself.

mod common;

use common::*;
use second::board::{Answer, Board, Event};
use second::mode::Mode;
use second::model::WORDS;
use second::readings::{self, Conversion};

const RAW: u8 = 0x50;
const ENGINEERING: u8 = 0x52;

/// Where a field lies that 0x52 does not have.
const NOWHERE: usize = usize::MAX;

/// A field of the reply as the page has it: its row's figures, written out once more.
#[derive(Clone, Copy, Debug)]
struct Field {
    at: usize,
    signed: bool,
    bias: i128,
    pre_mul: i128,
    pos_div: i128,
}

impl Field {
    /// The exact value as a fraction over `pos_div`.
    fn exact(&self, raw: u16) -> i128 {
        let raw = i128::from(raw);
        let value = if self.signed && raw > 32_767 { raw - 65_536 } else { raw };
        (value + self.bias) * self.pre_mul
    }

    /// Whether a reading is the right one: an exact value past an end is that end,
    /// any other is at most half a unit away and on a tie not the nearer to zero.
    fn is_right(&self, raw: u16, reading: i16) -> bool {
        let exact = self.exact(raw);
        let told = i128::from(reading) * self.pos_div;
        if exact > 32_767 * self.pos_div {
            return reading == i16::MAX;
        }
        if exact < -32_768 * self.pos_div {
            return reading == i16::MIN;
        }
        let twice_off = 2 * (told - exact).abs();
        twice_off < self.pos_div || twice_off == self.pos_div && told.abs() > exact.abs()
    }
}

/// The three fields of a VIPD block.
fn vipd(at: usize, current: i128, power: i128) -> [Field; 3] {
    let field = |at, pre_mul, pos_div| Field { at, signed: true, bias: 0, pre_mul, pos_div };
    [field(at, 125, 128), field(at + 2, 3125, current), field(at + 4, 3125, power)]
}

/// All measured fields of the reply, in the order of their words.
fn fields() -> Vec<Field> {
    let field = |at, bias, pre_mul, pos_div| Field { at, signed: false, bias, pre_mul, pos_div };
    let mut fields = vec![field(6, 0, 1000, 819), field(8, -1168, 220, 9)];
    fields.extend(vipd(10, 10_240, 3200));
    for domain in 0..7 {
        fields.extend(vipd(24 + 6 * domain, 10_240, 3200));
    }
    for channel in 0..32 {
        fields.extend(vipd(66 + 6 * channel, 20_480, 6400));
    }
    assert_eq!(fields.len(), WORDS);
    fields
}

/// The rows that 0x52 does not have: the program's, and the page's written out once more.
fn rows_apart() -> [(Conversion, Field); 5] {
    let field =
        |bias, pre_mul, pos_div| Field { at: NOWHERE, signed: false, bias, pre_mul, pos_div };
    [
        (readings::PIU_TEMP, field(-868, 26_400, 819)),
        (readings::VOLT_CELL, field(-512, 3, 2)),
        (readings::BAT_TEMP1, field(-1969, 75, 4)),
        (readings::VOLT_MPPT, field(0, 2625, 128)),
        (readings::CURR_MPPT, field(-41, 625, 192)),
    ]
}

/// The two bytes of a field in the reply that waits.
fn bytes_at(board: &Board, at: usize) -> [u8; 2] {
    [board.waiting_reply()[at], board.waiting_reply()[at + 1]]
}

/// What 0x52 tells of one raw word at one place, the others being 0.
fn told(place: usize, raw: u16) -> i16 {
    let mut board = nominal();
    let mut words = [0; WORDS];
    words[place] = raw;
    let command = command(&board, ENGINEERING, &[]);
    bring(&mut board, &words, Some(&command));
    i16::from_le_bytes(bytes_at(&board, fields()[place].at))
}

#[test]
fn every_raw_word_at_every_place_of_the_reply() {
    let fields = fields();
    let mut board = nominal();
    let command = command(&board, ENGINEERING, &[]);
    for raw in 0..=u16::MAX {
        bring(&mut board, &[raw; WORDS], Some(&command));
        for field in &fields {
            let reading = i16::from_le_bytes(bytes_at(&board, field.at));
            assert!(field.is_right(raw, reading), "{raw:04X} told as {reading} by {field:?}");
        }
    }
}

#[test]
fn every_raw_word_through_every_row_that_0x52_does_not_have() {
    for (row, field) in rows_apart() {
        for raw in 0..=u16::MAX {
            let reading = row.engineering(raw);
            assert!(field.is_right(raw, reading), "{raw:04X} told as {reading} by {field:?}");
        }
    }
}

#[test]
fn the_check_of_a_reading_takes_one_value_alone() {
    let told = [0, 1, 2, 3, 27, 28].map(|place| fields()[place]);
    for field in told.into_iter().chain(rows_apart().map(|(_, field)| field)) {
        for raw in (0..=u16::MAX).step_by(257).chain([63, 64, 65, 128, 1024, 2048, 0xFFC0]) {
            let nearest = (field.exact(raw) / field.pos_div).clamp(-32_761, 32_760) as i16;
            let right = (nearest - 7..=nearest + 7).filter(|near| field.is_right(raw, *near));
            assert_eq!(right.count(), 1, "{raw:04X} by {field:?}");
        }
    }
}

/// Compares a row of the program with the page's figures.
fn same_figures(row: Conversion, field: &Field) {
    assert_eq!(i128::from(row.bias), field.bias);
    assert_eq!(i128::from(row.pre_mul), field.pre_mul);
    assert_eq!(i128::from(row.pos_div), field.pos_div);
    assert_eq!(row.raw.lowest() < 0, field.signed);
}

#[test]
fn each_place_has_the_row_of_its_field() {
    for (place, field) in fields().iter().enumerate() {
        same_figures(readings::row(place), field);
    }
}

#[test]
fn each_row_that_0x52_does_not_have_is_the_page_s() {
    for (row, field) in rows_apart() {
        same_figures(row, &field);
    }
}

#[test]
fn an_input_of_20_millivolts_below_zero_both_ways() {
    let mut board = nominal();
    for (raw, reading) in [(0xFFEC, -20), (0xFFEB, -21), (20, 20), (21, 21), (0xFFED, -19)] {
        let mut words = [0; WORDS];
        words[2] = raw;
        bring(&mut board, &words, None);
        give(&mut board, RAW, &[]);
        assert_eq!(u16::from_le_bytes(bytes_at(&board, 10)), raw);
        give(&mut board, ENGINEERING, &[]);
        assert_eq!(i16::from_le_bytes(bytes_at(&board, 10)), reading);
    }
}

#[test]
fn the_supply_is_unsigned_and_held_at_the_top() {
    let readings = [
        (0, 0),
        (1, 1),
        (2, 2),
        (4, 5),
        (819, 1000),
        (2703, 3300),
        (26_836, 32_767),
        (26_837, 32_767),
        (26_838, 32_767),
        (0x7FFF, 32_767),
        (0x8000, 32_767),
        (0xFFFF, 32_767),
    ];
    for (raw, reading) in readings {
        assert_eq!(told(0, raw), reading, "{raw}");
    }
}

#[test]
fn the_temperature_has_a_bias_and_is_held_at_the_top() {
    let readings = [
        (0, -28_551),
        (1, -28_527),
        (1159, -220),
        (1167, -24),
        (1168, 0),
        (1169, 24),
        (1177, 220),
        (2508, 32_756),
        (2509, 32_767),
        (0x7FFF, 32_767),
        (0x8000, 32_767),
        (0xFFFF, 32_767),
    ];
    for (raw, reading) in readings {
        assert_eq!(told(1, raw), reading, "{raw}");
    }
}

/// Raw words and what they are worth, at the ends, at the halves and beside zero.
type Known = [(i32, i16)];

const VOLT_AND_INPUT_POWER: &Known = &[
    (0x7FFF, 31_999),
    (-0x8000, -32_000),
    (-0x7FFF, -31_999),
    (63, 62),
    (64, 63),
    (-64, -63),
    (-63, -62),
    (192, 188),
    (-192, -188),
    (1, 1),
    (0, 0),
    (-1, -1),
];

const INPUT_CURRENT: &Known = &[
    (0x7FFF, 10_000),
    (-0x8000, -10_000),
    (1023, 312),
    (1024, 313),
    (-1024, -313),
    (-1023, -312),
    (1, 0),
    (2, 1),
    (0, 0),
    (-1, 0),
    (-2, -1),
];

const CHANNEL_CURRENT: &Known = &[
    (0x7FFF, 5000),
    (-0x8000, -5000),
    (2047, 312),
    (2048, 313),
    (-2048, -313),
    (-2047, -312),
    (3, 0),
    (4, 1),
    (0, 0),
    (-3, 0),
    (-4, -1),
];

const CHANNEL_POWER: &Known = &[
    (0x7FFF, 16_000),
    (-0x8000, -16_000),
    (127, 62),
    (128, 63),
    (-128, -63),
    (-127, -62),
    (1, 0),
    (2, 1),
    (0, 0),
    (-1, 0),
    (-2, -1),
];

#[test]
fn ends_and_halves_and_zero_of_each_vipd_row() {
    let rows: [(&[usize], &Known); 4] = [
        (&[2, 4, 5, 23, 25, 26, 119], VOLT_AND_INPUT_POWER),
        (&[3, 6, 24], INPUT_CURRENT),
        (&[27, 120], CHANNEL_CURRENT),
        (&[28, 121], CHANNEL_POWER),
    ];
    for (places, known) in rows {
        for (raw, reading) in known {
            for place in places {
                assert_eq!(told(*place, *raw as u16), *reading, "{raw} at {place}");
            }
        }
    }
}

/// No halves: raw words 0 and beside the bias, and where it is held.
const PIU_TEMP: &Known = &[
    (0, -27_979),
    (1, -27_947),
    (867, -32),
    (868, 0),
    (869, 32),
    (1884, 32_750),
    (1885, 32_767),
    (0x7FFF, 32_767),
    (0x8000, 32_767),
    (0xFFFF, 32_767),
];

/// Every odd word is a half. That of 22357 lies half a unit past the top.
const VOLT_CELL: &Known = &[
    (0, -768),
    (1, -767),
    (510, -3),
    (511, -2),
    (512, 0),
    (513, 2),
    (514, 3),
    (22_355, 32_765),
    (22_356, 32_766),
    (22_357, 32_767),
    (22_358, 32_767),
    (0x7FFF, 32_767),
    (0x8000, 32_767),
    (0xFFFF, 32_767),
];

/// The only row that is held at both ends; 1967 and 1971 are halves.
const BAT_TEMP1: &Known = &[
    (0, -32_768),
    (220, -32_768),
    (221, -32_768),
    (222, -32_756),
    (1966, -56),
    (1967, -38),
    (1968, -19),
    (1969, 0),
    (1970, 19),
    (1971, 38),
    (1972, 56),
    (3715, 32_738),
    (3716, 32_756),
    (3717, 32_767),
    (0x7FFF, 32_767),
    (0x8000, 32_767),
    (0xFFFF, 32_767),
];

/// 64 and 1472 are the first half and the last that is not held.
const VOLT_MPPT: &Known = &[
    (0, 0),
    (1, 21),
    (2, 41),
    (63, 1292),
    (64, 1313),
    (128, 2625),
    (1472, 30_188),
    (1597, 32_751),
    (1598, 32_767),
    (0x7FFF, 32_767),
    (0x8000, 32_767),
    (0xFFFF, 32_767),
];

/// 137 and 9929 are the first half and the last that is not held; 10107 comes to
/// the top by itself.
const CURR_MPPT: &Known = &[
    (0, -133),
    (1, -130),
    (40, -3),
    (41, 0),
    (42, 3),
    (137, 313),
    (233, 625),
    (9929, 32_188),
    (10_106, 32_764),
    (10_107, 32_767),
    (10_108, 32_767),
    (0x7FFF, 32_767),
    (0x8000, 32_767),
    (0xFFFF, 32_767),
];

#[test]
fn corners_of_each_row_that_0x52_does_not_have() {
    let corners = [PIU_TEMP, VOLT_CELL, BAT_TEMP1, VOLT_MPPT, CURR_MPPT];
    for ((row, field), known) in rows_apart().into_iter().zip(corners) {
        for (raw, reading) in known {
            assert_eq!(row.engineering(*raw as u16), *reading, "{raw} by {field:?}");
        }
    }
}

/// How many raw words have an exact value in the middle between two units.
fn halves(field: Field) -> usize {
    let is_half =
        |raw: &u16| (2 * field.exact(*raw)).rem_euclid(2 * field.pos_div) == field.pos_div;
    (0..=u16::MAX).filter(is_half).count()
}

#[test]
fn where_there_are_halves_and_where_not() {
    let counts = [0, 1, 2, 3, 4, 26, 27, 28].map(|place| halves(fields()[place]));
    assert_eq!(counts, [0, 0, 512, 32, 512, 512, 16, 256]);
    let counts = rows_apart().map(|(_, field)| halves(field));
    assert_eq!(counts, [0, 32_768, 16_384, 512, 341]);
}

/// A board with channels on and latched in both halves, words unread.
fn eventful(mode: Mode) -> Board {
    let mut board = in_mode(mode, FITTED, FORCED);
    if mode == Mode::Nominal {
        give(&mut board, 0x10, &[0x0F, 0, 3, 0]);
        overcurrent(&mut board, 0x0002_0004);
    }
    let words: Vec<u16> = (0..WORDS as u16).map(|i| i.wrapping_mul(0x2345) ^ 0x8001).collect();
    bring(&mut board, &words, None);
    board
}

#[test]
fn the_layout_is_that_of_0x50_in_every_mode() {
    for mode in [Mode::Nominal, Mode::Safety, Mode::Emergency] {
        let mut board = eventful(mode);
        assert_eq!(give(&mut board, RAW, &[]), Answer::Accepted);
        let raw = board.waiting_reply().to_vec();
        assert_eq!(give(&mut board, ENGINEERING, &[]), Answer::Accepted);
        assert_eq!((board.mode().mode(), board.timer()), (mode, 0));
        let engineering = board.waiting_reply();
        assert_eq!((raw.len(), engineering.len()), (258, 258));
        assert_eq!(engineering[..6], [0x11, 7, 0x53, 1, 0x80, 0]);
        assert_eq!(engineering[16..24], raw[16..24], "the channel words stay");
        for field in fields() {
            let pair = |reply: &[u8]| [reply[field.at], reply[field.at + 1]];
            let word = u16::from_le_bytes(pair(&raw));
            assert!(field.is_right(word, i16::from_le_bytes(pair(engineering))));
        }
    }
}

#[test]
fn no_words_yet_are_the_readings_of_zeros() {
    for mode in [Mode::Nominal, Mode::Safety, Mode::Emergency] {
        let mut board = in_mode(mode, 0xFFFF_FFFF, 0);
        give(&mut board, ENGINEERING, &[]);
        let mut expected = [0; 258];
        expected[..5].copy_from_slice(&[0x11, 7, 0x53, 1, 0]);
        expected[8..10].copy_from_slice(&(-28_551i16).to_le_bytes());
        assert_eq!(board.waiting_reply(), expected);
    }
}

#[test]
fn in_startup_and_for_another_board_there_are_no_readings() {
    let mut board = started(FITTED, FORCED);
    assert_eq!(give(&mut board, ENGINEERING, &[]), Answer::InStartup);
    assert_eq!(board.waiting_reply(), []);
    let mut board = nominal();
    assert_eq!(send(&mut board, &[0x11, 7, 0x52]), Answer::TooShort);
    assert_eq!(send(&mut board, &[0x11, 7, 0x53, 1]), Answer::UnknownCode);
    for bytes in [[0x12, 7, 0x52, 1], [0x11, 6, 0x52, 1], [0x11, 7, 0x52, 2]] {
        assert_eq!(send(&mut board, &bytes), Answer::WrongBoard);
        assert_eq!(board.waiting_reply(), [0x11, 7, 0x53, 1, 6]);
    }
}

/// What may happen to words and to NEW of both commands.
#[derive(Clone, Copy, Debug, PartialEq, Eq)]
enum Step {
    Words,
    Told(u8),
    WordsTold(u8),
    WrongBoard(u8),
    TooShort(u8),
    Other,
    Reset,
}

const STEPS: [Step; 11] = [
    Step::Words,
    Step::Told(RAW),
    Step::Told(ENGINEERING),
    Step::WordsTold(RAW),
    Step::WordsTold(ENGINEERING),
    Step::WrongBoard(RAW),
    Step::WrongBoard(ENGINEERING),
    Step::TooShort(RAW),
    Step::TooShort(ENGINEERING),
    Step::Other,
    Step::Reset,
];

/// Which of the two have words that they have not told, by the rule's wording.
#[derive(Clone, Copy, Default)]
struct Untold {
    raw: bool,
    engineering: bool,
}

impl Untold {
    /// Takes what one of the two has not told: it has now.
    fn tell(&mut self, code: u8) -> bool {
        std::mem::take(if code == RAW { &mut self.raw } else { &mut self.engineering })
    }
}

/// Takes one step on the board and by the rule, and compares NEW where there is one.
fn take(board: &mut Board, untold: &mut Untold, step: Step) {
    let brings = matches!(step, Step::Words | Step::WordsTold(_));
    let words: &[u16] = if brings { &[0x8000; WORDS] } else { &[] };
    let bytes = match step {
        Step::Words => None,
        Step::Told(code) | Step::WordsTold(code) => Some(command(board, code, &[])),
        Step::WrongBoard(code) => Some(vec![0x11, 7, code, 8]),
        Step::TooShort(code) => Some(vec![0x11, 7, code]),
        Step::Other => Some(command(board, 0x42, &[])),
        Step::Reset => Some(command(board, 0xAA, &[0xA6])),
    };
    bring(board, words, bytes.as_deref());
    if brings {
        *untold = Untold { raw: true, engineering: true };
    }
    match step {
        Step::Told(code) | Step::WordsTold(code) => {
            let new = if untold.tell(code) { 0x80 } else { 0 };
            assert_eq!(board.waiting_reply()[..5], [0x11, 7, code | 1, 1, new]);
        }
        Step::Reset => {
            *untold = Untold::default();
            ticks(board, HIGH, 50);
        }
        _ => {}
    }
}

#[test]
fn new_of_each_is_ended_by_its_own_accepted_code_and_by_a_reset() {
    every_order(&nominal(), Untold::default(), &STEPS, 5, take);
    every_order(&safety(), Untold::default(), &STEPS, 4, take);
    every_order(&emergency(), Untold::default(), &STEPS, 4, take);
}

#[test]
fn words_that_came_in_startup_are_new_to_both() {
    let mut board = started(FITTED, FORCED);
    bring(&mut board, &[1; WORDS], Some(&[0x11, 7, 0x52, 1]));
    ticks(&mut board, HIGH, 49);
    for (code, new) in [(ENGINEERING, 0x80), (RAW, 0x80), (ENGINEERING, 0), (RAW, 0)] {
        give(&mut board, code, &[]);
        assert_eq!(stat(&board), new);
    }
}

#[test]
fn emergency_leaves_words_new_to_both() {
    for code in [RAW, ENGINEERING] {
        let mut board = safety();
        bring(&mut board, &[9; WORDS], None);
        give(&mut board, code, &[]);
        ticks(&mut board, DEEP, 6_000);
        assert_eq!(board.mode().mode(), Mode::Emergency);
        tick(&mut board, HIGH);
        for other in [RAW, ENGINEERING] {
            give(&mut board, other, &[]);
            assert_eq!(stat(&board), if other == code { 0 } else { 0x80 });
        }
    }
}

#[test]
fn a_bite_of_the_watchdog_ends_new_of_both() {
    for code in [RAW, ENGINEERING] {
        let mut board = nominal();
        set(&mut board, 0x4000, 1);
        bring(&mut board, &[9; WORDS], None);
        ticks(&mut board, HIGH, 98);
        assert_eq!(tick(&mut board, HIGH), Event::WatchdogReset);
        ticks(&mut board, HIGH, 50);
        give(&mut board, code, &[]);
        assert_eq!(stat(&board), 0);
    }
}

#[test]
fn the_other_one_does_not_see_a_reading() {
    for (first, then) in [(RAW, ENGINEERING), (ENGINEERING, RAW)] {
        let mut told = eventful(Mode::Nominal);
        let mut untold = told.clone();
        give(&mut told, first, &[]);
        give(&mut untold, 0x02, &[]);
        for board in [&mut told, &mut untold] {
            give(board, then, &[]);
        }
        assert_eq!(told.waiting_reply(), untold.waiting_reply());
        assert_eq!(told.words(), untold.words());
        assert_eq!((told.mode(), told.timer()), (untold.mode(), untold.timer()));
    }
}
