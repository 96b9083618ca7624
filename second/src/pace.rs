//! The pattern of the speed measurement: a board runs through many ticks of a
//! kind, and a digest tells whether it did what another board does.
//!
//! The ticks of every kind are made and run at the same place, so that only
//! what the board does with them sets one kind apart from another.

use crate::board::{Board, Profile, Tick, Told, IVID};
use crate::channels::CHANNELS;
use crate::hex;
use crate::model::{Model, WORDS};

/// The longest line that asks for a run, its LF included.
pub const LONGEST_LINE: usize = 3 + MOST_DIGITS;

const MOST_DIGITS: usize = 9;

const BID: u8 = 1;
const FITTED: u32 = 0xFFFF_FFFF;
const FORCED: u32 = 0x0000_000F;

/// The lowest rail of the pattern, above every threshold.
const RAIL: i16 = 15_000;

/// Ticks until startup is over; the digest does not see them.
const WAKING: u32 = 50;

/// The longest transfer of the pattern.
const MOST_TRANSFER: usize = 8;

/// More bytes than any reply has, so that a read shows where it ends.
const READ: usize = 274;

/// The kinds of a mixed run, one tick after the other, again and again.
const MIX: &[u8; CYCLE] = b"pnpgpfpspopwphpc";
const CYCLE: usize = 16;

/// What a tick brings besides its rail.
#[derive(Clone, Copy, Debug, PartialEq, Eq)]
pub enum Kind {
    Plain,
    Noop,
    OvercurrentState,
    Housekeeping,
    Get,
    Set,
    Group,
    Overcurrent,
    Words,
    /// There is no tick: what is left is the cost of the loop and the digest.
    NoTick,
}

impl Kind {
    /// The kind that a letter stands for, if it stands for one.
    pub fn of(letter: u8) -> Option<Kind> {
        match letter {
            b'p' => Some(Kind::Plain),
            b'n' => Some(Kind::Noop),
            b'f' => Some(Kind::OvercurrentState),
            b'h' => Some(Kind::Housekeeping),
            b'g' => Some(Kind::Get),
            b's' => Some(Kind::Set),
            b'o' => Some(Kind::Group),
            b'c' => Some(Kind::Overcurrent),
            b'w' => Some(Kind::Words),
            b'z' => Some(Kind::NoTick),
            _ => None,
        }
    }
}

/// A run that was asked for.
#[derive(Clone, Copy, Debug, PartialEq, Eq)]
pub struct Run {
    /// The kinds of its ticks in turn; all the same where the run is not mixed.
    kinds: [Kind; CYCLE],
    count: u32,
}

/// The run that a line with its LF asks for, or none where it is not of the form.
pub fn parse(line: &[u8]) -> Option<Run> {
    match line {
        [letter, b' ', digits @ .., b'\n'] => {
            Some(Run { kinds: kinds(*letter)?, count: number(digits)? })
        }
        _ => None,
    }
}

/// The kinds in turn that a letter stands for, `m` among them.
fn kinds(letter: u8) -> Option<[Kind; CYCLE]> {
    let mut kinds = [Kind::Plain; CYCLE];
    for (kind, mixed) in kinds.iter_mut().zip(MIX) {
        *kind = Kind::of(if letter == b'm' { *mixed } else { letter })?;
    }
    Some(kinds)
}

/// A decimal number, with or without zeros in front.
fn number(digits: &[u8]) -> Option<u32> {
    if digits.is_empty() || digits.len() > MOST_DIGITS {
        return None;
    }
    let mut value = 0;
    for byte in digits {
        if !byte.is_ascii_digit() {
            return None;
        }
        value = 10 * value + u32::from(byte - b'0');
    }
    Some(value)
}

/// What is printed for a line: the digest of its run, or `bad`.
pub fn pace(line: &[u8]) -> Vec<u8> {
    let mut printed = Vec::new();
    match parse(line) {
        Some(run) => {
            printed.extend_from_slice(b"digest ");
            hex::push_number(&mut printed, digest(&run), 8);
        }
        None => printed.extend_from_slice(b"bad"),
    }
    printed.push(b'\n');
    printed
}

/// The digest of a whole run.
fn digest(run: &Run) -> u64 {
    let mut course = Course::new();
    course.go(run);
    course.close();
    course.digest.0
}

/// A number that all the values it took in have a part in.
#[derive(Clone, Copy, Debug, PartialEq, Eq)]
struct Digest(u64);

impl Digest {
    /// Takes in one value; the sum stays far below the top of 64 bits.
    fn take(&mut self, value: u64) {
        self.0 = (self.0 * 1_000_003 + value) % 4_294_967_291;
    }

    /// Takes in values one at a time.
    fn take_all<T: Copy + Into<u64>>(&mut self, values: &[T]) {
        for value in values {
            self.take((*value).into());
        }
    }
}

/// A board on its way through a run.
struct Course {
    board: Board,
    /// What the draws come from.
    x: u64,
    /// The words that a tick may lend.
    words: [u16; WORDS],
    digest: Digest,
}

impl Course {
    /// A board that has just left startup, with nothing in the digest yet.
    fn new() -> Course {
        let profile = Profile::distribution(BID, FITTED, FORCED).naming_raw();
        let mut board = Board::start(&profile).expect("the profile breaks no rule");
        for _ in 0..WAKING {
            let plain = Tick { rail: RAIL, overcurrent: 0, words: &[], command: None };
            board.tick(&plain).expect("a tick may bring no words");
        }
        let words = std::array::from_fn(|place| place as u16);
        Course { board, x: 1, words, digest: Digest(0) }
    }

    /// All ticks of the run.
    fn go(&mut self, run: &Run) {
        for i in 0..run.count as usize {
            let drawn = self.draw();
            let told = self.step(run.kinds[i % CYCLE], drawn);
            self.digest.take(seen(&self.board, told, i));
        }
    }

    /// The next number of 15 bits.
    fn draw(&mut self) -> u16 {
        self.x = (self.x * 1_103_515_245 + 12_345) % 2_147_483_648;
        (self.x / 65_536) as u16
    }

    /// One tick of a kind; tells what the board told, none without a tick.
    fn step(&mut self, kind: Kind, drawn: u16) -> Option<Told> {
        if kind == Kind::NoTick {
            return None;
        }
        let mut room = [0; MOST_TRANSFER];
        let rail = RAIL + (drawn % 1000) as i16;
        let overcurrent = named(kind, drawn);
        let words = lent(kind, drawn, &mut self.words);
        let command = transfer(kind, drawn, &mut room);
        self.board.tick(&Tick { rail, overcurrent, words, command }).ok()
    }

    /// Takes in what the board holds when the run is over.
    fn close(&mut self) {
        let mut buffer = [0; READ];
        self.board.read(&mut buffer);
        let resets = self.board.resets();
        let shown = self.board.shown();
        let digest = &mut self.digest;
        digest.take_all(&buffer);
        digest.take_all(self.board.channels().counts());
        digest.take_all(self.board.words());
        digest.take(u64::from(self.board.raw_is_new));
        digest.take_all(self.board.settings().bytes());
        digest.take_all(&[resets.power, resets.watchdog, resets.command]);
        digest.take(self.board.cause() as u64);
        digest.take_all(&[shown.save_count, shown.checksum]);
    }
}

/// The channels that a tick of this kind names.
fn named(kind: Kind, drawn: u16) -> u32 {
    if kind == Kind::Overcurrent {
        u32::from(drawn) * 65_537
    } else {
        0
    }
}

/// The words that a tick of this kind lends, with one of them changed, or none.
fn lent(kind: Kind, drawn: u16, words: &mut [u16; WORDS]) -> &[u16] {
    if kind != Kind::Words {
        return &[];
    }
    words[usize::from(drawn) % WORDS] = drawn;
    words
}

/// The transfer that a tick of this kind brings, if it brings one.
fn transfer(kind: Kind, drawn: u16, room: &mut [u8; MOST_TRANSFER]) -> Option<&[u8]> {
    let [low, high] = drawn.to_le_bytes();
    let (length, code, [a, b, c, d]) = match kind {
        Kind::Noop => (4, 0x02, [0; 4]),
        Kind::OvercurrentState => (4, 0x42, [0; 4]),
        Kind::Housekeeping => (4, 0x50, [0; 4]),
        Kind::Get => (6, 0x82, [(drawn % 68) as u8, 0x40, 0, 0]),
        Kind::Set => (8, 0x84, [(1 + drawn % 64) as u8, 0x40, low, high]),
        Kind::Group if drawn % 2 == 0 => (8, 0x10, [low, high, low, high]),
        Kind::Group => (8, 0x14, [low, high, low, high]),
        Kind::Plain | Kind::Overcurrent | Kind::Words | Kind::NoTick => return None,
    };
    *room = [Model::Distribution.stid(), IVID, code, BID, a, b, c, d];
    Some(&room[..length])
}

/// What the digest takes in of the board after tick `i`.
fn seen(board: &Board, told: Option<Told>, i: usize) -> u64 {
    let channels = board.channels();
    let reply = board.waiting_reply();
    let byte = reply.get(i % READ).copied().unwrap_or(0);
    u64::from(channels.on())
        + 3 * u64::from(channels.latched())
        + 5 * (board.mode().age() % 65_536)
        + 7 * (board.timer() % 65_536)
        + 11 * board.mode().mode() as u64
        + told.map_or(0, |told| seen_of_tick(board, told))
        + 23 * reply.len() as u64
        + 29 * u64::from(byte)
        + 31 * u64::from(channels.counts()[i % CHANNELS])
}

/// The part of it that only a tick has.
fn seen_of_tick(board: &Board, told: Told) -> u64 {
    let outcome = told.answer.map_or(0, |answer| answer as u64 + 1);
    let replied = u64::from(board.reply_of_tick().is_some());
    13 * told.event as u64 + 17 * outcome + 19 * replied
}

#[cfg(test)]
mod tests {
    use super::*;
    use crate::board::{Answer, Cause, Event, ResetCounts};
    use crate::mode::Mode;

    const LETTERS: &[u8] = b"pnfhgsocwmz";

    /// The run of a letter and a count.
    fn run(letter: u8, count: u32) -> Run {
        Run { kinds: kinds(letter).unwrap(), count }
    }

    /// A board and its surroundings after a run.
    fn after(letter: u8, count: u32) -> Course {
        let mut course = Course::new();
        course.go(&run(letter, count));
        course
    }

    /// What a digest makes of values, computed with room to spare.
    fn fold(values: &[u64]) -> u64 {
        let prime = (1u128 << 32) - 5;
        let step = |sum: u128, value: &u64| (sum * 1_000_003 + u128::from(*value)) % prime;
        values.iter().fold(0, step) as u64
    }

    /// Some bytes as often as told.
    fn times(count: usize, bytes: &[u64]) -> Vec<u64> {
        bytes.repeat(count)
    }

    /// The default settings, written out from the table by hand.
    fn default_bytes() -> Vec<u64> {
        [
            times(21, &[0]),
            vec![0x01, 0x12, 0x03],
            times(3, &[0xC8, 0x00]),
            times(3, &[0x58, 0x02]),
            times(3, &[0x1E, 0x00]),
            times(3, &[0x32, 0x00]),
            times(1, &[0x00, 0x00]),
            times(2, &[0x01, 0x00]),
            times(9, &[0x00, 0x00]),
            times(18, &[0x01, 0x00]),
            times(1, &[0x2C, 0x01]),
            times(33, &[0x00, 0x00]),
            times(32, &[0x88, 0x13]),
            vec![0x70, 0x30, 0xB0, 0x36],
            times(2, &[0x00, 0x00, 0x00, 0x00]),
            times(2, &[0x11, 0x01, 0x00, 0x00, 0x22, 0x12, 0x11, 0x11]),
        ]
        .concat()
    }

    /// What the end of a run adds on a board that nothing has happened to.
    fn untouched_end() -> Vec<u64> {
        [times(274, &[0xFF]), times(32 + 122 + 1, &[0]), default_bytes(), times(6, &[0])].concat()
    }

    #[test]
    fn the_digest_of_no_ticks_is_that_of_a_board_just_awake() {
        assert_eq!(default_bytes().len(), 268);
        for letter in LETTERS {
            assert_eq!(digest(&run(*letter, 0)), fold(&untouched_end()));
        }
    }

    #[test]
    fn without_ticks_every_value_is_the_same() {
        let value = 0x0F + 11;
        let values = [times(300, &[value]), untouched_end()].concat();
        assert_eq!(digest(&run(b'z', 300)), fold(&values));
    }

    #[test]
    fn plain_ticks_only_age_the_board() {
        let values: Vec<u64> = (1..=300).map(|age| 0x0F + (5 + 7) * age + 11).collect();
        let values = [values, untouched_end()].concat();
        assert_eq!(digest(&run(b'p', 300)), fold(&values));
    }

    #[test]
    fn no_operations_only_leave_their_reply() {
        let reply = [0x11, 0x07, 0x03, 0x01, 0x80];
        let at = |i: u64| reply.get(i as usize % 274).copied().unwrap_or(0);
        let fixed = 0x0F + 11 + 17 + 19 + 23 * 5;
        let values: Vec<u64> = (0..300).map(|i| fixed + 5 * (i + 1) + 29 * at(i)).collect();
        let end = [reply.to_vec(), times(269, &[0xFF]), untouched_end()[274..].to_vec()].concat();
        assert_eq!(digest(&run(b'n', 300)), fold(&[values, end].concat()));
    }

    #[test]
    fn a_digest_is_the_same_again() {
        for letter in LETTERS {
            for count in [1, 16, 1000] {
                assert_eq!(digest(&run(*letter, count)), digest(&run(*letter, count)));
            }
        }
    }

    #[test]
    fn digests_that_were_computed_from_a_replay() {
        assert_eq!(digest(&run(b'z', 0)), 0x6DD0_5663);
        assert_eq!(digest(&run(b's', 1000)), 0xD1A1_AA6A);
        assert_eq!(digest(&run(b'm', 1000)), 0x21EE_A983);
    }

    #[test]
    fn each_kind_has_its_own_digest() {
        let mut digests: Vec<u64> = LETTERS.iter().map(|kind| digest(&run(*kind, 1000))).collect();
        digests.sort_unstable();
        digests.dedup();
        assert_eq!(digests.len(), LETTERS.len());
    }

    #[test]
    fn each_tick_has_its_part_in_the_digest() {
        for letter in LETTERS {
            assert_ne!(digest(&run(*letter, 1000)), digest(&run(*letter, 1001)));
        }
    }

    #[test]
    fn the_first_draws() {
        let mut course = Course::new();
        let drawn = [course.draw(), course.draw(), course.draw()];
        assert_eq!(drawn, [16_838, 5_758, 10_113]);
    }

    #[test]
    fn the_transfers_of_a_draw() {
        let bytes = |letter: u8, drawn: u16| {
            let mut room = [0xEE; MOST_TRANSFER];
            transfer(Kind::of(letter).unwrap(), drawn, &mut room).map(<[u8]>::to_vec)
        };
        assert_eq!(bytes(b'n', 16_838), Some(vec![0x11, 0x07, 0x02, 0x01]));
        assert_eq!(bytes(b'f', 16_838), Some(vec![0x11, 0x07, 0x42, 0x01]));
        assert_eq!(bytes(b'h', 16_838), Some(vec![0x11, 0x07, 0x50, 0x01]));
        assert_eq!(bytes(b'g', 16_838), Some(vec![0x11, 0x07, 0x82, 0x01, 42, 0x40]));
        assert_eq!(bytes(b's', 16_838), Some(vec![0x11, 0x07, 0x84, 0x01, 7, 0x40, 0xC6, 0x41]));
        let group = vec![0x11, 0x07, 0x10, 0x01, 0xC6, 0x41, 0xC6, 0x41];
        assert_eq!(bytes(b'o', 16_838), Some(group));
        let state = vec![0x11, 0x07, 0x14, 0x01, 0x81, 0x27, 0x81, 0x27];
        assert_eq!(bytes(b'o', 10_113), Some(state));
        for letter in b"pcwz" {
            assert_eq!(bytes(*letter, 16_838), None);
        }
    }

    #[test]
    fn an_overcurrent_names_the_same_channels_in_both_halves() {
        assert_eq!(named(Kind::Overcurrent, 0x41C6), 0x41C6_41C6);
        assert_eq!(named(Kind::Group, 0x41C6), 0);
        let course = after(b'c', 1000);
        assert_eq!((course.board.channels().on(), course.board.channels().latched()), (0, 0x0F));
    }

    #[test]
    fn one_word_more_is_changed_at_each_lending() {
        let course = after(b'w', 2);
        let mut expected: [u16; WORDS] = std::array::from_fn(|place| place as u16);
        expected[16_838 % 122] = 16_838;
        expected[5_758 % 122] = 5_758;
        assert_eq!((course.board.words(), course.board.raw_is_new), (&expected[..], true));
        assert_eq!(after(b'p', 2).board.words(), &[0; WORDS]);
    }

    #[test]
    fn every_transfer_is_accepted() {
        for letter in b"nfhgso" {
            let mut course = Course::new();
            for _ in 0..1000 {
                let drawn = course.draw();
                let told = course.step(Kind::of(*letter).unwrap(), drawn);
                let expected = Told { event: Event::None, answer: Some(Answer::Accepted) };
                assert_eq!(told, Some(expected));
            }
            assert_eq!(course.board.mode().mode(), Mode::Nominal);
        }
    }

    #[test]
    fn plain_ticks_lead_to_a_watchdog_reset() {
        assert_eq!(after(b'p', 29_999).board.resets(), ResetCounts::default());
        for count in [30_000, 30_100] {
            let board = after(b'p', count).board;
            let expected = ResetCounts { watchdog: 1, ..ResetCounts::default() };
            assert_eq!((board.resets(), board.cause()), (expected, Cause::Watchdog));
        }
    }

    #[test]
    fn half_of_a_mixed_run_is_plain_and_the_rest_is_shared_out() {
        let kinds = run(b'm', 0).kinds;
        let share = |kind: Kind| kinds.iter().filter(|other| **other == kind).count();
        assert_eq!(share(Kind::Plain), 8);
        for letter in b"ngfsowhc" {
            assert_eq!(share(Kind::of(*letter).unwrap()), 1);
        }
        assert_eq!(share(Kind::NoTick), 0);
        assert!(kinds.iter().step_by(2).all(|kind| *kind == Kind::Plain));
    }

    #[test]
    fn counts_of_one_to_nine_digits() {
        let counts: [(&[u8], u32); 5] = [
            (b"p 0\n", 0),
            (b"p 7\n", 7),
            (b"p 007\n", 7),
            (b"p 000000000\n", 0),
            (b"p 999999999\n", 999_999_999),
        ];
        for (line, count) in counts {
            assert_eq!(parse(line), Some(run(b'p', count)));
            assert!(line.len() <= LONGEST_LINE);
        }
    }

    #[test]
    fn what_is_not_of_the_form_is_bad() {
        let lines: [&[u8]; 22] = [
            b"",
            b"\n",
            b"p",
            b"p\n",
            b"p \n",
            b"p 1",
            b"p1\n",
            b"p  1\n",
            b" p 1\n",
            b"p 1 \n",
            b"p 1\r\n",
            b"p 1\n\n",
            b"p 1\np 1\n",
            b"p 0000000001\n",
            b"p -1\n",
            b"p +1\n",
            b"p 1A\n",
            b"p\t1\n",
            b"P 1\n",
            b"a 1\n",
            b"pp 1\n",
            b"p \xB2\n",
        ];
        for line in lines {
            assert_eq!(pace(line), b"bad\n", "{line:?}");
        }
    }

    #[test]
    fn a_digest_is_printed_in_eight_capitals() {
        for letter in LETTERS {
            let line = [*letter, b' ', b'9', b'\n'];
            let expected = format!("digest {:08X}\n", digest(&run(*letter, 9)));
            assert_eq!(pace(&line), expected.into_bytes());
        }
    }
}
