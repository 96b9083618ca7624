//! What every test needs: boards in a wanted mode and short ways to drive them.
#![allow(dead_code)]

use second::board::{Answer, Board, Event, Profile, Tick, Told};
use second::mode::Mode;
use second::model::Model;
use second::settings::{Settings, SIZE};

/// Above every threshold of the defaults.
pub const HIGH: i16 = 15_000;
/// Below the safety threshold, above the emergency ones: safety stays safety.
pub const LOW: i16 = 12_399;
/// Below the emergency threshold.
pub const DEEP: i16 = 11_999;

pub const FITTED: u32 = 0x0003_000F;
pub const FORCED: u32 = 0x0001_0001;

/// The profile of most tests, which names raw.
pub fn profile() -> Profile<'static> {
    Profile::distribution(1, FITTED, FORCED).naming_raw()
}

/// A board in the first tick of startup. Its profile names raw.
pub fn started(fitted: u32, forced: u32) -> Board {
    Board::start(&Profile::distribution(1, fitted, forced).naming_raw()).unwrap()
}

/// A tick with all that it may bring.
pub fn tick_full(
    board: &mut Board,
    rail: i16,
    overcurrent: u32,
    words: &[u16],
    command: Option<&[u8]>,
) -> Told {
    board.tick(&Tick { rail, overcurrent, words, command }).unwrap()
}

/// A tick that brings nothing but its rail.
pub fn tick(board: &mut Board, rail: i16) -> Event {
    tick_full(board, rail, 0, &[], None).event
}

/// Many ticks that bring nothing but their rail.
pub fn ticks(board: &mut Board, rail: i16, count: usize) {
    for _ in 0..count {
        tick(board, rail);
    }
}

/// A tick that names channels and leaves the mode as it is.
pub fn overcurrent(board: &mut Board, named: u32) {
    let rail = steady(board);
    tick_full(board, rail, named, &[], None);
}

/// A rail that leaves the mode as it is, with the default thresholds.
pub fn steady(board: &Board) -> i16 {
    match board.mode().mode() {
        Mode::Startup | Mode::Nominal => HIGH,
        Mode::Safety => LOW,
        Mode::Emergency => DEEP,
    }
}

/// A transfer under this rail, and its answer.
pub fn send_at(board: &mut Board, rail: i16, command: &[u8]) -> Answer {
    tick_full(board, rail, 0, &[], Some(command)).answer.unwrap()
}

/// A transfer that leaves the mode as it is, and its answer.
pub fn send(board: &mut Board, command: &[u8]) -> Answer {
    let rail = steady(board);
    send_at(board, rail, command)
}

/// A command with a right header.
pub fn command(board: &Board, code: u8, rest: &[u8]) -> Vec<u8> {
    let mut bytes = vec![board.model().stid(), 0x07, code, board.bid()];
    bytes.extend_from_slice(rest);
    bytes
}

/// A command with a right header, and its answer.
pub fn give(board: &mut Board, code: u8, rest: &[u8]) -> Answer {
    let bytes = command(board, code, rest);
    send(board, &bytes)
}

/// Sets a 16-bit parameter.
pub fn set(board: &mut Board, id: u16, value: u16) {
    let [low, high] = id.to_le_bytes();
    let [first, second] = value.to_le_bytes();
    assert_eq!(give(board, 0x84, &[low, high, first, second]), Answer::Accepted);
}

/// The value bytes of a parameter.
pub fn get(board: &mut Board, id: u16) -> Vec<u8> {
    assert_eq!(give(board, 0x82, &id.to_le_bytes()), Answer::Accepted);
    board.waiting_reply()[8..].to_vec()
}

/// The value of a 16-bit parameter.
pub fn get_word(board: &mut Board, id: u16) -> u16 {
    let value = get(board, id);
    u16::from_le_bytes([value[0], value[1]])
}

/// A board that has just come into the mode.
pub fn in_mode(mode: Mode, fitted: u32, forced: u32) -> Board {
    brought_to(mode, started(fitted, forced))
}

/// A new board brought into the mode.
pub fn brought_to(mode: Mode, mut board: Board) -> Board {
    match mode {
        Mode::Startup => {}
        Mode::Nominal => ticks(&mut board, HIGH, 50),
        Mode::Safety => ticks(&mut board, LOW, 50),
        Mode::Emergency => {
            ticks(&mut board, LOW, 50);
            ticks(&mut board, DEEP, 6_001);
        }
    }
    assert_eq!(board.mode().mode(), mode);
    board
}

/// A board that has just come into nominal.
pub fn nominal() -> Board {
    in_mode(Mode::Nominal, FITTED, FORCED)
}

/// A board that has just come into safety.
pub fn safety() -> Board {
    in_mode(Mode::Safety, FITTED, FORCED)
}

/// A board that has just come into emergency.
pub fn emergency() -> Board {
    in_mode(Mode::Emergency, FITTED, FORCED)
}

/// The defaults as they would be stored.
pub fn stored_defaults() -> [u8; SIZE] {
    *Settings::defaults(Model::Distribution).bytes()
}

/// The shortest command that is long enough by the page of its code, with an id of one value byte for 0x84.
pub fn needed(code: u8) -> usize {
    match code {
        0xAA | 0x16 | 0x18 | 0x90 | 0x92 => 5,
        0x10 | 0x12 | 0x14 | 0x82 | 0x86 => 6,
        0x84 | 0x94 => 7,
        _ => 4,
    }
}

/// A tick that brings words, with or without a command.
pub fn bring(board: &mut Board, words: &[u16], command: Option<&[u8]>) {
    let rail = steady(board);
    tick_full(board, rail, 0, words, command);
}

/// STAT of the reply that waits.
pub fn stat(board: &Board) -> u8 {
    board.waiting_reply()[4]
}

/// Takes every order of so many of the steps, each from the same board and with what the test knows of it.
pub fn every_order<Known: Copy, Step: Copy>(
    board: &Board,
    known: Known,
    steps: &[Step],
    count: usize,
    take: fn(&mut Board, &mut Known, Step),
) {
    if count == 0 {
        return;
    }
    for &step in steps {
        let (mut board, mut known) = (board.clone(), known);
        take(&mut board, &mut known, step);
        every_order(&board, known, steps, count - 1, take);
    }
}
