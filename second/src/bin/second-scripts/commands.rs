//! Commands: every code at every length, good and bad in each way.

use crate::author::Author;
use crate::rng::Rng;
use second::board::Board;
use second::coverage::{needed, BATTERY_CODES, CODES, STRANGERS};
use second::mode::Mode;
use second::model::Model;
use second::settings::{self, Kind, Row, READ_ONLY, ROWS};

/// The settings that move the mode or bite; the random author sets them with care.
const LIVE: [u16; 3] = [0x4000, 0x4042, 0x4043];

/// A full command that is accepted wherever its mode allows it.
fn good(board: &Board, code: u8, rng: &mut Rng) -> Vec<u8> {
    let mut bytes = vec![board.model().stid(), 0x07, code, board.bid()];
    match code {
        0xAA => bytes.push(0xA6),
        0x10 | 0x12 | 0x14 => bytes.extend_from_slice(&rng.channels().to_le_bytes()),
        0x16 => bytes.push(one_of(board.channels().fitted(), rng)),
        0x18 => bytes.push(one_of(board.channels().fitted() & !board.channels().forced(), rng)),
        0x82 | 0x86 => bytes.extend_from_slice(&known_id(rng).to_le_bytes()),
        0x84 => {
            let id = known_id(rng);
            bytes.extend_from_slice(&id.to_le_bytes());
            bytes.extend_from_slice(&value(id, rng));
        }
        0x90 | 0x92 => bytes.push(0xA7),
        0x94 => {
            let checksum = if rng.once_in(2) { 0 } else { board.settings().checksum() };
            bytes.push(0xA7);
            bytes.extend_from_slice(&checksum.to_le_bytes());
        }
        _ => {}
    }
    bytes
}

/// A channel of the set, or 0 where it is empty.
fn one_of(set: u32, rng: &mut Rng) -> u8 {
    let members: Vec<u8> = (0..32).filter(|channel| set >> channel & 1 != 0).collect();
    if members.is_empty() {
        0
    } else {
        rng.pick(&members)
    }
}

/// A read/write id that neither moves the mode nor bites.
fn known_id(rng: &mut Rng) -> u16 {
    loop {
        let row = &ROWS[rng.below(ROWS.len())];
        let id = rng.between(i64::from(row.first), i64::from(row.last)) as u16;
        if !LIVE.contains(&id) {
            return id;
        }
    }
}

/// An id of any kind, known or not.
fn any_id(rng: &mut Rng) -> u16 {
    match rng.below(4) {
        0 => rng.pick(&STRANGERS),
        1 => {
            let row = &READ_ONLY[rng.below(READ_ONLY.len())];
            rng.between(i64::from(row.first), i64::from(row.last)) as u16
        }
        2 => rng.next() as u16,
        _ => known_id(rng),
    }
}

/// Value bytes for a read/write id, at and around the ends of its range.
fn value(id: u16, rng: &mut Rng) -> Vec<u8> {
    let Some(place) = settings::find(id) else {
        return vec![0; 4];
    };
    let ends = ends(&place.row);
    let value = if rng.once_in(3) { rng.next() as i64 } else { rng.pick(&ends) };
    wire(value, place.row.kind)
}

/// The ends of a range, of its type and of the sign, and the values beside them.
fn ends(row: &Row) -> Vec<i64> {
    let kind = row.kind;
    let mut ends = vec![kind.lowest(), row.low - 1, row.low, row.low + 1, -1, 0, 1];
    ends.extend([row.high - 1, row.high, row.high + 1, kind.highest()]);
    ends.retain(|value| kind.lowest() <= *value && *value <= kind.highest());
    ends.sort_unstable();
    ends.dedup();
    ends
}

/// The bytes of a value of this type.
fn wire(value: i64, kind: Kind) -> Vec<u8> {
    value.to_le_bytes()[..kind.size()].to_vec()
}

/// A full command whose key, channel, parameter or checksum is wrong.
fn invalid(board: &Board, code: u8, rng: &mut Rng) -> Vec<u8> {
    let mut bytes = good(board, code, rng);
    match code {
        0xAA | 0x90 | 0x92 | 0x94 => bytes[4] = rng.pick(&[0x00, 0xA5, 0xA6, 0xA7, 0xA8, 0xFF]),
        0x16 | 0x18 => bytes[4] = rng.pick(&[0, 15, 16, 31, 32, 33, 64, 255]),
        0x82 | 0x84 | 0x86 => bytes[4..6].copy_from_slice(&any_id(rng).to_le_bytes()),
        _ => {}
    }
    if code == 0x94 && rng.once_in(2) {
        bytes[4] = 0xA7;
        let near = board.settings().checksum() ^ 1 << rng.below(16);
        bytes[5..7].copy_from_slice(&near.to_le_bytes());
    }
    bytes
}

/// The codes that the board knows.
fn known(board: &Board) -> &'static [u8] {
    match board.model() {
        Model::Distribution => &CODES,
        Model::Battery => &BATTERY_CODES,
    }
}

/// A command of any kind for the state the board is in.
pub fn any(board: &Board, rng: &mut Rng) -> Vec<u8> {
    let code = match rng.below(12) {
        0 => rng.byte(),
        1 => rng.pick(known(board)) | 1,
        _ => rng.pick(known(board)),
    };
    let mut bytes = if rng.once_in(4) { invalid(board, code, rng) } else { good(board, code, rng) };
    match rng.below(10) {
        0 => bytes.truncate(rng.below(bytes.len() + 1)),
        1 => bytes.extend((0..rng.below(4)).map(|i| i as u8)),
        2 => {
            let at = rng.pick(&[0, 1, 3]);
            let other = rng.byte();
            bytes[at] = rng.pick(&[0x00, bytes[at] ^ 1, 0xFF, other]);
        }
        _ => {}
    }
    bytes
}

/// Like `any`, but it neither resets nor switches the mode.
pub fn harmless(board: &Board, rng: &mut Rng) -> Vec<u8> {
    loop {
        let bytes = any(board, rng);
        let code = bytes.get(2).copied().unwrap_or(0);
        let moves = [0xAA, 0x30, 0x32, 0x90, 0x92, 0x94].contains(&code);
        let live =
            bytes.get(4..6).is_some_and(|id| LIVE.contains(&u16::from_le_bytes([id[0], id[1]])));
        if !moves && !live {
            return bytes;
        }
    }
}

/// A command of any kind for the author's board.
pub fn draw(author: &mut Author) -> Vec<u8> {
    let (board, rng) = author.board_and_rng();
    any(board, rng)
}

/// The same, but it neither resets nor switches the mode.
pub fn draw_harmless(author: &mut Author) -> Vec<u8> {
    let (board, rng) = author.board_and_rng();
    harmless(board, rng)
}

/// Sends a command of any kind.
pub fn random(author: &mut Author) {
    let command = draw(author);
    author.send(&command);
}

/// Sends a command that neither resets nor switches the mode.
pub fn random_harmless(author: &mut Author) {
    let command = draw_harmless(author);
    author.send(&command);
}

/// Every code in one mode: each length, each wrong header byte, wrong keys and
/// the like, and codes that the board does not know.
pub fn all_in(author: &mut Author, mode: Mode, with_reset: bool) {
    for code in known(author.board()) {
        if *code != 0xAA || with_reset {
            one_in(author, mode, *code);
        }
    }
    for code in [0x03, 0x53, 0xAB, 0x95, 0xFF, 0x00, 0x40, 0x54, 0xA0, 0xC4, 0xFE] {
        author.reach(mode);
        author.give(code, &[0xA6, 0, 0]);
        if author.skips() {
            continue;
        }
        author.reach(mode);
        let mut bytes = author.command(code, &[]);
        bytes[0] ^= 3;
        author.send(&bytes);
    }
}

/// One code in one mode: each length, each wrong header byte, wrong keys and the like.
fn one_in(author: &mut Author, mode: Mode, code: u8) {
    every_length(author, mode, code);
    for (at, value) in [(0, 0x00), (1, 0x00), (3, 0x00), (0, 0x1A), (1, 0x06), (3, 0x09)] {
        if author.skips() {
            continue;
        }
        author.reach(mode);
        let (board, rng) = author.board_and_rng();
        let mut bytes = good(board, code, rng);
        bytes[at] = value;
        author.send(&bytes);
    }
    for _ in 0..if author.is_brief() { 1 } else { 3 } {
        author.reach(mode);
        let (board, rng) = author.board_and_rng();
        let bytes = invalid(board, code, rng);
        author.send(&bytes);
    }
}

/// A good command cut or padded to each length around the one it needs.
fn every_length(author: &mut Author, mode: Mode, code: u8) {
    for length in 0..=needed(code) + 3 {
        let matters = mode == Mode::Nominal && length >= 4 && (code != 0xAA || length <= 5);
        if !matters && author.skips() {
            continue;
        }
        author.reach(mode);
        sized(author, code, length);
    }
}

/// A good command cut or padded to a length.
pub fn sized(author: &mut Author, code: u8, length: usize) {
    let (board, rng) = author.board_and_rng();
    let mut bytes = good(board, code, rng);
    while bytes.len() < length {
        bytes.push(rng.byte());
    }
    bytes.truncate(length);
    author.send(&bytes);
}

/// Good commands with many bytes behind them, up to all that a transfer may have.
pub fn long(author: &mut Author) {
    for code in [0x02, 0x10, 0x84, 0x42, 0x52] {
        for length in [15, 64, 255, 256, 257, 300] {
            if author.is_brief() && (code != 0x10 || length < 256) {
                continue;
            }
            author.reach(Mode::Nominal);
            let (board, rng) = author.board_and_rng();
            let mut bytes = good(board, code, rng);
            bytes.resize_with(length, || rng.byte());
            author.send(&bytes);
        }
    }
}

/// Every id by get, set and reset, with values at the ends of each range.
pub fn all_parameters(author: &mut Author) {
    author.reach(Mode::Nominal);
    for row in &ROWS {
        for id in row.first..=row.last {
            all_of(author, id, row);
        }
        every_value_length(author, row);
        for end in ends(row) {
            let bytes = wire(end, row.kind);
            author.give(0x84, &[&row.last.to_le_bytes()[..], &bytes].concat());
        }
    }
    for id in read_only_ids().chain(STRANGERS) {
        author.reach(Mode::Nominal);
        author.give(0x82, &id.to_le_bytes());
        for (code, value) in [(0x84, &[1, 2, 3, 4][..]), (0x86, &[]), (0x84, &[])] {
            if !author.skips() {
                author.give(code, &[&id.to_le_bytes()[..], value].concat());
            }
        }
    }
    author.show();
}

/// Get, set to something, get it back; some are put back to their default and
/// some are left, so that the state line at the end tells them apart. In a brief
/// script the ids within a row are only set.
fn all_of(author: &mut Author, id: u16, row: &Row) {
    author.reach(Mode::Nominal);
    if author.is_brief() && id != row.first && id != row.last {
        let value = author.rng.between(row.low, row.high);
        author.give(0x84, &[&id.to_le_bytes()[..], &wire(value, row.kind)].concat());
        return;
    }
    author.give(0x82, &id.to_le_bytes());
    let value = author.rng.between(row.low, row.high);
    author.give(0x84, &[&id.to_le_bytes()[..], &wire(value, row.kind)].concat());
    author.reach(Mode::Nominal);
    author.give(0x86, &id.to_le_bytes());
    if !LIVE.contains(&id) && author.rng.once_in(2) {
        author.give(0x84, &[&id.to_le_bytes()[..], &wire(value, row.kind)].concat());
    }
}

/// 0x84 with each number of value bytes around the one it needs.
fn every_value_length(author: &mut Author, row: &Row) {
    for length in 0..=row.kind.size() + 3 {
        if author.skips() {
            continue;
        }
        author.reach(Mode::Nominal);
        let mut bytes = wire(row.default, row.kind);
        bytes.resize(length, 0x7F);
        author.give(0x84, &[&row.first.to_le_bytes()[..], &bytes].concat());
    }
}

/// Reads back what the read-only values tell of the state.
pub fn status(author: &mut Author) {
    for id in [0x4801u16, 0x4802, 0x4803, 0x4804, 0x4805, 0x4806, 0x480D, 0x480E, 0x4810, 0x6809] {
        author.give(0x82, &id.to_le_bytes());
    }
}

/// Every read-only id, lowest first.
fn read_only_ids() -> impl Iterator<Item = u16> {
    READ_ONLY.iter().flat_map(|row| row.first..=row.last)
}

/// Every read-only value, those that must read 0 among them.
pub fn all_read_only(author: &mut Author) {
    for id in read_only_ids() {
        author.give(0x82, &id.to_le_bytes());
    }
}

/// Saves, loads and defaults in every order, with checksum 0, right and wrong.
pub fn saves(author: &mut Author) {
    author.reach(Mode::Nominal);
    for _ in 0..author.rng.between(2, 6) {
        let (board, rng) = author.board_and_rng();
        let code = rng.pick(&[0x84, 0x84, 0x86, 0x90, 0x92, 0x94, 0x94, 0x94, 0x82]);
        let bytes = match (code, rng.below(3)) {
            (0x94, 0) => invalid(board, code, rng),
            (0x82, _) => {
                let id = 0x01 + (board.timer() & 1) as u8;
                vec![board.model().stid(), 7, 0x82, board.bid(), id, 0x48]
            }
            _ => good(board, code, rng),
        };
        author.send(&bytes);
    }
    if author.rng.once_in(4) {
        author.give(0xAA, &[0xA6]);
    }
    author.give(0x82, &[0x01, 0x48]);
    author.give(0x82, &[0x02, 0x48]);
}

/// Each way to save and load, before and after something is stored.
pub fn all_saves(author: &mut Author) {
    author.reach(Mode::Nominal);
    for round in 0u8..3 {
        author.give(0x84, &[0x01, 0x10, round + 1]);
        let right = author.board().settings().checksum();
        author.give(0x92, &[0xA7]);
        author.give(0x84, &[0x01, 0x10, round + 1]);
        author.give(0x94, &[0xA7, right as u8 ^ 1, (right >> 8) as u8]);
        author.give(0x94, &[0xA7, right as u8, (right >> 8) as u8 ^ 0x80]);
        author.give(0x94, &[0xA6, 0, 0]);
        if !author.is_brief() {
            author.show();
        }
        author.give(
            0x94,
            &[[0xA7, 0, 0], [0xA7, right as u8, (right >> 8) as u8]][usize::from(round != 1)],
        );
        author.give(0x84, &[0x01, 0x10, 0x55]);
        author.give(0x86, &[0x02, 0x10]);
        author.show();
        author.give(0x90, &[0xA7]);
        author.give(0x82, &[0x01, 0x48]);
        author.give(0x82, &[0x02, 0x48]);
        author.give(0x92, &[0xA7]);
        author.give(0x82, &[0x01, 0x48]);
        author.give(0x82, &[0x02, 0x48]);
        author.give(0x82, &[0x01, 0x10]);
    }
    author.give(0x94, &[0xA7, 0, 0]);
}

/// Settings whose real checksum is 0, saved with it.
pub fn zero_checksum(author: &mut Author) {
    author.reach(Mode::Nominal);
    let mut bytes = *author.board().settings().bytes();
    let last = bytes.len() - 4;
    for value in 0..=u16::MAX {
        bytes[last..last + 2].copy_from_slice(&value.to_le_bytes());
        if second::crc::checksum(&bytes) == 0 {
            break;
        }
    }
    let value = bytes[last..].to_vec();
    author.give(0x84, &[&[0x05, 0x60][..], &value].concat());
    author.give(0x94, &[0xA7, 0x01, 0x00]);
    author.give(0x94, &[0xA7, 0x00, 0x00]);
    author.give(0x82, &[0x02, 0x48]);
    author.show();
}
