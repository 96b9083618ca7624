//! All 256 command codes, and every length up to three bytes past the needed ones.

mod common;

use common::*;
use second::board::Answer;
use second::coverage::CODES;
use second::mode::Mode;

/// Bytes that make each command valid: keys, a fitted channel, a known id.
fn rest(code: u8) -> [u8; 6] {
    match code {
        0xAA => [0xA6, 0, 0, 0, 0, 0],
        0x16 | 0x18 => [1, 0, 0, 0, 0, 0],
        0x82 | 0x84 | 0x86 => [0x02, 0x20, 0, 0, 0, 0],
        0x90 | 0x92 | 0x94 => [0xA7, 0, 0, 0, 0, 0],
        _ => [0; 6],
    }
}

#[test]
fn all_256_codes_in_nominal() {
    for code in 0..=255u8 {
        let mut board = nominal();
        let answer = give(&mut board, code, &rest(code));
        if CODES.contains(&code) {
            assert_eq!(answer, Answer::Accepted, "{code:02X}");
        } else {
            assert_eq!(answer, Answer::UnknownCode, "{code:02X}");
            assert_eq!(board.waiting_reply(), [0x11, 0x07, code | 1, 0x01, 0x02]);
        }
    }
}

#[test]
fn all_256_codes_in_startup() {
    let mut board = started(FITTED, FORCED);
    for code in 0..=255u8 {
        let mut fresh = board.clone();
        assert_eq!(give(&mut fresh, code, &rest(code)), Answer::InStartup);
        assert_eq!(fresh.waiting_reply(), []);
    }
    tick(&mut board, HIGH);
}

#[test]
fn all_256_codes_with_a_wrong_header() {
    for code in 0..=255u8 {
        for (byte, value) in [(0, 0x00), (0, 0x12), (1, 0x00), (1, 0x06), (3, 0x00), (3, 0x02)] {
            let mut board = nominal();
            let mut bytes = command(&board, code, &rest(code));
            bytes[byte] = value;
            assert_eq!(send(&mut board, &bytes), Answer::WrongBoard);
            assert_eq!(board.waiting_reply(), [0x11, 0x07, code | 1, 0x01, 0x06]);
            assert_eq!(board.timer(), 1);
        }
    }
}

#[test]
fn every_length_from_0_to_three_past_the_needed() {
    for code in CODES {
        let mut board = nominal();
        let mut bytes = command(&board, code, &rest(code));
        bytes.extend_from_slice(&[0xFF; 3]);
        for length in 0..=needed(code) + 3 {
            let answer = send(&mut board, &bytes[..length]);
            let expected = match length {
                0..=3 => Answer::TooShort,
                _ if length < needed(code) => Answer::Missing,
                _ => Answer::Accepted,
            };
            assert_eq!(answer, expected, "{code:02X} at {length}");
            if board.mode().mode() != Mode::Nominal {
                board = nominal();
            }
        }
    }
}

#[test]
fn what_each_mode_allows() {
    let cases: [(Mode, &[u8]); 3] = [
        (Mode::Nominal, &[]),
        (Mode::Safety, &[0x10, 0x12, 0x14, 0x16, 0x18, 0x30]),
        (Mode::Emergency, &[0x10, 0x12, 0x14, 0x16, 0x18, 0x30, 0x32]),
    ];
    for (mode, refused) in cases {
        let board = in_mode(mode, FITTED, FORCED);
        for code in CODES {
            let mut board = board.clone();
            let expected = if refused.contains(&code) { Answer::NotNow } else { Answer::Accepted };
            assert_eq!(give(&mut board, code, &rest(code)), expected, "{code:02X} in {mode:?}");
            if expected == Answer::NotNow {
                assert_eq!(board.waiting_reply()[4], 0x05);
            }
        }
    }
}

#[test]
fn reply_lengths() {
    for code in CODES {
        let mut board = nominal();
        give(&mut board, code, &rest(code));
        let expected = match code {
            0xAA => 0,
            0x42 => 78,
            0x50 | 0x52 => 258,
            0x82 | 0x84 | 0x86 => 9,
            _ => 5,
        };
        assert_eq!(board.waiting_reply().len(), expected, "{code:02X}");
        if expected > 5 {
            assert_eq!(board.waiting_reply()[5], 0);
        }
    }
}
