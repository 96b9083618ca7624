//! Every parameter id there can be, against the tables written out once more.

mod common;

use common::*;
use second::board::{Answer, Board};
use second::model::Model;
use second::settings::{self, Kind, Settings, SIZE};

/// Type, default and range by plain ranges, apart from the library's rows.
fn expected(id: u16) -> Option<(Kind, i64, i64, i64)> {
    Some(match id {
        0x1000..=0x1014 => (Kind::Int8, 0, -128, 127),
        0x2000 => (Kind::Uint8, 1, 0, 255),
        0x2001 => (Kind::Uint8, 18, 0, 255),
        0x2002 => (Kind::Uint8, 3, 0, 255),
        0x3000..=0x3002 => (Kind::Int16, 200, -2000, 3000),
        0x3003..=0x3005 => (Kind::Int16, 600, -2000, 3400),
        0x3006..=0x3008 => (Kind::Int16, 30, 30, 32767),
        0x3009..=0x300B => (Kind::Int16, 50, 30, 32767),
        0x300C => (Kind::Int16, 0, -32768, 32767),
        0x300D | 0x300E => (Kind::Int16, 1, -32768, 32767),
        0x300F..=0x3017 => (Kind::Int16, 0, -32768, 32767),
        0x3018..=0x3029 => (Kind::Int16, 1, -32768, 32767),
        0x4000 => (Kind::Uint16, 300, 0, 65535),
        0x4001 => (Kind::Uint16, 0, 0, 65535),
        0x4002..=0x4021 => (Kind::Uint16, 0, 0, 20000),
        0x4022..=0x4041 => (Kind::Uint16, 5000, 50, 20000),
        0x4042 => (Kind::Uint16, 12400, 0, 65535),
        0x4043 => (Kind::Uint16, 14000, 0, 65535),
        0x6000 | 0x6001 => (Kind::Uint32, 0, 0, 0xFFFF_FFFF),
        0x6002 | 0x6004 => (Kind::Uint32, 273, 0, 0xFFFF_FFFF),
        0x6003 | 0x6005 => (Kind::Uint32, 0x1111_1222, 0, 0xFFFF_FFFF),
        _ => return None,
    })
}

/// The type of a read-only id, as Table 3-26 has it.
fn expected_read_only(id: u16) -> Option<Kind> {
    Some(match id {
        0x1800 => Kind::Int8,
        0x2800..=0x2803 => Kind::Uint8,
        0x3800..=0x3801 => Kind::Int16,
        0x4800..=0x4813 => Kind::Uint16,
        0x6800..=0x6814 => Kind::Uint32,
        _ => return None,
    })
}

/// An id and the bytes of a value.
fn with_value(id: u16, value: &[u8]) -> Vec<u8> {
    let mut rest = id.to_le_bytes().to_vec();
    rest.extend_from_slice(value);
    rest
}

/// The number that the bytes of a value stand for.
fn number(kind: Kind, wire: &[u8]) -> i64 {
    let mut wide = [0; 8];
    wide[..wire.len()].copy_from_slice(wire);
    let value = i64::from_le_bytes(wide);
    match kind {
        Kind::Int8 => i64::from(value as i8),
        Kind::Int16 => i64::from(value as i16),
        Kind::Uint8 | Kind::Uint16 | Kind::Uint32 => value,
    }
}

#[test]
fn all_65536_ids_have_their_kind_type_default_and_range() {
    let mut read_write = 0;
    let mut read_only = 0;
    for id in 0..=u16::MAX {
        let row = settings::find(id).map(|place| place.row);
        let found = row.map(|row| (row.kind, row.default, row.low, row.high));
        assert_eq!(found, expected(id), "{id:04X}");
        assert_eq!(settings::read_only_kind(id), expected_read_only(id), "{id:04X}");
        read_write += usize::from(found.is_some());
        read_only += usize::from(settings::read_only_kind(id).is_some());
    }
    assert_eq!((read_write, read_only), (140, 48));
}

/// The same over the commands, as a master would see it.
#[test]
fn all_65536_ids_answer_get_set_and_reset() {
    let mut board = nominal();
    for id in 0..=u16::MAX {
        let writable = expected(id).is_some();
        let readable = writable || expected_read_only(id).is_some();
        let of = |good: bool| if good { Answer::Accepted } else { Answer::Invalid };
        assert_eq!(give(&mut board, 0x82, &id.to_le_bytes()), of(readable), "{id:04X}");
        assert_eq!(give(&mut board, 0x86, &id.to_le_bytes()), of(writable), "{id:04X}");
        let rest = with_value(id, &[0; 8]);
        assert_eq!(give(&mut board, 0x84, &rest), of(writable), "{id:04X}");
        // A watchdog of 0 is harmless; the thresholds and the rest go back too.
        give(&mut board, 0x90, &[0xA7]);
    }
}

#[test]
fn the_sizes_add_up() {
    let mut counts = [0; 5];
    let mut bytes = 0;
    for id in 0..=u16::MAX {
        if let Some((kind, ..)) = expected(id) {
            counts[kind as usize] += 1;
            bytes += kind.size();
        }
    }
    assert_eq!(counts, [21, 3, 42, 68, 6]);
    assert_eq!((bytes, SIZE), (268, 268));
}

/// Values lie one behind the other from the lowest id to the highest.
#[test]
fn places_follow_the_ids() {
    let mut offset = 0;
    for id in 0..=u16::MAX {
        if let Some(place) = settings::find(id) {
            assert_eq!(place.offset, offset, "{id:04X}");
            offset += place.row.kind.size();
        }
    }
}

#[test]
fn defaults_read_back() {
    let mut board = nominal();
    for id in 0..=u16::MAX {
        if let Some((kind, default, ..)) = expected(id) {
            assert_eq!(number(kind, &get(&mut board, id)), default, "{id:04X}");
        }
    }
}

/// Sets a value; the one that the reply tells is also the one that a get tells.
fn set_wire(board: &mut Board, id: u16, kind: Kind, value: i64) -> i64 {
    let wire = &value.to_le_bytes()[..kind.size()];
    assert_eq!(give(board, 0x84, &with_value(id, wire)), Answer::Accepted);
    let told = number(kind, &board.waiting_reply()[8..]);
    assert_eq!(number(kind, &get(board, id)), told);
    told
}

#[test]
fn values_outside_the_range_become_the_nearer_end() {
    let mut board = nominal();
    // Kept out of the way: W at 1 s or less would bite, thresholds move the mode.
    for id in (0..=u16::MAX).filter(|id| ![0x4000, 0x4042].contains(id)) {
        let Some((kind, default, low, high)) = expected(id) else { continue };
        let ends = [kind.lowest(), low - 1, low, low + 1, high - 1, high, high + 1, kind.highest()];
        for value in ends {
            if value < kind.lowest() || value > kind.highest() {
                continue;
            }
            assert_eq!(set_wire(&mut board, id, kind, value), value.clamp(low, high), "{id:04X}");
        }
        assert_eq!(give(&mut board, 0x86, &id.to_le_bytes()), Answer::Accepted);
        assert_eq!(number(kind, &board.waiting_reply()[8..]), default);
    }
}

#[test]
fn a_set_touches_no_other_value() {
    let mut board = nominal();
    for id in (0..=u16::MAX).filter(|id| ![0x4000, 0x4042].contains(id)) {
        let Some((kind, _, _, high)) = expected(id) else { continue };
        set_wire(&mut board, id, kind, high);
        let mut changed = *board.settings().bytes();
        let place = settings::find(id).unwrap();
        let range = place.offset..place.offset + kind.size();
        changed[range.clone()]
            .copy_from_slice(&Settings::defaults(Model::Distribution).bytes()[range]);
        assert_eq!(&changed, Settings::defaults(Model::Distribution).bytes(), "{id:04X}");
        give(&mut board, 0x86, &id.to_le_bytes());
        assert_eq!(board.settings(), &Settings::defaults(Model::Distribution));
    }
}

#[test]
fn named_read_only_values() {
    let mut board = nominal();
    let named: [(u16, u32); 17] = [
        (0x2800, 0x11),
        (0x2801, 7),
        (0x2802, 1),
        (0x4801, 0),
        (0x4802, 0),
        (0x4803, 0),
        (0x4804, 0),
        (0x4805, 0),
        (0x4806, 0),
        (0x480A, 12_000),
        (0x480B, 12_400),
        (0x480C, 600),
        (0x480D, 12_400),
        (0x480E, 14_000),
        (0x480F, 60),
        (0x4810, 300),
        (0x6809, FORCED),
    ];
    for id in 0..=u16::MAX {
        let Some(kind) = expected_read_only(id) else { continue };
        let value = named.iter().find(|(named, _)| *named == id).map_or(0, |(_, value)| *value);
        assert_eq!(get(&mut board, id), value.to_le_bytes()[..kind.size()], "{id:04X}");
    }
}
