//! One test for each edge that the open points name.

mod common;

use common::*;
use second::board::{Answer, Board, Cause, Event, Profile, ProfileFault, Tick};
use second::mode::Mode;
use second::model::{Model, WORDS};
use second::settings::{self, Settings};
use second::text::{self, Form, Read, Refusal};

/// As many words as a tick brings, no two alike.
fn words(first: u16) -> Vec<u16> {
    (0..WORDS as u16).map(|i| first.wrapping_add(i)).collect()
}

/// A tick that brings words and leaves the mode as it is.
fn bring_words(board: &mut Board, first: u16) {
    let rail = steady(board);
    tick_full(board, rail, 0, &words(first), None);
}

/// Puts the timer just below a watchdog of one second.
fn about_to_bite() -> Board {
    let mut board = nominal();
    set(&mut board, 0x4000, 1);
    ticks(&mut board, HIGH, 99);
    assert_eq!(board.timer(), 99);
    board
}

/// STAT of the reply that waits.
fn stat(board: &Board) -> u8 {
    board.waiting_reply()[4]
}

// Parameters.

#[test]
fn no_wildcard_in_the_header() {
    let mut board = nominal();
    for bytes in [[0, 7, 2, 1], [0x11, 0, 2, 1], [0x11, 7, 2, 0]] {
        assert_eq!(send(&mut board, &bytes), Answer::WrongBoard);
    }
}

#[test]
fn no_key_for_a_short_watchdog() {
    let mut board = about_to_bite();
    assert_eq!(tick(&mut board, HIGH), Event::WatchdogReset);
}

#[test]
fn no_startup_or_latchoff_enable() {
    let mut board = in_mode(Mode::Nominal, 0x0000_0111, 0x0000_0001);
    assert_eq!(board.channels().on(), 0x0000_0001);
    overcurrent(&mut board, 1);
    ticks(&mut board, HIGH, 2_001);
    assert_eq!((board.channels().on(), board.channels().latched()), (0, 1));
}

#[test]
fn no_correction_of_thresholds() {
    let mut board = nominal();
    set(&mut board, 0x4042, 3);
    set(&mut board, 0x4043, 2);
    assert_eq!((get_word(&mut board, 0x480D), get_word(&mut board, 0x480E)), (3, 2));
    tick(&mut board, 3);
    assert_eq!(board.mode().mode(), Mode::Nominal);
    tick(&mut board, 2);
    assert_eq!(board.mode().mode(), Mode::Safety);
}

#[test]
fn the_board_identifier_setting_has_no_effect() {
    let mut board = nominal();
    assert_eq!(give(&mut board, 0x84, &[0x00, 0x20, 5]), Answer::Accepted);
    assert_eq!(give(&mut board, 0x02, &[]), Answer::Accepted);
    assert_eq!(get(&mut board, 0x2802), [1]);
    assert_eq!(board.waiting_reply()[3], 1);
}

#[test]
fn the_mask_0503_is_channels_0_1_8_and_10() {
    let mut board = in_mode(Mode::Nominal, 0xFFFF_FFFF, 0);
    give(&mut board, 0x10, &[0x03, 0x05]);
    assert_eq!(board.channels().on(), 1 | 1 << 1 | 1 << 8 | 1 << 10);
}

#[test]
fn the_id_is_at_6_and_the_value_at_8() {
    let mut board = nominal();
    let replies =
        [(0x82, vec![0x03, 0x60]), (0x84, vec![0x03, 0x60, 1, 2, 3, 4]), (0x86, vec![0x03, 0x60])];
    let values = [[0x22, 0x12, 0x11, 0x11], [1, 2, 3, 4], [0x22, 0x12, 0x11, 0x11]];
    for ((code, rest), value) in replies.iter().zip(values) {
        give(&mut board, *code, rest);
        let mut expected = vec![0x11, 7, code | 1, 1, 0x80, 0, 0x03, 0x60];
        expected.extend_from_slice(&value);
        assert_eq!(board.waiting_reply(), expected);
    }
}

#[test]
fn emergency_values_and_linger_are_those_of_the_read_only_table() {
    let mut board = nominal();
    let read: Vec<u16> =
        [0x480A, 0x480B, 0x480C, 0x480F].iter().map(|id| get_word(&mut board, *id)).collect();
    assert_eq!(read, [12_000, 12_400, 600, 60]);
}

#[test]
fn linger_is_6000_ticks() {
    let mut board = safety();
    ticks(&mut board, HIGH, 6_000);
    assert_eq!((board.mode().mode(), board.mode().age()), (Mode::Safety, 6_000));
    tick(&mut board, HIGH);
    assert_eq!((board.mode().mode(), board.mode().age()), (Mode::Nominal, 0));
}

#[test]
fn the_emergency_period_is_60000_ticks() {
    let mut board = emergency();
    ticks(&mut board, DEEP, 59_999);
    assert_eq!(board.mode().mode(), Mode::Emergency);
    tick(&mut board, DEEP);
    assert_eq!((board.mode().mode(), board.mode().age()), (Mode::Safety, 0));
}

#[test]
fn emergency_edges_of_the_rail() {
    let mut board = safety();
    ticks(&mut board, 12_000, 6_100);
    assert_eq!(board.mode().mode(), Mode::Safety);
    tick(&mut board, 11_999);
    assert_eq!(board.mode().mode(), Mode::Emergency);
    tick(&mut board, 12_400);
    assert_eq!(board.mode().mode(), Mode::Emergency);
    tick(&mut board, 12_401);
    assert_eq!(board.mode().mode(), Mode::Safety);
}

#[test]
fn an_unsigned_threshold_lies_above_every_rail() {
    let mut board = nominal();
    set(&mut board, 0x4042, 40_000);
    tick(&mut board, i16::MAX);
    assert_eq!(board.mode().mode(), Mode::Safety);
}

#[test]
fn the_rail_counts_with_its_sign() {
    let mut board = nominal();
    set(&mut board, 0x4042, 0);
    tick(&mut board, 0);
    assert_eq!(board.mode().mode(), Mode::Nominal);
    tick(&mut board, -1);
    assert_eq!(board.mode().mode(), Mode::Safety);
}

#[test]
fn the_first_row_decides_in_any_order_of_thresholds() {
    let mut board = safety();
    set(&mut board, 0x4043, 100);
    let age = board.mode().age();
    ticks(&mut board, 101, (6_000 - age) as usize);
    assert_eq!(board.mode().mode(), Mode::Safety);
    tick(&mut board, 101);
    assert_eq!(board.mode().mode(), Mode::Nominal);
}

#[test]
fn the_checksum_goes_by_id_from_the_lowest() {
    let bytes = stored_defaults();
    assert_eq!(bytes[..21], [0; 21]);
    assert_eq!(bytes[21..24], [1, 0x12, 3]);
    assert_eq!(bytes[24..26], [200, 0]);
    assert_eq!(bytes[264..], [0x22, 0x12, 0x11, 0x11]);
    assert_eq!(Settings::defaults(Model::Distribution).checksum(), 0xBB0E);
}

#[test]
fn the_values_in_force_are_read_back_read_only() {
    let mut board = nominal();
    set(&mut board, 0x4000, 77);
    set(&mut board, 0x4042, 1);
    set(&mut board, 0x4043, 60_000);
    let read: Vec<u16> =
        [0x4810, 0x480D, 0x480E].iter().map(|id| get_word(&mut board, *id)).collect();
    assert_eq!(read, [77, 1, 60_000]);
}

#[test]
fn read_only_values_without_a_rule_read_0() {
    let mut board = emergency();
    tick(&mut board, HIGH);
    for id in [0x4808, 0x4811, 0x680A, 0x680C, 0x4800, 0x3800, 0x1800, 0x2803] {
        assert!(get(&mut board, id).iter().all(|byte| *byte == 0), "{id:04X}");
    }
}

#[test]
fn leaving_emergency_counts_as_a_power_reset() {
    let mut board = emergency();
    assert_eq!(board.cause(), Cause::PowerOn);
    tick(&mut board, HIGH);
    assert_eq!((get_word(&mut board, 0x4803), get_word(&mut board, 0x4804)), (4, 1));
}

#[test]
fn the_causes_and_counts_of_resets() {
    let mut board = about_to_bite();
    tick(&mut board, HIGH);
    ticks(&mut board, HIGH, 50);
    assert_eq!((get_word(&mut board, 0x4803), get_word(&mut board, 0x4805)), (1, 1));
    give(&mut board, 0xAA, &[0xA6]);
    ticks(&mut board, HIGH, 50);
    assert_eq!((get_word(&mut board, 0x4803), get_word(&mut board, 0x4806)), (2, 1));
    assert_eq!((get_word(&mut board, 0x4804), get_word(&mut board, 0x4805)), (0, 1));
}

#[test]
fn a_stored_value_out_of_range_is_refusal_8() {
    let place = settings::find(0x4022).unwrap();
    for (value, good) in [(49u16, false), (50, true), (20_000, true), (20_001, false)] {
        let mut bytes = stored_defaults();
        bytes[place.offset..place.offset + 2].copy_from_slice(&value.to_le_bytes());
        let result = Board::start(&Profile { stored: Some((0, &bytes)), ..profile() });
        assert_eq!(result.err(), (!good).then_some(ProfileFault::StoredOutOfRange));
    }
}

#[test]
fn any_stored_save_count_will_do() {
    for save_count in [0, 1, 65_534, 65_535] {
        let board =
            Board::start(&Profile { stored: Some((save_count, &stored_defaults())), ..profile() })
                .unwrap();
        assert_eq!(board.shown().save_count, save_count);
        assert_eq!(board.shown().checksum, Settings::defaults(Model::Distribution).checksum());
    }
}

// Profile.

#[test]
fn profiles_that_break_a_rule() {
    let of = |bid, fitted, forced| Board::start(&Profile::distribution(bid, fitted, forced)).err();
    assert_eq!(of(0, 1, 1), Some(ProfileFault::Bid));
    assert_eq!(of(1, 1, 1), None);
    assert_eq!(of(8, 1, 0), None);
    assert_eq!(of(9, 1, 1), Some(ProfileFault::Bid));
    assert_eq!(of(1, 0, 0), Some(ProfileFault::NothingFitted));
    assert_eq!(of(1, 2, 3), Some(ProfileFault::ForcedNotFitted));
}

// Tick.

#[test]
fn a_forced_channel_that_comes_on_can_be_latched_in_the_same_tick() {
    let mut board = started(FITTED, FORCED);
    ticks(&mut board, HIGH, 49);
    overcurrent(&mut board, 0xFFFF_FFFF);
    assert_eq!((board.channels().on(), board.channels().latched()), (0, FORCED));
    assert_eq!(board.channels().counts()[..2], [1, 0]);
    assert_eq!(board.channels().counts()[16..18], [1, 0]);
}

#[test]
fn a_channel_that_went_off_is_neither_latched_nor_counted() {
    let mut board = nominal();
    give(&mut board, 0x16, &[1]);
    tick_full(&mut board, LOW, 0b10, &[], None);
    assert_eq!((board.channels().on(), board.channels().latched()), (FORCED, 0));
    assert_eq!(board.channels().counts()[1], 0);
}

#[test]
fn channels_not_fitted_are_never_on() {
    let mut board = nominal();
    give(&mut board, 0x10, &[0xFF, 0xFF, 0xFF, 0xFF]);
    assert_eq!(board.channels().on(), FITTED);
    give(&mut board, 0x14, &[0xFF, 0xFF, 0xFF, 0xFF]);
    assert_eq!(board.channels().on(), FITTED);
    assert_eq!(give(&mut board, 0x16, &[4]), Answer::Invalid);
    assert_eq!(give(&mut board, 0x16, &[32]), Answer::Invalid);
    assert_eq!(give(&mut board, 0x16, &[255]), Answer::Invalid);
}

#[test]
fn the_timer_is_0_around_startup_and_emergency() {
    let mut board = started(FITTED, FORCED);
    for _ in 0..50 {
        tick(&mut board, LOW);
        assert_eq!(board.timer(), 0);
    }
    ticks(&mut board, LOW, 6_000);
    assert_eq!(board.timer(), 6_000);
    tick(&mut board, DEEP);
    assert_eq!((board.mode().mode(), board.timer()), (Mode::Emergency, 0));
    tick(&mut board, DEEP);
    assert_eq!(board.timer(), 0);
    tick(&mut board, HIGH);
    assert_eq!((board.mode().mode(), board.timer()), (Mode::Safety, 0));
    tick(&mut board, HIGH);
    assert_eq!(board.timer(), 1);
}

#[test]
fn checks_read_the_mode_as_step_4_finds_it() {
    let mut board = started(FITTED, FORCED);
    ticks(&mut board, HIGH, 48);
    assert_eq!(give(&mut board, 0x02, &[]), Answer::InStartup);
    assert_eq!(give(&mut board, 0x02, &[]), Answer::Accepted);
    assert_eq!(send_at(&mut board, LOW, &[0x11, 7, 0x10, 1, 0, 0]), Answer::NotNow);
}

#[test]
fn command_30_reads_the_rail_of_its_own_tick() {
    let mut board = safety();
    assert_eq!(send_at(&mut board, 12_399, &[0x11, 7, 0x30, 1]), Answer::NotNow);
    assert_eq!(send_at(&mut board, 12_400, &[0x11, 7, 0x30, 1]), Answer::Accepted);
    assert_eq!((board.mode().mode(), board.mode().age()), (Mode::Nominal, 0));
}

#[test]
fn safety_to_nominal_alters_no_channel() {
    let mut by_command = safety();
    overcurrent(&mut by_command, 1);
    let mut by_table = by_command.clone();
    let before = (by_command.channels().on(), by_command.channels().latched());
    assert_eq!(before, (1 << 16, 1));
    assert_eq!(send_at(&mut by_command, HIGH, &[0x11, 7, 0x30, 1]), Answer::Accepted);
    ticks(&mut by_table, HIGH, 6_000);
    for board in [by_command, by_table] {
        assert_eq!(board.mode().mode(), Mode::Nominal);
        assert_eq!((board.channels().on(), board.channels().latched()), before);
    }
}

#[test]
fn leaving_emergency_is_no_reset() {
    let mut board = safety();
    overcurrent(&mut board, 1);
    bring_words(&mut board, 7);
    board.read_text(b"<cmd><cfg:ascii/></cmd>", &mut []).unwrap();
    ticks(&mut board, DEEP, 6_000);
    give(&mut board, 0x02, &[]);
    assert_eq!(board.mode().mode(), Mode::Emergency);
    assert_eq!((board.channels().on(), board.channels().latched()), (0, 1));
    tick(&mut board, HIGH);
    assert_eq!((board.channels().on(), board.channels().latched()), (FORCED, 0));
    assert_eq!(board.waiting_reply(), [0x11, 7, 3, 1, 0x80]);
    assert_eq!(board.form(), Form::Ascii);
    assert_eq!(board.words()[..], words(7));
    assert_eq!(board.channels().counts()[0], 1);
    give(&mut board, 0x50, &[]);
    assert_eq!(stat(&board), 0x80);
}

#[test]
fn emergency_entry_keeps_latches() {
    let mut board = safety();
    overcurrent(&mut board, FORCED);
    ticks(&mut board, DEEP, 6_000);
    assert_eq!((board.channels().on(), board.channels().latched()), (0, FORCED));
}

#[test]
fn forced_does_not_mean_on_in_emergency() {
    assert_eq!(emergency().channels().on(), 0);
}

#[test]
fn a_reset_wipes_what_the_same_tick_brought() {
    let mut bitten = about_to_bite();
    bitten.read_text(b"<cmd><cfg:ascii/></cmd>", &mut []).unwrap();
    let mut commanded = bitten.clone();
    let wrong = [0x11, 7, 2, 9];
    let told = tick_full(&mut bitten, HIGH, FORCED, &words(1), Some(&wrong));
    assert_eq!((told.event, told.answer), (Event::WatchdogReset, Some(Answer::WrongBoard)));
    let key = [0x11, 7, 0xAA, 1, 0xA6];
    let told = tick_full(&mut commanded, HIGH, FORCED, &words(1), Some(&key));
    assert_eq!((told.event, told.answer), (Event::None, Some(Answer::Accepted)));
    for mut board in [bitten, commanded] {
        assert_eq!((board.mode().mode(), board.mode().age()), (Mode::Startup, 0));
        assert_eq!((board.channels().on(), board.channels().latched()), (0, 0));
        assert_eq!(board.channels().counts(), &[0; 32]);
        assert_eq!(board.words(), &[0; WORDS]);
        assert_eq!(board.waiting_reply(), []);
        assert_eq!(board.form(), Form::Raw);
        assert_eq!(board.frame_reply(&mut []), Ok(0));
        ticks(&mut board, HIGH, 50);
        give(&mut board, 0x50, &[]);
        assert_eq!(stat(&board), 0x00);
    }
}

#[test]
fn the_store_and_the_reset_counts_survive_a_reset() {
    let mut board = nominal();
    set(&mut board, 0x4001, 9);
    give(&mut board, 0x94, &[0xA7, 0, 0]);
    set(&mut board, 0x4001, 10);
    for count in 1..=2 {
        give(&mut board, 0xAA, &[0xA6]);
        assert_eq!(board.resets().command, count);
        ticks(&mut board, HIGH, 50);
        assert_eq!(get_word(&mut board, 0x4001), 9);
        assert_eq!(get_word(&mut board, 0x4801), 1);
    }
}

#[test]
fn a_transfer_of_0_bytes_is_a_transfer() {
    let mut board = nominal();
    assert_eq!(send(&mut board, &[]), Answer::TooShort);
}

#[test]
fn check_1_comes_before_check_2() {
    let mut board = started(FITTED, FORCED);
    assert_eq!(send(&mut board, &[0x11, 7, 2]), Answer::TooShort);
    assert_eq!(send(&mut board, &[0x11, 7, 2, 1]), Answer::InStartup);
}

#[test]
fn a_short_transfer_leaves_reply_and_timer() {
    let mut board = nominal();
    give(&mut board, 0x02, &[]);
    let waiting = board.waiting_reply().to_vec();
    assert_eq!(send(&mut board, &[0x11, 7, 2]), Answer::TooShort);
    assert_eq!((board.waiting_reply(), board.timer()), (&waiting[..], 1));
    assert_eq!(board.reply_of_tick(), None);
}

#[test]
fn a_reply_of_refusal_3_may_be_lost_to_the_watchdog() {
    let mut board = about_to_bite();
    let told = tick_full(&mut board, HIGH, 0, &[], Some(&[0x12, 7, 2, 1]));
    assert_eq!((told.event, told.answer), (Event::WatchdogReset, Some(Answer::WrongBoard)));
    assert_eq!(board.waiting_reply(), []);
}

#[test]
fn every_other_refusal_feeds_the_timer() {
    let refused: [(&[u8], Answer); 4] = [
        (&[0x11, 7, 0x03, 1], Answer::UnknownCode),
        (&[0x11, 7, 0x10, 1], Answer::Missing),
        (&[0x11, 7, 0x16, 1, 99], Answer::Invalid),
        (&[0x11, 7, 0x02, 1], Answer::Accepted),
    ];
    for (bytes, answer) in refused {
        let mut board = about_to_bite();
        let told = tick_full(&mut board, HIGH, 0, &[], Some(bytes));
        assert_eq!((told.event, told.answer), (Event::None, Some(answer)));
        assert_eq!(board.timer(), 0);
    }
    let mut board = safety();
    set(&mut board, 0x4000, 1);
    ticks(&mut board, LOW, 99);
    let told = tick_full(&mut board, LOW, 0, &[], Some(&[0x11, 7, 0x10, 1, 0, 0]));
    assert_eq!((told.event, told.answer), (Event::None, Some(Answer::NotNow)));
    assert_eq!(board.timer(), 0);
}

#[test]
fn command_30_in_nominal_and_32_in_safety_have_no_effect() {
    let mut board = nominal();
    ticks(&mut board, HIGH, 10);
    assert_eq!(give(&mut board, 0x30, &[]), Answer::Accepted);
    assert_eq!((board.mode().age(), board.timer(), stat(&board)), (11, 0, 0x80));
    let mut board = safety();
    ticks(&mut board, LOW, 10);
    assert_eq!(give(&mut board, 0x32, &[]), Answer::Accepted);
    assert_eq!((board.mode().age(), board.timer(), stat(&board)), (11, 0, 0x80));
}

#[test]
fn a_watchdog_of_0_never_bites() {
    let mut board = nominal();
    set(&mut board, 0x4000, 0);
    for _ in 0..40_000 {
        assert_eq!(tick(&mut board, HIGH), Event::None);
    }
    assert_eq!(board.timer(), 40_000);
}

#[test]
fn a_wrong_number_of_words_is_no_tick() {
    let mut board = nominal();
    for count in [1, 121, 123, 256] {
        let lent = vec![9; count];
        let command = [0x11, 7, 2, 1];
        let tick = Tick { rail: -1, overcurrent: 1, words: &lent, command: Some(&command) };
        assert!(board.tick(&tick).is_err());
    }
    assert_eq!((board.mode().mode(), board.mode().age()), (Mode::Nominal, 0));
    assert_eq!(board.words(), &[0; WORDS]);
    assert_eq!(board.waiting_reply(), []);
}

// Commands.

#[test]
fn the_stat_of_each_refusal() {
    let mut board = safety();
    let cases: [(&[u8], u8); 5] = [
        (&[0x10, 7, 2, 1], 0x06),
        (&[0x11, 7, 0, 1], 0x02),
        (&[0x11, 7, 0x94, 1, 0xA7], 0x03),
        (&[0x11, 7, 0x10, 1, 0, 0], 0x05),
        (&[0x11, 7, 0xAA, 1, 0], 0x04),
    ];
    for (bytes, code) in cases {
        send(&mut board, bytes);
        assert_eq!(board.waiting_reply(), [0x11, 7, bytes[2] | 1, 1, code]);
    }
}

#[test]
fn half_an_extended_mask_does_not_count() {
    for length in [6, 7] {
        let mut board = nominal();
        give(&mut board, 0x16, &[17]);
        overcurrent(&mut board, 1 << 16);
        let before = board.channels().on() & 0xFFFF_0000;
        for code in [0x10, 0x12, 0x14] {
            let bytes = [0x11, 7, code, 1, 0xFF, 0xFF, 0xFF];
            assert_eq!(send(&mut board, &bytes[..length]), Answer::Accepted);
            assert_eq!(board.channels().on() & 0xFFFF_0000, before);
            assert_eq!(board.channels().latched() & 0xFFFF_0000, 1 << 16);
        }
    }
}

#[test]
fn command_14_with_the_extended_mask_rules_all_channels() {
    let mut board = nominal();
    give(&mut board, 0x10, &[0xFF, 0xFF, 0xFF, 0xFF]);
    give(&mut board, 0x14, &[0x02, 0, 0, 0]);
    assert_eq!(board.channels().on(), FORCED | 2);
}

#[test]
fn the_channel_commands_check_5_then_6_then_7() {
    let mut board = safety();
    assert_eq!(give(&mut board, 0x16, &[]), Answer::Missing);
    assert_eq!(give(&mut board, 0x16, &[99]), Answer::NotNow);
    assert_eq!(give(&mut board, 0x18, &[0]), Answer::NotNow);
    let mut board = nominal();
    assert_eq!(give(&mut board, 0x16, &[99]), Answer::Invalid);
    assert_eq!(give(&mut board, 0x18, &[0]), Answer::Invalid);
    assert_eq!(give(&mut board, 0x18, &[32]), Answer::Invalid);
}

#[test]
fn other_commands_run_in_nominal_safety_and_emergency_alike() {
    for mode in [Mode::Nominal, Mode::Safety, Mode::Emergency] {
        let board = in_mode(mode, FITTED, FORCED);
        for code in [0x02, 0x04, 0x06, 0x42, 0x50, 0x52] {
            assert_eq!(give(&mut board.clone(), code, &[]), Answer::Accepted);
        }
    }
}

#[test]
fn group_off_leaves_a_forced_latch_alone() {
    let mut board = nominal();
    give(&mut board, 0x16, &[1]);
    overcurrent(&mut board, 0b11);
    give(&mut board, 0x12, &[0xFF, 0xFF, 0xFF, 0xFF]);
    assert_eq!((board.channels().on(), board.channels().latched()), (1 << 16, 1));
}

#[test]
fn group_on_and_state_bring_a_latched_forced_channel_back() {
    for code in [0x10, 0x14] {
        let mut board = nominal();
        overcurrent(&mut board, FORCED);
        give(&mut board, code, &[1, 0]);
        assert_eq!((board.channels().on(), board.channels().latched()), (1, 1 << 16));
    }
}

#[test]
fn group_state_leaves_a_forced_channel_out_of_the_mask_untouched() {
    let mut board = nominal();
    overcurrent(&mut board, 1);
    give(&mut board, 0x14, &[2, 0, 0, 0]);
    assert_eq!((board.channels().on(), board.channels().latched()), (1 << 16 | 2, 1));
}

#[test]
fn cancel_leaves_latches() {
    let mut board = nominal();
    give(&mut board, 0x10, &[0x0F, 0]);
    overcurrent(&mut board, 0b0110);
    give(&mut board, 0x04, &[]);
    assert_eq!((board.channels().on(), board.channels().latched()), (FORCED, 0b0110));
}

#[test]
fn new_is_fixed_when_the_reply_is_made() {
    let mut board = nominal();
    give(&mut board, 0x02, &[]);
    let mut first = [0; 6];
    let mut again = [0; 6];
    board.read(&mut first);
    board.read(&mut again);
    assert_eq!(first, [0x11, 7, 3, 1, 0x80, 0xFF]);
    assert_eq!(first, again);
}

#[test]
fn words_of_the_same_tick_count_for_housekeeping() {
    let mut board = nominal();
    let command = [0x11, 7, 0x50, 1];
    tick_full(&mut board, HIGH, 0, &words(0x0100), Some(&command));
    assert_eq!(stat(&board), 0x80);
    give(&mut board, 0x50, &[]);
    assert_eq!(stat(&board), 0x00);
    bring_words(&mut board, 1);
    assert_eq!(send(&mut board, &[0x10, 7, 0x50, 1]), Answer::WrongBoard);
    give(&mut board, 0x50, &[]);
    assert_eq!(stat(&board), 0x80);
}

#[test]
fn the_layout_of_housekeeping() {
    let mut board = nominal();
    give(&mut board, 0x16, &[17]);
    overcurrent(&mut board, 0x0001_0000);
    bring_words(&mut board, 0x0100);
    give(&mut board, 0x50, &[]);
    let reply = board.waiting_reply();
    let word = |at: usize| u16::from_le_bytes([reply[at], reply[at + 1]]);
    let early: Vec<u16> = [6, 8, 10, 12, 14].iter().map(|at| word(*at)).collect();
    assert_eq!(early, [0x100, 0x101, 0x102, 0x103, 0x104]);
    assert_eq!([word(16), word(18), word(20), word(22)], [1, 2, 0, 1]);
    let later: Vec<u16> = (24..258).step_by(2).map(word).collect();
    assert_eq!(later, (0x105..0x100 + WORDS as u16).collect::<Vec<u16>>());
}

#[test]
fn the_layout_of_overcurrent_state() {
    let mut board = nominal();
    give(&mut board, 0x10, &[0x0F, 0]);
    overcurrent(&mut board, 0x0001_0008);
    give(&mut board, 0x42, &[]);
    let reply = board.waiting_reply();
    assert_eq!(reply[5..14], [0, 7, 0, 0, 0, 8, 0, 1, 0]);
    for channel in 0..32 {
        let count = u16::from(channel == 3 || channel == 16);
        assert_eq!(reply[14 + 2 * channel..16 + 2 * channel], count.to_le_bytes());
    }
}

#[test]
fn command_90_leaves_the_store_alone() {
    let mut board = nominal();
    set(&mut board, 0x4001, 9);
    give(&mut board, 0x94, &[0xA7, 0, 0]);
    give(&mut board, 0x90, &[0xA7]);
    assert_eq!(get_word(&mut board, 0x4001), 0);
    assert_eq!((get_word(&mut board, 0x4801), get_word(&mut board, 0x4802)), (0, 0));
    assert_eq!(board.store().map(|store| store.save_count), Some(1));
    give(&mut board, 0x92, &[0xA7]);
    assert_eq!((get_word(&mut board, 0x4001), get_word(&mut board, 0x4801)), (9, 1));
}

#[test]
fn a_start_with_a_store_shows_its_save_count_and_checksum() {
    let mut bytes = stored_defaults();
    bytes[0] = 0x80;
    let mut board = Board::start(&Profile { stored: Some((41, &bytes)), ..profile() }).unwrap();
    let expected = (41, second::crc::checksum(&bytes));
    assert_eq!((board.shown().save_count, board.shown().checksum), expected);
    ticks(&mut board, HIGH, 50);
    give(&mut board, 0xAA, &[0xA6]);
    assert_eq!((board.shown().save_count, board.shown().checksum), expected);
}

#[test]
fn command_92_with_nothing_stored_gives_defaults_and_shows_0() {
    let mut board = nominal();
    set(&mut board, 0x4001, 9);
    assert_eq!(give(&mut board, 0x92, &[0xA7]), Answer::Accepted);
    assert_eq!(board.settings(), &Settings::defaults(Model::Distribution));
    assert_eq!((board.shown().save_count, board.shown().checksum), (0, 0));
}

#[test]
fn command_94_with_checksum_0_shows_the_real_checksum() {
    let mut board = nominal();
    assert_eq!(give(&mut board, 0x94, &[0xA7, 0, 0]), Answer::Accepted);
    assert_eq!(board.shown().checksum, Settings::defaults(Model::Distribution).checksum());
    assert_eq!(board.shown().save_count, 1);
}

#[test]
fn command_94_takes_0_or_the_right_checksum() {
    let mut board = nominal();
    let [low, high] = Settings::defaults(Model::Distribution).checksum().to_le_bytes();
    assert_eq!(give(&mut board, 0x94, &[0xA7, low, high]), Answer::Accepted);
    assert_eq!(give(&mut board, 0x94, &[0xA7, high, low]), Answer::Invalid);
    assert_eq!(give(&mut board, 0x94, &[0xA7, low ^ 1, high]), Answer::Invalid);
    assert_eq!(give(&mut board, 0x94, &[0xA6, 0, 0]), Answer::Invalid);
    assert_eq!(board.shown().save_count, 1);
}

#[test]
fn the_save_count_stops_at_65535() {
    for (stored, expected) in [(65_533, 65_534), (65_534, 65_535), (65_535, 65_535)] {
        let bytes = stored_defaults();
        let mut board =
            Board::start(&Profile { stored: Some((stored, &bytes)), ..profile() }).unwrap();
        ticks(&mut board, HIGH, 50);
        give(&mut board, 0x94, &[0xA7, 0, 0]);
        assert_eq!(board.shown().save_count, expected);
        assert_eq!(board.store().map(|store| store.save_count), Some(expected));
    }
}

#[test]
fn set_and_reset_of_one_do_not_alter_what_is_shown() {
    let mut board = nominal();
    give(&mut board, 0x94, &[0xA7, 0, 0]);
    let shown = board.shown();
    set(&mut board, 0x4001, 9);
    assert_eq!(board.shown(), shown);
    give(&mut board, 0x86, &[0x01, 0x40]);
    assert_eq!(board.shown(), shown);
}

#[test]
fn command_84_checks_id_then_value() {
    let mut board = nominal();
    assert_eq!(give(&mut board, 0x84, &[0x00]), Answer::Missing);
    assert_eq!(give(&mut board, 0x84, &[0x00, 0x48]), Answer::Invalid);
    assert_eq!(give(&mut board, 0x84, &[0x44, 0x40]), Answer::Invalid);
    assert_eq!(give(&mut board, 0x84, &[0x00, 0x40]), Answer::Missing);
    assert_eq!(give(&mut board, 0x84, &[0x00, 0x40, 1]), Answer::Missing);
    assert_eq!(give(&mut board, 0x84, &[0x00, 0x40, 1, 0, 9]), Answer::Accepted);
    assert_eq!(board.settings().watchdog_timeout(), 1);
}

// Text line.

/// A board in nominal with the text line in ASCII form.
fn ascii() -> Board {
    let mut board = nominal();
    board.read_text(b"<cmd><cfg:ascii/></cmd>", &mut []).unwrap();
    board
}

#[test]
fn a_form_switch_comes_before_12_and_13_and_needs_no_scratch() {
    let mut board = ascii();
    let read = board.read_text(b"<cmd><cfg:raw/></cmd>", &mut []);
    assert_eq!(read, Ok(Read::Switch { form: Form::Raw, place: 21 }));
    assert_eq!(board.form(), Form::Raw);
}

#[test]
fn only_the_exact_text_is_a_switch() {
    let mut board = nominal();
    for payload in ["<cfg:RAW/>", " <cfg:raw/>", "<cfg:raw/> ", "<cfg:ascii>", "<cfg:asci/>"] {
        let frame = format!("<cmd>{payload}</cmd>").into_bytes();
        let read = board.read_text(&frame, &mut []);
        assert_eq!(read, Ok(Read::Command { payload: payload.as_bytes(), place: frame.len() }));
    }
    let mut board = ascii();
    let mut scratch = [0; 20];
    let hex = b"<cmd>3C 63 66 67 3A 72 61 77 2F 3E</cmd>";
    let read = board.read_text(hex, &mut scratch);
    assert_eq!(read, Ok(Read::Command { payload: b"<cfg:raw/>", place: hex.len() }));
    assert_eq!(board.form(), Form::Ascii);
}

#[test]
fn a_switch_to_the_form_in_force_is_echoed_as_well() {
    let mut board = ascii();
    let read = board.read_text(b"<cmd><cfg:ascii/></cmd>", &mut []);
    assert_eq!(read, Ok(Read::Switch { form: Form::Ascii, place: 23 }));
    let mut board = nominal();
    let read = board.read_text(b"<cmd><cfg:raw/></cmd>", &mut []);
    assert_eq!(read, Ok(Read::Switch { form: Form::Raw, place: 21 }));
}

#[test]
fn the_echo_is_plain_text_and_no_reply_for_the_bus() {
    let mut board = nominal();
    give(&mut board, 0x02, &[]);
    let mut scratch = [0; 4];
    board.read_text(b"<cmd><cfg:ascii/></cmd>", &mut scratch).unwrap();
    assert_eq!(board.waiting_reply(), [0x11, 7, 3, 1, 0x80]);
    let mut out = [0xEE; 26];
    assert_eq!(text::frame_echo(Form::Ascii, &mut out), Ok(25));
    assert_eq!(&out, b"<rsp><cfg:ascii/></rsp>\r\n\xEE");
    assert_eq!(text::frame_echo(Form::Raw, &mut out), Ok(23));
    assert_eq!(&out[..23], b"<rsp><cfg:raw/></rsp>\r\n");
}

#[test]
fn the_closing_tag_is_looked_for_behind_the_opening_one() {
    let mut board = nominal();
    let read = board.read_text(b"</cmd>x<cmd>a</cmd>b</cmd>", &mut []);
    assert_eq!(read, Ok(Read::Command { payload: b"a", place: 19 }));
    assert_eq!(board.read_text(b"</cmd><cmd>", &mut []), Err(Refusal::NoFrame));
    assert_eq!(board.read_text(b"<cmd></cmd", &mut []), Err(Refusal::NoFrame));
    assert_eq!(board.read_text(b"<cmd</cmd>", &mut []), Err(Refusal::NoFrame));
}

#[test]
fn an_inner_opening_tag_is_payload() {
    let mut board = nominal();
    let read = board.read_text(b"<<cmd><cmd>a</cmd>", &mut []);
    assert_eq!(read, Ok(Read::Command { payload: b"<cmd>a", place: 18 }));
}

#[test]
fn raw_form_needs_no_scratch() {
    let mut board = nominal();
    let read = board.read_text(b"<cmd>abcdef</cmd>", &mut []);
    assert_eq!(read, Ok(Read::Command { payload: b"abcdef", place: 17 }));
}

#[test]
fn an_empty_payload_is_a_command_in_raw_form_and_12_in_ascii_form() {
    let read = nominal().read_text(b"<cmd></cmd>", &mut []).map(|read| format!("{read:?}"));
    assert_eq!(read, Ok("Command { payload: [], place: 11 }".to_string()));
    assert_eq!(ascii().read_text(b"<cmd></cmd>", &mut []), Err(Refusal::NotHex { place: 11 }));
}

/// A payload between its tags.
fn framed(payload: &[u8]) -> Vec<u8> {
    [b"<cmd>", payload, b"</cmd>"].concat()
}

#[test]
fn payloads_of_256_received_bytes_are_allowed() {
    let mut scratch = [0; 86];
    for length in [255, 256] {
        let frame = framed(&vec![b'x'; length]);
        assert!(nominal().read_text(&frame, &mut scratch).is_ok());
        let refused = ascii().read_text(&frame, &mut scratch).map(|_| ());
        assert_eq!(refused, Err(Refusal::NotHex { place: frame.len() }));
    }
    let frame = framed(&[b'x'; 257]);
    for mut board in [nominal(), ascii()] {
        let refused = board.read_text(&frame, &mut scratch).map(|_| ());
        assert_eq!(refused, Err(Refusal::TooLong { place: 268 }));
    }
}

#[test]
fn ascii_payloads_not_of_the_form() {
    let bad = [
        "1", "11 ", " 11", "11  07", "1107", "11 0", "11 0g", "1 107", "11\t07", "0x11", "11 07 ",
        "é",
    ];
    for payload in bad {
        let frame = framed(payload.as_bytes());
        let mut scratch = [0xEE; 8];
        let refused = ascii().read_text(&frame, &mut scratch).map(|_| ());
        assert_eq!(refused, Err(Refusal::NotHex { place: frame.len() }), "{payload}");
        assert_eq!(scratch, [0xEE; 8]);
    }
}

#[test]
fn a_short_scratch_is_13_and_a_long_one_keeps_its_rest() {
    let frame = framed(b"aB 0f Fe");
    let mut scratch = [0xEE; 4];
    let refused = ascii().read_text(&frame, &mut scratch[..2]).map(|_| ());
    assert_eq!(refused, Err(Refusal::ScratchTooShort { place: 19 }));
    assert_eq!(scratch, [0xEE; 4]);
    let read = ascii().read_text(&frame, &mut scratch).map(|read| format!("{read:?}"));
    assert_eq!(read, Ok("Command { payload: [171, 15, 254], place: 19 }".to_string()));
    assert_eq!(scratch, [0xAB, 0x0F, 0xFE, 0xEE]);
}

#[test]
fn framing_takes_the_form_in_force_when_it_is_called() {
    let mut board = nominal();
    give(&mut board, 0x02, &[]);
    let mut out = [0xEE; 30];
    assert_eq!(board.frame_reply(&mut out), Ok(18));
    assert_eq!(out[..19], *b"<rsp>\x11\x07\x03\x01\x80</rsp>\r\n\xEE");
    let mut scratch = [0; 4];
    board.read_text(b"<cmd><cfg:ascii/></cmd>", &mut scratch).unwrap();
    assert_eq!(board.frame_reply(&mut out), Ok(27));
    assert_eq!(out[..28], *b"<rsp>11 07 03 01 80</rsp>\r\n\xEE");
}

#[test]
fn a_short_output_is_13_and_stays_as_it_was() {
    let mut board = nominal();
    give(&mut board, 0x02, &[]);
    let mut out = [0xEE; 18];
    assert_eq!(board.frame_reply(&mut out[..17]), Err(text::Short));
    assert_eq!(out, [0xEE; 18]);
    assert_eq!(board.frame_reply(&mut out), Ok(18));
}

#[test]
fn nothing_to_frame_is_0_bytes_and_never_refused() {
    let mut board = nominal();
    assert_eq!(board.frame_reply(&mut []), Ok(0));
    give(&mut board, 0x02, &[]);
    tick(&mut board, HIGH);
    assert_eq!(board.frame_reply(&mut []), Ok(0));
    assert_eq!(board.waiting_reply().len(), 5);
}
