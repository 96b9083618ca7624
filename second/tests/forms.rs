//! The form of the text line: the profile's at the start and after each reset, a switch's in between.

mod common;

use common::*;
use second::board::{Answer, Board, Event, Profile};
use second::mode::Mode;
use second::text::{Form, Read};

/// What a classroom types first.
const FIRST: &[u8] = b"<cmd>11 07 02 01</cmd>";

/// A new profile of each board.
const NEW: [Profile<'static>; 2] = [Profile::distribution(1, 3, 1), Profile::battery(1, true)];

/// The new profile and the same one naming raw, of each board.
fn profiles() -> Vec<Profile<'static>> {
    NEW.iter().flat_map(|profile| [*profile, profile.naming_raw()]).collect()
}

/// The command that the board takes the first line for.
fn first_line(board: &mut Board) -> Vec<u8> {
    let mut scratch = [0; 4];
    match board.read_text(FIRST, &mut scratch) {
        Ok(Read::Command { payload, place: 22 }) => payload.to_vec(),
        other => panic!("no command: {other:?}"),
    }
}

/// Switches the form in force.
fn switch(board: &mut Board, form: Form) {
    let line = [b"<cmd>", form.text(), b"</cmd>"].concat();
    assert_eq!(board.read_text(&line, &mut []), Ok(Read::Switch { form, place: line.len() }));
    assert_eq!(board.form(), form);
}

/// A reset by command.
fn command_reset(board: &mut Board) {
    assert_eq!(give(board, 0xAA, &[0xA6]), Answer::Accepted);
}

/// A reset by the watchdog, the shortest that there is.
fn watchdog_reset(board: &mut Board) {
    set(board, 0x4000, 1);
    ticks(board, HIGH, 99);
    assert_eq!(tick(board, HIGH), Event::WatchdogReset);
}

#[test]
fn a_new_profile_reads_the_first_line_as_a_command() {
    for profile in NEW {
        assert_eq!(profile.form(), Form::Ascii);
        let mut board = Board::start(&profile).unwrap();
        assert_eq!(first_line(&mut board), [0x11, 0x07, 0x02, 0x01]);
    }
}

#[test]
fn a_profile_that_names_raw_reads_it_as_its_11_characters() {
    for profile in NEW.map(Profile::naming_raw) {
        assert_eq!(profile.form(), Form::Raw);
        let mut board = Board::start(&profile).unwrap();
        assert_eq!(first_line(&mut board), b"11 07 02 01");
    }
}

#[test]
fn the_first_line_of_a_classroom_is_answered_in_its_form() {
    let mut board = brought_to(Mode::Nominal, Board::start(&NEW[0]).unwrap());
    let command = first_line(&mut board);
    assert_eq!(send(&mut board, &command), Answer::Accepted);
    let mut out = [0xEE; 28];
    assert_eq!(board.frame_reply(&mut out), Ok(27));
    assert_eq!(&out, b"<rsp>11 07 03 01 80</rsp>\r\n\xEE");
}

#[test]
fn after_each_reset_the_form_is_the_profiles() {
    for profile in profiles() {
        for reset in [command_reset, watchdog_reset] {
            let mut board = Board::start(&profile).unwrap();
            for in_force in [None, Some(Form::Raw), Some(Form::Ascii), None] {
                board = brought_to(Mode::Nominal, board);
                if let Some(form) = in_force {
                    switch(&mut board, form);
                }
                reset(&mut board);
                assert_eq!(board.form(), profile.form(), "{profile:?} {in_force:?}");
            }
        }
    }
}

#[test]
fn a_switch_leaves_the_profile_alone_and_lasts_until_a_reset() {
    for profile in profiles() {
        let mut board = brought_to(Mode::Nominal, Board::start(&profile).unwrap());
        for form in [Form::Raw, Form::Ascii, Form::Raw] {
            switch(&mut board, form);
            assert_eq!(board.form_of_profile(), profile.form());
            give(&mut board, 0x94, &[0xA7, 0, 0]);
            give(&mut board, 0x90, &[0xA7]);
            give(&mut board, 0x92, &[0xA7]);
            assert_eq!(board.form(), form, "neither a save nor a load is a reset");
        }
        command_reset(&mut board);
        assert_eq!(board.form(), profile.form());
    }
}

#[test]
fn leaving_emergency_is_no_way_back_to_the_profiles_form() {
    for profile in profiles() {
        let mut board = brought_to(Mode::Emergency, Board::start(&profile).unwrap());
        let other = if profile.names_raw { Form::Ascii } else { Form::Raw };
        switch(&mut board, other);
        tick(&mut board, HIGH);
        assert_eq!((board.mode().mode(), board.form()), (Mode::Safety, other));
    }
}
