//! The form of the text line: the profile's at a start and after each reset, a switch's
//! in between.

use crate::author::{hex, named, Author};
use crate::starts::with_of;
use crate::text_scenes::{framed, receive, spaced, switch, switch_away, switch_by_lot};
use second::coverage::WRONG_FORMS;
use second::mode::Mode;
use second::model::Model;
use second::text::Form;

/// Profiles of both boards up to what they name, and two like them that are refused.
const PROFILES: [&str; 2] = ["11 03 00FF00FF 00030003 0", "12 02 00000000 00000000 1"];
const REFUSED: [&str; 2] = ["11 03 00FF00FF 01000000 0", "12 05 00000000 00000000 1"];

/// How a board is reset.
const RESETS: [fn(&mut Author); 2] = [by_command, by_watchdog];

/// A line of text as the first one behind a start or a reset.
const FIRST: [fn(&mut Author); 3] = [read_command, switch_away, read_broken];

/// Boards of each profile, each reset in both ways with each form in force.
pub fn all(author: &mut Author) {
    wrong(author);
    for place in 0..PROFILES.len() {
        for form in [Form::Raw, Form::Ascii] {
            if author.is_brief() {
                one_reset(author, place, form);
            } else {
                first_lines(author, place, form);
                every_reset(author, place, form);
            }
        }
    }
    if author.is_brief() {
        one_bite(author);
    }
    author.show();
}

/// A reset of the board as it stands, at times behind a switch or a refused start, and
/// what is then read and framed.
pub fn random(author: &mut Author) {
    author.reach(Mode::Nominal);
    if author.rng.once_in(2) {
        switch_by_lot(author);
    }
    if author.rng.once_in(2) {
        let form = author.either_form();
        refused(author, form);
    }
    let reset = author.rng.pick(&RESETS);
    reset(author);
    let first = author.rng.pick(&FIRST);
    first(author);
    author.say("F 0020");
    if author.rng.once_in(2) {
        answered(author);
    }
}

/// Starts that name neither raw nor nothing.
fn wrong(author: &mut Author) {
    author.say("Q 12 01 00000000 00000000 0 -");
    for (place, profile) in PROFILES.into_iter().enumerate() {
        for (name, wrong) in WRONG_FORMS {
            author.say(&format!("Q {profile}{wrong}"));
            if (place, name) == (0, "A") || !author.is_brief() {
                author.say(&format!("V {profile}{wrong}{}", stored(place)));
            }
        }
    }
    author.show();
}

/// Stored values as a line ends with them.
fn stored(place: usize) -> String {
    let model = [Model::Distribution, Model::Battery][place];
    format!(" 0001 {}", hex(&with_of(model, &[(0x1002, 7)])))
}

/// A start, with stored values where they are wanted.
fn start(author: &mut Author, place: usize, form: Form, with_stored: bool) {
    let (profile, named) = (PROFILES[place], named(form));
    if with_stored {
        author.say(&format!("V {profile} {named}{}", stored(place)));
    } else {
        author.say(&format!("Q {profile} {named}"));
    }
}

/// A start that is refused, whatever it names.
fn refused(author: &mut Author, form: Form) {
    let place = author.rng.below(REFUSED.len());
    author.say(&format!("Q {} {}", REFUSED[place], named(form)));
}

/// What a classroom types first: a noop for the board.
fn read_command(author: &mut Author) {
    let noop = author.command(0x02, &[]);
    let text = spaced(&noop, &mut author.rng);
    receive(author, 4, &framed(&text));
}

/// No whole frame or one that is too long, and then one that ASCII form refuses.
fn read_broken(author: &mut Author) {
    let whole = framed(&[b'1'; 257]);
    let received = author.rng.pick(&[b"<cmd>11 07 02 01</cmd", &whole[..]]);
    receive(author, 4, received);
    receive(author, 4, &framed(b"1107"));
}

/// A noop, and its reply framed into rooms around that of either form.
fn answered(author: &mut Author) {
    author.reach(Mode::Nominal);
    author.give(0x02, &[]);
    for room in [17, 18, 26, 27].into_iter().skip(if author.is_brief() { 3 } else { 0 }) {
        author.say(&format!("F {room:04X}"));
    }
}

/// A reset by command.
fn by_command(author: &mut Author) {
    author.give(0xAA, &[0xA6]);
}

/// A reset by the shortest watchdog, from safety at times.
fn by_watchdog(author: &mut Author) {
    author.set(0x4000, 1);
    if !author.is_brief() && author.rng.once_in(3) {
        author.reach(Mode::Safety);
    }
    while author.mode() != Mode::Startup {
        author.idle();
    }
}

/// Each first line behind a start, with and without stored values.
fn first_lines(author: &mut Author, place: usize, form: Form) {
    for with_stored in [false, true] {
        for first in FIRST {
            start(author, place, form, with_stored);
            first(author);
            author.say("F 0020");
            author.show();
        }
    }
}

/// Each reset with each form in force and each first line behind it.
fn every_reset(author: &mut Author, place: usize, form: Form) {
    start(author, place, form, true);
    answered(author);
    for reset in RESETS {
        for in_force in [Form::Raw, Form::Ascii] {
            for first in FIRST {
                author.reach(Mode::Nominal);
                switch(author, in_force);
                answered(author);
                refused(author, in_force);
                reset(author);
                first(author);
                author.say("F 0020");
                author.show();
                answered(author);
            }
        }
    }
}

/// A first line, a reply, a refused start that names what the profile does not, and a
/// reset by command with the other form in force.
fn one_reset(author: &mut Author, place: usize, form: Form) {
    start(author, place, form, false);
    read_command(author);
    answered(author);
    switch_away(author);
    let other = author.board().form();
    refused(author, other);
    by_command(author);
    read_command(author);
}

/// The battery board that names nothing, bitten with raw in force.
fn one_bite(author: &mut Author) {
    start(author, 1, Form::Ascii, true);
    answered(author);
    switch(author, Form::Raw);
    refused(author, Form::Raw);
    by_watchdog(author);
    read_command(author);
    answered(author);
}
