//! A seeded generator of replay scripts and session sheets.

mod author;
mod battery_scenes;
mod carry_scenes;
mod channel_scenes;
mod commands;
mod damage;
mod data_scenes;
mod emergency_scenes;
mod form_scenes;
mod mode_scenes;
mod reset_scenes;
mod rng;
mod sheets;
mod starts;
mod store_scenes;
mod stretches;
mod text_scenes;

use author::{Author, Wish};
use second::mode::Mode;
use second::model::Model;
use std::io::{self, Write};
use std::path::Path;
use std::process::ExitCode;

const USAGE: &str = "usage: second-scripts replay SEED LINES   a mixed script of about LINES lines
       second-scripts KIND SEED           one thing gone through: codes, parameters, text,
                                          board, watchdog, damage, stores, ranges, carries,
                                          battery, forms;
                                          or one long stretch: lingers, period, counts,
                                          emergency, timeouts, resets, bites
       second-scripts KIND SEED brief     the same by samples
       second-scripts sheet SEED          one session sheet
       second-scripts sheets SEED COUNT DIR
       second-scripts --without-text ...  the same script without its lines L and F";

/// Writes what the arguments ask for, or tells how the program is used.
fn main() -> ExitCode {
    let arguments: Vec<String> = std::env::args().skip(1).collect();
    match run(&arguments.iter().map(String::as_str).collect::<Vec<_>>()) {
        Some(Ok(())) => ExitCode::SUCCESS,
        Some(Err(error)) if error.kind() == io::ErrorKind::BrokenPipe => ExitCode::SUCCESS,
        Some(Err(error)) => {
            eprintln!("second-scripts: {error}");
            ExitCode::FAILURE
        }
        None => {
            eprintln!("{USAGE}");
            ExitCode::from(2)
        }
    }
}

/// Does what the arguments ask for; none where they ask for nothing there is.
fn run(arguments: &[&str]) -> Option<io::Result<()>> {
    let with_text = arguments.first() != Some(&"--without-text");
    let arguments = if with_text { arguments } else { &arguments[1..] };
    let brief = arguments.get(2) == Some(&"brief");
    let wish = |seed: &str| Some(Wish { seed: seed.parse().ok()?, brief, with_text });
    match arguments {
        ["replay", seed, lines] => Some(mixed(wish(seed)?, lines.parse().ok()?)),
        ["sheet", seed] => Some(io::stdout().write_all(&sheets::sheet(seed.parse().ok()?))),
        ["sheets", seed, count, directory] => {
            Some(write_sheets(seed.parse().ok()?, count.parse().ok()?, Path::new(directory)))
        }
        [kind, seed] | [kind, seed, "brief"] => {
            let mut author = Author::new(wish(seed)?);
            go_through(kind, &mut author)?;
            Some(author.finish())
        }
        _ => None,
    }
}

/// Writes the sheets of a run of seeds into a directory, one file each.
fn write_sheets(seed: u64, count: u64, directory: &Path) -> io::Result<()> {
    for seed in seed..seed + count {
        std::fs::write(directory.join(format!("{seed}.sheet")), sheets::sheet(seed))?;
    }
    Ok(())
}

/// Scenes drawn by lot until the script is long enough.
fn mixed(wish: Wish, lines: usize) -> io::Result<()> {
    let mut author = Author::new(wish);
    if author.rng.once_in(4) {
        author.show();
    }
    starts::any(&mut author);
    author.reach(Mode::Nominal);
    while author.lines() < lines {
        scene(&mut author);
        // A damaged or refused start leaves the board alone, a sound one does not.
        if author.rng.once_in(12) {
            author.show();
        }
    }
    author.show();
    if author.rng.once_in(4) {
        author.break_off("S");
    }
    author.finish()
}

/// One scene drawn by lot.
fn scene(author: &mut Author) {
    match author.rng.below(46) {
        0..=7 => commands::random(author),
        8..=11 if author.board().model() == Model::Battery => battery_scenes::packs(author),
        8..=11 => channel_scenes::channels(author),
        12..=14 => channel_scenes::overcurrents(author),
        15..=17 => data_scenes::words(author),
        18..=19 => data_scenes::reads(author),
        20..=25 => text_scenes::random(author),
        26..=28 => mode_scenes::thresholds(author),
        29 => mode_scenes::switches(author),
        30..=31 => commands::saves(author),
        32..=33 => reset_scenes::watchdog(author),
        34 => reset_scenes::reset(author),
        35..=37 => damage::random(author),
        38 => mode_scenes::out_of_startup(author),
        39 => commands::status(author),
        40..=41 => battery_scenes::strangers(author),
        42..=43 => form_scenes::random(author),
        _ => starts::any(author),
    }
}

/// Writes the script of one kind; none where there is no such kind.
fn go_through(kind: &str, author: &mut Author) -> Option<()> {
    match kind {
        "codes" => codes(author),
        "parameters" => parameters(author),
        "text" => text(author),
        "board" => board(author),
        "watchdog" => watchdog(author),
        "damage" => damage(author),
        "stores" => store_scenes::all(author),
        "ranges" => starts::stored_ends(author),
        "carries" => carry_scenes::all(author),
        "battery" => battery_scenes::all(author),
        "forms" => form_scenes::all(author),
        "lingers" => stretches::lingers(author),
        "period" => stretches::period(author),
        "emergency" => emergency_scenes::all(author),
        "timeouts" => stretches::timeouts(author),
        "resets" => stretches::resets(author),
        "bites" => stretches::bites(author),
        "counts" => stretches::counts(author),
        _ => return None,
    }
    Some(())
}

/// Every id by get, set and reset.
fn parameters(author: &mut Author) {
    author.say("B 03 0000FFFF 00000003");
    commands::all_parameters(author);
}

/// Every kind of read and framing.
fn text(author: &mut Author) {
    starts::distribution(author, "02 000000FF 00000003", None);
    author.reach(Mode::Nominal);
    text_scenes::all(author);
}

/// The shortest watchdog in every setting, on a board that names raw and on one that names nothing.
fn watchdog(author: &mut Author) {
    for start in ["B 07 0FF000FF 00300003", "Q 11 07 0FF000FF 00300003 0 -"] {
        if start.starts_with('B') || !author.is_brief() {
            author.say(start);
            reset_scenes::all_bites(author);
        }
    }
    author.show();
}

/// Lines not of a form, and a last one that breaks off.
fn damage(author: &mut Author) {
    damage::all(author);
    author.break_off("T 0000 00000000 -");
}

/// Every code in the modes that are near.
fn codes(author: &mut Author) {
    author.say("B 01 00FFFF0F 000F0003");
    for mode in [Mode::Startup, Mode::Nominal, Mode::Safety] {
        author.reach(mode);
        commands::all_in(author, mode, true);
    }
    commands::long(author);
    author.show();
}

/// Starts, saves, words, reads, rails, channels and a reset.
fn board(author: &mut Author) {
    starts::edge_starts(author);
    starts::start(author);
    mode_scenes::out_of_startup(author);
    mode_scenes::switches(author);
    starts::distribution(author, "04 00FF00FF 00030003", None);
    commands::all_saves(author);
    commands::zero_checksum(author);
    data_scenes::all_words(author);
    data_scenes::all_readings(author);
    data_scenes::all_reads(author);
    for mode in [Mode::Startup, Mode::Nominal, Mode::Safety] {
        author.reach(mode);
        mode_scenes::all_rails(author, mode);
    }
    for _ in 0..if author.is_brief() { 4 } else { 12 } {
        channel_scenes::channels(author);
    }
    reset_scenes::reset(author);
    author.reach(Mode::Nominal);
    commands::status(author);
    channel_scenes::singles(author);
    channel_scenes::cancel(author);
    author.show();
}
