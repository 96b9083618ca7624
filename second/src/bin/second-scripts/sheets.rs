//! Session sheets: sound ones, ones with one fault each, and ones of a wanted size.

use crate::commands;
use crate::rng::Rng;
use crate::text_scenes::spaced;
use second::board::{Board, Profile, Tick};
use second::sheet::LONGEST_SHEET;

/// A sheet in pieces, each of which can be spoiled.
struct Draft {
    board: String,
    fitted_count: String,
    fitted: String,
    forced_count: String,
    forced: String,
    tick_count: String,
    ticks: Vec<String>,
    tail: String,
}

impl Draft {
    /// The whole sheet.
    fn text(&self) -> String {
        let mut text = format!(
            "{}\n{}\n{}\n{}\n{}\n{}\n",
            self.board,
            self.fitted_count,
            self.fitted,
            self.forced_count,
            self.forced,
            self.tick_count
        );
        for tick in &self.ticks {
            text += tick;
            text.push('\n');
        }
        text + &self.tail
    }
}

/// What a sheet is to be; the seed picks by its place in the list.
type Fault = fn(&mut Draft, &mut Rng);

const FAULTS: [Fault; 77] = [
    |d, _| d.board = "board 0".to_string(),
    |d, r| d.board = format!("board {}", r.pick(&[9, 10, 255])),
    |d, _| (d.fitted_count, d.fitted, d.forced_count, d.forced) = nothing_fitted(),
    |d, r| spare_channel(d, r),
    |d, r| {
        d.board = r.pick(&["Board 1", "board", "", "bord 1", " board 1", "fitted 1"]).to_string()
    },
    |d, _| d.board = "board ".to_string(),
    |d, r| {
        d.board = format!("board {}", r.pick(&["+1", "-1", "1 ", " 1", "1\r", "0x1", "1.0", "a"]))
    },
    |d, r| d.board = format!("board {}", r.pick(&["01", "00", "001", "010"])),
    |d, r| d.board = format!("board {}", r.pick(&["257", "1000", "4294967297"])),
    |d, _| d.board = "board 256".to_string(),
    |d, r| d.board = format!("board {}", "1".repeat(20 + r.below(300))),
    |d, r| d.fitted_count = r.pick(&["Fitted 1", "fitted", "", "fited 1", "forced 1"]).to_string(),
    |d, _| d.fitted_count = "fitted ".to_string(),
    |d, r| d.fitted_count = format!("fitted {}", r.pick(&["+1", "-1", "1 ", "1\r", "a"])),
    |d, _| d.fitted_count = d.fitted_count.replace("fitted ", "fitted 0"),
    |d, r| d.fitted_count = format!("fitted {}", r.pick(&["33", "256", "99999999999999999999"])),
    |d, _| d.fitted_count = off_by(&d.fitted_count, 1),
    |d, _| d.fitted_count = off_by(&d.fitted_count, -1),
    |d, _| d.fitted += " 32",
    |d, _| (d.fitted_count, d.fitted) = ("fitted 1".to_string(), "32".to_string()),
    |d, _| (d.forced_count, d.forced) = ("forced 1".to_string(), "32".to_string()),
    |d, _| (d.fitted_count, d.fitted) = ("fitted 1".to_string(), "31".to_string()),
    |d, r| d.fitted += r.pick(&[" ", "  31", " 31 "]),
    |d, r| d.fitted = format!("{}{}", r.pick(&["x", "+", "-", "\t"]), d.fitted),
    |d, _| d.fitted = format!("0{}", d.fitted),
    |d, _| twice(&mut d.fitted_count, &mut d.fitted),
    |d, _| falling(&mut d.fitted_count, &mut d.fitted),
    |d, _| d.fitted = String::new(),
    |d, r| d.forced_count = r.pick(&["Forced 1", "forced", "", "fitted 1"]).to_string(),
    |d, _| d.forced_count = "forced ".to_string(),
    |d, r| d.forced_count = format!("forced {}", r.pick(&["+1", "-1", "1 ", "1\r", "a"])),
    |d, _| d.forced_count = d.forced_count.replace("forced ", "forced 0"),
    |d, r| d.forced_count = format!("forced {}", r.pick(&["33", "256", "99999999999999999999"])),
    |d, _| d.forced_count = off_by(&d.forced_count, 1),
    |d, _| d.forced += " 40",
    |d, r| d.forced += r.pick(&[" ", "  31", " 31 "]),
    |d, r| d.forced = format!("{}{}", r.pick(&["x", "+", "-", "\t"]), d.forced),
    |d, _| d.forced = format!("0{}", d.forced),
    |d, _| twice(&mut d.forced_count, &mut d.forced),
    |d, _| falling(&mut d.forced_count, &mut d.forced),
    |d, r| d.tick_count = r.pick(&["Ticks 1", "ticks", "", "tick 1"]).to_string(),
    |d, _| d.tick_count = "ticks ".to_string(),
    |d, r| d.tick_count = format!("ticks {}", r.pick(&["+1", "-1", "1 ", "1\r", "a"])),
    |d, _| d.tick_count = d.tick_count.replace("ticks ", "ticks 0"),
    |d, r| d.tick_count = format!("ticks {}", r.pick(&["4097", "65536", "18446744073709551617"])),
    |d, _| d.tick_count = off_by(&d.tick_count, 1),
    |d, _| d.tick_count = off_by(&d.tick_count, -1),
    |d, r| spoil(d, r, |t, r| *t = t.replacen(' ', "", r.below(2) + 1)),
    |d, r| spoil(d, r, |t, _| *t = t.split(' ').take(2).collect::<Vec<_>>().join(" ")),
    |d, r| rail(d, r, &["", "-", "  5"]),
    |d, r| rail(d, r, &["+5", "5.0", "x", "--5", "1e3", "0x10"]),
    |d, r| rail(d, r, &["05", "-05", "00", "-00"]),
    |d, r| rail(d, r, &["65535", "100000", "-99999999999999999999"]),
    |d, r| rail(d, r, &["32768"]),
    |d, r| rail(d, r, &["-32769"]),
    |d, r| rail(d, r, &["-0"]),
    |d, r| overcurrent(d, r, &["0000000", "000000000", "0000000g", "", "0x000000", "-0000001"]),
    |d, r| {
        command(
            d,
            r,
            &["", "--", ".", "1", "11 ", " 11", "11  07", "1107", "11 0g", "11\t07", "11\r"],
        )
    },
    |d, r| command(d, r, &[&vec!["11"; 257].join(" ")]),
    |d, r| spoil(d, r, |t, _| t.push('\r')),
    |d, r| d.tail = r.pick(&["\n", " ", "x", "0 00000000 -\n", "\0"]).to_string(),
    |d, _| cut_after(d, 0),
    |d, _| cut_after(d, 1),
    |d, _| cut_after(d, 2),
    |d, _| cut_after(d, 3),
    |d, _| cut_after(d, 4),
    |d, _| cut_after(d, 5),
    |d, _| cut_within(d, 0),
    |d, _| cut_within(d, 1),
    |d, _| cut_within(d, 2),
    |d, _| cut_within(d, 3),
    |d, _| cut_within(d, 4),
    |d, _| cut_within(d, 5),
    |d, _| cut_within(d, 6),
    |d, _| d.ticks.clear(),
    |d, r| spoil(d, r, |t, _| t.insert(0, ' ')),
    |d, r| spoil(d, r, |t, _| *t = t.replacen(' ', "  ", 1)),
];

/// A bad profile with a fault of form behind it.
const BOTH: [Fault; 10] = [
    |d, _| (d.board, d.fitted_count) = ("board 0".to_string(), "fitted 33".to_string()),
    |d, _| (d.board, d.fitted) = ("board 9".to_string(), format!("0{}", d.fitted)),
    |d, r| {
        d.board = "board 255".to_string();
        rail(d, r, &["-0"]);
    },
    |d, _| (d.board, d.tail) = ("board 10".to_string(), "x".to_string()),
    |d, _| {
        d.board = "board 0".to_string();
        cut_within(d, 6);
    },
    |d, r| {
        (d.fitted_count, d.fitted, d.forced_count, d.forced) = nothing_fitted();
        command(d, r, &["11  07", "1107", "."]);
    },
    |d, _| {
        (d.fitted_count, d.fitted, d.forced_count, d.forced) = nothing_fitted();
        d.tick_count = off_by(&d.tick_count, 1);
    },
    |d, r| {
        spare_channel(d, r);
        overcurrent(d, r, &["0000000", "0000000g"]);
    },
    |d, r| {
        spare_channel(d, r);
        d.tick_count = "ticks 4097".to_string();
    },
    |d, r| {
        d.board = "board 9".to_string();
        command(d, r, &[&["5a"; 257].join(" ")]);
    },
];

/// The lines of a profile without channels.
fn nothing_fitted() -> (String, String, String, String) {
    ("fitted 0".to_string(), String::new(), "forced 0".to_string(), String::new())
}

/// A forced channel that is not fitted: all others leave channel 31 free.
fn spare_channel(draft: &mut Draft, _: &mut Rng) {
    draft.forced_count = off_by(&draft.forced_count, 1);
    draft.forced += if draft.forced.is_empty() { "31" } else { " 31" };
}

/// The same count line with another number.
fn off_by(count: &str, offset: i64) -> String {
    let (word, number) = count.split_once(' ').unwrap_or((count, "0"));
    let number: i64 = number.parse().unwrap_or(0);
    format!("{word} {}", (number + offset).max(0))
}

/// The last channel once more.
fn twice(count: &mut String, list: &mut String) {
    *count = off_by(count, 1);
    let last = list.rsplit(' ').next().unwrap_or("3").to_string();
    *list += &format!(" {}", if last.is_empty() { "3 3" } else { &last });
}

/// A lower channel behind a higher one.
fn falling(count: &mut String, list: &mut String) {
    *count = off_by(count, 2);
    *list = format!("31 5 {list}").trim_end().to_string();
}

/// Does something to one tick line, drawn by lot.
fn spoil(draft: &mut Draft, rng: &mut Rng, how: fn(&mut String, &mut Rng)) {
    let at = rng.below(draft.ticks.len());
    how(&mut draft.ticks[at], rng);
}

/// Puts a text in the place of one field of a tick line.
fn replace_field(draft: &mut Draft, rng: &mut Rng, field: usize, with: &str) {
    let at = rng.below(draft.ticks.len());
    let mut fields: Vec<&str> = draft.ticks[at].splitn(3, ' ').collect();
    fields[field] = with;
    draft.ticks[at] = fields.join(" ");
}

/// Another rail in one tick line.
fn rail(draft: &mut Draft, rng: &mut Rng, choices: &[&str]) {
    let with = rng.pick(choices);
    replace_field(draft, rng, 0, with);
}

/// Another overcurrent set in one tick line.
fn overcurrent(draft: &mut Draft, rng: &mut Rng, choices: &[&str]) {
    let with = rng.pick(choices);
    replace_field(draft, rng, 1, with);
}

/// Another command in one tick line.
fn command(draft: &mut Draft, rng: &mut Rng, choices: &[&str]) {
    let with = rng.pick(choices);
    replace_field(draft, rng, 2, with);
}

/// Keeps only the first lines. The cut is an order to `cut`, which sees the
/// whole text; no sheet has its mark.
fn cut_after(draft: &mut Draft, lines: usize) {
    draft.tail = format!("\u{1}{lines} 0");
}

/// Keeps one more line but for its LF.
fn cut_within(draft: &mut Draft, lines: usize) {
    draft.tail = format!("\u{1}{lines} 1");
}

/// The sheet, cut where its tail orders it.
fn cut(text: String) -> Vec<u8> {
    let Some((whole, order)) = text.split_once('\u{1}') else {
        return text.into_bytes();
    };
    let (lines, more) = order.split_once(' ').unwrap_or(("0", "0"));
    let lines: usize = lines.parse().unwrap_or(0);
    let mut pieces = whole.split_inclusive('\n');
    let mut end: usize = pieces.by_ref().take(lines).map(str::len).sum();
    if more == "1" {
        end += pieces.next().map_or(0, |line| line.len() - 1);
    }
    whole.as_bytes()[..end].to_vec()
}

/// How many channels the set has, and its list line.
fn list(set: u32) -> (usize, String) {
    let members: Vec<String> = (0..32)
        .filter(|channel| set >> channel & 1 != 0)
        .map(|channel| channel.to_string())
        .collect();
    (members.len(), members.join(" "))
}

/// A sound sheet, steered by a board of its own.
fn sound(rng: &mut Rng, ticks: usize) -> Draft {
    let fitted = (rng.next() | rng.next()) as u32 & 0x7FFF_FFFF | 0x0001_0003;
    let forced = if rng.once_in(6) { 0 } else { (rng.next() & rng.next()) as u32 & fitted };
    let bid = rng.between(1, 8) as u8;
    let mut board = Board::start(&Profile::distribution(bid, fitted, forced).naming_raw())
        .expect("the draft's profile is sound");
    let lines = (0..ticks).map(|_| tick_line(&mut board, rng)).collect();
    let (fitted_count, fitted) = list(fitted);
    let (forced_count, forced) = list(forced);
    Draft {
        board: format!("board {bid}"),
        fitted_count: format!("fitted {fitted_count}"),
        fitted,
        forced_count: format!("forced {forced_count}"),
        forced,
        tick_count: format!("ticks {ticks}"),
        ticks: lines,
        tail: String::new(),
    }
}

/// One tick line for the state the board is in; the board takes it.
fn tick_line(board: &mut Board, rng: &mut Rng) -> String {
    let rail = match rng.below(40) {
        0 => rng.pick(&[-32_768, -1, 0, 32_767]),
        1 => rng.pick(&[12_399, 11_999, 12_000, 14_000]),
        _ => rng.pick(&[12_400, 12_401, 14_001, 15_000]),
    };
    let overcurrent = if rng.once_in(4) { rng.channels() } else { 0 };
    let command = rng.once_in(2).then(|| brief(board, rng)).filter(|bytes| !bytes.is_empty());
    let _ = board.tick(&Tick { rail, overcurrent, words: &[], command: command.as_deref() });
    let text = match &command {
        Some(bytes) => String::from_utf8_lossy(&spaced(bytes, rng)).into_owned(),
        None => "-".to_string(),
    };
    let overcurrent = format!("{overcurrent:08X}");
    let overcurrent = if rng.once_in(3) { overcurrent.to_lowercase() } else { overcurrent };
    format!("{rail} {overcurrent} {text}")
}

/// A command of any kind, but resets are rare: each costs fifty ticks.
fn brief(board: &Board, rng: &mut Rng) -> Vec<u8> {
    if rng.once_in(8) && board.mode().mode() == second::mode::Mode::Safety {
        return vec![0x11, 0x07, 0x30, board.bid()];
    }
    if rng.once_in(60) {
        commands::any(board, rng)
    } else {
        loop {
            let bytes = commands::any(board, rng);
            if bytes.get(2) != Some(&0xAA) {
                return bytes;
            }
        }
    }
}

/// A sound sheet of exactly this many bytes: commands of 256 bytes, and two
/// last lines that take up what is left.
fn of_size(size: usize, rng: &mut Rng) -> Vec<u8> {
    let mut draft = sound(rng, 60);
    let bid = draft.board.replace("board ", "");
    let long = format!("11 07 02 0{bid} {}", ["5A"; 252].join(" "));
    while draft.text().len() + 2 * long.len() + 60 < size {
        draft.ticks.push(format!("{} 00000000 {long}", rng.pick(&[12_400, 13_000, 15_000])));
    }
    draft.tick_count = format!("ticks {}", draft.ticks.len() + 2);
    let left = size - draft.text().len();
    let fixed = 2 * " 00000000 \n".len();
    for rail in ["5", "55", "555"] {
        let room = left - fixed - rail.len() - 1;
        if (room + 2) % 3 == 0 {
            let count = (room + 2) / 3;
            let first = count / 2;
            draft.ticks.push(format!("{rail} 00000000 {}", vec!["11"; first].join(" ")));
            draft.ticks.push(format!("5 00000000 {}", vec!["07"; count - first].join(" ")));
        }
    }
    let text = draft.text();
    assert_eq!(text.len(), size);
    text.into_bytes()
}

/// A sound sheet of this many short tick lines.
fn many_ticks(count: usize, rng: &mut Rng) -> Vec<u8> {
    let mut draft = sound(rng, 80);
    while draft.ticks.len() < count {
        draft.ticks.push(format!("{} 00000000 -", rng.pick(&[-1, 0, 9])));
    }
    draft.tick_count = format!("ticks {count}");
    draft.text().into_bytes()
}

/// All 32 channels fitted and forced, and the first tick that has them on.
fn all_fitted(_: &mut Rng) -> Vec<u8> {
    let all = list(u32::MAX).1;
    let ticks = "12400 80000001 -\n".repeat(51);
    format!("board 8\nfitted 32\n{all}\nforced 32\n{all}\nticks 51\n{ticks}").into_bytes()
}

/// A sound sheet without ticks.
fn no_ticks(rng: &mut Rng) -> Vec<u8> {
    sound(rng, 0).text().into_bytes()
}

/// The fillings that are no single fault.
const SOUND: usize = 12;
const SPECIAL: [fn(&mut Rng) -> Vec<u8>; 7] = [
    all_fitted,
    |rng| many_ticks(4_096, rng),
    |rng| many_ticks(4_097, rng),
    |rng| of_size(LONGEST_SHEET - 1, rng),
    |rng| of_size(LONGEST_SHEET, rng),
    |rng| of_size(LONGEST_SHEET + 1, rng),
    no_ticks,
];

/// The sheet of a seed. The seed also picks what the sheet is to be, so that a
/// run of seeds as long as the list has one of each.
pub fn sheet(seed: u64) -> Vec<u8> {
    let mut rng = Rng::new(seed);
    let kinds = SPECIAL.len() + SOUND + FAULTS.len() + BOTH.len();
    let kind = (seed % kinds as u64) as usize;
    if kind < SPECIAL.len() {
        return SPECIAL[kind](&mut rng);
    }
    if kind < SPECIAL.len() + SOUND {
        let ticks = rng.between(60, 300) as usize;
        return sound(&mut rng, ticks).text().into_bytes();
    }
    let ticks = rng.between(1, 5) as usize;
    let mut draft = sound(&mut rng, ticks);
    let mut faults = FAULTS.iter().chain(&BOTH);
    if let Some(fault) = faults.nth(kind - SPECIAL.len() - SOUND) {
        fault(&mut draft, &mut rng);
    }
    cut(draft.text())
}
