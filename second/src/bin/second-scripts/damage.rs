//! Lines that are not of a form, or only just.

use crate::author::{hex, Author};
use crate::rng::Rng;
use crate::starts::{stored_start, with, with_of};
use second::model::Model;

/// Lines of each form, the limits among them.
fn whole(author: &mut Author) -> String {
    let bytes = |count: usize| "5A".repeat(count);
    let named = author.named();
    match author.rng.below(16) {
        0 => "B 01 0000000F 00000001".to_string(),
        1 => stored_start("02 0000000F 00000001", 7, &with(&[])),
        2 => "W 0000 -".to_string(),
        3 => format!("W 0100 {}", bytes(512)),
        4 => "T 3A98 00000000 -".to_string(),
        5 => format!("T 8000 FFFFFFFF {}", bytes(300)),
        6 => "T 7fff abcdefAB .".to_string(),
        7 => "R 0200".to_string(),
        8 => format!("L 0200 {}", bytes(600)),
        9 => "L 0000 -".to_string(),
        10 => "F 0400".to_string(),
        11 => format!("Q 12 01 00000000 00000000 1 {named}"),
        12 => format!("Q 11 03 0000000F 00000001 2 {named}"),
        13 => {
            let stored = hex(&with_of(Model::Battery, &[]));
            format!("V 12 04 00000000 00000000 0 {named} 0007 {stored}")
        }
        14 => format!("W 0200 {}", bytes(1024)),
        _ => "S".to_string(),
    }
}

/// One small fault in a line that was whole.
fn damaged(mut line: Vec<u8>, rng: &mut Rng) -> Vec<u8> {
    let at = rng.below(line.len());
    match rng.below(8) {
        0 => {
            line.remove(at);
        }
        1 => line.insert(at, b'0'),
        2 => line[at] = rng.pick(b"gG -.x\r\t\0"),
        3 => line.insert(at, b' '),
        4 => line.push(rng.pick(b" 0\r-")),
        5 => line.truncate(at),
        6 => line[0] = rng.byte().clamp(b' ', b'~'),
        _ => line[at] = rng.byte().max(11),
    }
    line
}

/// Says a line with one fault.
pub fn random(author: &mut Author) {
    let line = whole(author).into_bytes();
    let line = damaged(line, &mut author.rng);
    author.say_bytes(&line);
}

/// Lines around each form, none of them long.
const SHORT: [&str; 75] = [
    "",
    " ",
    "X",
    "s",
    "S ",
    " S",
    "SS",
    "S 00",
    "B",
    "P",
    "W",
    "T",
    "R",
    "L",
    "F",
    "B 01",
    "B 1 0000000F 00000001",
    "B 001 0000000F 00000001",
    "B 01 000000F 00000001",
    "B 01 0000000F 000000001",
    "B 01 0000000F 00000001 ",
    "B 01 0000000F 00000001 0000",
    "B 01  0000000F 00000001",
    "B 0G 0000000F 00000001",
    "P 01 0000000F 00000001 0000 -",
    "P 01 0000000F 00000001 0000",
    "P 01 0000000F 00000001 0000 ",
    "W 0000 -",
    "W 0000 0000",
    "W 0001 -",
    "W 0001 0000",
    "W 0001 000",
    "W 0002 0000",
    "W 0000",
    "W 000 -",
    "W 0000 .",
    "W 0101 -",
    "T 0000 00000000",
    "T 0000 00000000 ",
    "T 0000 00000000 -",
    "T 0000 00000000 .",
    "T 0000 00000000 --",
    "T 0000 00000000 ..",
    "T 0000 00000000 1",
    "T 0000 00000000 11 07",
    "T 0000 00000000 1G",
    "T 000 00000000 -",
    "T 00000 00000000 -",
    "T 0000 0000000 -",
    "T 0000 000000000 -",
    "T 0000 00000000 - -",
    "T -001 00000000 -",
    "R 0000",
    "R 0200",
    "R 0201",
    "R FFFF",
    "R 000",
    "R 00000",
    "R 0000 ",
    "L 0000 -",
    "L 0200 -",
    "L 0201 -",
    "L 0000",
    "L 0000 .",
    "L 0000 3",
    "L 0000 3G",
    "L 0000 - -",
    "F 0000",
    "F 0400",
    "F 0401",
    "F 000",
    "F 0000 0",
    "S",
    "\tS",
    "S\r",
];

/// Every line just over and just under each limit, and every line without a board.
pub fn all(author: &mut Author) {
    let lines: Vec<String> = SHORT.iter().map(|line| line.to_string()).chain(long()).collect();
    for line in &lines {
        author.say(line);
    }
    author.say("B 01 0000000F 00000001");
    for line in &lines {
        author.say(line);
    }
    author.show();
}

/// Lines around the limits of their byte strings.
fn long() -> Vec<String> {
    let mut lines = Vec::new();
    let stored = hex(&with(&[]));
    for digits in [stored.clone() + "00", stored[2..].to_string(), stored[1..].to_string()] {
        lines.push(format!("P 01 0000000F 00000001 0000 {digits}"));
    }
    lines.push(format!("P 01 0000000F 00000001 000 {stored}"));
    lines.push(format!("P 01 0000000F 00000001 0000 {stored} "));
    for count in [299, 300, 301] {
        lines.push(format!("T 3A98 00000000 {}", "11".repeat(count)));
    }
    for count in [599, 600, 601, 700] {
        lines.push(format!("L 0000 {}", "3C".repeat(count)));
    }
    for count in [255, 256, 257, 511, 512, 513] {
        lines.push(format!("W {count:04X} {}", "ABCD".repeat(count)));
    }
    lines
}
