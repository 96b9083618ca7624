//! The session sheet.

use second::sheet::{bench, run, Cause, Part, SheetRefusal};

const SHEET: &str = "board 1\nfitted 2\n0 1\nforced 1\n0\nticks 2\n\
                     -20 00000000 11 07 02 01\n-20 00000000 -\n";

/// The part and the cause for which a sheet is refused with 14.
fn fault(sheet: &[u8]) -> (Part, Cause) {
    assert_eq!(bench(sheet), b"refused 14\n");
    match run(sheet) {
        Err(SheetRefusal::Form(fault)) => (fault.part, fault.cause),
        other => panic!("{other:?}"),
    }
}

/// The sheet with one piece of it replaced.
fn with(old: &str, new: &str) -> Vec<u8> {
    assert_eq!(SHEET.matches(old).count(), 1, "{old}");
    SHEET.replace(old, new).into_bytes()
}

#[test]
fn the_sheet_of_the_document_byte_for_byte() {
    let expected = "ticks 2\n1 U 00000000 00000000 -\n2 U 00000000 00000000 -\n";
    assert_eq!(bench(SHEET.as_bytes()), expected.as_bytes());
}

/// A sheet brings no words: 0x52 tells the readings of zeros, and nothing new.
#[test]
fn engineering_readings_of_a_sheet() {
    let ticks = "12400 00000000 -\n".repeat(49) + "12400 00000000 11 07 52 01\n";
    let sheet = format!("board 1\nfitted 2\n0 1\nforced 1\n0\nticks 50\n{ticks}");
    let printed = String::from_utf8(bench(sheet.as_bytes())).unwrap();
    let words = "00 00 79 90 00 00 00 00 00 00 01".to_string() + &" 00".repeat(241);
    let expected = format!("50 N 00000001 00000000 11 07 53 01 00 00 {words}");
    assert_eq!(printed.lines().last(), Some(&expected[..]));
}

/// Each sheet is refused for this part of the form and this cause.
fn check(cases: &[(Vec<u8>, Part, Cause)]) {
    for (sheet, part, cause) in cases {
        let text = String::from_utf8_lossy(sheet);
        assert_eq!(fault(sheet), (*part, *cause), "{text}");
    }
}

#[test]
fn each_fault_of_the_profile_has_its_cause() {
    check(&[
        (vec![], Part::Board, Cause::NoLine),
        (with("board 1", "Board 1"), Part::Board, Cause::WrongWord),
        (with("board 1", "board  1"), Part::Board, Cause::NotDigit),
        (with("board 1", "board "), Part::Board, Cause::NoNumber),
        (with("board 1", "board"), Part::Board, Cause::WrongWord),
        (with("board 1", "board +1"), Part::Board, Cause::NotDigit),
        (with("board 1", "board 01"), Part::Board, Cause::LeadingZero),
        (with("board 1", "board 00"), Part::Board, Cause::LeadingZero),
        (with("board 1", "board 256"), Part::Board, Cause::TooLarge),
        (with("board 1\n", "board 1\r\n"), Part::Board, Cause::NotDigit),
        (with("board 1", "board 1 "), Part::Board, Cause::NotDigit),
        (with("fitted 2", "fitted 3"), Part::FittedList, Cause::CountDisagrees),
        (with("fitted 2", "fitted 1"), Part::FittedList, Cause::CountDisagrees),
        (with("fitted 2", "fitted 33"), Part::Fitted, Cause::TooLarge),
        (with("0 1\n", "1 0\n"), Part::FittedList, Cause::NotRising),
        (with("0 1\n", "1 1\n"), Part::FittedList, Cause::NotRising),
        (with("0 1\n", "0 32\n"), Part::FittedList, Cause::TooLarge),
        (with("0 1\n", "0  1\n"), Part::FittedList, Cause::NoNumber),
        (with("0 1\n", "0 1 \n"), Part::FittedList, Cause::NoNumber),
        (with("0 1\n", "0 01\n"), Part::FittedList, Cause::LeadingZero),
        (with("forced 1\n0", "forced 0\n0"), Part::ForcedList, Cause::CountDisagrees),
        (with("forced 1\n0\n", "forced 0\n"), Part::ForcedList, Cause::NotDigit),
    ]);
}

#[test]
fn each_fault_of_the_ticks_has_its_cause() {
    check(&[
        (with("ticks 2", "ticks 4097"), Part::Ticks, Cause::TooLarge),
        (with("ticks 2", "ticks 3"), Part::TickLine, Cause::NoLine),
        (with("ticks 2", "ticks 1"), Part::Sheet, Cause::BytesBehind),
        (with("-20 00000000 -\n", "-20 00000000 -\n\n"), Part::Sheet, Cause::BytesBehind),
        (with("-20 00000000 -\n", "-20 00000000 -"), Part::TickLine, Cause::NoLineEnd),
        (with("-20 00000000 -\n", "-0 00000000 -\n"), Part::Rail, Cause::MinusZero),
        (with("-20 00000000 -\n", "- 00000000 -\n"), Part::Rail, Cause::NoNumber),
        (with("-20 00000000 -\n", "-32769 00000000 -\n"), Part::Rail, Cause::TooLarge),
        (with("-20 00000000 -\n", "32768 00000000 -\n"), Part::Rail, Cause::TooLarge),
        (with("-20 00000000 -\n", "+1 00000000 -\n"), Part::Rail, Cause::NotDigit),
        (with("-20 00000000 -\n", "1 0000000 -\n"), Part::Overcurrent, Cause::NotHex),
        (with("-20 00000000 -\n", "1 0000000G -\n"), Part::Overcurrent, Cause::NotHex),
        (with("-20 00000000 -\n", "1 00000000 --\n"), Part::Command, Cause::NotHex),
        (with("-20 00000000 -\n", "1 00000000 \n"), Part::Command, Cause::NotHex),
        (with("-20 00000000 -\n", "1 00000000\n"), Part::TickLine, Cause::FieldMissing),
        (with("-20 00000000 -\n", "1 00000000 1\n"), Part::Command, Cause::NotHex),
    ]);
}

/// A sheet of this many bytes with a command of 256 bytes in nearly each tick.
fn sized(length: usize) -> Vec<u8> {
    let long = format!("0 00000000 {}\n", ["11"; 256].join(" "));
    let head = |ticks: usize| format!("board 1\nfitted 1\n0\nforced 0\n\nticks {ticks}\n");
    let count = 83;
    let mut sheet = head(count + 2) + &long.repeat(count);
    // Two last commands take what is left, one pair at least each; the rail
    // makes up for what pairs cannot.
    let left = length - sheet.len();
    for filler in ["0", "10", "100"] {
        let fixed = 2 * " 00000000 \n".len() + filler.len() + 1;
        let room = left - fixed;
        if (room + 2) % 3 == 0 {
            let pairs = (room + 2) / 3;
            let first = pairs.min(256).min(pairs - 1);
            let text = |pairs: usize| vec!["11"; pairs].join(" ");
            sheet += &format!("{filler} 00000000 {}\n", text(first));
            sheet += &format!("0 00000000 {}\n", text(pairs - first));
        }
    }
    assert_eq!(sheet.len(), length);
    sheet.into_bytes()
}

#[test]
fn a_sheet_has_at_most_65536_bytes() {
    assert!(bench(&sized(65_535)).starts_with(b"ticks 85\n1 U"));
    assert!(bench(&sized(65_536)).starts_with(b"ticks 85\n1 U"));
    assert_eq!(fault(&sized(65_537)), (Part::Sheet, Cause::TooLong));
}

#[test]
fn a_number_of_any_length_is_14() {
    let long = "9".repeat(60_000);
    assert_eq!(fault(&with("board 1", &format!("board {long}"))), (Part::Board, Cause::TooLarge));
    let rail = with("-20 00000000 -", &format!("-{long} 00000000 -"));
    assert_eq!(fault(&rail), (Part::Rail, Cause::TooLarge));
    let zeros = "0".repeat(60_000);
    let count = with("ticks 2", &format!("ticks {zeros}"));
    assert_eq!(fault(&count), (Part::Ticks, Cause::LeadingZero));
}

#[test]
fn a_command_has_at_most_256_bytes() {
    let of = |pairs: usize| with("11 07 02 01", &vec!["11"; pairs].join(" "));
    assert!(bench(&of(256)).starts_with(b"ticks 2\n"));
    assert_eq!(fault(&of(257)), (Part::Command, Cause::TooLong));
}

#[test]
fn no_ticks_and_the_most_ticks() {
    let head = "board 8\nfitted 1\n31\nforced 0\n\n";
    assert_eq!(bench(format!("{head}ticks 0\n").as_bytes()), b"ticks 0\n");
    let most = format!("{head}ticks 4096\n{}", "0 00000000 -\n".repeat(4_096));
    let printed = bench(most.as_bytes());
    assert_eq!(printed.iter().filter(|byte| **byte == b'\n').count(), 4_097);
    assert!(printed.ends_with(b"\n4096 F 00000000 00000000 -\n"));
}

#[test]
fn the_profile_is_judged_after_the_whole_form() {
    assert_eq!(bench(&with("board 1", "board 0")), b"refused 8\n");
    assert_eq!(bench(&with("board 1", "board 9")), b"refused 8\n");
    assert_eq!(bench(&with("board 1", "board 255")), b"refused 8\n");
    assert_eq!(bench(b"board 1\nfitted 0\n\nforced 0\n\nticks 0\n"), b"refused 8\n");
    assert_eq!(bench(&with("forced 1\n0", "forced 1\n2")), b"refused 8\n");
    let mut both = with("board 1", "board 0");
    both.push(b'x');
    assert_eq!(bench(&both), b"refused 14\n");
}

#[test]
fn either_case_in_and_capitals_out() {
    let mut sheet = b"board 1\nfitted 5\n0 1 2 3 31\nforced 2\n0 31\nticks 51\n".to_vec();
    sheet.extend(b"15000 00000000 -\n".repeat(50));
    sheet.extend(b"15000 ffFFfffF 11 07 aB 01\n");
    let printed = bench(&sheet);
    let text = String::from_utf8(printed).unwrap();
    assert!(text.ends_with("\n50 N 80000001 00000000 -\n51 N 00000000 80000001 11 07 AB 01 02\n"));
}

#[test]
fn a_sheet_never_reaches_emergency() {
    let mut sheet = b"board 1\nfitted 1\n0\nforced 0\n\nticks 4096\n".to_vec();
    sheet.extend(b"-1 00000000 -\n".repeat(4_096));
    let text = String::from_utf8(bench(&sheet)).unwrap();
    assert!(text.ends_with("\n4096 F 00000000 00000000 -\n"));
}
