//! The replay script.

use second::model::Model;
use second::replay::{Replay, LONGEST_LINE};
use second::settings::Settings;

struct Script {
    replay: Replay,
}

impl Script {
    /// A script that has not begun.
    fn new() -> Script {
        Script { replay: Replay::new() }
    }

    /// A board in nominal.
    fn nominal() -> Script {
        let mut script = Script::new();
        assert_eq!(script.say("B 01 0000000F 00000001"), "ok");
        for _ in 0..50 {
            script.say("T 3A98 00000000 -");
        }
        script
    }

    /// A battery board in nominal, its ABF placed.
    fn battery() -> Script {
        let mut script = Script::new();
        assert_eq!(script.say("Q 12 01 00000000 00000000 1 R"), "ok");
        for _ in 0..50 {
            script.say("T 3A98 00000000 -");
        }
        script
    }

    /// What a line prints.
    fn say(&mut self, line: &str) -> String {
        let mut out = Vec::new();
        self.replay.line(line.as_bytes(), &mut out);
        String::from_utf8(out).unwrap()
    }

    /// One field of the state line.
    fn field(&mut self, index: usize) -> String {
        self.say("S").split(' ').nth(index).unwrap().to_string()
    }
}

/// The digits of the defaults as they would be stored.
fn defaults() -> String {
    defaults_of(Model::Distribution)
}

/// The same for boards of a model.
fn defaults_of(model: Model) -> String {
    Settings::defaults(model).bytes().iter().map(|byte| format!("{byte:02X}")).collect()
}

#[test]
fn all_but_starts_are_bad_before_a_board() {
    let mut script = Script::new();
    for line in ["W 0000 -", "T 0000 00000000 -", "R 0000", "L 0000 -", "F 0000", "S"] {
        assert_eq!(script.say(line), "bad", "{line}");
    }
    assert_eq!(script.say("B 00 00000001 00000000"), "refused 8");
    assert_eq!(script.say("S"), "bad");
    assert_eq!(script.say(&format!("P 01 00000001 00000000 FFFF {}", defaults())), "ok");
    assert_eq!(script.field(7), "FFFF");
}

/// Lines of no form, though most are near one.
const BAD: [&str; 48] = [
    "",
    " ",
    "S ",
    " S",
    "s",
    "SS",
    "X",
    "B",
    "B 01 0000000F",
    "B 1 0000000F 00000001",
    "B 01 0000000F 00000001 ",
    "B 01 0000000F 00000001 0000",
    "B 01 000000F 00000001",
    "B 0G 0000000F 00000001",
    "B  01 0000000F 00000001",
    "P 01 0000000F 00000001 0000 -",
    "P 01 0000000F 00000001 0000 00",
    "W 0001 -",
    "W 0000 0000",
    "W 0002 0000",
    "W 0001 00",
    "W 0201 -",
    "W 0000",
    "W 0000 ",
    "W 1 0000",
    "T 0000 00000000",
    "T 0000 00000000 ",
    "T 0000 00000000 --",
    "T 0000 00000000 ..",
    "T 0000 00000000 1",
    "T 0000 00000000 1G",
    "T 000 00000000 -",
    "T 0000 0000000 -",
    "T 0000 00000000 - -",
    "R 0201",
    "R 000",
    "R 00000",
    "R",
    "R 0000 0",
    "L 0201 -",
    "L 0000",
    "L 0000 .",
    "L 0000 3",
    "F 0401",
    "F -1",
    "F 0000 0000",
    "T\t0000 00000000 -",
    "R 0000\r",
];

#[test]
fn lines_not_of_a_form_are_bad() {
    let mut script = Script::nominal();
    let before = script.say("S");
    let digits = "0".repeat(602);
    for line in BAD {
        assert_eq!(script.say(line), "bad", "{line}");
        assert_eq!(script.say("S"), before, "{line}");
    }
    assert_eq!(script.say(&format!("T 3A98 00000000 {digits}")), "bad");
    assert_eq!(script.say(&format!("L 0000 {}", "0".repeat(1_202))), "bad");
    assert_ne!(script.say(&format!("T 3A98 00000000 {}", &digits[..600])), "bad");
    assert_eq!(script.say(&format!("L 0000 {}", "0".repeat(1_200))), "refused 10 -");
    assert_eq!(script.say(&format!("W 0201 {}", "0".repeat(4 * 0x201))), "bad");
    let longest = format!("W 0200 {}", "0".repeat(4 * 0x200));
    assert_eq!(longest.len(), LONGEST_LINE);
    assert_eq!(script.say(&longest), "ok");
    assert_eq!(script.say("T 3A98 00000000 -"), "refused 9");
}

#[test]
fn words_wait_for_the_next_tick_line_of_the_form() {
    let mut script = Script::nominal();
    let words = format!("W 007A {}", "ABCD".repeat(122));
    assert_eq!(script.say(&words), "ok");
    assert_eq!(script.say("T 3A98 00000000"), "bad");
    assert_eq!(script.say("W 0002 0000000G"), "bad");
    assert_eq!(script.field(10), "0000".repeat(122));
    assert!(script.say("T 3A98 00000000 -").starts_with("N "));
    assert_eq!(script.field(10), "ABCD".repeat(122));
    assert_eq!(script.say("W 0001 1234"), "ok");
    assert_eq!(script.say("T 3A98 00000000 -"), "refused 9");
    assert!(script.say("T 3A98 00000000 -").starts_with("N "));
    assert_eq!(script.say("W 0001 1234"), "ok");
    assert_eq!(script.say("W 0000 -"), "ok");
    assert!(script.say("T 3A98 00000000 -").starts_with("N "));
    assert_eq!(script.say("W 0001 1234"), "ok");
    assert_eq!(script.say("B 02 00000001 00000000"), "ok");
    assert_eq!(script.say("T 3A98 00000000 -"), "refused 9");
}

#[test]
fn the_tick_line() {
    let mut script = Script::nominal();
    assert_eq!(
        script.say("T 3A98 00000000 110702010F"),
        "N 0000000000000001 0000000000000000 00000001 00000000 - 0 1107030180"
    );
    assert_eq!(
        script.say("T 3a98 0000000f ."),
        "N 0000000000000002 0000000000000001 00000000 00000001 - 1 -"
    );
    assert_eq!(
        script.say("T FFFF 00000000 -"),
        "F 0000000000000000 0000000000000002 00000000 00000001 - - -"
    );
    assert_eq!(
        script.say("T 3A98 00000000 1107AA01A6"),
        "U 0000000000000000 0000000000000000 00000000 00000000 - 0 -"
    );
}

/// Raw -20 everywhere: held where it is read as unsigned, -19.5 mV, and for the
/// input and the domains -6.1 mA and -0.195 W, for a channel -3.05 mA and -0.098 W.
#[test]
fn engineering_readings_of_a_script() {
    let mut script = Script::nominal();
    assert_eq!(script.say(&format!("W 007A {}", "FFEC".repeat(122))), "ok");
    let words = ["FF7FFF7FECFFFAFFECFF", "0100000000000000"].concat()
        + &"ECFFFAFFECFF".repeat(7)
        + &"ECFFFDFFF6FF".repeat(32);
    assert_eq!(
        script.say("T 3A98 00000000 11075201"),
        format!("N 0000000000000001 0000000000000000 00000001 00000000 - 0 110753018000{words}")
    );
    assert_eq!(
        script.say("T 3A98 00000000 11075201"),
        format!("N 0000000000000002 0000000000000000 00000001 00000000 - 0 110753010000{words}")
    );
    assert_eq!(script.field(10), "FFEC".repeat(122));
    assert_eq!(script.field(11), format!("110753010000{words}"));
    assert_eq!(script.say("R 000C"), "110753010000FF7FFF7FECFF");
}

#[test]
fn bus_reads() {
    let mut script = Script::nominal();
    assert_eq!(script.say("R 0000"), "-");
    assert_eq!(script.say("R 0002"), "FFFF");
    script.say("T 3A98 00000000 11070201");
    assert_eq!(script.say("R 0004"), "11070301");
    assert_eq!(script.say("R 0007"), "1107030180FFFF");
    assert_eq!(script.say("R 0200").len(), 1_024);
}

#[test]
fn framing_the_latest() {
    let mut script = Script::nominal();
    assert_eq!(script.say("F 0001"), "written 0000 EE");
    script.say("T 3A98 00000000 11070201");
    let raw = "written 0012 3C7273703E11070301803C2F7273703E0D0A";
    assert_eq!(script.say("F 0012"), raw);
    assert_eq!(script.say("F 0000"), "refused 13 -");
    let switch = "L 0001 3C636D643E3C6366673A7261772F3E3C2F636D643E";
    assert_eq!(script.say(switch), "form raw 0015 EE");
    let echo = "written 0017 3C7273703E3C6366673A7261772F3E3C2F7273703E0D0A";
    assert_eq!(script.say("F 0017"), echo);
    assert_eq!(script.say("L 0000 -"), "refused 10 -");
    assert_eq!(script.say("F 0017"), echo);
    assert_eq!(script.say("W 0001 0000"), "ok");
    assert_eq!(script.say("T 3A98 00000000 -"), "refused 9");
    assert_eq!(script.say("F 0017"), echo);
    assert_eq!(script.say("B 09 00000001 00000000"), "refused 8");
    assert_eq!(script.say("F 0017"), echo);
    assert_eq!(
        script.say("T 3A98 00000000 -"),
        "N 0000000000000002 0000000000000001 00000001 00000000 - - -"
    );
    assert_eq!(script.say("F 0000"), "written 0000 -");
    assert_eq!(script.say(switch), "form raw 0015 EE");
    assert_eq!(script.say("B 01 00000001 00000000"), "ok");
    assert_eq!(script.say("F 0000"), "written 0000 -");
}

#[test]
fn text_lines() {
    let mut script = Script::nominal();
    assert_eq!(script.say("L 0002 3C636D643EAB3C2F636D643E55"), "command 000C AB EEEE");
    assert_eq!(script.say("L 0000 3C636D643E3C2F636D643E"), "command 000B - -");
    let long = format!("L 0000 3C636D643E{}3C2F636D643E", "00".repeat(257));
    assert_eq!(script.say(&long), "refused 11 010C -");
    let ascii = "L 0000 3C636D643E3C6366673A61736369692F3E3C2F636D643E";
    assert_eq!(script.say(ascii), "form ascii 0017 -");
    assert_eq!(script.field(0), "A");
    assert_eq!(script.say("L 0003 3C636D643E31312061663C2F636D643E"), "command 0010 11AF 11AFEE");
    assert_eq!(script.say("L 0001 3C636D643E31312061663C2F636D643E"), "refused 13 0010 EE");
    assert_eq!(script.say("L 0001 3C636D643E31313C2F636D643E"), "command 000D 11 11");
    assert_eq!(script.say("L 0001 3C636D643E3C2F636D643E"), "refused 12 000B EE");
}

#[test]
fn the_state_line() {
    let mut script = Script::nominal();
    let zeros = "0".repeat(128);
    let words = "0".repeat(488);
    let expected = format!("R 00 0000 0000 0000 0000 0000 - {} {zeros} {words} -", defaults());
    assert_eq!(script.say("S"), expected);
    script.say("T 3A98 00000000 11079401A70000");
    let checksum = format!("{:04X}", Settings::defaults(Model::Distribution).checksum());
    let expected = format!(
        "R 00 0000 0000 0000 0001 {checksum} 0001 {} {zeros} {words} 1107950180",
        defaults()
    );
    assert_eq!(script.say("S"), expected);
}

#[test]
fn stored_settings_out_of_range_are_refused() {
    let mut script = Script::nominal();
    let before = script.say("S");
    let stored = defaults().replacen("C800", "B90B", 1);
    assert_eq!(script.say(&format!("P 01 00000001 00000000 0001 {stored}")), "refused 8");
    assert_eq!(script.say("S"), before);
    let stored = defaults().replacen("C800", "B80B", 1);
    assert_eq!(script.say(&format!("P 01 00000001 00000000 0001 {stored}")), "ok");
}

#[test]
fn starts_of_either_board() {
    let mut script = Script::new();
    for line in [
        "Q 12 00 00000000 00000000 1 R",
        "Q 12 05 00000000 00000000 1 R",
        "Q 12 01 00000001 00000000 1 R",
        "Q 12 01 00000000 80000000 1 R",
        "Q 12 01 00000001 00000001 1 R",
        "Q 11 01 00000000 00000000 1 R",
        "Q 11 01 00000001 00000002 1 R",
        "Q 11 09 00000001 00000001 1 R",
    ] {
        assert_eq!(script.say(line), "refused 8", "{line}");
        assert_eq!(script.say("S"), "bad", "no board is there yet");
    }
    for (line, digits) in [
        ("Q 12 01 00000000 00000000 0 R", 39 * 4),
        ("Q 12 04 00000000 00000000 1 R", 39 * 4),
        ("Q 12 02 00000000 00000000 2 R", 39 * 4),
        ("Q 12 03 00000000 00000000 3 R", 39 * 4),
        ("Q 11 01 00000001 00000000 0 R", 122 * 4),
        ("Q 11 08 FFFFFFFF 0f0f0F0F 3 R", 122 * 4),
        ("B 08 FFFFFFFF 0f0f0F0F", 122 * 4),
    ] {
        assert_eq!(script.say(line), "ok", "{line}");
        assert_eq!(script.field(10).len(), digits, "{line}");
    }
}

/// Nearly of the forms of `Q` and `V`, or of a board that has not come.
const NO_START: [&str; 35] = [
    "Q",
    "V",
    "Q 12 01 00000000 00000000 1",
    "Q 12 01 00000000 00000000 1 ",
    "Q 12 01 00000000 00000000 1 R ",
    "Q 12 01 00000000 00000000 1 R 0000",
    "Q 12 01 00000000 00000000 1  ",
    "Q 12 01 00000000 00000000 1 0",
    "Q 12 01 00000000 00000000 1 a",
    "Q 12 01 00000000 00000000 1 r",
    "Q 12 01 00000000 00000000 1 A",
    "Q 12 01 00000000 00000000 1 RR",
    "Q 12 01 00000000 00000000 1 --",
    "Q 12 01 00000000 00000000 1 R-",
    "Q 12 01 00000000 00000000 1 - -",
    "Q 12 01 00000000 00000000 4 R",
    "Q 12 01 00000000 00000000 A R",
    "Q 12 01 00000000 00000000 - R",
    "Q 12 01 00000000 00000000 01 R",
    "Q 12 01 00000000 00000000  R",
    "Q 12 01 00000000 00000000 R",
    "Q 12 01 0000000 00000000 1 R",
    "Q 12 01 00000000 000000000 1 R",
    "Q 12 1 00000000 00000000 1 R",
    "Q 12 0G 00000000 00000000 1 R",
    "Q 012 01 00000000 00000000 1 R",
    "Q 2 01 00000000 00000000 1 R",
    "Q 1A 01 00000001 00000000 1 R",
    "Q 10 01 00000000 00000000 1 R",
    "Q 13 01 00000000 00000000 1 R",
    "Q 00 01 00000000 00000000 1 R",
    "Q FF 01 00000000 00000000 1 R",
    "q 12 01 00000000 00000000 1 R",
    "V 12 01 00000000 00000000 1 R",
    "V 12 01 00000000 00000000 1 R 0000 00",
];

#[test]
fn starts_not_of_a_form_are_bad_and_leave_the_board() {
    let mut script = Script::battery();
    let before = script.say("S");
    for line in NO_START {
        assert_eq!(script.say(line), "bad", "{line}");
    }
    let stored = defaults_of(Model::Battery);
    for line in [
        format!("V 1A 01 00000001 00000000 1 R 0001 {stored}"),
        format!("V 12 01 00000000 00000000 1 A 0001 {stored}"),
        format!("V 12 01 00000000 00000000 1   0001 {stored}"),
        format!("V 12 01 00000000 00000000 1 -- 0001 {stored}"),
        format!("V 12 01 00000000 00000000 4 R 0001 {stored}"),
        format!("V 12 01 00000000 00000000 1 R 001 {stored}"),
        format!("V 12 01 00000000 00000000 1 R 0001 {stored} "),
        format!("V 12 01 00000000 00000000 1 R 0001 {stored}00"),
        format!("V 12 01 00000000 00000000 1 R 0001 {}", &stored[2..]),
        format!("V 12 01 00000000 00000000 0001 {stored}"),
    ] {
        assert_eq!(script.say(&line), "bad", "{line}");
    }
    assert_eq!(script.say("S"), before);
}

#[test]
fn stored_starts_of_either_board() {
    let mut script = Script::new();
    for model in [Model::Distribution, Model::Battery] {
        let stored = defaults_of(model).replacen("C800", "b80B", 1);
        let head = match model {
            Model::Distribution => "V 11 08 00000003 00000001 2",
            Model::Battery => "V 12 04 00000000 00000000 1",
        };
        assert_eq!(script.say(&format!("{head} R aBcD {stored}")), "ok");
        assert_eq!((script.field(5), script.field(7)), ("ABCD".into(), "ABCD".into()));
        assert_eq!(script.field(8), stored.to_uppercase());
        let before = script.say("S");
        let outside = stored.replacen("b80B", "B90B", 1);
        assert_eq!(script.say(&format!("{head} R 0001 {outside}")), "refused 8");
        assert_eq!(script.say("S"), before);
    }
    let stored = defaults_of(Model::Battery);
    for head in ["V 12 05 00000000 00000000 1", "V 12 01 00000001 00000000 1"] {
        assert_eq!(script.say(&format!("{head} R 0001 {stored}")), "refused 8");
    }
}

#[test]
fn words_on_a_battery_board() {
    let mut script = Script::battery();
    for count in [1, 38, 40, 121, 122, 123, 256, 257, 511, 512] {
        assert_eq!(script.say(&format!("W {count:04X} {}", "1234".repeat(count))), "ok");
        assert_eq!(script.say("T 3A98 00000000 12076001"), "refused 9");
        assert!(script.say("T 3A98 00000000 -").starts_with("N "));
    }
    assert_eq!(script.field(10), "0000".repeat(39));
    assert_eq!(script.say(&format!("W 0027 {}", "1234".repeat(39))), "ok");
    let told = script.say("T 3A98 00000000 12076001");
    assert!(told.ends_with(&format!(" 0 120761018000{}", "3412".repeat(39))), "{told}");
    assert_eq!(script.field(10), "1234".repeat(39));
    // Lent words wait for a tick line, whatever board is started meanwhile.
    assert_eq!(script.say(&format!("W 007A {}", "5678".repeat(122))), "ok");
    assert_eq!(script.say("B 01 00000001 00000000"), "ok");
    assert!(script.say("T 3A98 00000000 -").starts_with("U "));
    assert_eq!(script.field(10), "5678".repeat(122));
    assert_eq!(script.say(&format!("W 007A {}", "5678".repeat(122))), "ok");
    assert_eq!(script.say("Q 12 01 00000000 00000000 0 R"), "ok");
    assert_eq!(script.say("T 3A98 00000000 -"), "refused 9");
}

#[test]
fn the_state_line_of_a_battery_board() {
    let mut script = Script::battery();
    let (counts, words) = ("0".repeat(128), "0".repeat(156));
    let defaults = defaults_of(Model::Battery);
    let expected = format!("R 00 0000 0000 0000 0000 0000 - {defaults} {counts} {words} -");
    assert_eq!(script.say("S"), expected);
    assert_eq!(
        script.say("T 3A98 FFFFFFFF 12074401"),
        "N 0000000000000001 0000000000000000 00000000 00000000 - 0 120745018000ABAB"
    );
    assert_eq!(script.field(11), "120745018000ABAB");
    assert_eq!(script.say("R 0009"), "120745018000ABABFF");
    assert_eq!(script.say("F 0015"), "written 0015 3C7273703E120745018000ABAB3C2F7273703E0D0A");
}

#[test]
fn a_start_names_raw_or_nothing() {
    let mut script = Script::new();
    let distribution = format!("0001 {}", defaults());
    let battery = format!("0001 {}", defaults_of(Model::Battery));
    for (line, form) in [
        ("B 01 00000003 00000001".to_string(), "R"),
        (format!("P 01 00000003 00000001 {distribution}"), "R"),
        ("Q 11 01 00000003 00000001 0 -".to_string(), "A"),
        ("Q 11 01 00000003 00000001 0 R".to_string(), "R"),
        ("Q 12 01 00000000 00000000 1 -".to_string(), "A"),
        ("Q 12 01 00000000 00000000 1 R".to_string(), "R"),
        (format!("V 11 01 00000003 00000001 0 - {distribution}"), "A"),
        (format!("V 11 01 00000003 00000001 0 R {distribution}"), "R"),
        (format!("V 12 01 00000000 00000000 1 - {battery}"), "A"),
        (format!("V 12 01 00000000 00000000 1 R {battery}"), "R"),
    ] {
        assert_eq!(script.say(&line), "ok", "{line}");
        assert_eq!(script.field(0), form, "{line}");
    }
}

#[test]
fn a_refused_start_leaves_the_form_and_the_profile() {
    for (sound, refused, form) in [("R", "-", "R"), ("-", "R", "A")] {
        let mut script = Script::new();
        assert_eq!(script.say(&format!("Q 11 01 00000003 00000001 0 {sound}")), "ok");
        for _ in 0..50 {
            script.say("T 3A98 00000000 -");
        }
        for start in ["Q 11 09 00000003 00000001 0", "Q 12 01 00000001 00000000 1"] {
            assert_eq!(script.say(&format!("{start} {refused}")), "refused 8");
            assert_eq!(script.field(0), form);
        }
        assert!(script.say("T 3A98 00000000 1107AA01A6").starts_with("U "));
        assert_eq!(script.field(0), form);
    }
}
