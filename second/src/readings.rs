//! Engineering readings: Table 3-12, row by row, and the row that each measured
//! word goes by. Rows that no reply has yet are there too, so that the table is
//! whole; BAT_TEMP2 and BAT_TEMP3 go by Table 3-13 instead, worked out beforehand.
//!
//! A raw word is a `u16` as it came, an engineering reading an `i16` in the unit
//! of its field; `engineering` on a distribution board and `battery_engineering`
//! on a battery board are the only ways from one to the other.

use crate::settings::Kind;

/// A row of the table: (raw + bias) x pre_mul / pos_div, in whole numbers.
#[derive(Clone, Copy, Debug, PartialEq, Eq)]
pub struct Conversion {
    /// How the raw word is read.
    pub raw: Kind,
    pub bias: i64,
    pub pre_mul: i64,
    pub pos_div: i64,
}

/// A row for words that a voltage, a current or a power is measured in.
const fn vip(pre_mul: i64, pos_div: i64) -> Conversion {
    Conversion { raw: Kind::Int16, bias: 0, pre_mul, pos_div }
}

/// In millivolts.
pub const VOLT_BRDSUP: Conversion =
    Conversion { raw: Kind::Uint16, bias: 0, pre_mul: 1_000, pos_div: 819 };

/// In hundredths of a degree.
pub const PDU_TEMP: Conversion =
    Conversion { raw: Kind::Uint16, bias: -1_168, pre_mul: 220, pos_div: 9 };

/// In hundredths of a degree. No reply has it yet.
pub const PIU_TEMP: Conversion =
    Conversion { raw: Kind::Uint16, bias: -868, pre_mul: 26_400, pos_div: 819 };

/// In millivolts, whatever it is the voltage of.
pub const VIP_VOLT: Conversion = vip(125, 128);

/// VIP_INPUT and VIP_VDx: millivolts, milliamperes and hundredths of a watt.
pub const VIP_INPUT_AND_VD: [Conversion; 3] = [VIP_VOLT, vip(3_125, 10_240), vip(3_125, 3_200)];

/// VIP_CH: the same units.
pub const VIP_CH: [Conversion; 3] = [VIP_VOLT, vip(3_125, 20_480), vip(3_125, 6_400)];

/// VOLT_CELLx, in millivolts.
pub const VOLT_CELL: Conversion =
    Conversion { raw: Kind::Uint16, bias: -512, pre_mul: 3, pos_div: 2 };

/// In hundredths of a degree.
pub const BAT_TEMP1: Conversion =
    Conversion { raw: Kind::Uint16, bias: -1_969, pre_mul: 75, pos_div: 4 };

/// VOLT_IN_MPPT and VOLT_OUT_MPPT, in millivolts. No reply has them yet.
pub const VOLT_MPPT: Conversion =
    Conversion { raw: Kind::Uint16, bias: 0, pre_mul: 2_625, pos_div: 128 };

/// CURR_IN_MPPT and CURR_OUT_MPPT, in milliamperes. No reply has them yet.
pub const CURR_MPPT: Conversion =
    Conversion { raw: Kind::Uint16, bias: -41, pre_mul: 625, pos_div: 192 };

const FIRST_OF_INPUT: usize = 2;
const FIRST_OF_CHANNELS: usize = 26;

/// The row that a measured word of a distribution board goes by, found by its place.
pub const fn row(place: usize) -> Conversion {
    match place {
        0 => VOLT_BRDSUP,
        1 => PDU_TEMP,
        FIRST_OF_INPUT..FIRST_OF_CHANNELS => VIP_INPUT_AND_VD[(place - FIRST_OF_INPUT) % 3],
        _ => VIP_CH[(place - FIRST_OF_CHANNELS) % 3],
    }
}

/// What a measured word of a battery board is, found by its place among them.
#[derive(Clone, Copy, Debug, PartialEq, Eq)]
pub enum BatteryWord {
    /// A word that goes by a row of Table 3-12.
    Measured(Conversion),
    /// BAT_TEMP2 or BAT_TEMP3, in hundredths of a degree.
    PackTemperature,
    /// STAT_BU or STAT_BP, which is told as it came.
    Status,
}

const STAT_BU_PLACE: usize = 5;
const FIRST_OF_PACKS: usize = 6;
const WORDS_OF_A_PACK: usize = 11;

/// The words before the packs, then those of each pack.
pub const fn battery_word(place: usize) -> BatteryWord {
    match place {
        0 => BatteryWord::Measured(VOLT_BRDSUP),
        1 => BatteryWord::Measured(PDU_TEMP),
        FIRST_OF_INPUT..STAT_BU_PLACE => {
            BatteryWord::Measured(VIP_INPUT_AND_VD[place - FIRST_OF_INPUT])
        }
        STAT_BU_PLACE => BatteryWord::Status,
        _ => pack_word((place - FIRST_OF_PACKS) % WORDS_OF_A_PACK),
    }
}

/// The words of a pack, as Table 3-16 has them.
const fn pack_word(place: usize) -> BatteryWord {
    match place {
        0..3 => BatteryWord::Measured(VIP_INPUT_AND_VD[place]),
        3 => BatteryWord::Status,
        4..8 => BatteryWord::Measured(VOLT_CELL),
        8 => BatteryWord::Measured(BAT_TEMP1),
        _ => BatteryWord::PackTemperature,
    }
}

/// What a measured word of a battery board is worth in the unit of its field, none
/// for a status word.
pub fn battery_engineering(place: usize, raw: u16) -> Option<i16> {
    match battery_word(place) {
        BatteryWord::Measured(row) => Some(row.engineering(raw)),
        BatteryWord::PackTemperature => Some(pack_temperature(raw)),
        BatteryWord::Status => None,
    }
}

/// The codes that the sensor of a pack gives.
pub const PACK_CODES: usize = 4_096;

/// The fifth-degree line of Table 3-13 from its highest power on, in parts of 10^24.
const FIFTH_DEGREE: [i128; 6] = [
    -27_639_336_690,
    21_730_661_079 * 10i128.pow(4),
    -68_793_650_476 * 10i128.pow(7),
    10_990_992_164 * 10i128.pow(11),
    -92_772_286_526 * 10i128.pow(13),
    37_552_963_972 * 10i128.pow(16),
];

/// How many of these parts a hundredth of a degree has.
const HUNDREDTH: i128 = 10i128.pow(22);

/// Every code's temperature, worked out before the program runs.
static PACK_TEMPERATURES: [i16; PACK_CODES] = pack_temperatures();

/// The temperatures of all codes.
const fn pack_temperatures() -> [i16; PACK_CODES] {
    let mut table = [0; PACK_CODES];
    let mut code = 0;
    while code < PACK_CODES {
        table[code] = on_the_line(code as i128);
        code += 1;
    }
    table
}

/// The line at one code to the nearest hundredth, halves away from zero, held to
/// the ends of int16 only then.
const fn on_the_line(code: i128) -> i16 {
    let mut exact = 0;
    let mut power = 0;
    while power < FIFTH_DEGREE.len() {
        exact = exact * code + FIFTH_DEGREE[power];
        power += 1;
    }
    let size = (2 * exact.abs() + HUNDREDTH) / (2 * HUNDREDTH);
    match size * exact.signum() {
        nearest if nearest > i16::MAX as i128 => i16::MAX,
        nearest if nearest < i16::MIN as i128 => i16::MIN,
        nearest => nearest as i16,
    }
}

/// The temperature of a pack; codes past the last one have its temperature.
pub fn pack_temperature(raw: u16) -> i16 {
    PACK_TEMPERATURES[usize::from(raw).min(PACK_CODES - 1)]
}

/// What a measured word of a distribution board is worth in the unit of its field.
pub fn engineering(place: usize, raw: u16) -> i16 {
    row(place).engineering(raw)
}

impl Conversion {
    /// The row's exact fraction to the nearest unit, held to the ends of int16 only
    /// once it is whole. Where it is not held it lies at most half a unit off.
    pub fn engineering(&self, raw: u16) -> i16 {
        let raw = self.raw.decode(&raw.to_le_bytes());
        let nearest = nearest(self.pre_mul * (raw + self.bias), self.pos_div);
        nearest.clamp(i64::from(i16::MIN), i64::from(i16::MAX)) as i16
    }
}

/// A fraction to the nearest whole number. The sign is put aside meanwhile, so
/// that halves go away from zero on both sides of it.
fn nearest(dividend: i64, divisor: i64) -> i64 {
    let size = (2 * dividend.abs() + divisor) / (2 * divisor);
    size * dividend.signum()
}
