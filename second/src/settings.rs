//! The configuration parameters: which ids there are, and the read/write values.
//!
//! The values are kept as the bytes that go over the wire, from the lowest id
//! to the highest: this one layout serves a get, the checksum and the store.

use crate::crc;
use crate::model::Model;

/// The wire types that some parameter or measured word has.
#[derive(Clone, Copy, Debug, PartialEq, Eq)]
pub enum Kind {
    Int8,
    Uint8,
    Int16,
    Uint16,
    Uint32,
}

impl Kind {
    /// The bytes of a value.
    pub const fn size(self) -> usize {
        match self {
            Kind::Int8 | Kind::Uint8 => 1,
            Kind::Int16 | Kind::Uint16 => 2,
            Kind::Uint32 => 4,
        }
    }

    /// The lowest value of the type.
    pub const fn lowest(self) -> i64 {
        match self {
            Kind::Int8 => i8::MIN as i64,
            Kind::Int16 => i16::MIN as i64,
            Kind::Uint8 | Kind::Uint16 | Kind::Uint32 => 0,
        }
    }

    /// The highest value of the type.
    pub const fn highest(self) -> i64 {
        match self {
            Kind::Int8 => i8::MAX as i64,
            Kind::Uint8 => u8::MAX as i64,
            Kind::Int16 => i16::MAX as i64,
            Kind::Uint16 => u16::MAX as i64,
            Kind::Uint32 => u32::MAX as i64,
        }
    }

    /// The value in the first bytes, which must be there.
    pub fn decode(self, bytes: &[u8]) -> i64 {
        match self {
            Kind::Int8 => i64::from(bytes[0] as i8),
            Kind::Uint8 => i64::from(bytes[0]),
            Kind::Int16 => i64::from(i16::from_le_bytes([bytes[0], bytes[1]])),
            Kind::Uint16 => i64::from(u16::from_le_bytes([bytes[0], bytes[1]])),
            Kind::Uint32 => i64::from(u32::from_le_bytes([bytes[0], bytes[1], bytes[2], bytes[3]])),
        }
    }
}

const WATCHDOG_TIMEOUT: u16 = 0x4000;
const SAFETY_LOW: u16 = 0x4042;
const SAFETY_HIGH: u16 = 0x4043;
/// From here on the defaults are of channels.
const FIRST_OF_CHANNELS: u16 = 0x6002;

/// Neighbouring read/write ids that share type, default and range.
#[derive(Clone, Copy, Debug)]
pub struct Row {
    pub first: u16,
    pub last: u16,
    pub kind: Kind,
    pub default: i64,
    pub low: i64,
    pub high: i64,
}

/// A row without a range of its own.
const fn row(first: u16, last: u16, kind: Kind, default: i64) -> Row {
    Row { first, last, kind, default, low: kind.lowest(), high: kind.highest() }
}

impl Row {
    /// The same row with a lowest value.
    const fn from(self, low: i64) -> Row {
        Row { low, ..self }
    }

    /// The same row with a highest value.
    const fn up_to(self, high: i64) -> Row {
        Row { high, ..self }
    }

    /// The default on boards of a model. What Table 3-25 gives for boards with
    /// channels alone is not given for a battery board, so that it is 0 there.
    pub const fn default_of(&self, model: Model) -> i64 {
        match model {
            Model::Battery if self.first >= FIRST_OF_CHANNELS => 0,
            Model::Distribution | Model::Battery => self.default,
        }
    }

    /// How many ids the row has.
    const fn count(&self) -> usize {
        (self.last - self.first) as usize + 1
    }
}

/// Table 3-25 from the lowest id to the highest.
pub const ROWS: [Row; 23] = [
    row(0x1000, 0x1014, Kind::Int8, 0),
    row(0x2000, 0x2000, Kind::Uint8, 1),
    row(0x2001, 0x2001, Kind::Uint8, 0x12),
    row(0x2002, 0x2002, Kind::Uint8, 3),
    row(0x3000, 0x3002, Kind::Int16, 200).from(-2000).up_to(3000),
    row(0x3003, 0x3005, Kind::Int16, 600).from(-2000).up_to(3400),
    row(0x3006, 0x3008, Kind::Int16, 30).from(30),
    row(0x3009, 0x300B, Kind::Int16, 50).from(30),
    row(0x300C, 0x300C, Kind::Int16, 0),
    row(0x300D, 0x300E, Kind::Int16, 1),
    row(0x300F, 0x3017, Kind::Int16, 0),
    row(0x3018, 0x3029, Kind::Int16, 1),
    row(WATCHDOG_TIMEOUT, WATCHDOG_TIMEOUT, Kind::Uint16, 300),
    row(0x4001, 0x4001, Kind::Uint16, 0),
    row(0x4002, 0x4021, Kind::Uint16, 0).up_to(20000),
    row(0x4022, 0x4041, Kind::Uint16, 5000).from(50).up_to(20000),
    row(SAFETY_LOW, SAFETY_LOW, Kind::Uint16, 12400),
    row(SAFETY_HIGH, SAFETY_HIGH, Kind::Uint16, 14000),
    row(0x6000, 0x6001, Kind::Uint32, 0),
    row(0x6002, 0x6002, Kind::Uint32, 0x0000_0111),
    row(0x6003, 0x6003, Kind::Uint32, 0x1111_1222),
    row(0x6004, 0x6004, Kind::Uint32, 0x0000_0111),
    row(0x6005, 0x6005, Kind::Uint32, 0x1111_1222),
];

/// Neighbouring read-only ids that share a type.
#[derive(Clone, Copy, Debug)]
pub struct ReadOnlyRow {
    pub first: u16,
    pub last: u16,
    pub kind: Kind,
}

/// Table 3-26; what each reads is the board's business.
pub const READ_ONLY: [ReadOnlyRow; 5] = [
    ReadOnlyRow { first: 0x1800, last: 0x1800, kind: Kind::Int8 },
    ReadOnlyRow { first: 0x2800, last: 0x2803, kind: Kind::Uint8 },
    ReadOnlyRow { first: 0x3800, last: 0x3801, kind: Kind::Int16 },
    ReadOnlyRow { first: 0x4800, last: 0x4813, kind: Kind::Uint16 },
    ReadOnlyRow { first: 0x6800, last: 0x6814, kind: Kind::Uint32 },
];

/// The type of a read-only id, or none where there is no such id.
pub fn read_only_kind(id: u16) -> Option<Kind> {
    READ_ONLY.iter().find(|row| row.first <= id && id <= row.last).map(|row| row.kind)
}

/// All read/write values together.
pub const SIZE: usize = size_of_rows();

/// The bytes of all rows.
const fn size_of_rows() -> usize {
    let mut size = 0;
    let mut i = 0;
    while i < ROWS.len() {
        size += ROWS[i].count() * ROWS[i].kind.size();
        i += 1;
    }
    size
}

/// Where a read/write value lies, and the row that rules it.
#[derive(Clone, Copy, Debug)]
pub struct Place {
    pub row: Row,
    pub offset: usize,
}

/// The place of a read/write id, or none where there is no such id.
pub const fn find(id: u16) -> Option<Place> {
    let mut offset = 0;
    let mut i = 0;
    while i < ROWS.len() {
        let row = ROWS[i];
        if row.first <= id && id <= row.last {
            return Some(Place {
                row,
                offset: offset + (id - row.first) as usize * row.kind.size(),
            });
        }
        offset += row.count() * row.kind.size();
        i += 1;
    }
    None
}

/// The places that every tick reads are known before the program runs.
const fn offset_of(id: u16) -> usize {
    match find(id) {
        Some(place) => place.offset,
        None => panic!(),
    }
}

const WATCHDOG_AT: usize = offset_of(WATCHDOG_TIMEOUT);
const SAFETY_LOW_AT: usize = offset_of(SAFETY_LOW);
const SAFETY_HIGH_AT: usize = offset_of(SAFETY_HIGH);

const DISTRIBUTION_DEFAULTS: [u8; SIZE] = defaults(Model::Distribution);
const BATTERY_DEFAULTS: [u8; SIZE] = defaults(Model::Battery);

/// The bytes of all defaults of a model.
const fn defaults(model: Model) -> [u8; SIZE] {
    let mut bytes = [0; SIZE];
    let mut offset = 0;
    let mut i = 0;
    while i < ROWS.len() {
        let mut left = ROWS[i].count();
        while left > 0 {
            put(&mut bytes, offset, ROWS[i].kind.size(), ROWS[i].default_of(model));
            offset += ROWS[i].kind.size();
            left -= 1;
        }
        i += 1;
    }
    bytes
}

/// Puts the low bytes of a value in their place.
const fn put(bytes: &mut [u8; SIZE], offset: usize, size: usize, value: i64) {
    let wire = value.to_le_bytes();
    let mut i = 0;
    while i < size {
        bytes[offset + i] = wire[i];
        i += 1;
    }
}

/// The read/write values in force, or those in the store.
#[derive(Clone, Copy, Debug, PartialEq, Eq)]
pub struct Settings {
    bytes: [u8; SIZE],
}

impl Settings {
    /// The values of a board that has nothing stored.
    pub const fn defaults(model: Model) -> Settings {
        match model {
            Model::Distribution => Settings { bytes: DISTRIBUTION_DEFAULTS },
            Model::Battery => Settings { bytes: BATTERY_DEFAULTS },
        }
    }

    /// Stored values as they come with a profile, or none if one is out of its range.
    pub fn from_store(bytes: &[u8; SIZE]) -> Option<Settings> {
        let settings = Settings { bytes: *bytes };
        settings.in_range().then_some(settings)
    }

    /// Whether every value lies in its range.
    fn in_range(&self) -> bool {
        let mut offset = 0;
        for row in &ROWS {
            for _ in 0..row.count() {
                let value = row.kind.decode(&self.bytes[offset..]);
                if value < row.low || value > row.high {
                    return false;
                }
                offset += row.kind.size();
            }
        }
        true
    }

    /// The wire bytes of all values.
    pub fn bytes(&self) -> &[u8; SIZE] {
        &self.bytes
    }

    /// The wire bytes of one value.
    pub fn value(&self, place: &Place) -> &[u8] {
        &self.bytes[place.offset..place.offset + place.row.kind.size()]
    }

    /// Takes the value from the first of `wire`; one outside its range becomes the nearer end.
    pub fn set(&mut self, place: &Place, wire: &[u8]) {
        let row = &place.row;
        let value = row.kind.decode(wire).clamp(row.low, row.high);
        put(&mut self.bytes, place.offset, row.kind.size(), value);
    }

    /// Puts one value back to its default on boards of a model.
    pub fn reset(&mut self, place: &Place, model: Model) {
        put(&mut self.bytes, place.offset, place.row.kind.size(), place.row.default_of(model));
    }

    /// The checksum over all values.
    pub fn checksum(&self) -> u16 {
        crc::checksum(&self.bytes)
    }

    /// The 16-bit value at this place.
    fn uint16(&self, offset: usize) -> u16 {
        u16::from_le_bytes([self.bytes[offset], self.bytes[offset + 1]])
    }

    /// In seconds; 0 means no watchdog.
    pub fn watchdog_timeout(&self) -> u16 {
        self.uint16(WATCHDOG_AT)
    }

    /// In millivolts.
    pub fn safety_low(&self) -> u16 {
        self.uint16(SAFETY_LOW_AT)
    }

    /// In millivolts.
    pub fn safety_high(&self) -> u16 {
        self.uint16(SAFETY_HIGH_AT)
    }
}
