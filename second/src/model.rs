//! The models of board, and what sets one apart from another.

/// What a board is.
#[derive(Clone, Copy, Debug, PartialEq, Eq)]
pub enum Model {
    Distribution,
    Battery,
}

/// Measured words of a distribution board. No board has more.
pub const WORDS: usize = 122;

/// Measured words of a battery board.
pub const BATTERY_WORDS: usize = 39;

impl Model {
    /// The model that an STID stands for, or none where there is no such board.
    pub const fn of_stid(stid: u8) -> Option<Model> {
        match stid {
            0x11 => Some(Model::Distribution),
            0x12 => Some(Model::Battery),
            _ => None,
        }
    }

    /// The STID that its boards have.
    pub const fn stid(self) -> u8 {
        match self {
            Model::Distribution => 0x11,
            Model::Battery => 0x12,
        }
    }

    /// The highest BID; the lowest is 1 for every model.
    pub const fn highest_bid(self) -> u8 {
        match self {
            Model::Distribution => 8,
            Model::Battery => 4,
        }
    }

    /// The measured words that a tick brings, if it brings any.
    pub const fn words(self) -> usize {
        match self {
            Model::Distribution => WORDS,
            Model::Battery => BATTERY_WORDS,
        }
    }
}
