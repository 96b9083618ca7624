//! The checksum over the settings: x^16 + x^12 + x^5 + 1, high bit first.

const POLYNOMIAL: u16 = 0x1021;
const START: u16 = 0xFFFF;

/// The remainder of each byte value, so that a save costs one look-up a byte.
const TABLE: [u16; 256] = table();

/// The remainders, computed before the program runs.
const fn table() -> [u16; 256] {
    let mut table = [0; 256];
    let mut byte = 0;
    while byte < 256 {
        table[byte] = remainder((byte as u16) << 8);
        byte += 1;
    }
    table
}

/// What eight steps make of the register.
const fn remainder(mut rest: u16) -> u16 {
    let mut bit = 0;
    while bit < 8 {
        rest = if rest & 0x8000 != 0 { (rest << 1) ^ POLYNOMIAL } else { rest << 1 };
        bit += 1;
    }
    rest
}

/// The checksum of these bytes.
pub fn checksum(bytes: &[u8]) -> u16 {
    bytes.iter().fold(START, |sum, byte| (sum << 8) ^ TABLE[usize::from((sum >> 8) as u8 ^ byte)])
}

#[cfg(test)]
mod tests {
    use super::*;

    #[test]
    fn check_value() {
        assert_eq!(checksum(b"123456789"), 0x29B1);
    }

    #[test]
    fn nothing_leaves_the_start_value() {
        assert_eq!(checksum(b""), 0xFFFF);
    }
}
