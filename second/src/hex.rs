//! Hexadecimal, in and out.

const CAPITALS: &[u8; 16] = b"0123456789ABCDEF";

/// The value of one digit, either case.
pub fn digit(byte: u8) -> Option<u8> {
    match byte {
        b'0'..=b'9' => Some(byte - b'0'),
        b'A'..=b'F' => Some(byte - b'A' + 10),
        b'a'..=b'f' => Some(byte - b'a' + 10),
        _ => None,
    }
}

/// A number of exactly `width` digits, at most 8.
pub fn number(digits: &[u8], width: usize) -> Option<u32> {
    if digits.len() != width {
        return None;
    }
    let mut value = 0;
    for byte in digits {
        value = value << 4 | u32::from(digit(*byte)?);
    }
    Some(value)
}

/// Pairs with nothing between them; tells how many bytes they are, or none if
/// they are not pairs or more than there is room for.
pub fn decode_joined(digits: &[u8], out: &mut [u8]) -> Option<usize> {
    let length = digits.len() / 2;
    if digits.len() % 2 != 0 || length > out.len() {
        return None;
    }
    for (pair, byte) in digits.chunks_exact(2).zip(out) {
        *byte = digit(pair[0])? << 4 | digit(pair[1])?;
    }
    Some(length)
}

/// The ASCII form: one or more pairs with one space between them. Tells how
/// many bytes they are, or none where the text is not of the form.
pub fn spaced_length(text: &[u8]) -> Option<usize> {
    if text.len() % 3 != 2 {
        return None;
    }
    let well_formed = text.iter().enumerate().all(|(i, byte)| {
        if i % 3 == 2 {
            *byte == b' '
        } else {
            digit(*byte).is_some()
        }
    });
    well_formed.then_some(spaced_count(text.len()))
}

/// The bytes that a text of this many characters stands for.
fn spaced_count(length: usize) -> usize {
    (length + 1) / 3
}

/// Decodes text that `spaced_length` has found well-formed.
pub fn decode_spaced(text: &[u8], out: &mut [u8]) {
    for (pair, byte) in text.chunks(3).zip(out) {
        *byte = digit(pair[0]).unwrap_or(0) << 4 | digit(pair[1]).unwrap_or(0);
    }
}

/// The characters that `count` bytes take in ASCII form.
pub fn spaced_size(count: usize) -> usize {
    (3 * count).saturating_sub(1)
}

/// Writes bytes in ASCII form into room of `spaced_size`.
pub fn encode_spaced(bytes: &[u8], out: &mut [u8]) {
    for (byte, place) in bytes.iter().zip(out.chunks_mut(3)) {
        place[0] = CAPITALS[usize::from(byte >> 4)];
        place[1] = CAPITALS[usize::from(byte & 15)];
        if let Some(space) = place.get_mut(2) {
            *space = b' ';
        }
    }
}

/// Appends `width` digits.
pub fn push_number(out: &mut Vec<u8>, value: u64, width: u32) {
    for place in (0..width).rev() {
        out.push(CAPITALS[(value >> (4 * place) & 15) as usize]);
    }
}

/// Appends pairs with nothing between them, or `-` for no bytes at all.
pub fn push_bytes(out: &mut Vec<u8>, bytes: &[u8]) {
    if bytes.is_empty() {
        out.push(b'-');
    }
    for byte in bytes {
        push_number(out, u64::from(*byte), 2);
    }
}
