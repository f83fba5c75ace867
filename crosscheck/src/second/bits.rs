//! Bits as they travel, one to a byte, and as the second implementation counts with them.

/// A row of bits as bytes 0 and 1.
pub fn bits(row: &[bool]) -> Vec<u8> {
    row.iter().map(|&bit| if bit { 1 } else { 0 }).collect()
}

/// The bits that a row of bytes stands for, or none if one of them is neither 0 nor 1.
pub fn from_bytes(row: &[u8]) -> Option<Vec<bool>> {
    row.iter()
        .map(|byte| match byte {
            0 => Some(false),
            1 => Some(true),
            _ => None,
        })
        .collect()
}

/// The bits of plain bytes, the most significant bit of each first.
pub fn of_plain_bytes(bytes: &[u8]) -> Vec<bool> {
    let weights = [128, 64, 32, 16, 8, 4, 2, 1];
    bytes
        .iter()
        .flat_map(|byte| weights.map(|weight| byte / weight % 2 == 1))
        .collect()
}

/// The plain bytes of bits, eight to a byte; the first bit of each is the most significant.
pub fn plain_bytes(row: &[bool]) -> Vec<u8> {
    row.chunks_exact(8)
        .map(|eight| eight.iter().fold(0, |byte, &bit| 2 * byte + u8::from(bit)))
        .collect()
}

/// The row with the bits at these places inverted.
pub fn inverted(row: &[u8], places: &[usize]) -> Vec<u8> {
    let mut row = row.to_vec();
    for &place in places {
        row[place] = 1 - row[place];
    }
    row
}

/// The count of places where two rows of one length differ.
pub fn differences(one: &[bool], other: &[bool]) -> usize {
    assert_eq!(one.len(), other.len(), "rows of different lengths");
    one.iter().zip(other).filter(|(a, b)| a != b).count()
}

/// Bits written as binary digits.
pub fn from_digits(written: &str) -> Result<Vec<bool>, String> {
    written
        .chars()
        .map(|c| match c {
            '0' => Some(false),
            '1' => Some(true),
            _ => None,
        })
        .collect::<Option<Vec<bool>>>()
        .ok_or(format!("not binary digits: {written:?}"))
}
