//! Writing messages and the zero fill into a datagram (document 02, K6).

use crate::second::words::Refusal;

/// The bytes that a message lays at this place of a datagram of so many bytes.
pub fn write_message(
    datagram_length: usize,
    start: usize,
    kind: u8,
    source: u32,
    body: &[u8],
) -> Result<Vec<u8>, Refusal> {
    let room = datagram_length.checked_sub(start).ok_or(8u32)?;
    if [0, 81].contains(&kind) {
        return Err(13);
    }
    // What two bytes can tell is the longest message.
    let length = u16::try_from(7 + body.len()).map_err(|_| 14u32)?;
    let head = [&[kind][..], &length.to_be_bytes(), &source.to_be_bytes()];
    let message = [&head.concat(), body].concat();
    Some(message).filter(|laid| laid.len() <= room).ok_or(3)
}

/// The zeros that fill a datagram of so many bytes from this place.
pub fn zero_fill(datagram_length: usize, start: usize) -> Result<Vec<u8>, Refusal> {
    let room = datagram_length.checked_sub(start).ok_or(8u32)?;
    Ok(vec![0; room])
}
