//! Requests to write a message, typed with the bytes that are laid or the refusal (document 02, K6).

use crate::harness::guarded::ROOM;
use crate::harness::message_faults::MessageRequest;
use crate::harness::requests::message_writing::Message;
use crate::second::words::Refusal;

/// What is laid, or the refusal.
type Answer = Result<&'static [u8], Refusal>;

/// Bytes of the datagram, start, type, source, body, and the answer.
type Known = (usize, usize, u8, u32, &'static [u8], Answer);

/// Type 93, source 0A 0B 0C 0D, body "ok".
const OK: &[u8] = &[0x5D, 0, 9, 0x0A, 0x0B, 0x0C, 0x0D, 0x6F, 0x6B];

/// Around the datagram's end and around the types of fill.
const KNOWN: [Known; 23] = [
    (9, 0, 93, 0x0A0B_0C0D, b"ok", Ok(OK)),
    (32, 0, 93, 0x0A0B_0C0D, b"ok", Ok(OK)),
    (32, 23, 93, 0x0A0B_0C0D, b"ok", Ok(OK)),
    (32, 24, 93, 0x0A0B_0C0D, b"ok", Err(3)),
    (8, 0, 93, 0x0A0B_0C0D, b"ok", Err(3)),
    (7, 0, 1, 0, &[], Ok(&[1, 0, 7, 0, 0, 0, 0])),
    (7, 0, 74, 1, &[], Ok(&[74, 0, 7, 0, 0, 0, 1])),
    (8, 1, 80, 1 << 31, &[], Ok(&[80, 0, 7, 128, 0, 0, 0])),
    (9, 1, 82, 258, &[0], Ok(&[82, 0, 8, 0, 0, 1, 2, 0])),
    (8, 0, 74, 1, &[81], Ok(&[74, 0, 8, 0, 0, 0, 1, 81])),
    (8, 1, 255, !0, &[], Ok(&[255, 0, 7, 255, 255, 255, 255])),
    (6, 0, 74, 1, &[], Err(3)),
    (7, 1, 74, 1, &[], Err(3)),
    (7, 7, 74, 1, &[], Err(3)),
    (7, 8, 74, 1, &[], Err(8)),
    (7, usize::MAX, 74, 1, &[], Err(8)),
    (7, usize::MAX - 6, 74, 1, &[], Err(8)),
    (0, 0, 74, 1, &[], Err(3)),
    (0, 1, 74, 1, &[], Err(8)),
    (7, 0, 0, 1, &[], Err(13)),
    (7, 0, 81, 1, &[], Err(13)),
    (7, 7, 81, 1, &[], Err(13)),
    (7, 8, 81, 1, &[], Err(8)),
];

/// Bytes of a body, and the two bytes that tell the message's length.
const TOLD: [(usize, Result<[u8; 2], Refusal>); 13] = [
    (0, Ok([0, 7])),
    (248, Ok([0, 255])),
    (249, Ok([1, 0])),
    (250, Ok([1, 1])),
    (505, Ok([2, 0])),
    (32_761, Ok([128, 0])),
    (65_272, Ok([254, 255])),
    (65_273, Ok([255, 0])),
    (65_527, Ok([255, 254])),
    (65_528, Ok([255, 255])),
    (65_529, Err(14)),
    (65_530, Err(14)),
    (ROOM, Err(14)),
];

/// The cases above: what is asked, and what is laid.
pub fn known() -> Vec<(MessageRequest, Result<Vec<u8>, Refusal>)> {
    let typed = KNOWN.map(|(length, start, kind, source, body, laid)| {
        let body = body.to_vec();
        let request = (length, start, Message { kind, source, body });
        (request, laid.map(<[u8]>::to_vec))
    });
    let told = TOLD.map(|(count, told)| {
        let body = vec![9; count];
        let laid = told.map(|[high, low]| [&[76, high, low, 1, 2, 3, 4], &body[..]].concat());
        let (kind, source) = (76, 0x0102_0304);
        ((count + 20, 5, Message { kind, source, body }), laid)
    });
    typed.into_iter().chain(told).collect()
}
