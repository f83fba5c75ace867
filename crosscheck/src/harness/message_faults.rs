//! Requests to write a message with every mix of faults, and the refusal of the one that document 02's
//! K6 puts first.

use crate::harness::mixed_faults::mixes;
use crate::harness::random::Random;
use crate::harness::requests::message_writing::Message;
use crate::second::words::Refusal;

#[derive(Clone, Copy, PartialEq)]
enum Fault {
    StartPastEnd,
    TypeOfFill,
    BodyTooLong,
    NoRoom,
}

use Fault::*;

/// The faults and their refusals, in K6's order.
const IN_ORDER: [(Fault, Refusal); 4] = [
    (StartPastEnd, 8),
    (TypeOfFill, 13),
    (BodyTooLong, 14),
    (NoRoom, 3),
];

/// Bytes of the datagram, start, message.
pub type MessageRequest = (usize, usize, Message);

/// A request for every mix of the faults, at random starts.
pub fn writing_messages(random: &mut Random) -> Vec<(MessageRequest, Refusal)> {
    let requests = mixes(&IN_ORDER).map(|(faults, refusal)| {
        let has = |fault| faults.contains(&fault);
        (request(has, random), refusal)
    });
    requests.collect()
}

/// Behind the start there are one byte or more too few, or just enough or a little more. Where the
/// start is past the end that is the whole datagram, and the last two starts wrap when the message's
/// bytes are added.
fn request(has: impl Fn(Fault) -> bool, random: &mut Random) -> MessageRequest {
    let kind = match has(TypeOfFill) {
        true => random.one_of(&[0, 81]),
        false => random.one_of(&[1, 80, 82, 255]),
    };
    let body = match has(BodyTooLong) {
        true => random.one_of(&[65_529, 65_530, 65_535, 65_536]),
        false => random.one_of(&[0, 1, 249, 65_527, 65_528]),
    };
    let room = match has(NoRoom) {
        true => random.one_of(&[0, 6, 6 + body]),
        false => 7 + body + random.below(3),
    };
    let before = random.below(300);
    let past_end = [room + 1, room + 7, usize::MAX - 6 - body, usize::MAX];
    let (length, start) = match has(StartPastEnd) {
        true => (room, random.one_of(&past_end)),
        false => (before + room, before),
    };
    let source = random.below(1 << 32) as u32;
    let body = random.bytes(body);
    (length, start, Message { kind, source, body })
}
