//! Random messages, and lists of them for a datagram of so many bytes.

use crate::harness::random::Random;
use crate::harness::requests::message_writing::{Message, BEFORE_BODY};

/// A message with a body of so many bytes, of any type but 0 and 81.
pub fn message_of(body: usize, random: &mut Random) -> Message {
    let kind = match 1 + random.below(254) {
        below_81 @ 1..=80 => below_81,
        other => other + 1,
    };
    Message {
        kind: kind as u8,
        source: random.below(1 << 32) as u32,
        body: random.bytes(body),
    }
}

/// None or some that fit, mostly short ones; now and then the last takes all that is left.
pub fn some_list(bytes: usize, random: &mut Random) -> Vec<Message> {
    let (mut list, mut room) = (Vec::new(), bytes);
    while room >= BEFORE_BODY && random.below(8) > 0 {
        let longest = room - BEFORE_BODY;
        let body = match random.below(8) {
            0 => longest,
            1 => random.below(longest + 1),
            _ => random.below(longest.min(40) + 1),
        };
        list.push(message_of(body, random));
        room = longest - body;
    }
    list
}

/// One or more that leave no byte.
pub fn full_list(bytes: usize, random: &mut Random) -> Vec<Message> {
    let mut list = some_list(bytes - BEFORE_BODY, random);
    let room = bytes - length_of(&list);
    list.push(message_of(room - BEFORE_BODY, random));
    list
}

/// Some that fit, and behind them one that does not, by one byte or more.
pub fn list_too_long(bytes: usize, random: &mut Random) -> Vec<Message> {
    let mut list = some_list(bytes, random);
    let room = bytes - length_of(&list);
    let shortest = (room + 1).saturating_sub(BEFORE_BODY);
    let more = random.one_of(&[0, 0, 1, 7, 300]);
    list.push(message_of(shortest + more, random));
    list
}

/// The bytes that the list takes.
fn length_of(list: &[Message]) -> usize {
    list.iter().map(Message::length).sum()
}
