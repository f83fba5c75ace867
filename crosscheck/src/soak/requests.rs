//! The requests of the soak, one kind to a call: well-formed ones, damaged ones, and lies about
//! links, lengths, bits and room.

use crate::harness::caller::Caller;
use crate::harness::guarded::ROOM;
use crate::harness::lists::message_of;
use crate::harness::ordered_faults::NOT_OFFERED;
use crate::harness::random::Random;
use crate::harness::requests::blocks::{ReadBlock, WriteBlock};
use crate::harness::requests::message_writing::{WriteMessage, ZeroFill};
use crate::harness::requests::messages::StepMessage;
use crate::harness::requests::parts::{cut, ReadParts};
use crate::harness::requests::slots::{ReadWhole, WriteSlot};
use crate::harness::requests::words::{ReadWord, WriteWord};
use crate::harness::samples::{burst_of, image_of, random_datagram, state_of};
use crate::second::bits::bits;
use crate::second::links::Link;
use crate::second::parts::LONGEST;
use crate::second::slots::{HEAD, SLOT_LINKS, TRAINING};
use crate::second::words::PLACES;
use crate::second::Second;

/// A call by its name, and a function that makes one case of it.
pub type Kind = (&'static str, fn(&Second, &mut Random, &mut Caller));

pub const KINDS: [Kind; 10] = [
    ("write_word", write_a_word),
    ("read_word", read_a_word),
    ("write_block", write_a_block),
    ("read_block", read_a_block),
    ("write_slot", write_a_slot),
    ("read_slot", read_a_slot),
    ("read_parts", read_parts),
    ("step_message", step_once),
    ("write_message", write_a_message),
    ("zero_fill", fill_with_zeros),
];

/// True once in so many times.
fn once_in(times: usize, random: &mut Random) -> bool {
    random.below(times) == 0
}

/// Often just enough or a little more, else anything below.
fn room_for(length: usize, random: &mut Random) -> usize {
    match random.below(6) {
        0 => random.below(length + 1),
        _ => length + random.below(3),
    }
}

/// A number that stands for no link, or for one only if it is cut short.
fn lying_number(random: &mut Random) -> u32 {
    match random.below(2) {
        0 => NOT_OFFERED[random.below(NOT_OFFERED.len())],
        _ => random.below(1 << 32) as u32,
    }
}

/// Inverts up to this many bits anywhere, most often one or none.
fn damage(row: &mut [u8], most: usize, random: &mut Random) {
    let count = match random.below(3) {
        0 => random.below(most + 1),
        few => few - 1,
    };
    for _ in 0..count {
        let place = random.below(row.len());
        row[place] ^= 1;
    }
}

/// Now and then puts a byte that is no bit into the row, or cuts or lengthens it.
fn lie(mut row: Vec<u8>, random: &mut Random) -> Vec<u8> {
    if once_in(10, random) && !row.is_empty() {
        let place = random.below(row.len());
        row[place] = random.below(256) as u8;
    }
    if once_in(10, random) {
        let length = random.below(row.len() + 40);
        row.resize(length, 1);
    }
    row
}

fn any_link<'a>(second: &'a Second, random: &mut Random) -> &'a Link {
    let links = second.links.all();
    &links[random.below(links.len())]
}

/// A datagram that the link holds, now and then one that is longer.
fn some_datagram(link: &Link, random: &mut Random) -> Vec<u8> {
    match random.below(8) {
        0 => {
            let length = link.bytes() + random.below(40);
            random.bytes(length)
        }
        _ => random_datagram(link, random),
    }
}

fn write_a_word(second: &Second, random: &mut Random, caller: &mut Caller) {
    let number = match random.below(4) {
        0 => lying_number(random),
        _ => random.below(70) as u32,
    };
    let length = room_for(PLACES, random);
    caller.compare(second, WriteWord(number, length));
}

fn read_a_word(second: &Second, random: &mut Random, caller: &mut Caller) {
    let mut row = match random.below(4) {
        0 => random.bits(PLACES),
        _ => bits(second.words.of(random.below(64))),
    };
    damage(&mut row, 12, random);
    let row = lie(row, random);
    caller.compare(second, ReadWord(&row));
}

fn write_a_block(second: &Second, random: &mut Random, caller: &mut Caller) {
    let link = any_link(second, random);
    let number = match random.below(8) {
        0 => lying_number(random),
        _ => link.number,
    };
    let datagram = some_datagram(link, random);
    let length = room_for(link.image_length(), random);
    caller.compare(second, WriteBlock(number, &datagram, length));
}

fn read_a_block(second: &Second, random: &mut Random, caller: &mut Caller) {
    let link = any_link(second, random);
    let number = match random.below(16) {
        0 => lying_number(random),
        _ => link.number,
    };
    let mut row = match random.below(8) {
        0 => random.bits(link.image_length()),
        _ => image_of(link, &random_datagram(link, random)),
    };
    damage(&mut row, 5, random);
    let row = lie(row, random);
    let length = room_for(link.bytes(), random);
    caller.compare(second, ReadBlock(number, &row, length));
}

fn write_a_slot(second: &Second, random: &mut Random, caller: &mut Caller) {
    let link = second.links.of(SLOT_LINKS[random.below(3)]);
    let number = match random.below(8) {
        0 => lying_number(random),
        1 => 8 + random.below(26) as u32,
        _ => link.number,
    };
    let datagram = some_datagram(link, random);
    let length = room_for(HEAD + link.image_length(), random);
    caller.compare(second, WriteSlot(number, &datagram, length));
}

/// What came and the bytes of a buffer. Training, word and block are damaged each on its own; the word
/// may be that of another number.
fn some_burst(second: &Second, random: &mut Random) -> (Vec<u8>, usize) {
    let link = second.links.of(SLOT_LINKS[random.below(3)]);
    let mut row = burst_of(second, link, &random_datagram(link, random));
    if once_in(10, random) {
        row[TRAINING..HEAD].copy_from_slice(&bits(second.words.of(random.below(64))));
    }
    damage(&mut row[..TRAINING], 12, random);
    damage(&mut row[TRAINING..HEAD], 10, random);
    damage(&mut row[HEAD..], 5, random);
    let row = lie(row, random);
    (row, room_for(link.bytes(), random))
}

fn read_a_slot(second: &Second, random: &mut Random, caller: &mut Caller) {
    let (row, length) = some_burst(second, random);
    caller.compare(second, ReadWhole(&row, length));
}

/// Parts for a state that is fresh, or that has the beginning already, or that holds anything.
fn read_parts(second: &Second, random: &mut Random, caller: &mut Caller) {
    let (row, length) = some_burst(second, random);
    let (start, rest) = match random.below(4) {
        0 => row.split_at(random.below(row.len() + 1)),
        _ => (&[][..], &row[..]),
    };
    let behind = random.bytes(LONGEST);
    let before = match random.below(4) {
        0 => Some(state_of(lying_count(random), &row, &behind)),
        _ if start.is_empty() => None,
        _ => Some(state_of(start.len() as u32, start, &behind)),
    };
    let request = ReadParts {
        before: before.as_ref(),
        parts: &cut(rest, random),
        length,
    };
    caller.compare(second, request);
}

/// Any count, often one near to where counts stop.
fn lying_count(random: &mut Random) -> u32 {
    match random.below(2) {
        0 => (LONGEST - 4 + random.below(9)) as u32,
        _ => random.below(1 << 32) as u32,
    }
}

/// Messages with fill before, between and behind them, some of which lie about their length, then
/// zeros, now and then cut off near where a message begins or ends, or with another byte anywhere;
/// stepped into where a message or the fill before it begins, or anywhere, or past the end.
fn step_once(second: &Second, random: &mut Random, caller: &mut Caller) {
    let (mut datagram, mut starts) = (Vec::new(), vec![0]);
    for _ in 0..random.below(5) {
        lay_fill(&mut datagram, random);
        starts.push(datagram.len());
        let length = 7 + random.below(300);
        let told = match random.below(6) {
            0 => random.below(1 << 16),
            1 => random.below(9),
            _ => length,
        };
        datagram.extend([random.below(256) as u8, (told / 256) as u8, told as u8]);
        datagram.extend(random.bytes(length - 3));
        starts.push(datagram.len());
    }
    lay_fill(&mut datagram, random);
    datagram.extend(vec![0; random.below(20)]);
    if once_in(4, random) {
        let near = starts[random.below(starts.len())] + random.below(5);
        datagram.truncate(near.saturating_sub(2));
    }
    let datagram = lie(datagram, random);
    let position = match random.below(8) {
        0 => random.below(datagram.len() + 3),
        1 => usize::MAX - random.below(3),
        _ => starts[random.below(starts.len())],
    };
    caller.compare(second, StepMessage(&datagram, position));
}

/// None, a few or many bytes 81.
fn lay_fill(datagram: &mut Vec<u8>, random: &mut Random) {
    let count = match random.below(8) {
        0..=2 => 0,
        3..=6 => 1 + random.below(4),
        _ => random.below(300),
    };
    datagram.extend(vec![81; count]);
}

/// Mostly a short message with enough room, now and then one around the longest or of a type of fill, in
/// a datagram as long as the room at the most.
fn write_a_message(second: &Second, random: &mut Random, caller: &mut Caller) {
    let body = match random.below(40) {
        0 => 65_522 + random.below(12),
        1 => random.below(65_536),
        2..=9 => random.below(700),
        _ => random.below(40),
    };
    let mut message = message_of(body, random);
    if once_in(10, random) {
        message.kind = random.one_of(&[0, 80, 81, 82]);
    }
    let before = random.one_of(&[0, 0, 1, 32, 698]);
    let length = before + room_for(message.length(), random);
    let length = length.min(ROOM);
    let start = some_start(before, length, random);
    caller.compare(second, WriteMessage(length, start, &message));
}

fn fill_with_zeros(second: &Second, random: &mut Random, caller: &mut Caller) {
    let length = match random.below(20) {
        0 => random.below(ROOM + 1),
        _ => random.below(700),
    };
    let inside = random.below(length + 1);
    let start = some_start(inside, length, random);
    caller.compare(second, ZeroFill(length, start));
}

/// Most often this one, else around the end, or so far past it that a sum wraps.
fn some_start(start: usize, length: usize, random: &mut Random) -> usize {
    match random.below(12) {
        0 => (length + 2).saturating_sub(random.below(5)),
        1 => usize::MAX - random.below(length + 9),
        _ => start,
    }
}
