//! The tests of datagrams written message by message (document 02, K6): the archive lays a list of
//! messages and the zero fill, codes the datagram, reads it and steps through it.

use crate::harness::archive::{self, Laid, Stepped};
use crate::harness::lists::{full_list, list_too_long, some_list};
use crate::harness::random::Random;
use crate::harness::report::{named_tests, Given, NamedTest, Test};
use crate::harness::requests::message_writing::{answer_of, Message, BEFORE_BODY};
use crate::harness::requests::messages::stepped;
use crate::second::links::Link;
use crate::second::message_writing::{write_message, zero_fill};
use crate::second::slots::{self, SLOT_LINKS};
use crate::second::words::Refusal;
use crate::second::Second;
use std::iter;

pub const TESTS: &[NamedTest] = named_tests![
    archive_sends_lists_of_messages,
    archive_sends_lists_that_leave_no_byte,
    archive_sends_lists_without_what_does_not_fit,
];

/// What is seen of a list: the answer of each call that lays a part of it and the datagram behind that
/// call; the status of reading and the datagram read; the steps; the messages at their places.
#[derive(Debug, PartialEq)]
struct Sent {
    laid: Vec<(Laid, Vec<u8>)>,
    read: (u32, Vec<u8>),
    steps: Vec<Stepped>,
    found: Vec<Message>,
}

/// Lays the messages from 0, each where the last one that was laid ends, and fills the rest.
fn lay(
    list: &[Message],
    mut datagram: Vec<u8>,
    write: impl Fn(&mut [u8], usize, &Message) -> Laid,
    fill: impl Fn(&mut [u8], usize) -> Laid,
) -> Vec<(Laid, Vec<u8>)> {
    let (mut all, mut end) = (Vec::new(), 0);
    for message in list {
        let laid = write(&mut datagram, end, message);
        end += laid.count as usize;
        all.push((laid, datagram.clone()));
    }
    all.push((fill(&mut datagram, end), datagram));
    all
}

/// The datagram behind the last call, the zero fill.
fn full(laid: &[(Laid, Vec<u8>)]) -> Vec<u8> {
    let (_, datagram) = laid.last().expect("the zero fill is laid");
    datagram.clone()
}

/// Puts what the second implementation lays into the datagram.
fn put(datagram: &mut [u8], start: usize, laid: Result<Vec<u8>, Refusal>) -> Laid {
    if let Ok(bytes) = &laid {
        datagram[start..start + bytes.len()].copy_from_slice(bytes);
    }
    answer_of(&laid)
}

/// What is to be seen: the messages that were not refused are found, one where the other ends.
fn to_be_sent(list: &[Message], old: Vec<u8>) -> Sent {
    let length = old.len();
    let write = |datagram: &mut [u8], start, message: &Message| {
        let Message { kind, source, body } = message;
        let laid = write_message(length, start, *kind, *source, body);
        put(datagram, start, laid)
    };
    let fill = |datagram: &mut [u8], start| put(datagram, start, zero_fill(length, start));
    let laid = lay(list, old, write, fill);
    let (mut steps, mut found, mut end) = (Vec::new(), Vec::new(), 0);
    for (message, (answer, _)) in list.iter().zip(&laid) {
        if answer.status == 0 {
            steps.push(stepped([0, end, message.length(), 0]));
            found.push(message.clone());
            end += message.length();
        }
    }
    steps.push(stepped([0, 0, 0, 0]));
    Sent {
        read: (0, full(&laid)),
        laid,
        steps,
        found,
    }
}

/// Each call is the archive's.
fn sent(list: &[Message], old: Vec<u8>, link: &Link, in_slot: bool) -> Sent {
    let write = |datagram: &mut [u8], start, message: &Message| {
        let Message { kind, source, body } = message;
        archive::write_message(datagram, start, *kind, *source, &mut body.clone())
    };
    let laid = lay(list, old, write, archive::zero_fill);
    let mut came = vec![0xA5; link.bytes()];
    let status = match in_slot {
        true => send_slot(link, &mut full(&laid), &mut came),
        false => send_block(link, &mut full(&laid), &mut came),
    };
    let (steps, found) = walk(&mut came);
    Sent {
        laid,
        read: (status, came),
        steps,
        found,
    }
}

/// Writes a slot burst and reads it; answers the status of reading.
fn send_slot(link: &Link, datagram: &mut [u8], came: &mut [u8]) -> u32 {
    let mut burst = vec![0; slots::HEAD + link.image_length()];
    archive::write_slot(link.number, datagram, &mut burst);
    archive::read_slot(&mut burst, came).status
}

/// Writes a block and reads it; answers the status of reading.
fn send_block(link: &Link, datagram: &mut [u8], came: &mut [u8]) -> u32 {
    let mut image = vec![0; link.image_length()];
    archive::write_block(link.number, datagram, &mut image);
    archive::read_block(link.number, &mut image, came).status
}

/// The archive's steps from 0 to the first that finds no message, and the messages that the others find.
fn walk(datagram: &mut [u8]) -> (Vec<Stepped>, Vec<Message>) {
    let (mut steps, mut found, mut position) = (Vec::new(), Vec::new(), 0);
    loop {
        let step = archive::step_message(datagram, position);
        steps.push(step);
        if step.length == 0 {
            return (steps, found);
        }
        let start = step.start as usize;
        position = start + step.length as usize;
        found.push(message_in(&datagram[start..position]));
    }
}

/// The message that these bytes are.
fn message_in(bytes: &[u8]) -> Message {
    let (head, body) = bytes.split_at(BEFORE_BODY);
    let source = head[3..].iter().map(|&byte| u32::from(byte));
    Message {
        kind: head[0],
        source: source.fold(0, |high, low| high << 8 | low),
        body: body.to_vec(),
    }
}

/// So many lists that this function makes, for each link in turn; half of those on links that have slot
/// bursts go in one.
fn send_lists(
    given: &Given,
    test: &mut Test,
    count: usize,
    random: &mut Random,
    make: fn(usize, &mut Random) -> Vec<Message>,
) {
    let second = Second::read(&given.tables);
    for link in second.links.all().iter().cycle().take(count) {
        let in_slot = SLOT_LINKS.contains(&link.number) && random.below(2) == 0;
        let list = make(link.bytes(), random);
        let old = random.bytes(link.bytes());
        let call = || format!("link {}, in a slot: {in_slot}, {list:?}", link.number);
        let expected = to_be_sent(&list, old.clone());
        let calls = iter::once_with(|| sent(&list, old.clone(), link, in_slot));
        test.case(call, expected, calls);
    }
}

fn archive_sends_lists_of_messages(given: &Given, test: &mut Test) {
    let mut random = test.random(1001);
    send_lists(given, test, 10_000, &mut random, some_list);
}

fn archive_sends_lists_that_leave_no_byte(given: &Given, test: &mut Test) {
    let mut random = test.random(1002);
    send_lists(given, test, 1_000, &mut random, full_list);
}

/// The last message of each is refused, and what was laid before it stays.
fn archive_sends_lists_without_what_does_not_fit(given: &Given, test: &mut Test) {
    let mut random = test.random(1003);
    send_lists(given, test, 1_000, &mut random, list_too_long);
}
