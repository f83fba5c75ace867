//! The tests of writing messages into a datagram (document 02, K6): the second implementation against
//! known bytes, and the archive against these and against the second implementation.

use crate::harness::archive;
use crate::harness::caller::Caller;
use crate::harness::guarded::ROOM;
use crate::harness::known_messages::known;
use crate::harness::lists::message_of;
use crate::harness::message_faults;
use crate::harness::report::{named_tests, Given, NamedTest, Test};
use crate::harness::requests::message_writing::{laid, Message, WriteMessage};
use crate::harness::requests::Request;
use crate::harness::samples::FAR;
use crate::harness::small_stack::on_a_small_stack;
use crate::second::Second;
use std::iter;

pub const TESTS: &[NamedTest] = named_tests![
    second_writes_known_messages,
    archive_writes_known_messages,
    archive_writes_messages_into_any_datagram,
    archive_writes_messages_of_all_lengths,
    archive_writes_the_longest_messages,
    archive_writes_messages_of_every_type,
    archive_writes_messages_of_any_source,
    archive_writes_messages_over_any_bytes,
    archive_writes_messages_from_read_only_pages,
    archive_writes_messages_without_a_body,
    archive_writes_messages_into_no_datagram,
    archive_writes_the_longest_message_on_a_small_stack,
    archive_orders_mixed_faults_of_messages,
];

fn second_writes_known_messages(given: &Given, test: &mut Test) {
    let second = Second::read(&given.tables);
    for ((length, start, message), answer) in known() {
        let request = WriteMessage(length, start, &message);
        test.case(|| request.shown(), answer, [request.ask_second(&second)]);
    }
}

fn archive_writes_known_messages(_: &Given, test: &mut Test) {
    let mut caller = Caller::with_long_output(test);
    for ((length, start, message), answer) in known() {
        caller.expect(WriteMessage(length, start, &message), answer);
    }
}

/// Starts far past any end, some of which wrap when the bytes of a message are added.
fn far_starts(message: &Message) -> impl Iterator<Item = usize> {
    let total = message.length();
    let below_largest = [total - 2, total - 1, total, total + 1, total + 7];
    let near_largest = below_largest.map(|less| usize::MAX - less);
    near_largest.into_iter().chain(FAR)
}

/// Bodies of none to two bytes in datagrams of none to 24, from every start.
fn archive_writes_messages_into_any_datagram(given: &Given, test: &mut Test) {
    let second = Second::read(&given.tables);
    let mut random = test.random(1101);
    let mut caller = Caller::new(test);
    for (body, length) in (0..=2).flat_map(|body| (0..=24).map(move |length| (body, length))) {
        let message = message_of(body, &mut random);
        for start in (0..=length + 9).chain(far_starts(&message)) {
            caller.compare(&second, WriteMessage(length, start, &message));
        }
    }
}

/// Every length up to 600 and some above, with bytes before and behind, and with one byte too few.
fn archive_writes_messages_of_all_lengths(given: &Given, test: &mut Test) {
    let second = Second::read(&given.tables);
    let mut random = test.random(1102);
    let mut caller = Caller::new(test);
    let longer: Vec<usize> = (0..100).map(|_| random.below(64_000)).collect();
    for body in (0..=600).chain(longer) {
        let message = message_of(body, &mut random);
        let start = random.below(300);
        let end = start + message.length();
        for length in [end - 1, end, end + 1 + random.below(300)] {
            caller.compare(&second, WriteMessage(length, start, &message));
        }
    }
}

/// The longest, one byte less, one byte more and a short one, in datagrams that end around the
/// message's end.
fn archive_writes_the_longest_messages(given: &Given, test: &mut Test) {
    let second = Second::read(&given.tables);
    let mut random = test.random(1103);
    let mut caller = Caller::with_long_output(test);
    for body in [65_527, 65_528, 65_529, 2] {
        let message = message_of(body, &mut random);
        for start in [0, 1, 255, 65_530, 65_537] {
            let end = start + message.length();
            for length in end - 2..=end + 2 {
                caller.compare(&second, WriteMessage(length, start, &message));
            }
            let around_end = [end - 1, end, end + 1].into_iter();
            for other in around_end.chain(far_starts(&message)) {
                caller.compare(&second, WriteMessage(end, other, &message));
            }
        }
    }
}

/// With room and without, at the end and past it, and with a body too long.
fn archive_writes_messages_of_every_type(given: &Given, test: &mut Test) {
    let second = Second::read(&given.tables);
    let mut random = test.random(1104);
    let mut caller = Caller::with_long_output(test);
    for kind in 0..=255 {
        for body in [0, 12, 65_529] {
            let message = Message {
                kind,
                ..message_of(body, &mut random)
            };
            let end = 13 + message.length();
            for (length, start) in [(end, 13), (end - 1, 13), (end, end), (end, end + 1)] {
                caller.compare(&second, WriteMessage(length, start, &message));
            }
        }
    }
}

/// Each with a single bit set or all but one, five others, and random ones.
fn archive_writes_messages_of_any_source(given: &Given, test: &mut Test) {
    let second = Second::read(&given.tables);
    let mut random = test.random(1105);
    let mut caller = Caller::new(test);
    let single = (0..32).flat_map(|bit| [1 << bit, !(1 << bit)]);
    let mut sources: Vec<u32> = single.collect();
    sources.extend([0, u32::MAX, 0x0102_0304, 0x0A0B_0C0D, 2_300_001]);
    sources.extend((0..500).map(|_| random.below(1 << 32) as u32));
    for source in sources {
        let body = random.below(20);
        let message = Message {
            source,
            ..message_of(body, &mut random)
        };
        caller.compare(&second, WriteMessage(40, 3, &message));
    }
}

fn archive_writes_messages_over_any_bytes(given: &Given, test: &mut Test) {
    let second = Second::read(&given.tables);
    let mut random = test.random(1106);
    let mut caller = Caller::over_any_bytes(test);
    for body in [0, 1, 25, 600] {
        let message = message_of(body, &mut random);
        for start in [0, 5] {
            let end = start + message.length();
            for length in [end - 1, end, end + 6, start] {
                caller.compare(&second, WriteMessage(length, start, &message));
            }
        }
    }
}

fn archive_writes_messages_from_read_only_pages(given: &Given, test: &mut Test) {
    let second = Second::read(&given.tables);
    let mut random = test.random(1107);
    let mut caller = Caller::with_read_only_input(test);
    for body in [0, 1, 2, 249, 4096, 65_528, 65_529, ROOM] {
        let message = message_of(body, &mut random);
        let enough = message.length().min(ROOM);
        for (length, start) in [(enough, 0), (ROOM, 0), (ROOM, 1), (20, 20), (20, 21)] {
            caller.compare(&second, WriteMessage(length, start, &message));
        }
    }
}

/// An empty body of a caller that has no pointer to one.
fn archive_writes_messages_without_a_body(_: &Given, test: &mut Test) {
    let untouched = [9; 9];
    for (start, kind, answer, expected) in [
        (0, 74, [0, 7], [74, 0, 7, 0, 0, 1, 2, 9, 9]),
        (2, 74, [0, 7], [9, 9, 74, 0, 7, 0, 0, 1, 2]),
        (3, 74, [3, 0], untouched),
        (9, 74, [3, 0], untouched),
        (10, 74, [8, 0], untouched),
        (0, 81, [13, 0], untouched),
    ] {
        let call = || format!("type {kind} at {start} of 9 bytes, no pointer to a body");
        let calls = iter::once_with(|| {
            let mut datagram = untouched;
            let answer = archive::write_bodiless(&mut datagram, start, kind, 258);
            (answer, datagram)
        });
        test.case(call, (laid(answer), expected), calls);
    }
}

/// An empty datagram of a caller that has no pointer to one: its first refusal is told.
fn archive_writes_messages_into_no_datagram(_: &Given, test: &mut Test) {
    for (start, kind, body, refusal) in [
        (0, 74, 0, 3),
        (0, 74, 65_528, 3),
        (0, 74, 65_529, 14),
        (0, 74, 65_536 + 5, 14),
        (0, 74, 1 << 20, 14),
        (0, 81, 65_529, 13),
        (1, 81, 65_529, 8),
        (usize::MAX - 6, 74, 0, 8),
    ] {
        let call = || format!("type {kind}, body of {body} bytes, at {start} without a pointer");
        let mut body = vec![9; body];
        let calls = iter::once_with(|| archive::write_message_nowhere(start, kind, 258, &mut body));
        test.case(call, laid([refusal, 0]), calls);
    }
}

fn archive_writes_the_longest_message_on_a_small_stack(_: &Given, test: &mut Test) {
    let mut body = vec![9; 65_528];
    let expected = [&[74, 255, 255, 0, 0, 1, 2], &body[..]].concat();
    let call = || "a body of 65,528 bytes, 64 KiB of stack".to_string();
    let calls = iter::once_with(|| {
        let mut datagram = vec![0xA5; 65_535];
        let write = || archive::write_message(&mut datagram, 0, 74, 258, &mut body);
        (on_a_small_stack(write), datagram == expected)
    });
    test.case(call, (laid([0, 65_535]), true), calls);
}

/// Every mix of a start past the end, a type of fill, a body too long and no room.
fn archive_orders_mixed_faults_of_messages(_: &Given, test: &mut Test) {
    let mut random = test.random(1110);
    let mut caller = Caller::with_long_output(test);
    for _ in 0..40 {
        for ((length, start, message), refusal) in message_faults::writing_messages(&mut random) {
            caller.expect(WriteMessage(length, start, &message), Err(refusal));
        }
    }
}
