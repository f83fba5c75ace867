//! The tests of the three lies of a message (document 02, K3): which it is, where the message stands
//! and how many bytes are missing.

use crate::harness::archive;
use crate::harness::caller::Caller;
use crate::harness::report::{named_tests, Given, NamedTest, Test};
use crate::harness::requests::messages::{numbers, stepped, Numbers, StepMessage};
use crate::harness::samples::FAR;
use crate::harness::sent::{lie_behind, LieBehind};
use crate::second::messages::step;
use crate::second::Second;
use std::iter;

pub const TESTS: &[NamedTest] = named_tests![
    second_names_the_lies_of_k3,
    archive_names_the_lies_of_k3,
    archive_refuses_positions_past_the_lies_of_k3,
    archive_steps_around_the_boundaries_of_a_length,
    archive_counts_the_missing_bytes_of_every_length,
    archive_counts_the_missing_bytes_of_long_datagrams,
    archive_names_the_lie_behind_whole_messages,
];

/// Last spring's lie: 900 declared in 32 bytes.
const LAST_SPRING: [u8; 32] = {
    let mut datagram = [0; 32];
    (datagram[0], datagram[1], datagram[2]) = (93, 3, 132);
    datagram
};

/// Datagram, position and the numbers of the answer: what document 02's K3 names, each lie behind
/// fill that is asked from its start and from inside, and what all other answers give.
const OF_K3: [(&[u8], usize, Numbers); 25] = [
    (&[1, 0, 6], 0, [9, 0, 0, 0]),
    (&[1, 0, 7], 0, [12, 0, 0, 4]),
    (&[1, 0], 0, [11, 0, 0, 0]),
    (&[1], 0, [11, 0, 0, 0]),
    (&[74, 0, 9, 0, 0, 0, 1, 81], 0, [12, 0, 0, 1]),
    (&[74, 0, 8, 0, 0, 0, 1, 81], 0, [0, 0, 8, 0]),
    (&[74, 0, 7, 0, 0, 0, 1, 81], 0, [0, 0, 7, 0]),
    (&[74, 0, 6, 0, 0, 0, 1, 81], 0, [9, 0, 0, 0]),
    (&[74, 0, 0, 0, 0, 0, 1, 81], 0, [9, 0, 0, 0]),
    (&[81, 81, 1, 255, 255], 0, [12, 2, 0, 65_532]),
    (&[81, 81, 1, 255, 255], 1, [12, 2, 0, 65_532]),
    (&[81, 81, 1, 255, 255], 2, [12, 2, 0, 65_532]),
    (&[81, 81, 1, 255, 255], 3, [11, 3, 0, 0]),
    (&[1, 255, 255], 0, [12, 0, 0, 65_532]),
    (&[1, 1, 0], 0, [12, 0, 0, 253]),
    (&[81, 1], 0, [11, 1, 0, 0]),
    (&[81, 81, 81, 1, 0, 6, 9], 1, [9, 3, 0, 0]),
    (&LAST_SPRING, 0, [12, 0, 0, 868]),
    (&LAST_SPRING, 1, [12, 1, 0, 33_761]),
    (&LAST_SPRING, 3, [0, 0, 0, 0]),
    (&[81, 1], 2, [0, 0, 0, 0]),
    (&[81, 1], 3, [8, 0, 0, 0]),
    (&[81, 0, 1], 0, [10, 0, 0, 0]),
    (&[5, 81, 0, 0, 7], 1, [10, 0, 0, 0]),
    (&[5, 81, 74, 0, 7, 0, 0, 0, 1], 1, [0, 2, 7, 0]),
];

fn second_names_the_lies_of_k3(_: &Given, test: &mut Test) {
    for (datagram, position, answer) in OF_K3 {
        let call = || format!("step at {position}, datagram {datagram:?}");
        test.case(call, answer, [numbers(step(datagram, position))]);
    }
}

fn archive_names_the_lies_of_k3(_: &Given, test: &mut Test) {
    let mut caller = Caller::new(test);
    for (datagram, position, answer) in OF_K3 {
        caller.expect(StepMessage(datagram, position), answer);
    }
}

/// Nothing of a lie is told where a step is asked past the end.
fn archive_refuses_positions_past_the_lies_of_k3(_: &Given, test: &mut Test) {
    let mut caller = Caller::new(test);
    for (datagram, ..) in OF_K3 {
        let behind = datagram.len() + 1..datagram.len() + 40;
        for position in behind.chain(FAR) {
            caller.expect(StepMessage(datagram, position), [8, 0, 0, 0]);
        }
    }
}

/// So many 81s, the type and the length of a message, and then bytes 9; cut to this size.
fn with_length(fill: usize, length: u16, size: usize) -> Vec<u8> {
    let [high, low] = length.to_be_bytes();
    let mut datagram = vec![81; fill];
    datagram.extend([74, high, low]);
    datagram.resize(size, 9);
    datagram
}

/// Behind up to four 81s, in up to 20 bytes, from every position to one past the end.
fn archive_steps_around_the_boundaries_of_a_length(given: &Given, test: &mut Test) {
    let second = Second::read(&given.tables);
    let mut caller = Caller::new(test);
    for length in (0..=12).chain([255, 256, 257, 900, 65_535]) {
        for (fill, size) in (0..=4).flat_map(|fill| (0..=20).map(move |size| (fill, size))) {
            let datagram = with_length(fill, length, size);
            for position in 0..=size + 1 {
                caller.compare(&second, StepMessage(&datagram, position));
            }
        }
    }
}

/// Every length that two bytes can tell, in a datagram that ends behind them.
fn archive_counts_the_missing_bytes_of_every_length(_: &Given, test: &mut Test) {
    let mut caller = Caller::new(test);
    for length in 0..=65_535 {
        for fill in [0, 2] {
            let answer = match length {
                0..=6 => [9, fill, 0, 0],
                _ => [12, fill, 0, usize::from(length) - 3],
            };
            let datagram = with_length(fill, length, fill + 3);
            caller.expect(StepMessage(&datagram, 0), answer);
        }
    }
}

/// Lengths near the largest behind up to 200,000 bytes 81: most of these datagrams are longer than the
/// guarded rooms, and so they are lent as they are.
fn archive_counts_the_missing_bytes_of_long_datagrams(_: &Given, test: &mut Test) {
    for fill in [0, 1, 5, 65_535, 65_536, 200_000] {
        for length in [32_768, 65_280, 65_534, 65_535] {
            step_around_the_end(test, fill, length);
        }
    }
}

/// The datagram ends from two bytes before the end of its message to two behind it.
fn step_around_the_end(test: &mut Test, fill: usize, length: u16) {
    let told = usize::from(length);
    for left in told - 2..=told + 2 {
        let mut datagram = with_length(fill, length, fill + left);
        let answer = match told.saturating_sub(left) {
            0 => [0, fill, told, 0],
            missing => [12, fill, 0, missing],
        };
        for position in [0, fill] {
            let call = || format!("step at {position}, {fill} bytes 81, {told} told, {left} left");
            let calls = iter::once_with(|| archive::step_message(&mut datagram, position));
            test.case(call, stepped(answer), calls);
        }
    }
}

/// A walk finds every message before the lie, and its last answer is the lie, as is that of a step from
/// any fill before it.
fn archive_names_the_lie_behind_whole_messages(_: &Given, test: &mut Test) {
    let mut random = test.random(912);
    let mut caller = Caller::new(test);
    for _ in 0..20_000 {
        let LieBehind {
            datagram,
            whole,
            lie,
        } = lie_behind(&mut random);
        let mut position = 0;
        for (start, length) in whole {
            caller.expect(StepMessage(&datagram, position), [0, start, length, 0]);
            position = start + length;
        }
        let [_, place, ..] = lie;
        for position in position..=place {
            caller.expect(StepMessage(&datagram, position), lie);
        }
    }
}
