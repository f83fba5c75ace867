//! The tests of steps through the messages of a datagram: the second implementation against the
//! cases of documents 01 and 02, and the archive against the second implementation.

use crate::harness::caller::Caller;
use crate::harness::guarded::ROOM;
use crate::harness::report::{named_tests, Given, NamedTest, Test};
use crate::harness::requests::messages::{numbers, Numbers, StepMessage};
use crate::harness::samples::FAR;
use crate::harness::sent::some_datagram;
use crate::second::messages::{step, Step};
use crate::second::Second;

pub const TESTS: &[NamedTest] = named_tests![
    second_steps_hold_p11_and_p12,
    second_steps_or_refuses,
    archive_steps_hold_p11_and_p12,
    archive_steps_or_refuses,
    archive_steps_in_all_datagrams_of_0_1_7_81,
    archive_steps_in_all_datagrams_of_0_7_8_81,
    archive_steps_in_all_datagrams_of_eight_bytes,
    archive_steps_in_all_datagrams_of_seven_bytes,
    archive_steps_in_all_datagrams_of_any_two_bytes,
    archive_steps_in_random_and_lying_datagrams,
    archive_refuses_the_lie_of_900_bytes,
    archive_steps_in_long_datagrams,
    archive_steps_on_read_only_pages,
];

/// A datagram, a position, and what a step answers: status, start, length, missing bytes.
type StepCase = (Vec<u8>, usize, Numbers);

/// Document 01's P11 and P12, the last two as document 02's K3 has them.
fn p11_and_p12() -> Vec<StepCase> {
    let with_length = |length| vec![74, 0, length, 0, 0, 0, 1, 81];
    vec![
        (with_length(7), 0, [0, 0, 7, 0]),
        (with_length(7), 7, [0, 0, 0, 0]),
        (with_length(7), 9, [8, 0, 0, 0]),
        (with_length(8), 0, [0, 0, 8, 0]),
        (with_length(9), 0, [12, 0, 0, 1]),
        (with_length(6), 0, [9, 0, 0, 0]),
    ]
}

/// Of each kind of position one or some; refusal 8 comes before all others.
fn typed_cases() -> Vec<StepCase> {
    vec![
        (vec![], 0, [0, 0, 0, 0]),
        (vec![], 1, [8, 0, 0, 0]),
        (vec![0], 0, [0, 0, 0, 0]),
        (vec![0, 81, 0, 0], 2, [0, 0, 0, 0]),
        (vec![0, 1], 0, [10, 0, 0, 0]),
        (vec![0, 0, 74], 0, [10, 0, 0, 0]),
        (vec![0, 0, 74], 3, [0, 0, 0, 0]),
        (vec![0, 0, 74], 4, [8, 0, 0, 0]),
        (vec![0, 0, 7, 9, 9, 9, 9], 0, [10, 0, 0, 0]),
        (vec![74], 0, [11, 0, 0, 0]),
        (vec![74, 0], 0, [11, 0, 0, 0]),
        (vec![74, 0, 7], 0, [12, 0, 0, 4]),
        (vec![74, 0, 0], 0, [9, 0, 0, 0]),
        (vec![1, 0, 7, 9, 9, 9, 9], 0, [0, 0, 7, 0]),
        (vec![1, 0, 7, 9, 9, 9], 0, [12, 0, 0, 1]),
        (vec![1, 1, 7, 9, 9, 9, 9], 0, [12, 0, 0, 256]),
        (vec![1, 0, 6, 9, 9, 9, 9], 0, [9, 0, 0, 0]),
        (vec![5, 5, 2, 0, 8, 1, 1, 1, 1, 1], 2, [0, 2, 8, 0]),
        (vec![5, 5, 2, 0, 9, 1, 1, 1, 1, 1], 2, [12, 2, 0, 1]),
        (vec![5, 5, 2, 0, 8, 1, 1, 1, 1, 1], 10, [0, 0, 0, 0]),
        (vec![5, 5, 2, 0, 8, 1, 1, 1, 1, 1], 11, [8, 0, 0, 0]),
        (vec![5, 5, 2], usize::MAX, [8, 0, 0, 0]),
    ]
}

/// Document 02's K1: 81s are passed over, and behind a 0 all must be 0.
fn cases_of_k1() -> Vec<StepCase> {
    let padded = || vec![74, 0, 7, 0, 0, 0, 1, 81, 75, 0, 7, 0, 0, 0, 2, 81, 81, 0];
    vec![
        (vec![81], 0, [0, 0, 0, 0]),
        (vec![81], 2, [8, 0, 0, 0]),
        (vec![81, 0], 0, [0, 0, 0, 0]),
        (vec![81, 0, 81], 0, [10, 0, 0, 0]),
        (vec![81, 0, 81], 1, [10, 0, 0, 0]),
        (vec![81, 0, 81], 2, [0, 0, 0, 0]),
        (vec![0, 81], 0, [10, 0, 0, 0]),
        (vec![81, 1], 0, [11, 1, 0, 0]),
        (vec![81, 81, 82], 1, [11, 2, 0, 0]),
        (vec![81, 0, 7, 9, 9, 9, 9], 0, [10, 0, 0, 0]),
        (vec![81, 81, 74, 0, 7, 0, 0, 0, 1], 0, [0, 2, 7, 0]),
        (vec![81, 81, 74, 0, 7, 0, 0, 0, 1], 1, [0, 2, 7, 0]),
        (vec![81, 81, 74, 0, 8, 0, 0, 0, 1], 0, [12, 2, 0, 1]),
        (vec![81, 81, 74, 0, 6, 0, 0, 0, 1], 0, [9, 2, 0, 0]),
        (padded(), 0, [0, 0, 7, 0]),
        (padded(), 7, [0, 8, 7, 0]),
        (padded(), 8, [0, 8, 7, 0]),
        (padded(), 15, [0, 0, 0, 0]),
        (padded(), 19, [8, 0, 0, 0]),
    ]
}

/// The cases above, but P11 and P12.
fn known_cases() -> Vec<StepCase> {
    [typed_cases(), cases_of_k1()].concat()
}

fn second_steps_hold_p11_and_p12(_: &Given, test: &mut Test) {
    for (datagram, position, answer) in p11_and_p12() {
        let call = || format!("step at {position}, datagram {datagram:?}");
        test.case(call, answer, [numbers(step(&datagram, position))]);
    }
}

fn second_steps_or_refuses(_: &Given, test: &mut Test) {
    for (datagram, position, answer) in known_cases() {
        let call = || format!("step at {position}, datagram {datagram:?}");
        test.case(call, answer, [numbers(step(&datagram, position))]);
    }
}

fn archive_steps_hold_p11_and_p12(_: &Given, test: &mut Test) {
    let mut caller = Caller::new(test);
    for (datagram, position, answer) in p11_and_p12() {
        caller.expect(StepMessage(&datagram, position), answer);
    }
}

fn archive_steps_or_refuses(_: &Given, test: &mut Test) {
    let mut caller = Caller::new(test);
    for (datagram, position, answer) in known_cases() {
        caller.expect(StepMessage(&datagram, position), answer);
    }
}

/// Every datagram of this length over these bytes.
fn all_datagrams(length: u32, bytes: &[u8]) -> impl Iterator<Item = Vec<u8>> + '_ {
    let count = bytes.len();
    (0..count.pow(length)).map(move |number| {
        let digits = (0..length).map(|place| number / count.pow(place) % count);
        digits.map(|digit| bytes[digit]).collect()
    })
}

/// Holds the archive to the second implementation in every datagram of up to so many of these bytes, at
/// every position from 0 to one past the end and at these.
fn compare_in_all_datagrams(
    given: &Given,
    test: &mut Test,
    longest: u32,
    bytes: &[u8],
    positions: &[usize],
) {
    let second = Second::read(&given.tables);
    let mut caller = Caller::new(test);
    for length in 0..=longest {
        for datagram in all_datagrams(length, bytes) {
            for position in (0..=datagram.len() + 1).chain(positions.iter().copied()) {
                caller.compare(&second, StepMessage(&datagram, position));
            }
        }
    }
}

/// Nine bytes, which two 81s and a message of 7 take.
fn archive_steps_in_all_datagrams_of_0_1_7_81(given: &Given, test: &mut Test) {
    compare_in_all_datagrams(given, test, 9, &[0, 1, 7, 81], &[]);
}

fn archive_steps_in_all_datagrams_of_0_7_8_81(given: &Given, test: &mut Test) {
    compare_in_all_datagrams(given, test, 8, &[0, 7, 8, 81], &FAR);
}

fn archive_steps_in_all_datagrams_of_eight_bytes(given: &Given, test: &mut Test) {
    let bytes = [0, 1, 6, 7, 8, 74, 81, 255];
    compare_in_all_datagrams(given, test, 4, &bytes, &FAR);
}

/// Lengths that are too small, past the end or both, and a message of 7.
fn archive_steps_in_all_datagrams_of_seven_bytes(given: &Given, test: &mut Test) {
    let bytes = [0, 1, 6, 7, 8, 81, 255];
    compare_in_all_datagrams(given, test, 7, &bytes, &[]);
}

fn archive_steps_in_all_datagrams_of_any_two_bytes(given: &Given, test: &mut Test) {
    let bytes: Vec<u8> = (0..=255).collect();
    compare_in_all_datagrams(given, test, 2, &bytes, &FAR);
}

/// Walks from 0, each step where the message before ends, until it is finished or refused.
fn walk(caller: &mut Caller, second: &Second, datagram: &[u8]) {
    let mut position = 0;
    loop {
        caller.compare(second, StepMessage(datagram, position));
        match step(datagram, position) {
            Ok(Step::Message { start, length }) => position = start + length,
            Ok(Step::Finished) | Err(_) => return,
        }
    }
}

fn archive_steps_in_random_and_lying_datagrams(given: &Given, test: &mut Test) {
    let second = Second::read(&given.tables);
    let mut random = test.random(900);
    let mut caller = Caller::new(test);
    for _ in 0..200_000 {
        let datagram = some_datagram(&mut random);
        walk(&mut caller, &second, &datagram);
        for _ in 0..3 {
            let position = random.below(datagram.len() + 3);
            caller.compare(&second, StepMessage(&datagram, position));
        }
        let position = FAR[random.below(FAR.len())];
        caller.compare(&second, StepMessage(&datagram, position));
    }
}

/// A datagram of link 5, 32 bytes, whose message declares 900: of every type that can begin one, at
/// the start, where 868 are missing, and behind as many 81s as leave room for its length.
fn archive_refuses_the_lie_of_900_bytes(_: &Given, test: &mut Test) {
    let mut random = test.random(32);
    let mut caller = Caller::new(test);
    for kind in (1..=255).filter(|&kind| kind != 81) {
        for start in 0..=29 {
            let mut datagram = random.bytes(32);
            datagram[..start].fill(81);
            datagram[start] = kind;
            datagram[start + 1..start + 3].copy_from_slice(&900u16.to_be_bytes());
            caller.expect(StepMessage(&datagram, 0), [12, start, 0, start + 868]);
        }
    }
}

/// Datagrams as long as the room: messages of the longest lengths that two bytes can tell, and fill
/// or zero fill with any of three bytes at its end.
fn archive_steps_in_long_datagrams(given: &Given, test: &mut Test) {
    let second = Second::read(&given.tables);
    let mut caller = Caller::new(test);
    for length in [65_533, 65_534, 65_535, ROOM] {
        for told in [65_280, 65_532, 65_533, 65_534, 65_535u16] {
            let mut datagram = vec![255; length];
            for start in 0..3 {
                datagram[start + 1..start + 3].copy_from_slice(&told.to_be_bytes());
                caller.compare(&second, StepMessage(&datagram, start));
            }
            walk(&mut caller, &second, &datagram);
        }
        for (fill, last) in [(81, 81), (81, 0), (81, 1), (0, 0), (0, 81), (0, 1)] {
            let mut datagram = vec![fill; length];
            datagram[length - 1] = last;
            for position in [0, 1, length - 2, length - 1, length, length + 1] {
                caller.compare(&second, StepMessage(&datagram, position));
            }
        }
    }
}

fn archive_steps_on_read_only_pages(given: &Given, test: &mut Test) {
    let second = Second::read(&given.tables);
    let mut random = test.random(81);
    let mut caller = Caller::with_read_only_input(test);
    for (datagram, position, answer) in [p11_and_p12(), known_cases()].concat() {
        caller.expect(StepMessage(&datagram, position), answer);
    }
    for _ in 0..2000 {
        let datagram = some_datagram(&mut random);
        walk(&mut caller, &second, &datagram);
        let position = random.below(datagram.len() + 3);
        caller.compare(&second, StepMessage(&datagram, position));
    }
}
