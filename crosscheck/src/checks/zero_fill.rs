//! The tests of the zero fill behind the messages of a datagram (document 02, K6).

use crate::harness::archive;
use crate::harness::caller::Caller;
use crate::harness::guarded::{LONG_ROOM, ROOM};
use crate::harness::report::{named_tests, Given, NamedTest, Test};
use crate::harness::requests::message_writing::{answer_of, laid, ZeroFill};
use crate::harness::samples::FAR;
use crate::harness::small_stack::on_a_small_stack;
use crate::second::message_writing::zero_fill;
use crate::second::words::Refusal;
use crate::second::Second;
use std::iter;

pub const TESTS: &[NamedTest] = named_tests![
    second_fills_with_zeros,
    archive_fills_with_zeros,
    archive_fills_with_zeros_from_every_start,
    archive_fills_long_datagrams_with_zeros,
    archive_fills_with_zeros_over_any_bytes,
    archive_fills_no_datagram_with_zeros,
    archive_fills_16_mib_on_a_small_stack,
];

/// Bytes of the datagram, start, and how many zeros are laid.
const KNOWN: [(usize, usize, Result<usize, Refusal>); 9] = [
    (5, 0, Ok(5)),
    (5, 2, Ok(3)),
    (5, 4, Ok(1)),
    (5, 5, Ok(0)),
    (5, 6, Err(8)),
    (5, usize::MAX, Err(8)),
    (0, 0, Ok(0)),
    (0, 1, Err(8)),
    (0, usize::MAX, Err(8)),
];

fn second_fills_with_zeros(_: &Given, test: &mut Test) {
    for (length, start, count) in KNOWN {
        let call = || format!("zero fill at {start} of {length} bytes");
        let zeros = count.map(|count| vec![0; count]);
        test.case(call, zeros, [zero_fill(length, start)]);
    }
}

fn archive_fills_with_zeros(_: &Given, test: &mut Test) {
    let mut caller = Caller::new(test);
    for (length, start, count) in KNOWN {
        let zeros = count.map(|count| vec![0; count]);
        caller.expect(ZeroFill(length, start), zeros);
    }
}

/// Of datagrams of up to 70 bytes, and from far past their end.
fn archive_fills_with_zeros_from_every_start(given: &Given, test: &mut Test) {
    let second = Second::read(&given.tables);
    let mut caller = Caller::new(test);
    for length in 0..=70 {
        for start in (0..=length + 9).chain(FAR) {
            caller.compare(&second, ZeroFill(length, start));
        }
    }
}

fn archive_fills_long_datagrams_with_zeros(given: &Given, test: &mut Test) {
    let second = Second::read(&given.tables);
    let mut caller = Caller::with_long_output(test);
    for length in [255, 256, 698, ROOM - 1, ROOM, ROOM + 1, LONG_ROOM] {
        let ends = [length / 2, length - 1, length, length + 1];
        for start in [0, 1, 7].into_iter().chain(ends).chain(FAR) {
            caller.compare(&second, ZeroFill(length, start));
        }
    }
}

fn archive_fills_with_zeros_over_any_bytes(given: &Given, test: &mut Test) {
    let second = Second::read(&given.tables);
    let mut caller = Caller::over_any_bytes(test);
    for length in [0, 1, 32, ROOM] {
        for start in [0, 1, length / 2, length, length + 1] {
            caller.compare(&second, ZeroFill(length, start));
        }
    }
}

/// Of a caller that has no pointer to it.
fn archive_fills_no_datagram_with_zeros(_: &Given, test: &mut Test) {
    for start in [0, 1].into_iter().chain(FAR) {
        let call = || format!("zero fill at {start} of a datagram without a pointer");
        let status = if start == 0 { 0 } else { 8 };
        let calls = iter::once_with(|| archive::zero_fill_nowhere(start));
        test.case(call, laid([status, 0]), calls);
    }
}

fn archive_fills_16_mib_on_a_small_stack(_: &Given, test: &mut Test) {
    let length = 16 << 20;
    for start in [0, 1, length - 1, length, length + 1] {
        let mut datagram = vec![0xA5; length];
        let zeros = zero_fill(length, start);
        let call = || format!("zero fill at {start} of {length} bytes, 64 KiB of stack");
        let calls = iter::once_with(|| {
            let answer = on_a_small_stack(|| archive::zero_fill(&mut datagram, start));
            let (before, behind) = datagram.split_at(start.min(length));
            let left = before.iter().all(|&byte| byte == 0xA5);
            (answer, left, behind == zeros.clone().unwrap_or_default())
        });
        test.case(call, (answer_of(&zeros), true, true), calls);
    }
}
