//! The tests of slot bursts that come in parts (document 02, K2): however a burst is cut, asking gives
//! what reading it whole gives. Every other test in which the archive reads a slot burst whole also
//! hands it over cut at random.

use crate::harness::archive::{self, SlotRead};
use crate::harness::caller::Caller;
use crate::harness::every_status;
use crate::harness::guarded::ROOM;
use crate::harness::random::Random;
use crate::harness::report::{named_tests, Given, NamedTest, Test};
use crate::harness::requests::parts::{cut, ReadParts};
use crate::harness::requests::slots::to_be_read;
use crate::harness::samples::{burst_of, random_datagram, SLOT_SIZES};
use crate::second::bits::inverted;
use crate::second::parts::State;
use crate::second::slots::HEAD;
use crate::second::Second;
use std::iter;

pub const TESTS: &[NamedTest] = named_tests![
    archive_reads_slots_cut_at_every_place,
    archive_reads_slots_byte_by_byte,
    archive_reads_slots_by_handfuls,
    archive_reads_one_burst_after_another,
    archive_keeps_two_states_apart,
    archive_refuses_states_without_a_byte,
    archive_takes_parts_without_a_pointer,
    archive_reads_parts_into_any_buffer,
    archive_reads_parts_over_any_bytes,
    archive_takes_parts_on_read_only_pages,
];

/// Each into two, the first or the last of which is empty at the ends.
fn archive_reads_slots_cut_at_every_place(given: &Given, test: &mut Test) {
    let second = Second::read(&given.tables);
    let mut caller = Caller::new(test);
    for ((burst, buffer), answer) in every_status::requests(&second) {
        for place in 0..=burst.len() {
            let (start, end) = burst.split_at(place);
            caller.expect(ReadParts::of_fresh(&[start, end], buffer), answer.clone());
        }
    }
}

/// Without empty parts, and with one before each byte.
fn archive_reads_slots_byte_by_byte(given: &Given, test: &mut Test) {
    let second = Second::read(&given.tables);
    let mut caller = Caller::new(test);
    for ((burst, buffer), answer) in every_status::requests(&second) {
        let bytes: Vec<&[u8]> = burst.chunks(1).collect();
        let with_empty: Vec<&[u8]> = bytes.iter().flat_map(|&byte| [&[], byte]).collect();
        for parts in [bytes, with_empty] {
            caller.expect(ReadParts::of_fresh(&parts, buffer), answer.clone());
        }
    }
}

/// Parts of none to twelve bytes, cut anew twenty times.
fn archive_reads_slots_by_handfuls(given: &Given, test: &mut Test) {
    let second = Second::read(&given.tables);
    let mut random = test.random(601);
    let mut caller = Caller::new(test);
    for ((burst, buffer), answer) in every_status::requests(&second) {
        for _ in 0..20 {
            let parts = handfuls(&burst, &mut random);
            caller.expect(ReadParts::of_fresh(&parts, buffer), answer.clone());
        }
    }
}

fn handfuls<'a>(burst: &'a [u8], random: &mut Random) -> Vec<&'a [u8]> {
    let (mut parts, mut rest) = (Vec::new(), burst);
    while !rest.is_empty() {
        let (part, behind) = rest.split_at(random.below(13).min(rest.len()));
        parts.push(part);
        rest = behind;
    }
    parts
}

/// Every one behind every one in the same state, which nobody touches between them.
fn archive_reads_one_burst_after_another(given: &Given, test: &mut Test) {
    let second = Second::read(&given.tables);
    let mut random = test.random(602);
    let mut caller = Caller::new(test);
    let requests = every_status::requests(&second);
    for before in &requests {
        for behind in &requests {
            for ((burst, buffer), answer) in [before, behind] {
                let parts = cut(burst, &mut random);
                caller.expect(ReadParts::of_fresh(&parts, *buffer), answer.clone());
            }
        }
    }
}

/// Two bursts at a time, each into a state of its own: a part of one and a part of the other in turn.
fn archive_keeps_two_states_apart(given: &Given, test: &mut Test) {
    let second = Second::read(&given.tables);
    let mut random = test.random(605);
    let requests = every_status::requests(&second);
    for one in &requests {
        for other in &requests {
            let both = [one, other].map(|((burst, _), _)| handfuls(burst, &mut random));
            let states = taken_in_turn(both);
            for (state, ((burst, buffer), answer)) in states.into_iter().zip([one, other]) {
                let call = || format!("burst of {} bytes beside another", burst.len());
                let (answer, written) = to_be_read(answer.clone());
                let asked = iter::once_with(|| asked(state, *buffer));
                test.case(call, (answer, written, State::FRESH), asked);
            }
        }
    }
}

fn taken_in_turn(both: [Vec<&[u8]>; 2]) -> [State; 2] {
    let mut states = [State::FRESH, State::FRESH];
    for turn in 0..both[0].len().max(both[1].len()) {
        for (state, parts) in states.iter_mut().zip(&both) {
            if let Some(part) = parts.get(turn) {
                archive::take_part(&mut state.count, &mut state.bits, &mut part.to_vec());
            }
        }
    }
    states
}

/// The answer of a state, the bytes that it counts, and the state that is left.
fn asked(mut state: State, buffer: usize) -> (SlotRead, Vec<u8>, State) {
    let mut out = vec![0; buffer];
    let answer = archive::read_parts(&mut state.count, &mut state.bits, &mut out);
    out.truncate(answer.count as usize);
    (answer, out, state)
}

/// Asked at once, and after up to four empty parts.
fn archive_refuses_states_without_a_byte(_: &Given, test: &mut Test) {
    let mut caller = Caller::new(test);
    let empty: [&[u8]; 4] = [&[]; 4];
    for count in 0..=empty.len() {
        for buffer in [0, 1, 32, 128, ROOM] {
            caller.expect(ReadParts::of_fresh(&empty[..count], buffer), Err(2));
        }
    }
}

/// A null pointer with the length 0: before, in the middle of and behind each burst.
fn archive_takes_parts_without_a_pointer(given: &Given, test: &mut Test) {
    let second = Second::read(&given.tables);
    let nothing = ((vec![], 0), Err(2));
    for ((burst, buffer), answer) in iter::once(nothing).chain(every_status::requests(&second)) {
        let call = || format!("burst of {} bytes among null pointers", burst.len());
        let asked = iter::once_with(|| asked(taken_among_null_pointers(&burst), buffer));
        let (answer, written) = to_be_read(answer);
        test.case(call, (answer, written, State::FRESH), asked);
    }
}

fn taken_among_null_pointers(burst: &[u8]) -> State {
    let mut state = State::FRESH;
    let (start, end) = burst.split_at(burst.len() / 2);
    archive::take_no_part(&mut state.count, &mut state.bits);
    for part in [start, end] {
        archive::take_part(&mut state.count, &mut state.bits, &mut part.to_vec());
        archive::take_no_part(&mut state.count, &mut state.bits);
    }
    state
}

/// A burst of each link with none, one and two wrong in its block, into every buffer up to ten bytes
/// longer than the link holds.
fn archive_reads_parts_into_any_buffer(given: &Given, test: &mut Test) {
    let mut caller = Caller::new(test);
    let any = |bytes: usize| (0..=bytes + 10).chain([bytes + 1000, ROOM]).collect();
    compare_into(given, &mut caller, any);
}

/// The same into buffers filled with each of the 256 bytes.
fn archive_reads_parts_over_any_bytes(given: &Given, test: &mut Test) {
    let mut caller = Caller::over_any_bytes(test);
    compare_into(given, &mut caller, |bytes| {
        vec![bytes - 1, bytes, bytes + 9]
    });
}

/// Compares with the second implementation in buffers of these lengths, which the bytes that a link
/// holds are given to choose.
fn compare_into(given: &Given, caller: &mut Caller, buffers: impl Fn(usize) -> Vec<usize>) {
    let second = Second::read(&given.tables);
    let mut random = caller.test.random(603);
    for (number, bytes, length) in SLOT_SIZES {
        let link = second.links.of(number);
        for wrong in 0..=2 {
            let written = burst_of(&second, link, &random_datagram(link, &mut random));
            let places = random.places(wrong, length - HEAD);
            let places: Vec<usize> = places.iter().map(|place| HEAD + place).collect();
            let burst = inverted(&written, &places);
            for buffer in buffers(bytes) {
                let parts = cut(&burst, &mut random);
                caller.compare(&second, ReadParts::of_fresh(&parts, buffer));
            }
        }
    }
}

fn archive_takes_parts_on_read_only_pages(given: &Given, test: &mut Test) {
    let second = Second::read(&given.tables);
    let mut random = test.random(604);
    let mut caller = Caller::with_read_only_input(test);
    for ((burst, buffer), answer) in every_status::requests(&second) {
        let parts = cut(&burst, &mut random);
        caller.expect(ReadParts::of_fresh(&parts, buffer), answer);
    }
    let longest = random.bytes(ROOM);
    caller.compare(&second, ReadParts::of_fresh(&[&longest, &longest], ROOM));
}
