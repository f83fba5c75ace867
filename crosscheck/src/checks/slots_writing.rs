//! The tests of writing slot bursts: the archive against the worked slot burst and the second
//! implementation.

use crate::harness::caller::Caller;
use crate::harness::guarded::ROOM;
use crate::harness::ordered_faults::{self, NOT_OFFERED};
use crate::harness::report::{named_tests, Given, NamedTest, Test};
use crate::harness::requests::slots::WriteSlot;
use crate::harness::samples::SLOT_SIZES;
use crate::outside::worked_burst::{self, WorkedBurst};
use crate::second::bits::bits;
use crate::second::slots::{HEAD, SLOT_LINKS, TRAINING};
use crate::second::Second;

pub const TESTS: &[NamedTest] = named_tests![
    archive_writes_the_worked_burst,
    archive_writes_slots_of_all_lengths,
    archive_writes_slots_of_equal_bytes,
    archive_writes_slots_into_any_buffer,
    archive_writes_slots_over_any_bytes,
    archive_writes_slots_of_slot_links,
    archive_refuses_long_datagrams_for_slots,
    archive_orders_refusals_to_write_slots,
    archive_writes_slots_from_read_only_pages,
];

/// With and without the twenty zero bytes that the fill puts there.
fn archive_writes_the_worked_burst(given: &Given, test: &mut Test) {
    let mut caller = Caller::new(test);
    let burst = bits(&WorkedBurst::read(&given.tables).bits());
    for datagram in [worked_burst::datagram(), worked_burst::DATAGRAM.to_vec()] {
        let expected = Ok(burst.clone());
        caller.expect(WriteSlot(5, &datagram, 480), expected);
    }
}

/// Random bytes: every length that the link holds, and one byte too many.
fn archive_writes_slots_of_all_lengths(given: &Given, test: &mut Test) {
    let second = Second::read(&given.tables);
    let mut random = test.random(301);
    let mut caller = Caller::new(test);
    for (link, bytes, burst) in SLOT_SIZES {
        for length in (0..=bytes + 1).collect::<Vec<_>>().repeat(4) {
            let datagram = random.bytes(length);
            caller.compare(&second, WriteSlot(link, &datagram, burst));
        }
    }
}

/// All zeros, all ones and other equal bytes, in full datagrams and in shorter ones.
fn archive_writes_slots_of_equal_bytes(given: &Given, test: &mut Test) {
    let second = Second::read(&given.tables);
    let mut caller = Caller::new(test);
    for (link, bytes, burst) in SLOT_SIZES {
        for byte in [0, 255, 1, 128, 85] {
            for length in [bytes, bytes / 2, 1] {
                let datagram = vec![byte; length];
                caller.compare(&second, WriteSlot(link, &datagram, burst));
            }
        }
    }
}

/// Too short by one or more, for the training, the head or the block; just long enough, and longer.
fn archive_writes_slots_into_any_buffer(given: &Given, test: &mut Test) {
    let second = Second::read(&given.tables);
    let mut random = test.random(302);
    let mut caller = Caller::new(test);
    for (link, bytes, burst) in SLOT_SIZES {
        let of_head = [0, 1, TRAINING - 1, TRAINING, HEAD - 1, HEAD, HEAD + 1];
        let of_block = [burst - HEAD, burst - HEAD + 1, burst - 8, burst - 1];
        let enough = [burst, burst + 1, burst + 7, burst + 1000, ROOM];
        for buffer in of_head.into_iter().chain(of_block).chain(enough) {
            for length in [0, random.below(bytes), bytes] {
                let datagram = random.bytes(length);
                caller.compare(&second, WriteSlot(link, &datagram, buffer));
            }
        }
    }
}

/// Written and refused over buffers filled with each of the 256 bytes.
fn archive_writes_slots_over_any_bytes(given: &Given, test: &mut Test) {
    let second = Second::read(&given.tables);
    let mut random = test.random(303);
    let mut caller = Caller::over_any_bytes(test);
    for (link, bytes, burst) in SLOT_SIZES {
        for buffer in [burst - 1, burst, burst + 9] {
            for length in [bytes, bytes + 1] {
                let datagram = random.bytes(length);
                caller.compare(&second, WriteSlot(link, &datagram, buffer));
            }
        }
    }
}

/// Numbers 0 to 70, also those of links that have blocks only, and larger ones that end in the bits
/// of a slot link.
fn archive_writes_slots_of_slot_links(given: &Given, test: &mut Test) {
    let second = Second::read(&given.tables);
    let mut random = test.random(304);
    let mut caller = Caller::new(test);
    for number in (0..=70).chain(NOT_OFFERED) {
        for (length, buffer) in [(0, ROOM), (8, ROOM), (129, ROOM), (8, 0)] {
            let datagram = random.bytes(length);
            caller.compare(&second, WriteSlot(number, &datagram, buffer));
        }
    }
    for number in SLOT_LINKS {
        for more in [8, 64, 128, 256, 65_536, 1 << 31] {
            caller.expect(WriteSlot(more + number, &[1, 2], ROOM), Err(1));
        }
    }
}

/// Also by as many bytes as a narrow count forgets.
fn archive_refuses_long_datagrams_for_slots(_: &Given, test: &mut Test) {
    let mut caller = Caller::new(test);
    for (link, bytes, _) in SLOT_SIZES {
        for more in [1, 2, 8, 64, 256, 512, 1024, 8192, ROOM - bytes] {
            let datagram = vec![0; bytes + more];
            caller.expect(WriteSlot(link, &datagram, ROOM), Err(2));
        }
    }
}

fn archive_orders_refusals_to_write_slots(_: &Given, test: &mut Test) {
    let mut caller = Caller::new(test);
    for ((link, length, buffer), refusal) in ordered_faults::writing_slots() {
        let datagram = vec![1; length];
        caller.expect(WriteSlot(link, &datagram, buffer), Err(refusal));
    }
}

fn archive_writes_slots_from_read_only_pages(given: &Given, test: &mut Test) {
    let second = Second::read(&given.tables);
    let mut random = test.random(305);
    let mut caller = Caller::with_read_only_input(test);
    for (link, bytes, burst) in SLOT_SIZES {
        for length in [0, 1, bytes, bytes + 1] {
            let datagram = random.bytes(length);
            for buffer in [0, burst - 1, burst] {
                caller.compare(&second, WriteSlot(link, &datagram, buffer));
            }
        }
    }
}
