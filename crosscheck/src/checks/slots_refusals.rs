//! The tests of the refusals to read a slot burst: each number exactly then, the first in document
//! 01's order where several apply ("Numbers a caller gets back").

use crate::harness::caller::Caller;
use crate::harness::guarded::ROOM;
use crate::harness::mixed_faults;
use crate::harness::ordered_faults;
use crate::harness::report::{named_tests, Given, NamedTest, Test};
use crate::harness::requests::slots::ReadSlot;
use crate::harness::samples::{burst_of, random_datagram, slot_found, SLOT_SIZES};
use crate::outside::worked_burst::WorkedBurst;
use crate::second::bits::{bits, inverted};
use crate::second::slots::{HEAD, SLOT_LINKS, TRAINING};
use crate::second::words::{Refusal, PLACES};
use crate::second::Second;

pub const TESTS: &[NamedTest] = named_tests![
    archive_orders_refusals_to_read_slots,
    archive_orders_mixed_faults_of_slots,
    archive_refuses_the_worked_burst_under_7,
    archive_refuses_what_comes_behind_noisy_training,
    archive_refuses_heads_with_noisy_training,
    archive_refuses_non_bits_before_wrong_training,
    archive_reads_slots_under_every_word,
    archive_refuses_lengths_of_slots,
    archive_refuses_non_bits_in_slots,
];

fn archive_orders_refusals_to_read_slots(given: &Given, test: &mut Test) {
    let second = Second::read(&given.tables);
    let mut caller = Caller::new(test);
    for ((burst, buffer), refusal) in ordered_faults::reading_slots(&second) {
        caller.expect(ReadSlot(&burst, buffer), Err(refusal));
    }
}

fn archive_orders_mixed_faults_of_slots(given: &Given, test: &mut Test) {
    let second = Second::read(&given.tables);
    let mut random = test.random(501);
    let mut caller = Caller::new(test);
    for number in SLOT_LINKS.repeat(10) {
        let link = second.links.of(number);
        for ((burst, buffer), refusal) in mixed_faults::reading_slots(&second, link, &mut random) {
            caller.expect(ReadSlot(&burst, buffer), Err(refusal));
        }
    }
}

/// Document 01: a slot burst of 480 bits under link 7's word is refusal 2; also under one with two
/// places wrong, and into a buffer that is too short.
fn archive_refuses_the_worked_burst_under_7(given: &Given, test: &mut Test) {
    let second = Second::read(&given.tables);
    let mut caller = Caller::new(test);
    let mut burst = bits(&WorkedBurst::read(&given.tables).bits());
    burst[TRAINING..HEAD].copy_from_slice(&bits(second.words.of(7)));
    let nearly = inverted(&burst, &[TRAINING, TRAINING + 8]);
    for burst in [burst, nearly] {
        for buffer in [0, 32, 127, 128, 1000] {
            caller.expect(ReadSlot(&burst, buffer), Err(2));
        }
    }
}

/// What a refusal behind the training becomes where so many bits of the training are wrong.
fn behind_training(wrong: usize, refusal: Refusal) -> Refusal {
    match wrong {
        0..=8 => refusal,
        _ => 5,
    }
}

/// Each of the refusals behind it, where none to twelve bits of the training are wrong: the answer holds
/// no number of them.
fn archive_refuses_what_comes_behind_noisy_training(given: &Given, test: &mut Test) {
    let second = Second::read(&given.tables);
    let mut random = test.random(502);
    let mut caller = Caller::new(test);
    let training = bits(&second.training);
    for wrong in (0..=12).collect::<Vec<_>>().repeat(10) {
        let noisy = inverted(&training, &random.places(wrong, TRAINING));
        for ((burst, buffer), refusal) in ordered_faults::behind_the_training(&second, &noisy) {
            let refusal = behind_training(wrong, refusal);
            caller.expect(ReadSlot(&burst, buffer), Err(refusal));
        }
    }
}

/// Heads alone, whole or cut short, with none to twelve bits of the training wrong: fewer than 86 bits
/// come before all that is wrong in them.
fn archive_refuses_heads_with_noisy_training(given: &Given, test: &mut Test) {
    let second = Second::read(&given.tables);
    let mut random = test.random(504);
    let mut caller = Caller::new(test);
    let training = bits(&second.training);
    for wrong in (0..=12).collect::<Vec<_>>().repeat(5) {
        let noisy = inverted(&training, &random.places(wrong, TRAINING));
        for (number, refusal) in [(4, 1), (5, 2), (6, 2), (7, 2), (63, 1)] {
            let word = bits(second.words.of(number));
            let far = inverted(&word, &random.places(8, PLACES));
            for (word, refusal) in [(word, refusal), (far, 6)] {
                let head = [&noisy[..], &word].concat();
                for length in [0, 1, 53, 54, 55, 84, 85] {
                    caller.expect(ReadSlot(&head[..length], ROOM), Err(2));
                }
                let refusal = behind_training(wrong, refusal);
                caller.expect(ReadSlot(&head, ROOM), Err(refusal));
            }
        }
    }
}

/// In every place of the head, with none to twelve bits of the training wrong: refusal 4 comes first.
fn archive_refuses_non_bits_before_wrong_training(given: &Given, test: &mut Test) {
    let second = Second::read(&given.tables);
    let mut random = test.random(505);
    let mut caller = Caller::new(test);
    let written = burst_of(&second, second.links.of(5), &[7, 8, 9]);
    for place in 0..HEAD {
        for wrong in 0..=12 {
            let noisy = inverted(&written, &random.places(wrong, TRAINING));
            for non_bit in [2, 3, 255] {
                let mut burst = noisy.clone();
                burst[place] = non_bit;
                caller.expect(ReadSlot(&burst, 32), Err(4));
            }
        }
    }
}

/// Each of the 64 words before a block of each slot link, and before no block at all.
fn archive_reads_slots_under_every_word(given: &Given, test: &mut Test) {
    let second = Second::read(&given.tables);
    let mut caller = Caller::new(test);
    for link in SLOT_LINKS.map(|number| second.links.of(number)) {
        let mut burst = burst_of(&second, link, &[4, 5, 6]);
        for number in 0..64 {
            burst[TRAINING..HEAD].copy_from_slice(&bits(second.words.of(number as usize)));
            let (expected, of_head) = match number {
                _ if number == link.number => (slot_found(link, &[4, 5, 6]), 2),
                5..=7 => (Err(2), 2),
                _ => (Err(1), 1),
            };
            caller.expect(ReadSlot(&burst, ROOM), expected);
            caller.expect(ReadSlot(&burst[..HEAD], ROOM), Err(of_head));
            caller.expect(ReadSlot(&burst[..HEAD], 0), Err(of_head));
        }
    }
}

/// Every length but the right one up to behind the longest burst, and lengths that a narrow count
/// takes for the right one: cut from a burst or with bits behind it.
fn archive_refuses_lengths_of_slots(given: &Given, test: &mut Test) {
    let second = Second::read(&given.tables);
    let mut caller = Caller::new(test);
    for (number, bytes, right) in SLOT_SIZES {
        let written = burst_of(&second, second.links.of(number), &[7, 8, 9]);
        let narrow = [right + 256, right + 32_768, ROOM];
        for length in (0..=1600).chain(narrow).filter(|&length| length != right) {
            let burst: Vec<u8> = written.iter().copied().cycle().take(length).collect();
            caller.expect(ReadSlot(&burst, bytes), Err(2));
        }
    }
}

/// In every place. With a buffer one byte too short, those in the head are still refused with 4,
/// and those in the rest come behind the buffer.
fn archive_refuses_non_bits_in_slots(given: &Given, test: &mut Test) {
    let second = Second::read(&given.tables);
    let mut random = test.random(503);
    let mut caller = Caller::new(test);
    for (number, bytes, length) in SLOT_SIZES {
        let link = second.links.of(number);
        let written = burst_of(&second, link, &random_datagram(link, &mut random));
        for place in 0..length {
            let too_short = if place < HEAD { 4 } else { 3 };
            for non_bit in [2, 3, 48, 49, 128, 129, 254, 255] {
                let mut burst = written.clone();
                burst[place] = non_bit;
                caller.expect(ReadSlot(&burst, bytes), Err(4));
                caller.expect(ReadSlot(&burst, bytes - 1), Err(too_short));
            }
        }
    }
}
