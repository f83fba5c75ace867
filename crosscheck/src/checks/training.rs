//! The tests of noise in the training (document 02, K7): a slot burst is read where at most eight of the
//! 54 bits differ, with their number in the answer, and refused with 5 where nine or more do.

use crate::harness::caller::Caller;
use crate::harness::every_status::Answered;
use crate::harness::noise;
use crate::harness::report::{named_tests, Given, NamedTest, Test};
use crate::harness::requests::parts::ReadParts;
use crate::harness::requests::slots::ReadSlot;
use crate::harness::samples::{burst_of, random_datagram};
use crate::second::slots::{SLOT_LINKS, TRAINING};
use crate::second::Second;

pub const TESTS: &[NamedTest] = named_tests![
    second_counts_wrong_training,
    archive_reads_one_or_two_wrong_in_the_training,
    archive_reads_eight_wrong_in_the_training_and_not_nine,
    archive_refuses_many_wrong_in_the_training,
    archive_refuses_bursts_out_of_step,
    archive_counts_bits_of_the_training_and_not_symbols,
    archive_counts_wrong_in_every_part,
    archive_counts_wrong_training_by_parts,
];

/// All that the archive is held to below.
fn second_counts_wrong_training(given: &Given, test: &mut Test) {
    let second = Second::read(&given.tables);
    let mut random = test.random(421);
    let noisy = [
        noise::one_or_two_wrong(&second, &mut random),
        noise::eight_or_nine_wrong(&second, &mut random),
        noise::many_wrong(&second, &mut random),
        noise::wrong_in_symbols(&second, &mut random),
        noise::wrong_in_every_part(&second, 1, &mut random),
    ];
    for ((burst, buffer), answer) in noisy.concat() {
        let call = || format!("read slot, buffer of {buffer}, {burst:?}");
        test.case(call, answer, [second.read_slot(&burst, buffer)]);
    }
}

/// Holds the archive to these answers, whole and cut at random.
fn archive_answers(noisy: Vec<Answered>, test: &mut Test) {
    let mut caller = Caller::new(test);
    for ((burst, buffer), answer) in noisy {
        caller.expect(ReadSlot(&burst, buffer), answer);
    }
}

fn archive_reads_one_or_two_wrong_in_the_training(given: &Given, test: &mut Test) {
    let second = Second::read(&given.tables);
    let mut random = test.random(422);
    archive_answers(noise::one_or_two_wrong(&second, &mut random), test);
}

fn archive_reads_eight_wrong_in_the_training_and_not_nine(given: &Given, test: &mut Test) {
    let second = Second::read(&given.tables);
    let mut random = test.random(423);
    archive_answers(noise::eight_or_nine_wrong(&second, &mut random), test);
}

fn archive_refuses_many_wrong_in_the_training(given: &Given, test: &mut Test) {
    let second = Second::read(&given.tables);
    let mut random = test.random(424);
    archive_answers(noise::many_wrong(&second, &mut random), test);
}

/// Bursts that begin one to four bits early or late, whatever stands where they have nothing: 13 bits or
/// more of the training differ, since its symbols change often enough.
fn archive_refuses_bursts_out_of_step(given: &Given, test: &mut Test) {
    let second = Second::read(&given.tables);
    let mut random = test.random(428);
    let mut caller = Caller::new(test);
    for link in SLOT_LINKS.map(|number| second.links.of(number)) {
        for step in [1, 2, 3, 4].repeat(20) {
            let written = burst_of(&second, link, &random_datagram(link, &mut random));
            let other = random.bits(step);
            let early = [&written[step..], &other].concat();
            let late = [&other, &written[..written.len() - step]].concat();
            for burst in [early, late] {
                caller.expect(ReadSlot(&burst, link.bytes()), Err(5));
            }
        }
    }
}

fn archive_counts_bits_of_the_training_and_not_symbols(given: &Given, test: &mut Test) {
    let second = Second::read(&given.tables);
    let mut random = test.random(425);
    archive_answers(noise::wrong_in_symbols(&second, &mut random), test);
}

/// The three counts are told apart, and of the refusals 5 comes before 6 and 6 before 7.
fn archive_counts_wrong_in_every_part(given: &Given, test: &mut Test) {
    let second = Second::read(&given.tables);
    let mut random = test.random(426);
    archive_answers(noise::wrong_in_every_part(&second, 10, &mut random), test);
}

/// Cut once in or behind the training, bit by bit, and bit by bit in the training alone.
fn archive_counts_wrong_training_by_parts(given: &Given, test: &mut Test) {
    let second = Second::read(&given.tables);
    let mut random = test.random(427);
    let noisy = noise::wrong_in_every_part(&second, 1, &mut random);
    let mut caller = Caller::new(test);
    for ((burst, buffer), answer) in noisy {
        let (start, end) = burst.split_at(1 + random.below(TRAINING));
        let bits: Vec<&[u8]> = burst.chunks(1).collect();
        let (training, rest) = burst.split_at(TRAINING);
        let of_training: Vec<&[u8]> = training.chunks(1).chain([rest]).collect();
        for parts in [&[start, end][..], &bits, &of_training] {
            caller.expect(ReadParts::of_fresh(parts, buffer), answer.clone());
        }
    }
}
