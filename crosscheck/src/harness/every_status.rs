//! Requests to read a slot burst, at least one for every status that reading one can have, and what
//! each answers.

use crate::harness::ordered_faults::SlotRequest;
use crate::harness::samples::{burst_of, slot_with_wrong};
use crate::second::bits::{bits, inverted};
use crate::second::slots::{SlotReading, HEAD, TRAINING};
use crate::second::words::Refusal;
use crate::second::Second;

pub type Answered = (SlotRequest, Result<SlotReading, Refusal>);

pub fn requests(second: &Second) -> Vec<Answered> {
    [read(second), refused(second)].concat()
}

/// A burst of each link, one of link 5 with three wrong in its training, two in its word and one in its
/// block, and one of link 6 with eight wrong in its training, two of them in one symbol.
fn read(second: &Second) -> Vec<Answered> {
    let datagram = [93, 0, 9, 1, 2, 3, 4, 5, 6];
    let in_all = [0, 33, 53, TRAINING, TRAINING + 31, HEAD + 200];
    let eight = [0, 1, 7, 20, 31, 32, 47, 53];
    let wrong = [(5, &[][..]), (6, &[]), (7, &[]), (5, &in_all), (6, &eight)];
    let read = wrong.map(|(number, wrong)| {
        let link = second.links.of(number);
        let burst = inverted(&burst_of(second, link, &datagram), wrong);
        let answer = slot_with_wrong(link, &datagram, wrong);
        ((burst, link.bytes()), answer)
    });
    read.to_vec()
}

/// A burst of link 5 with one fault each, in document 01's order, and one of link 7 with bits behind it.
fn refused(second: &Second) -> Vec<Answered> {
    let good = burst_of(second, second.links.of(5), &[74, 0, 7, 9, 9, 9, 9]);
    let with_non_bit = |place: usize| {
        let mut burst = good.clone();
        burst[place] = 2;
        burst
    };
    let under_word = |number: usize| {
        let mut burst = good.clone();
        burst[TRAINING..HEAD].copy_from_slice(&bits(second.words.of(number)));
        burst
    };
    let nine_of_training: Vec<usize> = (TRAINING - 9..TRAINING).collect();
    let eight_of_word: Vec<usize> = (TRAINING..TRAINING + 8).collect();
    let too_long = [burst_of(second, second.links.of(7), &[]), vec![1; 40]].concat();
    let faults = [
        (good[..HEAD - 1].to_vec(), 32, 2),
        (with_non_bit(HEAD - 1), 32, 4),
        (inverted(&good, &nine_of_training), 32, 5),
        (inverted(&good, &eight_of_word), 32, 6),
        (under_word(8), 32, 1),
        (good[..good.len() - 1].to_vec(), 32, 2),
        (under_word(7), 128, 2),
        (good.clone(), 31, 3),
        (with_non_bit(good.len() - 1), 32, 4),
        (inverted(&good, &[HEAD, HEAD + 9]), 32, 7),
        (too_long, 128, 2),
    ];
    let answered = faults.map(|(burst, buffer, refusal)| ((burst, buffer), Err(refusal)));
    answered.to_vec()
}
