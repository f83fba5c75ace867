//! Requests to read a slot burst with every mix of faults, and the refusal of the one that document
//! 01's order puts first ("Numbers a caller gets back").

use crate::harness::ordered_faults::SlotRequest;
use crate::harness::random::Random;
use crate::harness::samples::{burst_of, places_of_parts, random_datagram};
use crate::second::bits::{bits, inverted};
use crate::second::links::Link;
use crate::second::slots::{HEAD, TRAINING};
use crate::second::words::{Refusal, PLACES};
use crate::second::Second;

#[derive(Clone, Copy, PartialEq)]
enum Fault {
    HeadCutShort,
    NonBitInTraining,
    NonBitInWord,
    WrongTraining,
    WordFarFromAll,
    WordOfNoSlot,
    RestOfWrongLength,
    BufferTooShort,
    NonBitInRest,
    TwoWrongInBlock,
}

use Fault::*;

/// The faults and their refusals, in document 01's order.
const IN_ORDER: [(Fault, Refusal); 10] = [
    (HeadCutShort, 2),
    (NonBitInTraining, 4),
    (NonBitInWord, 4),
    (WrongTraining, 5),
    (WordFarFromAll, 6),
    (WordOfNoSlot, 1),
    (RestOfWrongLength, 2),
    (BufferTooShort, 3),
    (NonBitInRest, 4),
    (TwoWrongInBlock, 7),
];

/// A request for every mix of the faults, at random places of a burst of this link.
pub fn reading_slots(
    second: &Second,
    link: &Link,
    random: &mut Random,
) -> Vec<(SlotRequest, Refusal)> {
    let requests = mixes(&IN_ORDER).map(|(faults, refusal)| {
        let has = |fault| faults.contains(&fault);
        (request(second, link, has, random), refusal)
    });
    requests.collect()
}

/// Every mix of these faults, and the refusal of the first that is in it.
pub fn mixes<F: Copy>(in_order: &[(F, Refusal)]) -> impl Iterator<Item = (Vec<F>, Refusal)> + '_ {
    (1..1 << in_order.len()).map(|mix: usize| {
        let in_mix = (0..in_order.len()).filter(|n| mix >> n & 1 == 1);
        let (faults, refusals): (Vec<F>, Vec<Refusal>) = in_mix.map(|n| in_order[n]).unzip();
        (faults, refusals[0])
    })
}

/// Bits are inverted first, while all are bits; the burst is cut or lengthened last.
fn request(
    second: &Second,
    link: &Link,
    has: impl Fn(Fault) -> bool,
    random: &mut Random,
) -> SlotRequest {
    let mut burst = burst_of(second, link, &random_datagram(link, random));
    if has(WordOfNoSlot) {
        burst[TRAINING..HEAD].copy_from_slice(&bits(second.words.of(8 + random.below(56))));
    }
    let mut burst = inverted(&burst, &wrong_places(link, &has, random));
    if has(NonBitInTraining) {
        burst[random.below(TRAINING)] |= 2;
    }
    if has(NonBitInWord) {
        burst[TRAINING + random.below(PLACES)] |= 2;
    }
    if has(NonBitInRest) {
        burst[HEAD + random.below(link.image_length())] |= 2;
    }
    if has(RestOfWrongLength) {
        let lengths = [0, 1, link.image_length() - 1, link.image_length() + 1];
        burst.resize(HEAD + lengths[random.below(4)], 0);
    }
    if has(HeadCutShort) {
        burst.truncate(random.below(HEAD));
    }
    let buffer = match has(BufferTooShort) {
        true => random.below(link.bytes()),
        false => link.bytes(),
    };
    (burst, buffer)
}

/// Up to eight wrong places of the training are no fault. A word with eight wrong places is within
/// seven of none: words differ in at least 16.
fn wrong_places(link: &Link, has: &impl Fn(Fault) -> bool, random: &mut Random) -> Vec<usize> {
    let of_training = match has(WrongTraining) {
        true => random.one_of(&[9, 10, TRAINING]),
        false => random.below(9),
    };
    let of_word = if has(WordFarFromAll) { 8 } else { 0 };
    let of_block = if has(TwoWrongInBlock) { 2 } else { 0 };
    places_of_parts(link, [of_training, of_word, of_block], random)
}
