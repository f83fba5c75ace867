//! Slot bursts with noise in them (document 02, K7), and what reading each answers: it is known from how
//! many places of the training, of the word and of the block are wrong.

use crate::harness::every_status::Answered;
use crate::harness::random::Random;
use crate::harness::samples::{burst_of, places_of_parts, random_datagram, slot_with_wrong};
use crate::second::bits::inverted;
use crate::second::links::Link;
use crate::second::slots::{SLOT_LINKS, TRAINING};
use crate::second::Second;

/// The symbols of the training, of two bits each.
const SYMBOLS: usize = 27;

/// A burst of each slot link for each of the sets of places that are to be wrong in it.
fn on_each_link(
    second: &Second,
    random: &mut Random,
    sets: impl Fn(&Link, &mut Random) -> Vec<Vec<usize>>,
) -> Vec<Answered> {
    let mut bursts = Vec::new();
    for link in SLOT_LINKS.map(|number| second.links.of(number)) {
        let datagram = random_datagram(link, random);
        let written = burst_of(second, link, &datagram);
        bursts.extend(sets(link, random).into_iter().map(|places| {
            let answer = slot_with_wrong(link, &datagram, &places);
            ((inverted(&written, &places), link.bytes()), answer)
        }));
    }
    bursts
}

/// Every place of the training, and every two.
pub fn one_or_two_wrong(second: &Second, random: &mut Random) -> Vec<Answered> {
    let two = |one| (0..one).map(move |other| vec![one, other]);
    on_each_link(second, random, |_, _| {
        let of_one = (0..TRAINING).map(|one| vec![one]);
        of_one.chain((0..TRAINING).flat_map(two)).collect()
    })
}

/// Many sets of eight places, which are read, and of nine, which are refused.
pub fn eight_or_nine_wrong(second: &Second, random: &mut Random) -> Vec<Answered> {
    on_each_link(second, random, |_, random| {
        let counts = [8, 9].into_iter().cycle().take(6000);
        counts.map(|count| random.places(count, TRAINING)).collect()
    })
}

/// Nine to all of its bits, and one set more: the 27 symbols sent twice as single bits.
pub fn many_wrong(second: &Second, random: &mut Random) -> Vec<Answered> {
    on_each_link(second, random, |_, random| {
        let training = &second.training;
        let single = |place: &usize| training[2 * (place % SYMBOLS)];
        let sent_twice = (0..TRAINING).filter(|place| single(place) != training[*place]);
        let sent_twice: Vec<usize> = sent_twice.collect();
        let many = (9..=TRAINING).map(|count| random.places(count, TRAINING));
        many.chain([sent_twice]).collect()
    })
}

/// Sets of eight and nine bits in few and in many symbols, which a count of symbols would judge
/// otherwise, and sets of none to twelve places that all stand in one half of the training: the first
/// bits of its symbols or the second ones, the first 32 bits or those behind them.
pub fn wrong_in_symbols(second: &Second, random: &mut Random) -> Vec<Answered> {
    on_each_link(second, random, |_, random| {
        let sets = (0..50).flat_map(|_| [sets_of_symbols(random), sets_of_halves(random)].concat());
        sets.collect()
    })
}

/// Both bits of four symbols, nine bits in five symbols, and eight and nine bits in as many symbols.
fn sets_of_symbols(random: &mut Random) -> Vec<Vec<usize>> {
    let symbols = random.places(9, SYMBOLS);
    let mut one_bit = |symbol: &usize| 2 * symbol + random.below(2);
    let both_bits = |symbol: &usize| [2 * symbol, 2 * symbol + 1];
    let in_four: Vec<usize> = symbols[..4].iter().flat_map(both_bits).collect();
    let in_five = [&in_four[..], &[one_bit(&symbols[4])]].concat();
    let in_nine: Vec<usize> = symbols.iter().map(one_bit).collect();
    let in_eight = in_nine[..8].to_vec();
    vec![in_four, in_five, in_eight, in_nine]
}

fn sets_of_halves(random: &mut Random) -> Vec<Vec<usize>> {
    let firsts: Vec<usize> = (0..TRAINING).step_by(2).collect();
    let seconds: Vec<usize> = (1..TRAINING).step_by(2).collect();
    let halves = [firsts, seconds, (0..32).collect(), (32..TRAINING).collect()];
    let mut sets = Vec::new();
    for count in 0..=12 {
        sets.extend(halves.iter().map(|half| random.chosen(count, half)));
    }
    sets
}

/// None to twelve wrong in the training with none to eight in the word and none to two in the block:
/// each of these mixes at random places, so many times.
pub fn wrong_in_every_part(second: &Second, times: usize, random: &mut Random) -> Vec<Answered> {
    on_each_link(second, random, |link, random| {
        let mut sets = Vec::new();
        for training in (0..=12).collect::<Vec<_>>().repeat(times) {
            for word in 0..=8 {
                let counts = [0, 1, 2].map(|block| [training, word, block]);
                sets.extend(counts.map(|counts| places_of_parts(link, counts, random)));
            }
        }
        sets
    })
}
