//! The tests of the second implementation's readers: what is written is read back, one wrong bit is
//! mended, two are refused, and the plain reader and the quick one agree.

use crate::harness::report::{named_tests, Given, NamedTest, Test};
use crate::harness::samples::{
    burst_of, found, image_of, random_datagram, rows_with_bits_over, slot_with_wrong, two_places,
};
use crate::second::bits::{bits, from_bytes, inverted};
use crate::second::crc;
use crate::second::datagrams::block;
use crate::second::links::Link;
use crate::second::readers::{flips_with_right_check, read_plainly, read_quickly};
use crate::second::slots::SLOT_LINKS;
use crate::second::Second;

pub const TESTS: &[NamedTest] = named_tests![
    second_reads_what_it_writes,
    second_mends_one_wrong_bit,
    second_refuses_two_wrong_bits,
    second_keeps_the_bits_over_zero,
    second_reads_slots_with_one_wrong,
    second_readers_agree_on_one_wrong,
    second_readers_agree_on_two_wrong,
    second_readers_agree_on_random_bits,
    second_tries_every_flip_of_the_block,
];

/// The links whose images the plain reader reads in good time.
const SHORT_LINKS: [u32; 4] = [5, 8, 20, 32];

fn second_reads_what_it_writes(given: &Given, test: &mut Test) {
    let second = Second::read(&given.tables);
    let mut random = test.random(1);
    for link in second.links.all() {
        for _ in 0..40 {
            let datagram = random_datagram(link, &mut random);
            let written = second.write_block(link.number, &datagram, link.image_length());
            let read = written.and_then(|row| second.read_block(link.number, &row, link.bytes()));
            let call = || format!("write and read on link {}, {datagram:?}", link.number);
            test.case(call, found(link, &datagram, 0), [read]);
        }
    }
}

/// Every place of a block on the short links, random places on the others.
fn second_mends_one_wrong_bit(given: &Given, test: &mut Test) {
    let second = Second::read(&given.tables);
    let mut random = test.random(2);
    for link in second.links.all() {
        let datagram = random_datagram(link, &mut random);
        let written = image_of(link, &datagram);
        let places = match SHORT_LINKS.contains(&link.number) {
            true => (0..written.len()).collect(),
            false => random.places(100, written.len()),
        };
        for place in places {
            let row = inverted(&written, &[place]);
            let read = second.read_block(link.number, &row, link.bytes());
            let call = || format!("link {}, {datagram:?}, place {place}", link.number);
            test.case(call, found(link, &datagram, 1), [read]);
        }
    }
}

/// Random pairs of places on every link.
fn second_refuses_two_wrong_bits(given: &Given, test: &mut Test) {
    let second = Second::read(&given.tables);
    let mut random = test.random(7);
    for link in second.links.all() {
        for of_block in [0, 1, 2].repeat(10) {
            let datagram = random_datagram(link, &mut random);
            let places = two_places(link, of_block, &mut random);
            let row = inverted(&image_of(link, &datagram), &places);
            let read = second.read_block(link.number, &row, link.bytes());
            let call = || format!("link {}, {datagram:?}, places {places:?}", link.number);
            test.case(call, Err(7), [read]);
        }
    }
}

fn second_keeps_the_bits_over_zero(given: &Given, test: &mut Test) {
    let second = Second::read(&given.tables);
    let mut random = test.random(12);
    for (row, expected) in rows_with_bits_over(&second, &mut random) {
        let call = || format!("bits over that are not zero, link 12, {row:?}");
        test.case(call, expected, [second.read_block(12, &row, 117)]);
    }
}

/// Every place of a burst of each slot link.
fn second_reads_slots_with_one_wrong(given: &Given, test: &mut Test) {
    let second = Second::read(&given.tables);
    let mut random = test.random(86);
    for number in SLOT_LINKS {
        let link = second.links.of(number);
        let datagram = random_datagram(link, &mut random);
        let burst = burst_of(&second, link, &datagram);
        for place in 0..burst.len() {
            let read = second.read_slot(&inverted(&burst, &[place]), link.bytes());
            let call = || format!("slot of link {number}, {datagram:?}, place {place}");
            test.case(call, slot_with_wrong(link, &datagram, &[place]), [read]);
        }
    }
}

fn as_bits(row: &[u8]) -> Vec<bool> {
    from_bytes(row).expect("a row made here is of bits")
}

/// Both readers on this row.
fn agree(test: &mut Test, link: &Link, row: &[u8]) {
    let came = as_bits(row);
    let call = || format!("the two readers on link {}, {row:?}", link.number);
    test.case(call, read_plainly(link, &came), [read_quickly(link, &came)]);
}

/// An image as it was and with each of its places wrong; on link 32, the longest, with some.
fn second_readers_agree_on_one_wrong(given: &Given, test: &mut Test) {
    let second = Second::read(&given.tables);
    let mut random = test.random(3);
    for number in SHORT_LINKS {
        let link = second.links.of(number);
        let written = image_of(link, &random_datagram(link, &mut random));
        agree(test, link, &written);
        let places = match number {
            32 => random.places(300, written.len()),
            _ => (0..written.len()).collect(),
        };
        for place in places {
            agree(test, link, &inverted(&written, &[place]));
        }
    }
}

fn second_readers_agree_on_two_wrong(given: &Given, test: &mut Test) {
    let second = Second::read(&given.tables);
    let mut random = test.random(4);
    for number in SHORT_LINKS {
        let link = second.links.of(number);
        for of_block in [0, 1, 2].repeat(33) {
            let written = image_of(link, &random_datagram(link, &mut random));
            let places = two_places(link, of_block, &mut random);
            agree(test, link, &inverted(&written, &places));
        }
    }
}

fn second_readers_agree_on_random_bits(given: &Given, test: &mut Test) {
    let second = Second::read(&given.tables);
    let mut random = test.random(5);
    for number in SHORT_LINKS {
        let link = second.links.of(number);
        for _ in 0..50 {
            agree(test, link, &random.bits(link.image_length()));
        }
    }
}

/// The flips that the quick reader tries, against the check of the k bits with each one inverted:
/// in blocks with the first bit wrong, with the last, and with one to three of them.
fn second_tries_every_flip_of_the_block(given: &Given, test: &mut Test) {
    let second = Second::read(&given.tables);
    let mut random = test.random(6);
    for link in second.links.all() {
        let random_places = (1..=3).map(|count| random.places(count, link.k));
        let mut damages = vec![vec![0], vec![link.k - 1]];
        damages.extend(random_places);
        for places in damages {
            let sent = block(link, &random_datagram(link, &mut random));
            let damaged = inverted(&bits(&sent), &places);
            let right = |place| has_right_check(link, &inverted(&damaged, &[place]));
            let flips: Vec<usize> = (0..link.k).rev().filter(|&place| right(place)).collect();
            let call = || format!("flips on link {}, places {places:?}", link.number);
            test.case(call, flips, [flips_with_right_check(&as_bits(&damaged))]);
        }
    }
}

fn has_right_check(link: &Link, row: &[u8]) -> bool {
    let block = as_bits(row);
    let (covered, check) = block.split_at(link.k - 32);
    check == crc::check(covered)
}
