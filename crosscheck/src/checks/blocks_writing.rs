//! The tests of writing blocks: the archive against the worked slot burst and the second
//! implementation.

use crate::harness::caller::Caller;
use crate::harness::guarded::ROOM;
use crate::harness::ordered_faults::{self, NOT_OFFERED};
use crate::harness::random::Random;
use crate::harness::report::{named_tests, Given, NamedTest, Test};
use crate::harness::requests::blocks::WriteBlock;
use crate::harness::samples::random_datagram;
use crate::outside::worked_burst::{self, WorkedBurst};
use crate::second::bits::bits;
use crate::second::links::Link;
use crate::second::slots::HEAD;
use crate::second::Second;

pub const TESTS: &[NamedTest] = named_tests![
    archive_writes_the_worked_block,
    archive_writes_blocks_of_all_lengths,
    archive_writes_blocks_of_equal_bytes,
    archive_writes_blocks_of_single_ones,
    archive_writes_blocks_into_any_buffer,
    archive_writes_blocks_of_offered_links,
    archive_refuses_long_datagrams,
    archive_orders_refusals_to_write_blocks,
    archive_writes_blocks_from_read_only_pages,
];

/// The links on which a datagram of every length is written.
const EVERY_LENGTH: [u32; 6] = [4, 5, 8, 12, 20, 32];

/// With and without the twenty zero bytes that the fill puts there.
fn archive_writes_the_worked_block(given: &Given, test: &mut Test) {
    let mut caller = Caller::new(test);
    let block = bits(&WorkedBurst::read(&given.tables).bits()[HEAD..]);
    for datagram in [worked_burst::datagram(), worked_burst::DATAGRAM.to_vec()] {
        let expected = Ok(block.clone());
        caller.expect(WriteBlock(5, &datagram, 394), expected);
    }
}

/// Random bytes: every length on some links, about fifty on the others, and one byte too many.
fn archive_writes_blocks_of_all_lengths(given: &Given, test: &mut Test) {
    let second = Second::read(&given.tables);
    let mut random = test.random(101);
    let mut caller = Caller::new(test);
    for link in second.links.all() {
        let mut lengths = match EVERY_LENGTH.contains(&link.number) {
            true => (0..=link.bytes()).collect(),
            false => some_lengths(link, &mut random),
        };
        lengths.push(link.bytes() + 1);
        for length in lengths {
            let datagram = random.bytes(length);
            let buffer = link.image_length();
            caller.compare(&second, WriteBlock(link.number, &datagram, buffer));
        }
    }
}

fn some_lengths(link: &Link, random: &mut Random) -> Vec<usize> {
    let ends = [0, 1, 2, link.bytes() - 1, link.bytes()];
    let between = random.places(45, link.bytes());
    ends.into_iter().chain(between).collect()
}

/// All zeros, all ones and other equal bytes, in full datagrams and in shorter ones.
fn archive_writes_blocks_of_equal_bytes(given: &Given, test: &mut Test) {
    let second = Second::read(&given.tables);
    let mut caller = Caller::new(test);
    for link in second.links.all() {
        for byte in [0, 255, 1, 128, 85] {
            for length in [link.bytes(), link.bytes() / 2, 1] {
                let buffer = link.image_length();
                let datagram = vec![byte; length];
                caller.compare(&second, WriteBlock(link.number, &datagram, buffer));
            }
        }
    }
}

/// Datagrams with a single bit set: every bit on links of up to 128 bytes, 200 bits on the others.
fn archive_writes_blocks_of_single_ones(given: &Given, test: &mut Test) {
    let second = Second::read(&given.tables);
    let mut random = test.random(102);
    let mut caller = Caller::new(test);
    for link in second.links.all() {
        let bits = 8 * link.bytes();
        let set = match link.bytes() {
            0..=128 => (0..bits).collect(),
            _ => [random.places(198, bits), vec![0, bits - 1]].concat(),
        };
        for bit in set {
            let mut datagram = vec![0; link.bytes()];
            datagram[bit / 8] = 128 >> (bit % 8);
            let buffer = link.image_length();
            caller.compare(&second, WriteBlock(link.number, &datagram, buffer));
        }
    }
}

fn archive_writes_blocks_into_any_buffer(given: &Given, test: &mut Test) {
    let second = Second::read(&given.tables);
    let mut random = test.random(103);
    let mut caller = Caller::new(test);
    for link in second.links.all() {
        let n = link.image_length();
        for buffer in [0, 1, n / 2, n - 8, n - 1, n, n + 1, n + 7, n + 1000, ROOM] {
            let datagram = random_datagram(link, &mut random);
            caller.compare(&second, WriteBlock(link.number, &datagram, buffer));
        }
    }
}

/// Numbers 0 to 70 and larger ones that end in the bits of an offered link.
fn archive_writes_blocks_of_offered_links(given: &Given, test: &mut Test) {
    let second = Second::read(&given.tables);
    let mut random = test.random(104);
    let mut caller = Caller::new(test);
    let offered = second.links.all().iter().map(|link| link.number);
    let ending_alike = offered.flat_map(|n| [64, 128, 256, 65_536, 1 << 31].map(|more| more + n));
    for number in (0..=70).chain(NOT_OFFERED).chain(ending_alike) {
        for length in [0, 8] {
            let datagram = random.bytes(length);
            caller.compare(&second, WriteBlock(number, &datagram, ROOM));
        }
    }
}

/// Also by as many bytes as a narrow count forgets.
fn archive_refuses_long_datagrams(given: &Given, test: &mut Test) {
    let second = Second::read(&given.tables);
    let mut caller = Caller::new(test);
    for link in second.links.all() {
        for more in [1, 2, 8, 64, 256, 512, 1024, 8192] {
            let datagram = vec![0; link.bytes() + more];
            caller.expect(WriteBlock(link.number, &datagram, ROOM), Err(2));
        }
        caller.expect(WriteBlock(link.number, &[0; ROOM], ROOM), Err(2));
    }
}

fn archive_orders_refusals_to_write_blocks(_: &Given, test: &mut Test) {
    let mut caller = Caller::new(test);
    for ((link, bytes, buffer), refusal) in ordered_faults::writing_blocks() {
        caller.expect(WriteBlock(link, &vec![1; bytes], buffer), Err(refusal));
    }
}

fn archive_writes_blocks_from_read_only_pages(given: &Given, test: &mut Test) {
    let second = Second::read(&given.tables);
    let mut random = test.random(105);
    let mut caller = Caller::with_read_only_input(test);
    for link in second.links.all() {
        for length in [0, 1, link.bytes(), link.bytes() + 1] {
            let datagram = random.bytes(length);
            for buffer in [0, link.image_length() - 1, link.image_length()] {
                caller.compare(&second, WriteBlock(link.number, &datagram, buffer));
            }
        }
    }
}
