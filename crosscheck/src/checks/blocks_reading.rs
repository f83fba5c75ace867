//! The tests of reading blocks: the archive against the worked slot burst, against what was
//! written, and against the second implementation.

use crate::harness::caller::Caller;
use crate::harness::guarded::ROOM;
use crate::harness::ordered_faults::{self, NOT_OFFERED};
use crate::harness::report::{named_tests, Given, NamedTest, Test};
use crate::harness::requests::blocks::ReadBlock;
use crate::harness::samples::{
    found, image_of, other_places, random_datagram, rows_with_bits_over, two_places,
};
use crate::outside::worked_burst::{self, WorkedBurst};
use crate::second::bits::{bits, inverted};
use crate::second::slots::HEAD;
use crate::second::Second;

pub const TESTS: &[NamedTest] = named_tests![
    archive_reads_the_worked_block,
    archive_reads_written_blocks,
    archive_mends_every_wrong_bit,
    archive_reads_every_two_wrong_on_link_20,
    archive_reads_two_wrong,
    archive_reads_three_to_ten_wrong,
    archive_compares_the_bits_behind_the_check,
    archive_reads_random_bits,
    archive_keeps_the_bits_over_zero,
    archive_refuses_non_bits_in_blocks,
    archive_refuses_lengths_of_blocks,
    archive_reads_blocks_into_any_buffer,
    archive_reads_blocks_of_offered_links,
    archive_orders_refusals_to_read_blocks,
    archive_reads_blocks_on_read_only_pages,
];

/// As it is printed, and with each of its places inverted.
fn archive_reads_the_worked_block(given: &Given, test: &mut Test) {
    let second = Second::read(&given.tables);
    let link = second.links.of(5);
    let mut caller = Caller::new(test);
    let datagram = worked_burst::datagram();
    let row = bits(&WorkedBurst::read(&given.tables).bits()[HEAD..]);
    caller.expect(ReadBlock(5, &row, 32), found(link, &datagram, 0));
    for place in 0..row.len() {
        let row = inverted(&row, &[place]);
        caller.expect(ReadBlock(5, &row, 32), found(link, &datagram, 1));
    }
}

/// Random datagrams, all zeros and all ones, the empty one too.
fn archive_reads_written_blocks(given: &Given, test: &mut Test) {
    let second = Second::read(&given.tables);
    let mut random = test.random(201);
    let mut caller = Caller::new(test);
    for link in second.links.all() {
        let mut datagrams = vec![vec![], vec![0; link.bytes()], vec![255; link.bytes()]];
        datagrams.extend((0..460).map(|_| random_datagram(link, &mut random)));
        for datagram in datagrams {
            let row = image_of(link, &datagram);
            let expected = found(link, &datagram, 0);
            caller.expect(ReadBlock(link.number, &row, link.bytes()), expected);
        }
    }
}

/// Every place of a block of each link, of three blocks on six of them; on the longest 2,000 places
/// and the last hundred.
fn archive_mends_every_wrong_bit(given: &Given, test: &mut Test) {
    let second = Second::read(&given.tables);
    let mut random = test.random(202);
    let mut caller = Caller::new(test);
    for link in second.links.all() {
        let n = link.image_length();
        let blocks = match link.number {
            4 | 5 | 8 | 12 | 20 | 32 => 3,
            _ => 1,
        };
        for _ in 0..blocks {
            let datagram = random_datagram(link, &mut random);
            let written = image_of(link, &datagram);
            let places = match n {
                0..=3000 => (0..n).collect(),
                _ => [random.places(2000, n - 100), (n - 100..n).collect()].concat(),
            };
            for place in places {
                let row = inverted(&written, &[place]);
                let expected = found(link, &datagram, 1);
                caller.expect(ReadBlock(link.number, &row, link.bytes()), expected);
            }
        }
    }
}

fn archive_reads_every_two_wrong_on_link_20(given: &Given, test: &mut Test) {
    let second = Second::read(&given.tables);
    let link = second.links.of(20);
    let mut random = test.random(203);
    let mut caller = Caller::new(test);
    let written = image_of(link, &random_datagram(link, &mut random));
    for one in 0..written.len() {
        for other in 0..one {
            let row = inverted(&written, &[one, other]);
            caller.compare(&second, ReadBlock(20, &row, link.bytes()));
        }
    }
}

/// Pairs with none, one or both of the places where bits of the block stand.
fn archive_reads_two_wrong(given: &Given, test: &mut Test) {
    let second = Second::read(&given.tables);
    let mut random = test.random(204);
    let mut caller = Caller::new(test);
    for link in second.links.all() {
        for of_block in [0, 1, 2].repeat(100) {
            let written = image_of(link, &random_datagram(link, &mut random));
            let row = inverted(&written, &two_places(link, of_block, &mut random));
            caller.compare(&second, ReadBlock(link.number, &row, link.bytes()));
        }
    }
}

fn archive_reads_three_to_ten_wrong(given: &Given, test: &mut Test) {
    let second = Second::read(&given.tables);
    let mut random = test.random(205);
    let mut caller = Caller::new(test);
    for link in second.links.all() {
        for count in (3..=10).cycle().take(40) {
            let written = image_of(link, &random_datagram(link, &mut random));
            let row = inverted(&written, &random.places(count, written.len()));
            caller.compare(&second, ReadBlock(link.number, &row, link.bytes()));
        }
    }
}

/// The k bits of a valid block, or these with one wrong, among other bits that are another block's,
/// or all wrong, or wrong in two places.
fn archive_compares_the_bits_behind_the_check(given: &Given, test: &mut Test) {
    let second = Second::read(&given.tables);
    let mut random = test.random(206);
    let mut caller = Caller::new(test);
    for link in second.links.all() {
        let others = other_places(link);
        for wrong_of_block in [0, 1].repeat(3) {
            let written = image_of(link, &random_datagram(link, &mut random));
            let of_block = random.chosen(wrong_of_block, &link.data_places());
            let sent = inverted(&written, &of_block);

            let mut mixed = sent.clone();
            let stranger = image_of(link, &random.bytes(link.bytes()));
            others.iter().for_each(|&n| mixed[n] = stranger[n]);
            let two = inverted(&sent, &random.chosen(2, &others));
            for row in [mixed, inverted(&sent, &others), two] {
                caller.compare(&second, ReadBlock(link.number, &row, link.bytes()));
            }
        }
    }
}

fn archive_reads_random_bits(given: &Given, test: &mut Test) {
    let second = Second::read(&given.tables);
    let mut random = test.random(207);
    let mut caller = Caller::new(test);
    for link in second.links.all() {
        let n = link.image_length();
        let mut rows = vec![vec![0; n], vec![1; n]];
        rows.extend((0..60).map(|_| random.bits(n)));
        for row in rows {
            caller.compare(&second, ReadBlock(link.number, &row, link.bytes()));
        }
    }
}

fn archive_keeps_the_bits_over_zero(given: &Given, test: &mut Test) {
    let second = Second::read(&given.tables);
    let mut random = test.random(208);
    let mut caller = Caller::new(test);
    for (row, expected) in (0..10).flat_map(|_| rows_with_bits_over(&second, &mut random)) {
        caller.expect(ReadBlock(12, &row, 117), expected);
    }
}

/// In every place on links 4, 5 and 20, in the first, the last and random places on the others.
fn archive_refuses_non_bits_in_blocks(given: &Given, test: &mut Test) {
    let second = Second::read(&given.tables);
    let mut random = test.random(209);
    let mut caller = Caller::new(test);
    for link in second.links.all() {
        let n = link.image_length();
        let written = image_of(link, &random_datagram(link, &mut random));
        let places = match link.number {
            4 | 5 | 20 => (0..n).collect(),
            _ => [vec![0, n - 1], random.places(30, n)].concat(),
        };
        for place in places {
            for non_bit in [2, 3, 48, 49, 128, 129, 254, 255] {
                let mut row = written.clone();
                row[place] = non_bit;
                caller.expect(ReadBlock(link.number, &row, link.bytes()), Err(4));
            }
        }
    }
}

/// Too short, too long, the lengths of other links and of slot bursts: cut from an image or with
/// bits behind it.
fn archive_refuses_lengths_of_blocks(given: &Given, test: &mut Test) {
    let second = Second::read(&given.tables);
    let mut random = test.random(210);
    let mut caller = Caller::new(test);
    for link in second.links.all() {
        let n = link.image_length();
        let written = image_of(link, &random_datagram(link, &mut random));
        let near = [
            0,
            1,
            n / 2,
            n - 8,
            n - 1,
            n + 1,
            n + 2,
            n + 8,
            n + HEAD,
            2 * n,
        ];
        let of_others = second.links.all().iter().map(|other| other.image_length());
        let narrow = [256, 65_536 - 256].map(|more| (n + more).min(ROOM));
        for length in near.into_iter().chain(of_others).chain(narrow) {
            let row: Vec<u8> = written.iter().copied().cycle().take(length).collect();
            let expected = match length == n {
                true => second.read_block(link.number, &row, link.bytes()),
                false => Err(2),
            };
            caller.expect(ReadBlock(link.number, &row, link.bytes()), expected);
        }
    }
}

fn archive_reads_blocks_into_any_buffer(given: &Given, test: &mut Test) {
    let second = Second::read(&given.tables);
    let mut random = test.random(211);
    let mut caller = Caller::new(test);
    for link in second.links.all() {
        let bytes = link.bytes();
        let near = [0, 1, bytes / 2, bytes - 1, bytes, bytes + 1, bytes + 7];
        for buffer in near.into_iter().chain([bytes + 1000, ROOM]) {
            let written = image_of(link, &random_datagram(link, &mut random));
            let one_wrong = inverted(&written, &random.places(1, written.len()));
            let two_wrong = inverted(&written, &random.places(2, written.len()));
            for row in [written, one_wrong, two_wrong] {
                caller.compare(&second, ReadBlock(link.number, &row, buffer));
            }
        }
    }
}

/// Numbers 0 to 70 and larger ones that end in the bits of an offered link, each with images of
/// links 5 and 20 and of the link whose bits they end in.
fn archive_reads_blocks_of_offered_links(given: &Given, test: &mut Test) {
    let second = Second::read(&given.tables);
    let mut caller = Caller::new(test);
    let images = [5, 20].map(|number| image_of(second.links.of(number), &[1, 2, 3]));
    for number in (0..=70).chain(NOT_OFFERED) {
        for row in &images {
            caller.compare(&second, ReadBlock(number, row, ROOM));
        }
    }
    for link in second.links.all() {
        let row = image_of(link, &[1, 2, 3]);
        for more in [64, 128, 256, 65_536, 1 << 31] {
            let number = more + link.number;
            caller.expect(ReadBlock(number, &row, link.bytes()), Err(1));
        }
    }
}

fn archive_orders_refusals_to_read_blocks(given: &Given, test: &mut Test) {
    let second = Second::read(&given.tables);
    let mut caller = Caller::new(test);
    for ((link, row, buffer), refusal) in ordered_faults::reading_blocks(&second) {
        caller.expect(ReadBlock(link, &row, buffer), Err(refusal));
    }
}

fn archive_reads_blocks_on_read_only_pages(given: &Given, test: &mut Test) {
    let second = Second::read(&given.tables);
    let mut random = test.random(212);
    let mut caller = Caller::with_read_only_input(test);
    for link in second.links.all() {
        for count in 0..=2 {
            let written = image_of(link, &random_datagram(link, &mut random));
            let row = inverted(&written, &random.places(count, written.len()));
            for buffer in [0, link.bytes()] {
                caller.compare(&second, ReadBlock(link.number, &row, buffer));
                caller.compare(&second, ReadBlock(link.number, &row[1..], buffer));
            }
            let non_bit = [&row[1..], &[2]].concat();
            caller.compare(&second, ReadBlock(link.number, &non_bit, ROOM));
        }
    }
}
