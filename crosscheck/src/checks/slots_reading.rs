//! The tests of reading slot bursts: the archive against the worked slot burst, against what was
//! written, and against the second implementation.

use crate::harness::archive;
use crate::harness::caller::Caller;
use crate::harness::guarded::ROOM;
use crate::harness::report::{named_tests, Given, NamedTest, Test};
use crate::harness::requests::slots::ReadSlot;
use crate::harness::samples::{
    behind, burst_of, random_datagram, slot_found, slot_with_wrong, two_places, SLOT_SIZES,
};
use crate::outside::worked_burst::{self, WorkedBurst};
use crate::second::bits::{bits, inverted};
use crate::second::slots::{HEAD, SLOT_LINKS, TRAINING};
use crate::second::words::{differing_places, PLACES};
use crate::second::Second;

pub const TESTS: &[NamedTest] = named_tests![
    archive_reads_the_worked_burst,
    archive_reads_written_slots,
    archive_reads_back_the_slots_it_writes,
    archive_reads_slots_with_one_wrong,
    archive_reads_every_two_wrong_in_a_slot,
    archive_reads_slots_with_seven_wrong_in_the_word,
    archive_reads_slots_with_more_wrong_in_the_word,
    archive_reads_slots_between_words,
    archive_refuses_two_wrong_in_slots,
    archive_reads_slots_of_random_bits,
    archive_reads_slots_into_any_buffer,
    archive_reads_slots_over_any_bytes,
    archive_reads_slots_on_read_only_pages,
];

/// As it is printed, and with each of its places inverted.
fn archive_reads_the_worked_burst(given: &Given, test: &mut Test) {
    let second = Second::read(&given.tables);
    let link = second.links.of(5);
    let mut caller = Caller::new(test);
    let datagram = worked_burst::datagram();
    let burst = bits(&WorkedBurst::read(&given.tables).bits());
    let expected = slot_found(link, &datagram);
    caller.expect(ReadSlot(&burst, 32), expected);
    for place in 0..burst.len() {
        let burst = inverted(&burst, &[place]);
        let expected = slot_with_wrong(link, &datagram, &[place]);
        caller.expect(ReadSlot(&burst, 32), expected);
    }
}

/// Random datagrams, all zeros and all ones, the empty one too.
fn archive_reads_written_slots(given: &Given, test: &mut Test) {
    let second = Second::read(&given.tables);
    let mut random = test.random(401);
    let mut caller = Caller::new(test);
    for number in SLOT_LINKS {
        let link = second.links.of(number);
        let mut datagrams = vec![vec![], vec![0; link.bytes()], vec![255; link.bytes()]];
        datagrams.extend((0..1000).map(|_| random_datagram(link, &mut random)));
        for datagram in datagrams {
            let burst = burst_of(&second, link, &datagram);
            let expected = slot_found(link, &datagram);
            caller.expect(ReadSlot(&burst, link.bytes()), expected);
        }
    }
}

/// Both calls are the archive's: datagrams of every length that the link holds.
fn archive_reads_back_the_slots_it_writes(given: &Given, test: &mut Test) {
    let second = Second::read(&given.tables);
    let mut random = test.random(402);
    let mut caller = Caller::new(test);
    for (number, bytes, length) in SLOT_SIZES {
        let link = second.links.of(number);
        for count in (0..=bytes).collect::<Vec<_>>().repeat(10) {
            let mut datagram = random.bytes(count);
            let mut burst = vec![0; length];
            archive::write_slot(number, &mut datagram, &mut burst);
            let expected = slot_found(link, &datagram);
            caller.expect(ReadSlot(&burst, bytes), expected);
        }
    }
}

/// Every place of three bursts of each link.
fn archive_reads_slots_with_one_wrong(given: &Given, test: &mut Test) {
    let second = Second::read(&given.tables);
    let mut random = test.random(403);
    let mut caller = Caller::new(test);
    for number in SLOT_LINKS.repeat(3) {
        let link = second.links.of(number);
        let datagram = random_datagram(link, &mut random);
        let written = burst_of(&second, link, &datagram);
        for place in 0..written.len() {
            let burst = inverted(&written, &[place]);
            let expected = slot_with_wrong(link, &datagram, &[place]);
            caller.expect(ReadSlot(&burst, link.bytes()), expected);
        }
    }
}

/// Every two places of a burst of link 5: whichever part each of them stands in.
fn archive_reads_every_two_wrong_in_a_slot(given: &Given, test: &mut Test) {
    let second = Second::read(&given.tables);
    let link = second.links.of(5);
    let mut random = test.random(404);
    let mut caller = Caller::new(test);
    let datagram = random_datagram(link, &mut random);
    let written = burst_of(&second, link, &datagram);
    for one in 0..written.len() {
        for other in 0..one {
            let burst = inverted(&written, &[one, other]);
            let expected = slot_with_wrong(link, &datagram, &[one, other]);
            caller.expect(ReadSlot(&burst, 32), expected);
        }
    }
}

/// None to seven wrong in the word and none or one in the block: each is counted by itself.
fn archive_reads_slots_with_seven_wrong_in_the_word(given: &Given, test: &mut Test) {
    let second = Second::read(&given.tables);
    let mut random = test.random(405);
    let mut caller = Caller::new(test);
    for number in SLOT_LINKS.repeat(100) {
        let link = second.links.of(number);
        let datagram = random_datagram(link, &mut random);
        let written = burst_of(&second, link, &datagram);
        for word_wrong in 0..=7 {
            for wrong in 0..=1 {
                let of_word = behind(TRAINING, random.places(word_wrong, PLACES));
                let of_block = behind(HEAD, random.places(wrong, link.image_length()));
                let places = [of_word, of_block].concat();
                let burst = inverted(&written, &places);
                let expected = slot_with_wrong(link, &datagram, &places);
                caller.expect(ReadSlot(&burst, link.bytes()), expected);
            }
        }
    }
}

/// Eight wrong are refused with 6, since words differ in at least 16 places; more may be near to
/// another word.
fn archive_reads_slots_with_more_wrong_in_the_word(given: &Given, test: &mut Test) {
    let second = Second::read(&given.tables);
    let mut random = test.random(406);
    let mut caller = Caller::new(test);
    for number in SLOT_LINKS.repeat(300) {
        let link = second.links.of(number);
        let written = burst_of(&second, link, &random_datagram(link, &mut random));
        let eight = behind(TRAINING, random.places(8, PLACES));
        let far = inverted(&written, &eight);
        caller.expect(ReadSlot(&far, link.bytes()), Err(6));
        for word_wrong in 9..=16 {
            let of_word = behind(TRAINING, random.places(word_wrong, PLACES));
            let burst = inverted(&written, &of_word);
            caller.compare(&second, ReadSlot(&burst, link.bytes()));
        }
    }
}

/// From the word of each slot link to every word, one differing place after another: the burst
/// stays as long as it was, and its rest is read as a block of the link whose word is near.
fn archive_reads_slots_between_words(given: &Given, test: &mut Test) {
    let second = Second::read(&given.tables);
    let mut random = test.random(407);
    let mut caller = Caller::new(test);
    for number in SLOT_LINKS {
        let link = second.links.of(number);
        let written = burst_of(&second, link, &random_datagram(link, &mut random));
        let word = second.words.of(number as usize);
        for other in 0..64 {
            let places = behind(TRAINING, differing_places(word, second.words.of(other)));
            for count in 0..=places.len() {
                let burst = inverted(&written, &places[..count]);
                caller.compare(&second, ReadSlot(&burst, link.bytes()));
            }
        }
    }
}

/// Pairs with none, one or both of the places where bits of the block stand, under words with none
/// to seven wrong.
fn archive_refuses_two_wrong_in_slots(given: &Given, test: &mut Test) {
    let second = Second::read(&given.tables);
    let mut random = test.random(408);
    let mut caller = Caller::new(test);
    for number in SLOT_LINKS {
        let link = second.links.of(number);
        for of_block in [0, 1, 2].repeat(300) {
            let written = burst_of(&second, link, &random_datagram(link, &mut random));
            let two = behind(HEAD, two_places(link, of_block, &mut random));
            let word_wrong = random.below(8);
            let of_word = behind(TRAINING, random.places(word_wrong, PLACES));
            let burst = inverted(&written, &[two, of_word].concat());
            caller.expect(ReadSlot(&burst, link.bytes()), Err(7));
        }
    }
}

/// Random bits all over, behind the training, and behind the head of each link.
fn archive_reads_slots_of_random_bits(given: &Given, test: &mut Test) {
    let second = Second::read(&given.tables);
    let mut random = test.random(409);
    let mut caller = Caller::new(test);
    for (number, bytes, length) in SLOT_SIZES {
        let written = burst_of(&second, second.links.of(number), &[]);
        for kept in [0, TRAINING, HEAD].repeat(300) {
            let burst = [&written[..kept], &random.bits(length - kept)].concat();
            caller.compare(&second, ReadSlot(&burst, bytes));
        }
    }
}

fn archive_reads_slots_into_any_buffer(given: &Given, test: &mut Test) {
    let second = Second::read(&given.tables);
    let mut random = test.random(410);
    let mut caller = Caller::new(test);
    for (number, bytes, length) in SLOT_SIZES {
        let link = second.links.of(number);
        let near = [0, 1, bytes / 2, bytes - 1, bytes, bytes + 1, bytes + 7];
        for buffer in near.into_iter().chain([bytes + 1000, ROOM]) {
            let written = burst_of(&second, link, &random_datagram(link, &mut random));
            for wrong in 0..=2 {
                let places = behind(HEAD, random.places(wrong, length - HEAD));
                let burst = inverted(&written, &places);
                caller.compare(&second, ReadSlot(&burst, buffer));
            }
        }
    }
}

/// Read, mended and refused over buffers filled with each of the 256 bytes.
fn archive_reads_slots_over_any_bytes(given: &Given, test: &mut Test) {
    let second = Second::read(&given.tables);
    let mut random = test.random(411);
    let mut caller = Caller::over_any_bytes(test);
    for (number, bytes, length) in SLOT_SIZES {
        let link = second.links.of(number);
        for wrong in 0..=2 {
            let written = burst_of(&second, link, &random_datagram(link, &mut random));
            let places = behind(HEAD, random.places(wrong, length - HEAD));
            let burst = inverted(&written, &places);
            for buffer in [bytes - 1, bytes, bytes + 9] {
                caller.compare(&second, ReadSlot(&burst, buffer));
            }
        }
    }
}

fn archive_reads_slots_on_read_only_pages(given: &Given, test: &mut Test) {
    let second = Second::read(&given.tables);
    let mut random = test.random(412);
    let mut caller = Caller::with_read_only_input(test);
    for (number, bytes, length) in SLOT_SIZES {
        let link = second.links.of(number);
        for wrong in 0..=2 {
            let written = burst_of(&second, link, &random_datagram(link, &mut random));
            let burst = inverted(&written, &random.places(wrong, length));
            for cut in [0, TRAINING, HEAD - 1, HEAD, length - 1, length] {
                caller.compare(&second, ReadSlot(&burst[..cut], bytes));
                caller.compare(&second, ReadSlot(&burst[..cut], 0));
            }
            let non_bit = [&burst[..length - 1], &[2]].concat();
            caller.compare(&second, ReadSlot(&non_bit, ROOM));
        }
    }
}
