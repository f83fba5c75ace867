//! The tests of both implementations against vectors that packaged libraries made
//! (crosscheck/outside/README.md).

use crate::harness::archive;
use crate::harness::caller::Caller;
use crate::harness::report::{named_tests, Given, NamedTest, Test};
use crate::harness::requests::blocks::{ReadBlock, WriteBlock};
use crate::harness::samples::{filled, found};
use crate::harness::shown::{shown, shown_datagram};
use crate::outside::vectors::{Block, Outside};
use crate::outside::worked_burst::{self, WorkedBurst};
use crate::second::bits::{bits, from_bytes, inverted, of_plain_bytes};
use crate::second::crc;
use crate::second::datagrams::block;
use crate::second::encoder::{Encoder, Output};
use crate::second::images::{coded, data_of_coded};
use crate::second::links::Link;
use crate::second::scrambler::scrambled;
use crate::second::slots::HEAD;
use crate::second::Second;

pub const TESTS: &[NamedTest] = named_tests![
    outside_blocks_cover_every_link,
    outside_blocks_begin_with_the_worked_burst,
    second_encoder_equals_outside,
    second_check_equals_outside,
    second_scrambler_equals_outside,
    second_writes_the_blocks_from_outside,
    second_reads_the_blocks_from_outside,
    archive_writes_the_checks_from_outside,
    archive_writes_the_blocks_from_outside,
    archive_reads_the_blocks_from_outside,
];

/// What `compared` says of equal rows.
const EQUAL: &str = "equal";

/// The first place where two rows differ, for a person to read.
fn compared(expected: &[bool], got: &[bool]) -> String {
    if expected.len() != got.len() {
        let (expected, got) = (expected.len(), got.len());
        return format!("expected {expected} bits, got {got}");
    }
    let differs = |&place: &usize| expected[place] != got[place];
    match (0..expected.len()).find(differs) {
        None => EQUAL.to_string(),
        Some(place) => format!(
            "first at place {place} of {}, counted from 0: expected {}, got {}",
            expected.len(),
            u8::from(expected[place]),
            u8::from(got[place])
        ),
    }
}

/// One case: these bits are to be those of the vector.
fn equal(test: &mut Test, name: impl Fn() -> String, expected: &[bool], got: &[bool]) {
    test.case(name, EQUAL.to_string(), [compared(expected, got)]);
}

/// The name of a case: what is compared, the link and the datagram.
fn of_block(what: &str, block: &Block) -> String {
    let datagram = shown_datagram(&block.datagram);
    format!("{what} of link {}, {datagram}", block.link)
}

/// The image without what the scrambler from outside put on it.
fn unscrambled(outside: &Outside, image: &[bool]) -> Vec<bool> {
    let put_on = outside.scrambler.iter();
    image.iter().zip(put_on).map(|(a, b)| a ^ b).collect()
}

/// Behind the worked burst's, for each link a datagram that fills it, one of half its length, and
/// the empty one; and N.
fn outside_blocks_cover_every_link(given: &Given, test: &mut Test) {
    let outside = Outside::read(&given.tables);
    let second = Second::read(&given.tables);
    let count = 1 + 3 * second.links.all().len();
    test.case(|| "number of blocks".into(), count, [outside.blocks.len()]);
    for link in second.links.all() {
        let blocks = outside.blocks[1..]
            .iter()
            .filter(|block| block.link == link.number);
        let sizes: Vec<[usize; 2]> = blocks
            .map(|block| [block.datagram.len(), block.image.len()])
            .collect();
        let n = link.image_length();
        let expected = [link.bytes(), link.bytes() / 2, 0].map(|length| [length, n]);
        let call = || format!("bytes and N of the blocks of link {}", link.number);
        test.case(call, expected.to_vec(), [sizes]);
    }
}

/// The libraries, put together as they are here, write what M.2092-1 prints.
fn outside_blocks_begin_with_the_worked_burst(given: &Given, test: &mut Test) {
    let outside = Outside::read(&given.tables);
    let first = &outside.blocks[0];
    let printed = WorkedBurst::read(&given.tables).bits();
    let datagram = worked_burst::DATAGRAM.to_vec();
    let call = || "link and datagram of the first block".to_string();
    test.case(call, (5, datagram), [(first.link, first.datagram.clone())]);
    let call = || of_block("printed check", first);
    equal(
        test,
        call,
        &of_plain_bytes(&worked_burst::CHECK),
        &first.check,
    );
    let call = || of_block("printed image", first);
    equal(test, call, &printed[HEAD..], &first.image);
}

fn second_encoder_equals_outside(given: &Given, test: &mut Test) {
    for run in Outside::read(&given.tables).encoder {
        let mut encoder = Encoder::new();
        let mut outputs: Vec<Output> = run.input.iter().map(|&u| encoder.clock(u)).collect();
        outputs.extend([0; 3].map(|_| encoder.ending_clock()));
        for (n, name) in ["X", "Y0", "Y1"].into_iter().enumerate() {
            let row: Vec<bool> = outputs.iter().map(|output| output[n]).collect();
            let call = || format!("{name} of the input {}", shown(&bits(&run.input)));
            equal(test, call, &run.outputs[n], &row);
        }
    }
}

fn second_check_equals_outside(given: &Given, test: &mut Test) {
    for vector in Outside::read(&given.tables).checks {
        let call = || format!("check of the bits {}", shown(&bits(&vector.covered)));
        equal(test, call, &vector.check, &crc::check(&vector.covered));
    }
}

fn second_scrambler_equals_outside(given: &Given, test: &mut Test) {
    let put_on = Outside::read(&given.tables).scrambler;
    test.case(|| "bits put on".into(), 12_855, [put_on.len()]);
    let second = scrambled(&vec![false; put_on.len()]);
    equal(test, || "scrambler".into(), &put_on, &second);
}

/// The check, the image before it is scrambled, and what a writing call puts out.
fn second_writes_the_blocks_from_outside(given: &Given, test: &mut Test) {
    let outside = Outside::read(&given.tables);
    let second = Second::read(&given.tables);
    for vector in &outside.blocks {
        let link = second.links.of(vector.link);
        let block = block(link, &vector.datagram);
        let call = || of_block("check", vector);
        equal(test, call, &vector.check, &block[link.k - 32..]);
        let call = || of_block("image before scrambling", vector);
        let expected = unscrambled(&outside, &vector.image);
        equal(test, call, &expected, &coded(link, &block));
        let call = || of_block("image", vector);
        let written = second.write_block(vector.link, &vector.datagram, vector.image.len());
        let written = written.ok().and_then(|row| from_bytes(&row));
        equal(test, call, &vector.image, &written.unwrap_or_default());
    }
}

/// The image, and the image with its first, a middle or its last place inverted; how many are wrong.
fn received(vector: &Block) -> Vec<(Vec<u8>, u32)> {
    let row = bits(&vector.image);
    let wrong = [0, row.len() / 2, row.len() - 1].map(|place| (inverted(&row, &[place]), 1));
    [vec![(row, 0)], wrong.to_vec()].concat()
}

fn second_reads_the_blocks_from_outside(given: &Given, test: &mut Test) {
    let second = Second::read(&given.tables);
    for vector in Outside::read(&given.tables).blocks {
        let link = second.links.of(vector.link);
        for (row, wrong) in received(&vector) {
            let call = || of_block("the count of wrong places, reading the image", &vector);
            let reading = second.read_block(vector.link, &row, link.bytes());
            let count = reading.as_ref().map(|reading| reading.wrong);
            test.case(call, Ok(wrong), [count]);
            let call = || of_block("the datagram, reading the image", &vector);
            let read = reading.map(|reading| of_plain_bytes(&reading.datagram));
            let expected = of_plain_bytes(&filled(link, &vector.datagram));
            equal(test, call, &expected, &read.unwrap_or_default());
        }
    }
}

/// The k bits of what the archive writes: datagram, fill, check.
fn archive_writes_the_checks_from_outside(given: &Given, test: &mut Test) {
    let outside = Outside::read(&given.tables);
    let second = Second::read(&given.tables);
    for vector in &outside.blocks {
        let link = second.links.of(vector.link);
        let coded = unscrambled(&outside, &written_by_the_archive(link, &vector.datagram));
        let data = data_of_coded(link, &coded);
        let mut expected = of_plain_bytes(&vector.datagram);
        expected.resize(link.k - 32, false);
        let (covered, check) = data.split_at(link.k - 32);
        equal(test, || of_block("bits", vector), &expected, covered);
        equal(test, || of_block("check", vector), &vector.check, check);
    }
}

fn written_by_the_archive(link: &Link, datagram: &[u8]) -> Vec<bool> {
    let mut out = vec![0; link.image_length()];
    archive::write_block(link.number, &mut datagram.to_vec(), &mut out);
    from_bytes(&out).expect("the archive writes bits")
}

fn archive_writes_the_blocks_from_outside(given: &Given, test: &mut Test) {
    let mut caller = Caller::new(test);
    for vector in Outside::read(&given.tables).blocks {
        let image = bits(&vector.image);
        let n = image.len();
        caller.expect(WriteBlock(vector.link, &vector.datagram, n), Ok(image));
    }
}

fn archive_reads_the_blocks_from_outside(given: &Given, test: &mut Test) {
    let second = Second::read(&given.tables);
    let mut caller = Caller::new(test);
    for vector in Outside::read(&given.tables).blocks {
        let link = second.links.of(vector.link);
        for (row, wrong) in received(&vector) {
            let expected = found(link, &vector.datagram, wrong);
            caller.expect(ReadBlock(vector.link, &row, link.bytes()), expected);
        }
    }
}
