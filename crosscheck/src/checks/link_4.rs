//! The tests of link 4 (document 02, K4): its row, its lengths, and that it has blocks and no slot
//! bursts. What is tried on every link is tried on it too.

use crate::harness::caller::Caller;
use crate::harness::guarded::ROOM;
use crate::harness::report::{named_tests, Given, NamedTest, Test};
use crate::harness::requests::blocks::{ReadBlock, WriteBlock};
use crate::harness::requests::slots::{ReadSlot, WriteSlot};
use crate::harness::samples::{behind, image_of, random_datagram, SLOT_SIZES};
use crate::second::bits::{bits, inverted};
use crate::second::link_4::Request;
use crate::second::link_tables::LinkTables;
use crate::second::slots::{HEAD, TRAINING};
use crate::second::words::PLACES;
use crate::second::Second;

pub const TESTS: &[NamedTest] = named_tests![
    second_row_of_link_4_is_document_02s,
    second_payloads_are_table_23s,
    second_cuts_the_last_period_of_link_4,
    archive_writes_link_4_in_1281_bits,
    archive_reads_link_4_of_1281_bits,
    archive_writes_no_slot_of_link_4,
    archive_reads_no_slot_of_link_4,
];

/// The row of Table 4 with Table 23's k2 against the request's own words.
fn second_row_of_link_4_is_document_02s(given: &Given, test: &mut Test) {
    let tables = LinkTables::read(&given.tables);
    let row = tables.row(4);
    let links = tables.links();
    let [.., payload] = tables.table23.payloads;
    let [.., tail_printed] = tables.table23.tails;
    let data_bits = (1..=row.k).flat_map(|s| links.of(4).passing(s)).sum();
    let worked_out = Request {
        payload,
        check: tables.table23.check,
        k: row.k,
        k2: row.k2,
        k2_printed: tables.table4_row(4).row.k2,
        primes: row.primes,
        pattern: row.pattern,
        tail: row.tail,
        data_bits,
        tail_printed,
        n_printed: data_bits + tail_printed,
    };
    let call = || "the numbers of link 4".to_string();
    test.case(call, &tables.link_4, [&worked_out]);
}

/// What the slot links and link 4 hold; with the check it is their k.
fn second_payloads_are_table_23s(given: &Given, test: &mut Test) {
    let tables = LinkTables::read(&given.tables);
    let links = tables.links();
    for (number, payload) in [5, 6, 7, 4].into_iter().zip(tables.table23.payloads) {
        let link = links.of(number);
        let call = || format!("payload and k of link {number}");
        let printed = (payload, payload + tables.table23.check);
        test.case(call, printed, [(8 * link.bytes(), link.k)]);
    }
}

/// 952 clocks are 158 periods of six and four clocks more; Table 6 gives 12 tail bits. No other
/// link's last period is cut.
fn second_cuts_the_last_period_of_link_4(given: &Given, test: &mut Test) {
    let links = LinkTables::read(&given.tables).links();
    let link = links.of(4);
    let period = link.pattern.len();
    let call = || "periods of link 4, and clocks more".to_string();
    test.case(
        call,
        (6, 158, 4),
        [(period, link.k / period, link.k % period)],
    );
    let data: usize = (1..=link.k).flat_map(|s| link.passing(s)).sum();
    let tail: usize = link.tail.iter().flatten().sum();
    let call = || "bits of link 4's data clocks, of its tail, and N".to_string();
    test.case(call, (1269, 12, 1281), [(data, tail, link.image_length())]);
    let cut = links
        .all()
        .iter()
        .filter(|link| link.k % link.pattern.len() != 0);
    let call = || "links whose last period is cut".to_string();
    test.case(call, vec![4], [cut.map(|link| link.number).collect()]);
}

/// Into buffers as long as the data clocks, as the printed 1,280, as N and as whole periods.
fn archive_writes_link_4_in_1281_bits(given: &Given, test: &mut Test) {
    let second = Second::read(&given.tables);
    let mut random = test.random(901);
    let mut caller = Caller::new(test);
    for length in (0..=116).collect::<Vec<_>>().repeat(4) {
        let datagram = random.bytes(length);
        for buffer in [1269, 1280, 1281, 1284] {
            caller.compare(&second, WriteBlock(4, &datagram, buffer));
        }
    }
    for buffer in 0..1281 {
        caller.expect(WriteBlock(4, &[7; 115], buffer), Err(3));
    }
    caller.expect(WriteBlock(4, &[7; 116], ROOM), Err(2));
}

/// Cut to or filled up to every other length around N, 1,280 and 1,284 among them.
fn archive_reads_link_4_of_1281_bits(given: &Given, test: &mut Test) {
    let second = Second::read(&given.tables);
    let link = second.links.of(4);
    let mut random = test.random(902);
    let mut caller = Caller::new(test);
    let written = image_of(link, &random_datagram(link, &mut random));
    for length in (940..=1300).filter(|&length| length != 1281) {
        let row: Vec<u8> = written.iter().copied().cycle().take(length).collect();
        caller.expect(ReadBlock(4, &row, 115), Err(2));
    }
    for buffer in 0..115 {
        caller.expect(ReadBlock(4, &written, buffer), Err(3));
    }
}

/// Whatever is lent, also where a datagram is too long or the buffer too short.
fn archive_writes_no_slot_of_link_4(_: &Given, test: &mut Test) {
    let mut caller = Caller::new(test);
    for length in [0, 1, 32, 80, 115, 116, 128, 129, ROOM] {
        for buffer in [0, 86, 480, 992, 1366, 1367, 1504, ROOM] {
            let datagram = vec![7; length];
            caller.expect(WriteSlot(4, &datagram, buffer), Err(1));
        }
    }
}

/// A block of link 4 under its own word, with up to seven places of it and up to eight of the training
/// wrong, and behind that word what has another length or is no bit: refusal 1. With nine of the
/// training wrong: 5. The same block under a slot link's word: 2.
fn archive_reads_no_slot_of_link_4(given: &Given, test: &mut Test) {
    let second = Second::read(&given.tables);
    let link = second.links.of(4);
    let mut random = test.random(903);
    let mut caller = Caller::new(test);
    let under = |number: usize, rest: &[u8]| {
        let head = [bits(&second.training), bits(second.words.of(number))].concat();
        [&head, rest].concat()
    };
    for wrong in (0..=9).cycle().take(400) {
        let refusal = if wrong == 9 { 5 } else { 1 };
        let image = image_of(link, &random_datagram(link, &mut random));
        let of_training = random.places(wrong, TRAINING);
        let word_wrong = random.below(8);
        let of_word = behind(TRAINING, random.places(word_wrong, PLACES));
        let burst = inverted(&under(4, &image), &[of_training, of_word].concat());
        let non_bit = [&burst[..HEAD], &[2; 1281]].concat();
        for came in [&burst[..], &burst[..HEAD], &burst[..480], &non_bit] {
            for buffer in [0, 115, ROOM] {
                caller.expect(ReadSlot(came, buffer), Err(refusal));
            }
        }
        for (number, bytes, _) in SLOT_SIZES {
            let burst = under(number as usize, &image);
            caller.expect(ReadSlot(&burst, bytes), Err(2));
        }
    }
}
