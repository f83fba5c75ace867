//! The tests of the second implementation's refusals and counts.

use crate::harness::message_faults;
use crate::harness::mixed_faults;
use crate::harness::ordered_faults;
use crate::harness::report::{named_tests, Given, NamedTest, Test};
use crate::harness::requests::message_writing::WriteMessage;
use crate::harness::requests::Request;
use crate::harness::samples::SLOT_SIZES;
use crate::second::slots::SLOT_LINKS;
use crate::second::Second;

pub const TESTS: &[NamedTest] = named_tests![
    second_holds_p10,
    second_answers_exact_counts,
    second_orders_refusals_to_write_blocks,
    second_orders_refusals_to_read_blocks,
    second_orders_refusals_to_write_slots,
    second_orders_refusals_to_read_slots,
    second_orders_mixed_faults_of_slots,
    second_orders_mixed_faults_of_messages,
];

fn second_holds_p10(given: &Given, test: &mut Test) {
    let second = Second::read(&given.tables);
    let bytes = second.links.of(12).bytes();
    test.case(|| "bytes of link 12".into(), 117, [bytes]);
    let answers = [117, 118].map(|length| second.write_block(12, &vec![7; length], 1308));
    let counts = answers.map(|answer| answer.map(|written| written.len()));
    let call = || "117 and 118 bytes on link 12".to_string();
    test.case(call, [Ok(1308), Err(2)], [counts]);
}

/// Requests without a fault: the shortest buffers and longer ones.
fn second_answers_exact_counts(given: &Given, test: &mut Test) {
    let second = Second::read(&given.tables);
    for link in second.links.all() {
        let (bytes, length) = (link.bytes(), link.image_length());
        for (datagram, more) in [(0, 0), (bytes, 0), (0, 7), (bytes, 7)] {
            let written = second.write_block(link.number, &vec![1; datagram], length + more);
            let counts = written.map(|row| {
                let read = second.read_block(link.number, &row, bytes + more);
                (row.len(), read.map(|reading| reading.datagram.len()))
            });
            let call = || format!("link {}, buffers longer by {more}", link.number);
            test.case(call, Ok((length, Ok(bytes))), [counts]);
        }
    }
    for (link, bytes, length) in SLOT_SIZES {
        for (datagram, more) in [(0, 0), (bytes, 0), (0, 7), (bytes, 7)] {
            let written = second.write_slot(link, &vec![1; datagram], length + more);
            let counts = written.map(|row| {
                let read = second.read_slot(&row, bytes + more);
                (row.len(), read.map(|reading| reading.block.datagram.len()))
            });
            let call = || format!("slot of link {link}, buffers longer by {more}");
            test.case(call, Ok((length, Ok(bytes))), [counts]);
        }
    }
}

fn second_orders_refusals_to_write_blocks(given: &Given, test: &mut Test) {
    let second = Second::read(&given.tables);
    for ((link, bytes, buffer), refusal) in ordered_faults::writing_blocks() {
        let call = || format!("write block, link {link}, {bytes} bytes, buffer of {buffer}");
        let written = second.write_block(link, &vec![1; bytes], buffer);
        test.case(call, Err(refusal), [written]);
    }
}

fn second_orders_refusals_to_read_blocks(given: &Given, test: &mut Test) {
    let second = Second::read(&given.tables);
    for ((link, row, buffer), refusal) in ordered_faults::reading_blocks(&second) {
        let call = || format!("read block, link {link}, buffer of {buffer}, {row:?}");
        let read = second.read_block(link, &row, buffer);
        test.case(call, Err(refusal), [read]);
    }
}

fn second_orders_refusals_to_write_slots(given: &Given, test: &mut Test) {
    let second = Second::read(&given.tables);
    for ((link, bytes, buffer), refusal) in ordered_faults::writing_slots() {
        let call = || format!("write slot, link {link}, {bytes} bytes, buffer of {buffer}");
        let written = second.write_slot(link, &vec![1; bytes], buffer);
        test.case(call, Err(refusal), [written]);
    }
}

fn second_orders_refusals_to_read_slots(given: &Given, test: &mut Test) {
    let second = Second::read(&given.tables);
    for ((burst, buffer), refusal) in ordered_faults::reading_slots(&second) {
        let call = || format!("read slot, buffer of {buffer}, {burst:?}");
        test.case(call, Err(refusal), [second.read_slot(&burst, buffer)]);
    }
}

fn second_orders_mixed_faults_of_slots(given: &Given, test: &mut Test) {
    let second = Second::read(&given.tables);
    let mut random = test.random(13);
    for number in SLOT_LINKS {
        let link = second.links.of(number);
        for ((burst, buffer), refusal) in mixed_faults::reading_slots(&second, link, &mut random) {
            let call = || format!("read slot, buffer of {buffer}, {burst:?}");
            test.case(call, Err(refusal), [second.read_slot(&burst, buffer)]);
        }
    }
}

fn second_orders_mixed_faults_of_messages(given: &Given, test: &mut Test) {
    let second = Second::read(&given.tables);
    let mut random = test.random(14);
    for _ in 0..40 {
        for ((length, start, message), refusal) in message_faults::writing_messages(&mut random) {
            let request = WriteMessage(length, start, &message);
            let written = request.ask_second(&second);
            test.case(|| request.shown(), Err(refusal), [written]);
        }
    }
}
