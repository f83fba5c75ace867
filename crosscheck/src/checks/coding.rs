//! The tests of the second implementation's coding: check, encoder, scrambler and block against
//! document 01's cases and against what M.2092-1 says of them.

use crate::harness::report::{named_tests, Given, NamedTest, Test};
use crate::second::bits::{from_digits, of_plain_bytes, plain_bytes};
use crate::second::crc;
use crate::second::datagrams::{block, datagram, is_valid};
use crate::second::encoder::{Encoder, Output};
use crate::second::images::{coded, data, image};
use crate::second::links::Links;
use crate::second::scrambler::scrambled;
use crate::second::Second;

pub const TESTS: &[NamedTest] = named_tests![
    second_check_of_nine_characters,
    second_check_leaves_zeros,
    second_encoder_holds_p7_and_p8,
    second_encoders_end_at_zeros,
    second_scrambler_follows_its_polynomial,
    second_blocks_are_datagram_fill_and_check,
    second_images_hold_the_block,
];

fn links(given: &Given) -> Links {
    Second::read(&given.tables).links
}

fn second_check_of_nine_characters(_: &Given, test: &mut Test) {
    let check = plain_bytes(&crc::check(&of_plain_bytes(b"123456789")));
    let call = || "check of the characters 123456789".to_string();
    test.case(call, vec![0x03, 0x76, 0xE6, 0xE7], [check]);
}

/// 1.2.5: the receiver's register, over data, fill and check, ends at all zeros.
fn second_check_leaves_zeros(given: &Given, test: &mut Test) {
    let mut random = test.random(691);
    for link in links(given).all() {
        for length in [0, 1, link.bytes() / 2, link.bytes()] {
            let block = block(link, &random.bytes(length));
            let left = crc::register_after(crc::ALL_ONES, &block);
            let call = || format!("register after a block of link {}", link.number);
            test.case(call, crc::ALL_ZEROS, [left]);
        }
    }
}

/// X, Y0 and Y1 of a run of clocks, as rows of digits.
fn rows_of(outputs: &[Output]) -> [String; 3] {
    [0, 1, 2].map(|n| {
        let row = outputs.iter().map(|output| u8::from(output[n]).to_string());
        row.collect()
    })
}

fn second_encoder_holds_p7_and_p8(_: &Given, test: &mut Test) {
    let mut encoder = Encoder::new();
    let input = from_digits("10000000").expect("digits");
    let outputs: Vec<Output> = input.iter().map(|&u| encoder.clock(u)).collect();
    let expected = ["10000000", "11110010", "11011100"].map(String::from);
    let call = || "P7, input 1 then zeros: X, Y0, Y1".to_string();
    test.case(call, expected, [rows_of(&outputs)]);

    let mut encoder = Encoder::new();
    encoder.clock(true);
    for (n, expected) in [(1, "011"), (2, "101"), (3, "111")] {
        let output = rows_of(&[encoder.ending_clock()]).concat();
        let call = || format!("P8, ending straight after a single 1, clock {n}: X Y0 Y1");
        test.case(call, expected.to_string(), [output]);
    }
}

/// The ending leaves zeros in the register: three more zeros put in give nothing but zeros.
fn second_encoders_end_at_zeros(_: &Given, test: &mut Test) {
    let mut random = test.random(8);
    for length in 0..200 {
        let mut encoder = Encoder::new();
        for bit in random.bits(length) {
            encoder.clock(bit == 1);
        }
        for _ in 0..3 {
            encoder.ending_clock();
        }
        let outputs = [0; 3].map(|_| encoder.clock(false));
        let call = || format!("zeros behind the ending of {length} bits");
        test.case(call, [[false; 3]; 3], [outputs]);
    }
}

/// 1.2.6: each bit put on is the sum of those put on 14 and 15 places before. Twice put on, they
/// vanish.
fn second_scrambler_follows_its_polynomial(_: &Given, test: &mut Test) {
    let put_on = scrambled(&[false; 13_000]);
    for n in 15..put_on.len() {
        let call = || format!("scrambler's bit {n}");
        test.case(call, put_on[n - 14] ^ put_on[n - 15], [put_on[n]]);
    }
    let call = || "scrambling twice".to_string();
    test.case(call, vec![false; 13_000], [scrambled(&put_on)]);
}

fn second_blocks_are_datagram_fill_and_check(given: &Given, test: &mut Test) {
    let mut random = test.random(32);
    for link in links(given).all() {
        for length in 0..=link.bytes() {
            let bytes = random.bytes(length);
            let block = block(link, &bytes);
            let (covered, check) = block.split_at(link.k - 32);
            let (filled, over) = covered.split_at(8 * link.bytes());
            let mut expected = bytes.clone();
            expected.resize(link.bytes(), 0);
            let call = || format!("block of link {}, datagram {bytes:?}", link.number);
            let seen = (
                plain_bytes(filled),
                over.to_vec(),
                check.to_vec(),
                is_valid(link, &block),
                datagram(link, &block),
            );
            let over = vec![false; link.bits_over()];
            let check = crc::check(covered);
            test.case(
                call,
                (expected.clone(), over, check, true, expected),
                [seen],
            );
        }
    }
}

/// N bits, and every one of the k bits among them.
fn second_images_hold_the_block(given: &Given, test: &mut Test) {
    let mut random = test.random(4);
    for link in links(given).all() {
        let block: Vec<bool> = random.bits(link.k).iter().map(|&bit| bit == 1).collect();
        let image = image(link, &block);
        let lengths = [coded(link, &block).len(), image.len()];
        let call = || format!("image of {:?} on link {}", block, link.number);
        let seen = (lengths, data(link, &image));
        test.case(call, ([link.image_length(); 2], block.clone()), [seen]);
    }
}
