//! The tests of link words: the second implementation against the printed Table 3 and document
//! 01's cases, and the archive against the second implementation.

use crate::harness::caller::Caller;
use crate::harness::report::{named_tests, Given, NamedTest, Test};
use crate::harness::requests::words::{ReadWord, WriteWord};
use crate::second::bits::{bits, inverted};
use crate::second::tables::{digits, Tables};
use crate::second::words::{differing_places, Reading, Refusal, Word, Words, PLACES};
use crate::second::Second;

pub const TESTS: &[NamedTest] = named_tests![
    second_words_equal_table_3,
    second_words_hold_p1_to_p6,
    second_words_lie_apart,
    archive_writes_table_3,
    archive_writes_or_refuses,
    archive_writes_over_any_bytes,
    archive_holds_p1_to_p6,
    archive_reads_to_three_wrong,
    archive_reads_four_to_twelve_wrong,
    archive_reads_between_words,
    archive_reads_random_rows,
    archive_refuses_lengths,
    archive_refuses_non_bits,
    archive_orders_refusals,
    archive_reads_read_only_pages,
];

const P1: &str = "11000010111000101000111001001111";
const P2: &str = "11010101111011010111111010111111";
const P3: &str = "00111101000111010111000110110000";
const NON_BITS: [u8; 5] = [2, 48, 49, 128, 255];

fn words(given: &Given) -> Words {
    Tables::read(&given.tables).words()
}

fn typed(word: &str) -> Word {
    digits(word).expect("a word typed here has 32 digits")
}

fn second_words_equal_table_3(given: &Given, test: &mut Test) {
    let tables = Tables::read(&given.tables);
    let words = tables.words();
    for (number, printed) in tables.table3.iter().enumerate() {
        let call = || format!("word of {number}");
        test.case(call, bits(printed), [bits(words.of(number))]);
    }
}

/// Document 01's P4, P5 and P6: rows and what reading them answers.
fn p4_to_p6(words: &Words) -> [(Vec<u8>, Result<Reading, Refusal>); 3] {
    let of_5 = bits(&typed(P2));
    let nine = &differing_places(words.of(0), words.of(1))[..9];
    [
        (
            inverted(&of_5, &[0, 1, 2, 3, 4, 5, 6]),
            Ok(Reading {
                number: 5,
                wrong: 7,
            }),
        ),
        (inverted(&of_5, &[0, 1, 2, 3, 4, 5, 6, 7]), Err(6)),
        (
            inverted(&bits(words.of(0)), nine),
            Ok(Reading {
                number: 1,
                wrong: 7,
            }),
        ),
    ]
}

/// Document 01's P1, P2 and P3: numbers and their words.
fn p1_to_p3() -> [(u32, Word); 3] {
    [(0, typed(P1)), (5, typed(P2)), (63, typed(P3))]
}

fn second_words_hold_p1_to_p6(given: &Given, test: &mut Test) {
    let words = words(given);
    for (number, word) in p1_to_p3() {
        let call = || format!("write {number}");
        test.case(call, Ok(bits(&word)), [words.write(number, PLACES)]);
    }
    for (row, answer) in p4_to_p6(&words) {
        test.case(|| format!("read {row:?}"), answer, [words.read(&row)]);
    }
}

/// Different words differ in at least 16 places.
fn second_words_lie_apart(given: &Given, test: &mut Test) {
    let words = words(given);
    for one in 0..64 {
        for other in 0..one {
            let places = differing_places(words.of(one), words.of(other)).len();
            let call = || format!("words {one} and {other}, which differ in {places} places");
            test.case(call, true, [places >= 16]);
        }
    }
}

fn archive_writes_table_3(given: &Given, test: &mut Test) {
    let mut caller = Caller::new(test);
    for (number, printed) in Tables::read(&given.tables).table3.iter().enumerate() {
        caller.expect(WriteWord(number as u32, PLACES), Ok(bits(printed)));
    }
}

fn archive_writes_or_refuses(given: &Given, test: &mut Test) {
    let second = Second::read(&given.tables);
    let mut caller = Caller::new(test);
    for number in (0..=70).chain([255, 256 + 5, 65_536 + 5, 1 << 31, u32::MAX]) {
        for length in (0..=40).chain([64, 100]) {
            caller.compare(&second, WriteWord(number, length));
        }
    }
}

/// Every word over buffers filled with each of the 256 bytes.
fn archive_writes_over_any_bytes(given: &Given, test: &mut Test) {
    let mut caller = Caller::over_any_bytes(test);
    for (number, printed) in Tables::read(&given.tables).table3.iter().enumerate() {
        caller.expect(WriteWord(number as u32, 40), Ok(bits(printed)));
    }
}

fn archive_holds_p1_to_p6(given: &Given, test: &mut Test) {
    let mut caller = Caller::new(test);
    for (number, word) in p1_to_p3() {
        caller.expect(WriteWord(number, PLACES), Ok(bits(&word)));
    }
    for (row, answer) in p4_to_p6(&words(given)) {
        caller.expect(ReadWord(&row), answer);
    }
}

/// Every set of at most three of the places.
fn at_most_three_places() -> Vec<Vec<usize>> {
    let mut sets = vec![vec![]];
    for a in 0..PLACES {
        sets.push(vec![a]);
        for b in 0..a {
            sets.push(vec![a, b]);
            sets.extend((0..b).map(|c| vec![a, b, c]));
        }
    }
    sets
}

fn archive_reads_to_three_wrong(given: &Given, test: &mut Test) {
    let second = Second::read(&given.tables);
    let words = &second.words;
    let mut caller = Caller::new(test);
    let sets = at_most_three_places();
    for number in 0..64 {
        for places in &sets {
            let row = inverted(&bits(words.of(number)), places);
            caller.compare(&second, ReadWord(&row));
        }
    }
}

fn archive_reads_four_to_twelve_wrong(given: &Given, test: &mut Test) {
    let second = Second::read(&given.tables);
    let words = &second.words;
    let mut random = test.random(2092);
    let mut caller = Caller::new(test);
    for _ in 0..200_000 {
        let word = words.of(random.below(64));
        let count = 4 + random.below(9);
        let row = inverted(&bits(word), &random.places(count, PLACES));
        caller.compare(&second, ReadWord(&row));
    }
}

/// From every word to every other, one differing place after another; halfway two are equally near.
fn archive_reads_between_words(given: &Given, test: &mut Test) {
    let second = Second::read(&given.tables);
    let words = &second.words;
    let mut caller = Caller::new(test);
    for (from, to) in (0..64).flat_map(|from| (0..64).map(move |to| (from, to))) {
        let places = differing_places(words.of(from), words.of(to));
        for count in 0..=places.len() {
            let row = inverted(&bits(words.of(from)), &places[..count]);
            caller.compare(&second, ReadWord(&row));
        }
    }
}

fn archive_reads_random_rows(given: &Given, test: &mut Test) {
    let second = Second::read(&given.tables);
    let mut random = test.random(583);
    let mut caller = Caller::new(test);
    for _ in 0..100_000 {
        let row = random.bits(PLACES);
        caller.compare(&second, ReadWord(&row));
    }
}

/// Zeros, ones, and the bits of each word over and over.
fn archive_refuses_lengths(given: &Given, test: &mut Test) {
    let words = words(given);
    let mut caller = Caller::new(test);
    let mut repeated = vec![vec![0; PLACES], vec![1; PLACES]];
    repeated.extend((0..64).map(|number| bits(words.of(number))));
    for source in &repeated {
        for length in (0..=40).chain([64, 1000]) {
            let row: Vec<u8> = source.iter().copied().cycle().take(length).collect();
            let expected = match length {
                PLACES => words.read(&row),
                _ => Err(2),
            };
            caller.expect(ReadWord(&row), expected);
        }
    }
}

fn archive_refuses_non_bits(given: &Given, test: &mut Test) {
    let words = words(given);
    let mut caller = Caller::new(test);
    for number in 0..64 {
        for place in 0..PLACES {
            for non_bit in NON_BITS {
                let mut row = bits(words.of(number));
                row[place] = non_bit;
                caller.expect(ReadWord(&row), Err(4));
            }
        }
    }
}

/// A wrong length comes before a non-bit, a non-bit before a row far from every word.
fn archive_orders_refusals(given: &Given, test: &mut Test) {
    let words = words(given);
    let mut caller = Caller::new(test);
    let [_, (far, refusal), _] = p4_to_p6(&words);
    caller.expect(ReadWord(&far), refusal);
    for non_bit in NON_BITS {
        for length in (0..=40).chain([64, 1000]) {
            let refusal = if length == PLACES { 4 } else { 2 };
            caller.expect(ReadWord(&vec![non_bit; length]), Err(refusal));
        }
        for place in 0..PLACES {
            let mut row = far.clone();
            row[place] = non_bit;
            caller.expect(ReadWord(&row), Err(4));
            caller.expect(ReadWord(&row[..PLACES - 1]), Err(2));
            caller.expect(ReadWord(&[&row[..], &[0]].concat()), Err(2));
        }
    }
}

fn archive_reads_read_only_pages(given: &Given, test: &mut Test) {
    let second = Second::read(&given.tables);
    let words = &second.words;
    let mut random = test.random(302);
    let mut caller = Caller::with_read_only_input(test);
    for number in 0..64 {
        for count in 0..=12 {
            let row = inverted(&bits(words.of(number)), &random.places(count, PLACES));
            caller.compare(&second, ReadWord(&row));
        }
    }
    for length in 0..=40 {
        for row in [random.bits(length), vec![255; length]] {
            caller.compare(&second, ReadWord(&row));
        }
    }
}
