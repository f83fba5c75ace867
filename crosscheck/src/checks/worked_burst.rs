//! The tests of the second implementation against the worked slot burst of M.2092-1, Annex 3, 8,
//! the one vector that nobody here made.

use crate::harness::report::{named_tests, Given, NamedTest, Test};
use crate::outside::worked_burst::{datagram, Constellation, WorkedBurst, CHECK, DATAGRAM};
use crate::second::bits::{bits, inverted, plain_bytes};
use crate::second::blocks::BlockReading;
use crate::second::datagrams::is_valid;
use crate::second::images::{data, data_of_coded};
use crate::second::readers::{read_plainly, read_quickly, Found};
use crate::second::scrambler::{loading_word, scrambled_from, Cells};
use crate::second::slots::{SlotReading, HEAD, TRAINING};
use crate::second::Second;

pub const TESTS: &[NamedTest] = named_tests![
    second_finds_the_worked_burst_whole,
    second_reads_the_worked_burst,
    second_writes_the_worked_burst,
    second_scrambler_is_the_worked_bursts,
    second_refuses_the_worked_burst_under_7,
];

fn burst(given: &Given) -> Vec<u8> {
    bits(&WorkedBurst::read(&given.tables).bits())
}

/// 27, 16 and 197 symbols; the constellations take turns, the one on the diagonals first.
fn second_finds_the_worked_burst_whole(given: &Given, test: &mut Test) {
    let burst = WorkedBurst::read(&given.tables);
    let parts = [&burst.training, &burst.word, &burst.data].map(Vec::len);
    test.case(|| "symbols of the parts".into(), [27, 16, 197], [parts]);
    for (n, symbol) in burst.symbols().iter().enumerate() {
        let turns = [Constellation::Diagonals, Constellation::Axes];
        let call = || format!("constellation of symbol {n}");
        test.case(call, turns[n % 2], [symbol.constellation]);
    }
    test.case(|| "bits".into(), 480, [burst.bits().len()]);
}

fn second_reads_the_worked_burst(given: &Given, test: &mut Test) {
    let second = Second::read(&given.tables);
    let link = second.links.of(5);
    let burst = WorkedBurst::read(&given.tables).bits();
    let (training, rest) = burst.split_at(TRAINING);
    let (word, came) = rest.split_at(HEAD - TRAINING);
    test.case(
        || "training".into(),
        bits(&second.training),
        [bits(training)],
    );
    test.case(
        || "word of 5".into(),
        bits(second.words.of(5)),
        [bits(word)],
    );

    let block = data(link, came);
    let found = Some(Found {
        block: block.clone(),
        wrong: 0,
    });
    let call = || "the two readers on the block".to_string();
    let readers = [read_plainly(link, came), read_quickly(link, came)];
    test.case(call, found, readers);
    let expected = [&datagram()[..], &CHECK].concat();
    test.case(
        || "bytes of the block".into(),
        expected,
        [plain_bytes(&block)],
    );

    let reading = SlotReading {
        block: BlockReading {
            datagram: datagram(),
            wrong: 0,
        },
        link: 5,
        word_wrong: 0,
        training_wrong: 0,
    };
    let call = || "reading the slot burst".to_string();
    test.case(call, Ok(reading), [second.read_slot(&bits(&burst), 32)]);
}

/// With and without its twenty zero bytes, which the fill puts there.
fn second_writes_the_worked_burst(given: &Given, test: &mut Test) {
    let second = Second::read(&given.tables);
    for datagram in [datagram(), DATAGRAM.to_vec()] {
        let call = || format!("write slot of link 5, datagram {datagram:?}");
        let written = second.write_slot(5, &datagram, 480);
        test.case(call, Ok(burst(given)), [written]);
        let call = || format!("write block of link 5, datagram {datagram:?}");
        let written = second.write_block(5, &datagram, 394);
        test.case(call, Ok(burst(given)[HEAD..].to_vec()), [written]);
    }
}

/// Of all loading words only the one we use leaves a valid block in the worked burst.
fn second_scrambler_is_the_worked_bursts(given: &Given, test: &mut Test) {
    let second = Second::read(&given.tables);
    let link = second.links.of(5);
    let came = &WorkedBurst::read(&given.tables).bits()[HEAD..];
    for number in 0..1 << 15 {
        let cells: Cells = std::array::from_fn(|n| number >> n & 1 == 1);
        let block = data_of_coded(link, &scrambled_from(cells, came));
        let call = || format!("a valid block under the loading word {cells:?}");
        test.case(call, cells == loading_word(), [is_valid(link, &block)]);
    }
}

/// Document 01: a slot burst of 480 bits under link 7's word is refusal 2.
fn second_refuses_the_worked_burst_under_7(given: &Given, test: &mut Test) {
    let second = Second::read(&given.tables);
    let mut burst = burst(given);
    burst[TRAINING..HEAD].copy_from_slice(&bits(second.words.of(7)));
    let call = || "reading the worked burst under the word of 7".to_string();
    let readings = [0, 32, 128, 1000].map(|length| second.read_slot(&burst, length));
    test.case(call, Err(2), readings);
    let nearly = inverted(&burst, &[TRAINING, TRAINING + 8]);
    let call = || "the same with two places of the word wrong".to_string();
    test.case(call, Err(2), [second.read_slot(&nearly, 128)]);
}
