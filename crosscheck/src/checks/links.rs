//! The tests of the second implementation's links: the printed tables against document 01 and the
//! numbers worked out from both, and the interleaver.

use crate::harness::report::{named_tests, Given, NamedTest, Test};
use crate::outside::channel_bits::{self, Column};
use crate::second::interleaver::pi;
use crate::second::link_tables::{LinkTables, Numbers};
use crate::second::training::Training;

pub const TESTS: &[NamedTest] = named_tests![
    second_links_equal_document_01s,
    second_offers_what_table_4_allows,
    second_patterns_equal_document_01s,
    second_patterns_pass_each_data_bit_once,
    second_tails_end_one_encoder_at_a_time,
    second_links_have_the_numbers_worked_out,
    second_links_have_the_channel_bits_printed,
    second_training_equals_document_01s,
    second_interleavers_are_permutations,
    second_interleaver_holds_p9,
];

/// Row by row: document 01's list of 22 links against Table 4.
fn second_links_equal_document_01s(given: &Given, test: &mut Test) {
    let tables = LinkTables::read(&given.tables);
    test.case(|| "links listed".into(), 22, [tables.listed.len()]);
    for listed in &tables.listed {
        let printed = tables.table4_row(listed.number).row.clone();
        let call = || format!("row of link {}", listed.number);
        test.case(call, listed.clone(), [printed]);
    }
}

/// Table 4's links but those of several blocks. As printed k is k1 times k2 on all but link 4.
fn second_offers_what_table_4_allows(given: &Given, test: &mut Test) {
    let tables = LinkTables::read(&given.tables);
    let links = tables.links();
    for printed in &tables.table4 {
        let row = &printed.row;
        let call = || format!("link {}", row.number);
        let offered = links.get(row.number).is_some();
        test.case(call, printed.blocks == 1, [offered]);
        let call = || format!("k1 times k2 as printed for link {}", row.number);
        test.case(call, row.number != 4, [row.k == row.k1 * row.k2]);
    }
    for link in links.all() {
        let call = || format!("k1 times k2 of link {}", link.number);
        test.case(call, link.k, [link.k1 * link.k2]);
    }
}

/// The patterns as document 01 names them, against Table 5.
fn second_patterns_equal_document_01s(given: &Given, test: &mut Test) {
    let tables = LinkTables::read(&given.tables);
    for link in tables.links().all() {
        let id = tables.row(link.number).pattern;
        let named = tables.patterns.iter().find(|pattern| pattern.0 == id);
        let call = || format!("pattern {id} of link {}", link.number);
        let named = named.map(|(_, clocks)| clocks.clone());
        test.case(call, named, [Some(link.pattern.clone())]);
    }
}

/// X passes once at every clock and X' at none, whole periods of the pattern make the k clocks of all
/// links but 4, and the bits that pass are k over the rate that Tables 4 and 5 print, rounded down.
fn second_patterns_pass_each_data_bit_once(given: &Given, test: &mut Test) {
    let tables = LinkTables::read(&given.tables);
    for link in tables.links().all() {
        let printed = tables.table4_row(link.number);
        let once = link
            .pattern
            .iter()
            .all(|clock| clock[0] == 1 && clock[3] == 0);
        let whole = link.k % link.pattern.len() == 0;
        let pattern = tables
            .table5
            .iter()
            .find(|row| row.id == printed.row.pattern);
        let rate = pattern.map(|row| row.rate.clone());
        let call = || format!("pattern of link {}", link.number);
        let rate_printed = Some(printed.rate.clone());
        let periods = link.number != 4;
        test.case(call, (true, periods, rate_printed), [(once, whole, rate)]);

        let tail: usize = link.tail.iter().flatten().sum();
        let (above, below) = printed.rate.split_once('/').expect("a rate is a fraction");
        let [above, below] = [above, below].map(|part| part.parse::<usize>().expect("a number"));
        let call = || format!("bits that pass before the tail of link {}", link.number);
        test.case(call, link.k * below / above, [link.image_length() - tail]);
    }
}

/// The first three clocks put out the first encoder only, the last three the second.
fn second_tails_end_one_encoder_at_a_time(given: &Given, test: &mut Test) {
    for link in LinkTables::read(&given.tables).links().all() {
        let of_other = (0..6).map(|n| if n < 3 { 3..6 } else { 0..3 });
        let clocks = link.tail.iter().zip(of_other);
        let stray: usize = clocks
            .map(|(clock, other)| clock[other].iter().sum::<usize>())
            .sum();
        let call = || format!("tail of link {}, {:?}", link.number, link.tail);
        test.case(call, 0, [stray]);
    }
}

/// What is computed here from Tables 4, 5 and 6, against numbers.txt.
fn second_links_have_the_numbers_worked_out(given: &Given, test: &mut Test) {
    let tables = LinkTables::read(&given.tables);
    let links = tables.links();
    let offered = links.all().len();
    test.case(|| "links in all".into(), offered, [tables.numbers.len()]);
    for (link, worked_out) in links.all().iter().zip(&tables.numbers) {
        let row = tables.row(link.number);
        let tail_bits = link.tail.iter().flatten().sum();
        let computed = Numbers {
            link: link.number,
            k: link.k,
            bytes: link.bytes(),
            bits_over: link.bits_over(),
            pattern: row.pattern.clone(),
            data_bits: (1..=link.k).flat_map(|s| link.passing(s)).sum(),
            tail: row.tail.clone(),
            tail_bits,
            n: link.image_length(),
            printed_in: worked_out.printed_in,
        };
        let call = || format!("numbers of link {}", link.number);
        test.case(call, worked_out, [&computed]);
    }
}

/// Tables 7 to 11, for the links that they have numbers of: k, data bits, tail, and N as channel bits
/// without the fill. Of link 4 Table 7 prints one tail bit fewer than Table 6, which decides.
fn second_links_have_the_channel_bits_printed(given: &Given, test: &mut Test) {
    let tables = LinkTables::read(&given.tables);
    let links = tables.links();
    let printed = channel_bits::read(&given.tables);
    for worked_out in &tables.numbers {
        let link = links.of(worked_out.link);
        let tail_bits: usize = link.tail.iter().flatten().sum();
        let fewer = usize::from(link.number == 4);
        let computed = worked_out.printed_in.map(|table| Column {
            table,
            link: link.number,
            n: link.image_length() - fewer,
            tail_bits: tail_bits - fewer,
            data_bits: link.image_length() - tail_bits,
            k: link.k,
        });
        let column = printed.iter().find(|column| column.link == link.number);
        let call = || format!("bits of link {}", link.number);
        test.case(call, column, [computed.as_ref()]);
    }
}

fn second_training_equals_document_01s(given: &Given, test: &mut Test) {
    let training = Training::read(&given.tables);
    let call = || "training symbols".to_string();
    test.case(call, training.document_01, [training.table1]);
}

fn second_interleavers_are_permutations(given: &Given, test: &mut Test) {
    for link in LinkTables::read(&given.tables).links().all() {
        let mut reached: Vec<usize> = (1..=link.k).map(|s| pi(link, s)).collect();
        reached.sort();
        let call = || {
            format!(
                "the numbers that pi reaches on link {}, in order",
                link.number
            )
        };
        test.case(call, (1..=link.k).collect(), [reached]);
    }
}

fn second_interleaver_holds_p9(given: &Given, test: &mut Test) {
    let links = LinkTables::read(&given.tables).links();
    for (s, reached) in [(1, 2), (2, 43), (3, 76), (4, 21), (95, 24), (96, 65)] {
        let call = || format!("pi({s}) of link 20");
        test.case(call, reached, [pi(links.of(20), s)]);
    }
}
