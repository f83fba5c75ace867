//! The tests of the built link word printer (document 01, "The link word printer"). Every byte
//! before the first newline is one character of the line, a carriage return too.

use crate::harness::program::{run, Input, Run};
use crate::harness::report::{named_tests, Given, NamedTest, Test};
use crate::second::bits::{bits, inverted};
use crate::second::tables::Tables;
use crate::second::words::{Reading, Words};

pub const TESTS: &[NamedTest] = named_tests![
    printer_prints_the_example,
    printer_reads_table_3,
    printer_reads_inverted_places,
    printer_reads_without_newline,
    printer_refuses_empty_lines,
    printer_refuses_lengths,
    printer_refuses_long_lines,
    printer_counts_carriage_returns,
    printer_refuses_other_characters,
    printer_ignores_text_behind,
    printer_waits_for_the_line,
    printer_answers_while_open,
];

const EXAMPLE: &str = "01010101111011010111111010111111";

/// What the printer prints for a line, by the second implementation.
fn printed(words: &Words, line: &str) -> String {
    let row: Vec<u8> = line.bytes().map(|character| character - b'0').collect();
    match words.read(&row) {
        Ok(Reading { number, wrong }) => format!("status=0\nlink={number}\nwrong={wrong}\n"),
        Err(number) => refused(number),
    }
}

fn refused(number: u32) -> String {
    format!("status={number}\nlink=none\nwrong=none\n")
}

fn example_read() -> String {
    "status=0\nlink=5\nwrong=1\n".to_string()
}

fn line_of(row: &[u8]) -> String {
    row.iter().map(|bit| bit.to_string()).collect()
}

/// One run of the printer: it prints this in time, nothing to standard error, and ends with 0.
fn prints(given: &Given, test: &mut Test, input: Input, output: String) {
    let text = input.pieces.concat();
    let start = String::from_utf8_lossy(&text[..text.len().min(80)]).into_owned();
    let call = || format!("printer, input {start:?} ({} bytes)", text.len());
    let expected = Run {
        output,
        errors: String::new(),
        lines_in_time: true,
        exit: Some(0),
    };
    test.case(call, expected, [run(&given.printer, &[], input, 3)]);
}

fn printer_prints_the_example(given: &Given, test: &mut Test) {
    let input = Input::whole(format!("{EXAMPLE}\n"));
    prints(given, test, input, example_read());
}

fn printer_reads_table_3(given: &Given, test: &mut Test) {
    let tables = Tables::read(&given.tables);
    for word in &tables.table3 {
        let line = line_of(&bits(word));
        let expected = printed(&tables.words(), &line);
        prints(given, test, Input::whole(line + "\n"), expected);
    }
}

/// The first places of every eighth word inverted: up to seven are read, eight are refusal 6.
fn printer_reads_inverted_places(given: &Given, test: &mut Test) {
    let words = Tables::read(&given.tables).words();
    for number in (5..64).step_by(8) {
        for count in 1..=8 {
            let places: Vec<usize> = (0..count).collect();
            let line = line_of(&inverted(&bits(words.of(number)), &places));
            let expected = match count {
                8 => refused(6),
                _ => format!("status=0\nlink={number}\nwrong={count}\n"),
            };
            prints(given, test, Input::whole(line + "\n"), expected);
        }
    }
}

fn printer_reads_without_newline(given: &Given, test: &mut Test) {
    prints(given, test, Input::whole(EXAMPLE), example_read());
    prints(given, test, Input::whole(&EXAMPLE[..31]), refused(2));
}

fn printer_refuses_empty_lines(given: &Given, test: &mut Test) {
    prints(given, test, Input::whole(""), refused(2));
    prints(given, test, Input::whole("\n"), refused(2));
    prints(
        given,
        test,
        Input::whole(format!("\n{EXAMPLE}\n")),
        refused(2),
    );
}

fn printer_refuses_lengths(given: &Given, test: &mut Test) {
    for length in [1, 16, 31, 33, 64] {
        let line: String = EXAMPLE.chars().cycle().take(length).collect();
        prints(given, test, Input::whole(line + "\n"), refused(2));
    }
}

/// Lines about as long as the program's buffer of 64 KiB, and longer ones. The last one has the
/// example behind as many characters as the buffer holds.
fn printer_refuses_long_lines(given: &Given, test: &mut Test) {
    for length in [65_535, 65_536, 65_537, 65_568, 100_000] {
        for character in ["0", "1", "x"] {
            let line = character.repeat(length);
            prints(given, test, Input::whole(line.clone()), refused(2));
            prints(given, test, Input::whole(line + "\n"), refused(2));
        }
    }
    let line = "0".repeat(65_536) + EXAMPLE + "\n";
    prints(given, test, Input::whole(line), refused(2));
}

fn printer_counts_carriage_returns(given: &Given, test: &mut Test) {
    prints(
        given,
        test,
        Input::whole(format!("{EXAMPLE}\r\n")),
        refused(2),
    );
    let short = &EXAMPLE[..31];
    prints(
        given,
        test,
        Input::whole(format!("{short}\r\n")),
        refused(4),
    );
}

/// Bytes 0 and 1, and other characters in the place of one; é is two characters here.
fn printer_refuses_other_characters(given: &Given, test: &mut Test) {
    let raw: Vec<u8> = EXAMPLE.bytes().map(|character| character - b'0').collect();
    prints(
        given,
        test,
        Input::whole([&raw[..], b"\n"].concat()),
        refused(4),
    );
    for other in [0, 1, b' ', b'2', b'/', b'O', b'l', b'\t', 0x80, 0xFF] {
        for place in [0, 17, 31] {
            let mut line = EXAMPLE.as_bytes().to_vec();
            line[place] = other;
            line.push(b'\n');
            prints(given, test, Input::whole(line), refused(4));
        }
    }
    let input = Input::whole(format!("{}é\n", &EXAMPLE[..30]));
    prints(given, test, input, refused(4));
    let input = Input::whole(format!("{}é\n", &EXAMPLE[..31]));
    prints(given, test, input, refused(2));
}

fn printer_ignores_text_behind(given: &Given, test: &mut Test) {
    for behind in ["\n", "x", "0", &"0".repeat(100_000), &"x\n".repeat(50_000)] {
        let input = Input::whole(format!("{EXAMPLE}\n{behind}"));
        prints(given, test, input, example_read());
    }
}

/// The line comes in two pieces with a pause between them.
fn printer_waits_for_the_line(given: &Given, test: &mut Test) {
    let cases = [
        (
            &EXAMPLE[..16],
            format!("{}\n", &EXAMPLE[16..]),
            example_read(),
        ),
        (
            &EXAMPLE[..1],
            format!("{}\n", &EXAMPLE[1..]),
            example_read(),
        ),
        (EXAMPLE, "\n".to_string(), example_read()),
        (EXAMPLE, String::new(), example_read()),
        (EXAMPLE, "0\n".to_string(), refused(2)),
        ("", format!("{EXAMPLE}\n"), example_read()),
    ];
    for (first, second, expected) in cases {
        let input = Input {
            pieces: vec![first.into(), second.into()],
            stays_open: false,
        };
        prints(given, test, input, expected);
    }
}

/// The answer comes although the input stays open behind the newline.
fn printer_answers_while_open(given: &Given, test: &mut Test) {
    let cases = [
        (format!("{EXAMPLE}\n"), example_read()),
        (format!("{EXAMPLE}\n01"), example_read()),
        ("\n".to_string(), refused(2)),
        ("0".repeat(100_000) + "\n", refused(2)),
    ];
    for (text, expected) in cases {
        let input = Input {
            pieces: vec![text.into()],
            stays_open: true,
        };
        prints(given, test, input, expected);
    }
}
