//! Runs of the command line tool, and what is to be seen of them: bytes on standard output, counts
//! or a refusal on standard error, and the exit status.

use crate::harness::program::{as_characters, run, Input, Run};
use crate::harness::report::{Given, Test};
use crate::second::words::Refusal;
use std::fmt::Display;
use std::path::Path;

/// Document 01, "Numbers a caller gets back": the words of the refusals 1 to 14, those of 5 as
/// document 02's K7 has them, and those from 8 on as its K1, K3 and K6 do.
const WORDS: [&str; 14] = [
    "link not offered; number above 63 for a link word; slot burst not of link 5, 6, 7",
    "datagram longer than the link holds; link word, block or slot burst of the wrong length",
    "output buffer too short",
    "a byte neither 0 nor 1",
    "training differs in nine or more bits",
    "no code word within seven",
    "no valid block's image within one",
    "position or start past the end",
    "length below 7",
    "a byte other than 0 after a 0",
    "fewer than 3 bytes left",
    "message past the end",
    "type 0 or 81",
    "more than 65528 bytes after the source",
];

/// A run that ends well, with these bytes and this line of counts.
pub fn done(output: impl AsRef<[u8]>, counts: String) -> Run {
    ended(0, output.as_ref(), format!("{counts}\n"))
}

/// A run that ends with a refusal of the library of which there is no more to say.
pub fn refused(number: Refusal) -> Run {
    let words = WORDS[number as usize - 1];
    not_taken(format!("refusal {number}: {words}"))
}

/// A run that ends with a refusal and says what was got and what was needed.
pub fn refused_for(number: Refusal, got: impl Display) -> Run {
    let words = WORDS[number as usize - 1];
    not_taken(format!("refusal {number}: {words} ({got})"))
}

pub fn refused_at(number: Refusal, position: usize, got: impl Display) -> Run {
    let words = WORDS[number as usize - 1];
    not_taken(format!("refusal {number} at {position}: {words} ({got})"))
}

/// A refusal of bits, where `what` has so many of them: their length, or the first that is none.
pub fn refused_bits(number: Refusal, row: &[u8], what: &str, needed: usize) -> Run {
    let came = row.len();
    match (number, other_character(row)) {
        (2, None) => refused_for(2, format!("{came} bits came, {what} has {needed}")),
        (2, Some(other)) => {
            let got = format!("{came} characters came, {what} has {needed} bits");
            refused_for(2, format!("{got}; {other}"))
        }
        (4, Some(other)) => refused_for(4, other),
        _ => refused(number),
    }
}

/// The first byte that is no bit, by its place and as the character that `line` makes of it.
fn other_character(row: &[u8]) -> Option<String> {
    let place = row.iter().position(|&bit| bit > 1)?;
    let name = match row[place].wrapping_add(b'0') {
        b' ' => "a blank".to_string(),
        b'\t' => "a tab".to_string(),
        b'\n' => "a newline".to_string(),
        b'\r' => "a carriage return".to_string(),
        sign @ 33..=126 => format!("'{}'", char::from(sign)),
        byte => format!("byte 0x{byte:02x}"),
    };
    Some(format!("character {} is {name}", place + 1))
}

/// A run of wrong usage, with this fault.
pub fn wrong_usage(fault: &str) -> Run {
    let errors = format!("decklewren: {fault}\nTry 'decklewren --help'.\n");
    ended(2, &[], errors)
}

/// A run that the tool itself refuses, with these words.
pub fn not_taken(words: String) -> Run {
    ended(1, &[], format!("decklewren: {words}\n"))
}

/// A run whose standard input is longer than what is taken.
pub fn too_long() -> Run {
    not_taken("standard input is longer than 64 KiB".to_string())
}

pub fn ended(exit: i32, output: &[u8], errors: String) -> Run {
    Run {
        output: as_characters(output),
        errors,
        lines_in_time: true,
        exit: Some(exit),
    }
}

/// One run of the tool with these arguments, parted by spaces, and this standard input.
pub fn runs(given: &Given, test: &mut Test, arguments: &str, input: &[u8], expected: Run) {
    let call = || {
        let start = as_characters(&input[..input.len().min(80)]);
        format!("{arguments}, input {start:?} ({} bytes)", input.len())
    };
    let parted: Vec<&str> = arguments.split_whitespace().collect();
    let seen = run(&given.tool, &parted, Input::whole(input), 0);
    test.case(call, expected, [seen]);
}

/// What a script of the shell shows in which D stands for the tool.
pub fn shell(given: &Given, script: &str) -> (String, Option<i32>) {
    let script = format!("D() {{ '{}' \"$@\"; }}\n{script}", given.tool.display());
    let seen = run(Path::new("sh"), &["-c", &script], Input::whole(""), 0);
    (seen.output, seen.exit)
}

/// Bits as the tool takes and prints them: characters on a line. A byte that is no bit becomes a
/// character that is none.
pub fn line(bits: &[u8]) -> Vec<u8> {
    let characters = bits.iter().map(|bit| bit.wrapping_add(b'0'));
    characters.chain([b'\n']).collect()
}

/// A datagram as the tool prints it with -x.
pub fn hex_line(datagram: &[u8]) -> String {
    let digits: String = datagram.iter().map(|byte| format!("{byte:02x}")).collect();
    digits + "\n"
}
