//! The tests of the built command line tool: each command but step against the second implementation.

use crate::harness::ordered_faults;
use crate::harness::program::Run;
use crate::harness::report::{named_tests, Given, NamedTest, Test};
use crate::harness::samples::{
    burst_of, filled, image_of, places_of_parts, random_datagram, two_places, SLOT_SIZES,
};
use crate::harness::tool::{done, hex_line, line, refused_bits, refused_for, runs};
use crate::second::bits::{bits, inverted};
use crate::second::slots::{HEAD, SLOT_LINKS, TRAINING};
use crate::second::words::{Reading, Refusal};
use crate::second::Second;

pub const TESTS: &[NamedTest] = named_tests![
    tool_prints_the_links,
    tool_writes_words,
    tool_reads_words,
    tool_writes_blocks,
    tool_reads_blocks,
    tool_writes_slots,
    tool_reads_slots,
    tool_tells_wrong_training,
    tool_refuses_slots,
    tool_reads_slots_by_parts,
];

/// A command that reads a slot burst, and the same by parts.
const READ_SLOT: [&str; 2] = ["read-slot -x", "read-slot -x --parts 43"];

/// Numbers of no link and of no link word; the last ones end in the bits of link 5.
const TOO_LARGE: [&str; 6] = [
    "64",
    "261",
    "65541",
    "4294967295",
    "4294967301",
    "18446744073709551621",
];

fn tool_prints_the_links(given: &Given, test: &mut Test) {
    let second = Second::read(&given.tables);
    let mut table = "link bytes  image  burst\n".to_string();
    for link in second.links.all() {
        let slot = SLOT_SIZES.iter().find(|size| size.0 == link.number);
        let burst = slot.map_or("-".to_string(), |size| size.2.to_string());
        let (bytes, image) = (link.bytes(), link.image_length());
        table += &format!("{:4} {bytes:5} {image:6} {burst:>6}\n", link.number);
    }
    let expected = Run {
        errors: String::new(),
        ..done(table, String::new())
    };
    runs(given, test, "links", b"", expected);
}

fn tool_writes_words(given: &Given, test: &mut Test) {
    let words = Second::read(&given.tables).words;
    for number in 0..64 {
        let expected = done(line(&bits(words.of(number))), "count=32".to_string());
        runs(given, test, &format!("word {number}"), b"", expected);
    }
    for number in TOO_LARGE {
        let expected = refused_for(1, format!("{number} was asked for"));
        runs(given, test, &format!("word {number}"), b"", expected);
    }
}

/// Every word with up to eight places wrong, and rows of wrong lengths and of other characters.
fn tool_reads_words(given: &Given, test: &mut Test) {
    let words = Second::read(&given.tables).words;
    let mut random = test.random(601);
    let mut rows: Vec<Vec<u8>> = (0..64)
        .map(|number| {
            let places = random.places(number % 9, 32);
            inverted(&bits(words.of(number)), &places)
        })
        .collect();
    let word = bits(words.of(5));
    rows.extend([vec![], word[1..].to_vec(), [&word[..], &[0]].concat()]);
    for other in [2, 208, 209, 255] {
        let mut row = word.clone();
        row[random.below(32)] = other;
        rows.push(row);
    }
    for row in rows {
        let expected = match words.read(&row) {
            Ok(Reading { number, wrong }) => done(format!("{number}\n"), format!("wrong={wrong}")),
            Err(number) => refused_bits(number, &row, "a link word", 32),
        };
        runs(given, test, "read-word", &line(&row), expected);
    }
}

/// What a writing command is to show for a datagram on a link that holds so many bytes.
fn written(expected: Result<Vec<u8>, Refusal>, link: u32, came: usize, held: usize) -> Run {
    match expected {
        Ok(row) => done(line(&row), format!("count={}", row.len())),
        Err(number) => refused_for(
            number,
            format!("{came} bytes came, link {link} holds {held}"),
        ),
    }
}

/// What a command is to show for a link that it does not have.
fn no_link(link: &str) -> Run {
    refused_for(1, format!("link {link} was asked for"))
}

/// On every link the empty datagram, a full one, a random one and one that is a byte too long, as
/// bytes and as hexadecimal digits.
fn tool_writes_blocks(given: &Given, test: &mut Test) {
    let second = Second::read(&given.tables);
    let mut random = test.random(602);
    for link in second.links.all() {
        let part = random.below(link.bytes());
        for length in [0, part, link.bytes(), link.bytes() + 1] {
            let datagram = random.bytes(length);
            let expected = || {
                let row = second.write_block(link.number, &datagram, usize::MAX);
                written(row, link.number, length, link.bytes())
            };
            let command = format!("write {}", link.number);
            runs(given, test, &command, &datagram, expected());
            let digits = hex_line(&datagram);
            let command = command + " -x";
            runs(given, test, &command, digits.as_bytes(), expected());
        }
    }
    for number in ["0", "3", "24"].into_iter().chain(TOO_LARGE) {
        let command = format!("write {number}");
        runs(given, test, &command, &[7; 6000], no_link(number));
    }
}

/// On every link an image with none, one and two wrong places, a place cut off, a non-bit.
fn tool_reads_blocks(given: &Given, test: &mut Test) {
    let second = Second::read(&given.tables);
    let mut random = test.random(603);
    for link in second.links.all() {
        let image = image_of(link, &random_datagram(link, &mut random));
        let one_wrong = inverted(&image, &random.places(1, image.len()));
        let two_wrong = inverted(&image, &two_places(link, 1, &mut random));
        let mut non_bit = image.clone();
        non_bit[random.below(image.len())] = 3;
        let short = image[1..].to_vec();
        for row in [image, one_wrong, two_wrong, non_bit, short] {
            let read = second.read_block(link.number, &row, usize::MAX);
            let (bytes, digits) = match read {
                Ok(read) => {
                    let counts = format!("count={} wrong={}", link.bytes(), read.wrong);
                    let digits = hex_line(&read.datagram);
                    (done(read.datagram, counts.clone()), done(digits, counts))
                }
                Err(number) => {
                    let what = format!("the image of link {}", link.number);
                    let refused = || refused_bits(number, &row, &what, link.image_length());
                    (refused(), refused())
                }
            };
            let command = format!("read {}", link.number);
            runs(given, test, &command, &line(&row), bytes);
            runs(given, test, &format!("{command} -x"), &line(&row), digits);
        }
    }
    for number in TOO_LARGE {
        runs(
            given,
            test,
            &format!("read {number}"),
            &line(&[0; 394]),
            no_link(number),
        );
    }
}

fn tool_writes_slots(given: &Given, test: &mut Test) {
    let second = Second::read(&given.tables);
    let mut random = test.random(604);
    for (number, bytes, _) in SLOT_SIZES {
        for length in [0, 1, bytes - 1, bytes, bytes + 1] {
            let datagram = random.bytes(length);
            let row = second.write_slot(number, &datagram, usize::MAX);
            let expected = written(row, number, length, bytes);
            runs(
                given,
                test,
                &format!("write-slot {number}"),
                &datagram,
                expected,
            );
        }
    }
    for number in ["0", "4", "8", "33"].into_iter().chain(TOO_LARGE) {
        runs(
            given,
            test,
            &format!("write-slot {number}"),
            b"",
            no_link(number),
        );
    }
}

/// The places of the training from this one on.
fn from(start: usize) -> Vec<usize> {
    (start..TRAINING).collect()
}

/// What reading a slot burst is to show, with -x.
fn slot_read(second: &Second, burst: &[u8]) -> Run {
    match second.read_slot(burst, usize::MAX) {
        Ok(read) => {
            let (datagram, wrong) = (read.block.datagram, read.block.wrong);
            let (word_wrong, training_wrong) = (read.word_wrong, read.training_wrong);
            let counts = format!("count={} wrong={wrong} link={}", datagram.len(), read.link);
            let counts =
                format!("{counts} word_wrong={word_wrong} training_wrong={training_wrong}");
            done(hex_line(&datagram), counts)
        }
        Err(number) => slot_refused(second, burst, number),
    }
}

/// What a refused slot burst is to show: its head's length or its link's, the link that its word
/// names, or how many bits of its training differ and which is the first.
fn slot_refused(second: &Second, burst: &[u8], number: Refusal) -> Run {
    if burst.len() < HEAD {
        return refused_bits(number, burst, "the head of a slot burst", HEAD);
    }
    let training = bits(&second.training);
    let wrong: Vec<usize> = (0..TRAINING).filter(|&n| burst[n] != training[n]).collect();
    if number == 5 {
        let (count, first) = (wrong.len(), wrong[0]);
        let got = format!("{count} of 54 bits differ, the first at place {first}");
        return refused_for(5, got);
    }
    let link = second.words.read(&burst[TRAINING..HEAD]);
    let link = link.map_or(0, |word| word.number);
    if number == 1 {
        return refused_for(1, format!("the link word names link {link}"));
    }
    let size = SLOT_SIZES.iter().find(|size| size.0 == link);
    let what = format!("a slot burst of link {link}");
    refused_bits(number, burst, &what, size.map_or(0, |size| size.2))
}

/// Bursts with these numbers of wrong places in the training, in the word and in the block.
fn tool_reads_slots(given: &Given, test: &mut Test) {
    let second = Second::read(&given.tables);
    let mut random = test.random(605);
    let wrong = [
        [0, 0, 0],
        [0, 7, 0],
        [0, 8, 0],
        [0, 0, 1],
        [0, 3, 1],
        [0, 0, 2],
        [1, 0, 0],
        [5, 3, 1],
        [8, 7, 1],
        [8, 8, 1],
        [8, 7, 2],
        [9, 0, 0],
        [9, 8, 2],
    ];
    for link in SLOT_LINKS.map(|number| second.links.of(number)) {
        for counts in wrong {
            let burst = burst_of(&second, link, &random_datagram(link, &mut random));
            let burst = inverted(&burst, &places_of_parts(link, counts, &mut random));
            for command in READ_SLOT {
                let expected = slot_read(&second, &burst);
                runs(given, test, command, &line(&burst), expected);
            }
        }
    }
}

/// Document 02's K7 in the tool's own words: up to eight wrong bits of the training are counted, and
/// more are refused.
fn tool_tells_wrong_training(given: &Given, test: &mut Test) {
    let second = Second::read(&given.tables);
    let link = second.links.of(6);
    let written = burst_of(&second, link, b"ok");
    let places = [2, 3, 11, 20, 31, 32, 40, 52, 53];
    for (count, told) in [
        (0, "count=80 wrong=0 link=6 word_wrong=0 training_wrong=0"),
        (1, "count=80 wrong=0 link=6 word_wrong=0 training_wrong=1"),
        (8, "count=80 wrong=0 link=6 word_wrong=0 training_wrong=8"),
    ] {
        let burst = line(&inverted(&written, &places[..count]));
        for command in READ_SLOT {
            let expected = done(hex_line(&filled(link, b"ok")), told.to_string());
            runs(given, test, command, &burst, expected);
        }
    }
    for (places, got) in [
        (&places[..], "9 of 54 bits differ, the first at place 2"),
        (&from(45), "9 of 54 bits differ, the first at place 45"),
        (&from(0), "54 of 54 bits differ, the first at place 0"),
    ] {
        let burst = line(&inverted(&written, places));
        for command in READ_SLOT {
            runs(given, test, command, &burst, refused_for(5, got));
        }
    }
}

/// Every refusal of the list of document 01 that a large enough buffer leaves, whole and by parts.
fn tool_refuses_slots(given: &Given, test: &mut Test) {
    let second = Second::read(&given.tables);
    for ((burst, _), _) in ordered_faults::reading_slots(&second) {
        for command in READ_SLOT {
            let expected = slot_read(&second, &burst);
            runs(given, test, command, &line(&burst), expected);
        }
    }
}

/// Document 02's K2: parts of any length show what the whole burst shows, be it good, mended,
/// refused, too short or too long. The last length is a number above 64 bits.
fn tool_reads_slots_by_parts(given: &Given, test: &mut Test) {
    let second = Second::read(&given.tables);
    let mut random = test.random(608);
    for number in SLOT_LINKS {
        let link = second.links.of(number);
        let burst = burst_of(&second, link, &random_datagram(link, &mut random));
        let longer = |bits| [&burst[..], &vec![1; bits]].concat();
        let mut non_bit = burst.clone();
        non_bit[burst.len() - 1] = 2;
        for row in [
            inverted(&burst, &[TRAINING, HEAD]),
            inverted(&burst, &[HEAD, HEAD + 9]),
            inverted(&burst, &from(TRAINING - 8)),
            inverted(&burst, &from(TRAINING - 9)),
            burst[1..].to_vec(),
            longer(1),
            longer(2000),
            non_bit,
            burst,
        ] {
            for part in ["1", "7", "64", "1504", "18446744073709551617"] {
                let command = format!("read-slot -x --parts {part}");
                let expected = slot_read(&second, &row);
                runs(given, test, &command, &line(&row), expected);
            }
        }
    }
}
