//! The tests of the built command line tool's commands write-message and zero-fill (document 02, K6):
//! known bytes, every refusal in words, wrong usage, and a shore script that sends several messages.

use crate::harness::program::Run;
use crate::harness::random::Random;
use crate::harness::report::{named_tests, Given, NamedTest, Test};
use crate::harness::tool::{
    done, ended, hex_line, not_taken, refused_at, refused_for, runs, shell, too_long, wrong_usage,
};
use std::{fs, path::PathBuf, process};

pub const TESTS: &[NamedTest] = named_tests![
    tool_writes_messages,
    tool_refuses_messages,
    tool_lays_messages_into_files,
    tool_refuses_messages_in_order,
    tool_takes_files,
    tool_fills_with_zeros,
    tool_refuses_to_fill,
    tool_refuses_wrong_usage_of_messages,
    tool_refuses_wrong_usage_of_zeros,
    tool_runs_the_readmes_script,
    tool_runs_the_script_ashore,
    tool_runs_the_script_with_files,
];

/// Bytes after the source: the most that a message takes.
const MOST: usize = 65_528;

/// A message as document 02's K6 has it.
fn message(kind: u8, source: u32, body: &[u8]) -> Vec<u8> {
    let length = u16::try_from(7 + body.len()).expect("a message's length has 16 bits");
    let (length, source) = (length.to_be_bytes(), source.to_be_bytes());
    [&[kind][..], &length, &source, body].concat()
}

/// A datagram in a file beside the tool, for as long as this is kept.
struct File(PathBuf);

impl File {
    fn with(given: &Given, bytes: impl AsRef<[u8]>) -> File {
        let name = format!("ci-datagram-{}", process::id());
        let path = given.tool.with_file_name(name);
        fs::write(&path, bytes).expect("a file beside the tool can be written");
        File(path)
    }

    fn name(&self) -> String {
        self.0.display().to_string()
    }
}

impl Drop for File {
    fn drop(&mut self) {
        fs::remove_file(&self.0).expect("a file that was written can be removed");
    }
}

/// The command for a message of this type and source.
fn command(kind: u8, source: u32) -> String {
    format!("write-message --type {kind} --source {source}")
}

/// Messages typed out, the shortest, the longest, and random ones, as bytes and as hexadecimal digits.
fn tool_writes_messages(given: &Given, test: &mut Test) {
    let mut random = test.random(609);
    let ice = [&[93, 0, 14, 0, 0, 0, 1][..], b"ICE 65N"].concat();
    let wide = [&[82, 1, 51, 0x12, 0x34, 0x56, 0x78][..], &[7; 300]].concat();
    let longest = [&[1, 255, 255, 0, 0, 1, 0][..], &[81; MOST]].concat();
    for (kind, source, body, expected) in [
        (93, 1, &b"ICE 65N"[..], ice),
        (80, 0, b"", vec![80, 0, 7, 0, 0, 0, 0]),
        (255, u32::MAX, b"\0", vec![255, 0, 8, 255, 255, 255, 255, 0]),
        (82, 0x1234_5678, &[7; 300], wide),
        (1, 256, &[81; MOST], longest),
    ] {
        let counts = format!("count={}", expected.len());
        let expected = done(expected, counts);
        runs(given, test, &command(kind, source), body, expected);
    }
    for _ in 0..20 {
        let (kind, source, length) = (
            82 + random.below(174),
            random.below(1 << 32),
            random.below(400),
        );
        let (kind, source, body) = (kind as u8, source as u32, random.bytes(length));
        let expected = message(kind, source, &body);
        let counts = || format!("count={}", expected.len());
        let digits = done(hex_line(&expected), counts());
        runs(
            given,
            test,
            &command(kind, source),
            &body,
            done(&expected, counts()),
        );
        let command = command(kind, source) + " -x";
        runs(given, test, &command, hex_line(&body).as_bytes(), digits);
    }
}

/// What a type that is none, and a body of so many bytes that is too long, are to show.
fn no_type(kind: u8) -> Run {
    refused_for(13, format!("type {kind} was asked for"))
}

fn long_body(came: usize) -> Run {
    refused_for(14, format!("{came} bytes came"))
}

/// The refusals of a message alone: 13, then 14. Of the input, one byte above 64 KiB comes before both.
fn tool_refuses_messages(given: &Given, test: &mut Test) {
    for (kind, length, expected) in [
        (0, 0, no_type(0)),
        (0, MOST + 1, no_type(0)),
        (81, 0, no_type(81)),
        (81, MOST + 1, no_type(81)),
        (82, MOST + 1, long_body(MOST + 1)),
        (80, 65_536, long_body(65_536)),
        (81, 65_537, too_long()),
    ] {
        let body = vec![b'5'; length];
        runs(given, test, &command(kind, 1), &body, expected);
    }
    let digits = command(82, 1) + " -x";
    runs(given, test, &digits, &[b'5'; 65_537], too_long());
}

/// A message laid into a datagram, which is to be shown whole and as it was before and behind it.
fn lays(given: &Given, test: &mut Test, datagram: &[u8], start: usize, random: &mut Random) {
    let room = datagram.len() - start;
    let (source, length) = (random.below(1 << 32) as u32, random.below(room - 6));
    let body = random.bytes(length);
    let laid = message(74, source, &body);
    let next = start + laid.len();
    let expected = [&datagram[..start], &laid, &datagram[next..]].concat();
    let counts = || format!("count={} next={next}", laid.len());

    let file = File::with(given, datagram);
    let into = format!("{} --into {}", command(74, source), file.name());
    let at = format!("{into} --at {start}");
    runs(given, test, &at, &body, done(&expected, counts()));
    if start == 0 {
        runs(given, test, &into, &body, done(&expected, counts()));
    }
    drop(file);
    let file = File::with(given, hex_line(datagram));
    let at = format!(
        "{} -x --at {start} --into {}",
        command(74, source),
        file.name()
    );
    let digits = done(hex_line(&expected), counts());
    runs(given, test, &at, hex_line(&body).as_bytes(), digits);
}

/// At the start, inside, and where a message of 7 bytes just ends with the datagram.
fn tool_lays_messages_into_files(given: &Given, test: &mut Test) {
    let mut random = test.random(610);
    for length in [7, 8, 80, 300, 2000] {
        let datagram = random.bytes(length);
        for start in [0, random.below(length - 6), length - 7] {
            lays(given, test, &datagram, start, &mut random);
        }
    }
}

/// 8, 13, 14 and 3, each where all that are tried behind it would be true too, where only some would,
/// and at the last place where it is none.
fn tool_refuses_messages_in_order(given: &Given, test: &mut Test) {
    let past = |start: u64| refused_at(8, start as usize, "the datagram has 20 bytes");
    let no_room = |start, needed, left| {
        let got = format!("the message has {needed} bytes, there is room for {left}");
        refused_at(3, start, got)
    };
    let file = File::with(given, [9; 20]);
    for (kind, start, length, expected) in [
        (0, 21, MOST + 1, past(21)),
        (74, 21, 0, past(21)),
        (74, u64::MAX, 0, past(u64::MAX)),
        (0, 20, MOST + 1, no_type(0)),
        (81, 20, 0, no_type(81)),
        (81, 0, 0, no_type(81)),
        (74, 20, MOST + 1, long_body(MOST + 1)),
        (74, 0, 65_536, long_body(65_536)),
        (74, 20, 0, no_room(20, 7, 0)),
        (74, 19, 0, no_room(19, 7, 1)),
        (74, 14, 0, no_room(14, 7, 6)),
        (74, 0, 14, no_room(0, 21, 20)),
        (74, 0, MOST, no_room(0, 65_535, 20)),
    ] {
        let into = format!("{} --into {} --at {start}", command(kind, 1), file.name());
        runs(given, test, &into, &vec![5; length], expected);
    }
    let above = format!(
        "{} --into {} --at 18446744073709551617",
        command(74, 1),
        file.name()
    );
    runs(given, test, &above, b"", past(u64::MAX));
}

/// Files of 64 KiB and not of more, no file, a folder, and digits that are none: each is told by the
/// file's name, and before the body is looked at.
fn tool_takes_files(given: &Given, test: &mut Test) {
    let into = |name: &str| format!("{} --into {name}", command(74, 1));
    let most = File::with(given, [9; 65_536]);
    let expected = [message(74, 1, b"ok"), vec![9; 65_527]].concat();
    let counts = "count=9 next=9".to_string();
    runs(
        given,
        test,
        &into(&most.name()),
        b"ok",
        done(expected, counts),
    );
    drop(most);
    let more = File::with(given, [9; 65_537]);
    let expected = not_taken(format!("{} is longer than 64 KiB", more.name()));
    runs(given, test, &into(&more.name()), &[5; 65_537], expected);
    drop(more);
    let digits = File::with(given, "09 0x09");
    let words = format!("no hexadecimal byte at character 4 of {}", digits.name());
    let command = into(&digits.name()) + " -x";
    runs(given, test, &command, b"no digits", not_taken(words));
    let gone = digits.name();
    drop(digits);
    for name in [gone.as_str(), "/"] {
        let words = format!("decklewren: {name} cannot be read\n");
        runs(given, test, &into(name), b"ok", ended(3, &[], words));
    }
}

/// Datagrams that are empty, shorter than they are to be, and just as long, up to 64 KiB; short ones also
/// with -x, where the digits that came would stand in the place of the zeros.
fn tool_fills_with_zeros(given: &Given, test: &mut Test) {
    let mut random = test.random(611);
    for (came, size) in [
        (0, 0),
        (0, 1),
        (0, 80),
        (1, 2),
        (29, 80),
        (79, 80),
        (80, 80),
        (0, 65_536),
        (65_000, 65_536),
        (65_536, 65_536),
    ] {
        let datagram = random.bytes(came);
        let zeros = size - came;
        let expected = [&datagram[..], &vec![0; zeros]].concat();
        let counts = || format!("count={zeros} start={came}");
        let command = format!("zero-fill {size}");
        runs(given, test, &command, &datagram, done(&expected, counts()));
        if size <= 80 {
            let digits = done(hex_line(&expected), counts());
            let command = command + " -x";
            runs(
                given,
                test,
                &command,
                hex_line(&datagram).as_bytes(),
                digits,
            );
        }
    }
}

fn tool_refuses_to_fill(given: &Given, test: &mut Test) {
    for (came, size) in [(1, 0), (81, 80), (100, 80), (65_536, 65_535)] {
        let got = format!("{came} bytes came, the datagram has room for {size}");
        let command = format!("zero-fill {size}");
        runs(given, test, &command, &vec![0; came], refused_for(8, got));
    }
    runs(given, test, "zero-fill 5", &[0; 65_537], too_long());
    for size in ["65537", "4294967296", "18446744073709551617"] {
        let expected = wrong_usage("zero-fill takes a number up to 65536");
        runs(given, test, &format!("zero-fill {size}"), b"", expected);
    }
}

fn tool_refuses_wrong_usage_of_messages(given: &Given, test: &mut Test) {
    for (options, fault) in [
        ("", "write-message needs --type"),
        ("--source 1", "write-message needs --type"),
        ("--type 9", "write-message needs --source"),
        ("--type", "a number is missing behind --type"),
        ("--type x", "--type takes a number, and 'x' is none"),
        ("--type -1", "--type takes a number, and '-1' is none"),
        ("--type 256", "--type takes a number up to 255"),
        ("--type 337", "--type takes a number up to 255"),
        ("--type 9 --source", "a number is missing behind --source"),
        ("--source 1f", "--source takes a number, and '1f' is none"),
        (
            "--source 4294967296",
            "--source takes a number up to 4294967295",
        ),
        (
            "--source 18446744073709551617",
            "--source takes a number up to 4294967295",
        ),
        ("--type 9 --source 1 --at 0", "--at needs --into"),
        (
            "--type 9 --source 1 --at x",
            "--at takes a number, and 'x' is none",
        ),
        ("--at", "a number is missing behind --at"),
        ("--into", "a file is missing behind --into"),
        ("--type 9 --source 1 5", "write-message does not take '5'"),
        ("--type 9 --seed 1", "write-message does not take --seed"),
        ("--type 9 --parts 8", "write-message does not take --parts"),
        ("--body ok", "there is no option '--body'"),
    ] {
        let command = format!("write-message {options}");
        runs(given, test, &command, b"ok", wrong_usage(fault));
    }
}

/// Of zero-fill, and of commands that take none of these options.
fn tool_refuses_wrong_usage_of_zeros(given: &Given, test: &mut Test) {
    for (command, fault) in [
        ("zero-fill", "a number is missing behind zero-fill"),
        ("zero-fill x", "zero-fill takes a number, and 'x' is none"),
        (
            "zero-fill 5 6",
            "zero-fill takes one number, and '6' is a second",
        ),
        ("zero-fill 5 --at 1", "zero-fill does not take --at"),
        ("zero-fill 5 --into file", "zero-fill does not take --into"),
        ("step --at 1", "step does not take --at"),
        ("write-slot 6 --type 9", "write-slot does not take --type"),
        ("write 6 --source 1", "write does not take --source"),
        ("read-slot --into file", "read-slot does not take --into"),
    ] {
        runs(given, test, command, b"ok", wrong_usage(fault));
    }
}

/// The README's script, up to the pipe that its two messages go into, and the datagram of link 6 that
/// they make.
const ASHORE: &str = "{ printf 'ICE 65N' | D write-message --type 93 --source 1 &&
    printf 'TUG 0900' | D write-message --type 93 --source 1; }";

fn datagram_ashore() -> Vec<u8> {
    let mut datagram = [message(93, 1, b"ICE 65N"), message(93, 1, b"TUG 0900")].concat();
    datagram.resize(80, 0);
    datagram
}

/// The README's script, with what it prints there.
fn tool_runs_the_readmes_script(given: &Given, test: &mut Test) {
    let script =
        format!("{{ {ASHORE} | D zero-fill 80 | D write-slot 6 | D read-slot | D step; }} 2>&1");
    let printed = "count=14
count=15
count=51 start=29
count=992
count=80 wrong=0 link=6 word_wrong=0 training_wrong=0
0 14
14 15
count=2 finished=29
";
    let expected = (printed.to_string(), Some(0));
    test.case(|| script.clone(), expected, [shell(given, &script)]);
}

/// Messages one behind another through zero-fill, a burst, also with a wrong bit, and back; too many for
/// the datagram are refused, and leave the next command nothing.
fn tool_runs_the_script_ashore(given: &Given, test: &mut Test) {
    let (walked, full) = ("0 14\n14 15\n", hex_line(&datagram_ashore()));
    let as_sent = full.as_str();
    for (rest, expected, exit) in [
        (
            "D zero-fill 80 | D write-slot 6 | D damage 1 --seed 7 | D read-slot -x",
            as_sent,
            0,
        ),
        ("D zero-fill 29 | D step", walked, 0),
        ("D zero-fill 28", "", 1),
        ("D zero-fill 28 | D read-slot", "", 1),
    ] {
        let script = format!("{ASHORE} | {rest}");
        let expected = (expected.to_string(), Some(exit));
        test.case(|| script.clone(), expected, [shell(given, &script)]);
    }
    let digits = ASHORE.replace("write-message", "write-message -x");
    let digits = digits.replace("ICE 65N", "49 43 45 2036354e");
    let digits = digits.replace("TUG 0900", "5455472030393030");
    let script = format!("{digits} | D zero-fill 80 -x | D write-slot 6 -x | D read-slot -x");
    let expected = (full, Some(0));
    test.case(|| script.clone(), expected, [shell(given, &script)]);
}

/// A datagram in a file: first zeros, then each message at the place that the one before it told. The
/// one for which there is no room leaves the file as it is.
fn tool_runs_the_script_with_files(given: &Given, test: &mut Test) {
    let file = File::with(given, []);
    let name = file.name();
    let script = format!(
        "lay() {{
            printf '%s' \"$3\" | D write-message --type $1 --source $2 --into {name} --at $next \\
                >{name}.new 2>{name}.counts || return
            next=$(sed 's/.*next=//' {name}.counts); mv {name}.new {name}
        }}
        next=0; D zero-fill 80 </dev/null >{name}
        lay 93 1 'ICE 65N'; lay 74 2 ''; lay 93 1 $(printf %060d 0); echo $? $next
        cat {name}.counts; D step <{name}; rm {name}.new {name}.counts"
    );
    let refusal = "decklewren: refusal 3 at 21: output buffer too short";
    let refusal = format!("{refusal} (the message has 67 bytes, there is room for 59)");
    let expected = format!("1 21\n{refusal}\n0 14\n14 7\n");
    test.case(
        || script.clone(),
        (expected, Some(0)),
        [shell(given, &script)],
    );
}
