//! The tests of how the command line tool is used: its input's forms and limit, damage, help, wrong
//! usage, pipes and output that cannot be written.

use crate::harness::program::{run, Input};
use crate::harness::report::{named_tests, Given, NamedTest, Test};
use crate::harness::tool::{
    done, ended, hex_line, line, not_taken, refused_at, refused_for, runs, shell, too_long,
    wrong_usage,
};
use crate::second::bits::inverted;
use std::collections::BTreeSet;

pub const TESTS: &[NamedTest] = named_tests![
    tool_drops_one_newline,
    tool_takes_hexadecimal_digits,
    tool_refuses_other_digits,
    tool_takes_64_kib,
    tool_damages,
    tool_refuses_to_damage,
    tool_helps,
    tool_refuses_wrong_usage,
    tool_works_in_pipes,
    tool_runs_the_pipe_of_the_readme,
    tool_fails_where_output_fails,
    tool_tells_its_version,
];

const WORD_OF_5: &str = "11010101111011010111111010111111";

/// One newline at the end is no bit; every other character is one of the row, and is told.
fn tool_drops_one_newline(given: &Given, test: &mut Test) {
    let read = || done("5\n", "wrong=0".to_string());
    let longer = |other| {
        let got = "33 characters came, a link word has 32 bits; character 33 is";
        refused_for(2, format!("{got} {other}"))
    };
    for (behind, expected) in [
        ("", read()),
        ("\n", read()),
        ("\n\n", longer("a newline")),
        ("\r\n", longer("a carriage return")),
        ("\t", longer("a tab")),
        (" ", longer("a blank")),
    ] {
        let text = format!("{WORD_OF_5}{behind}");
        runs(given, test, "read-word", text.as_bytes(), expected);
    }
    let crlf = format!("{}\r\n", &WORD_OF_5[1..]);
    let expected = refused_for(4, "character 32 is a carriage return");
    runs(given, test, "read-word", crlf.as_bytes(), expected);
    let expected = refused_for(2, "0 bits came, a link word has 32");
    runs(given, test, "read-word", b"\n", expected);
}

/// Large and small digits, with spaces and newlines between bytes, and no byte at all.
fn tool_takes_hexadecimal_digits(given: &Given, test: &mut Test) {
    let walked = || done("0 10\n", "count=1 finished=10".to_string());
    for digits in [
        "4a000aFfAbCdEf0123",
        "4A 00 0a ff ab cd ef 01 23",
        "\t4a00\r\n0aff abcd\n\nef0123\n",
    ] {
        runs(
            given,
            test,
            "step -x",
            format!("{digits}09").as_bytes(),
            walked(),
        );
    }
    let nothing = || done("", "count=0 finished=0".to_string());
    runs(given, test, "step -x", b"", nothing());
    runs(given, test, "step -x", b" \n", nothing());
}

fn tool_refuses_other_digits(given: &Given, test: &mut Test) {
    for (text, place) in [
        ("4", 1),
        ("4a0", 3),
        ("4a 0 0a", 4),
        ("0x4a", 1),
        ("4g", 1),
        ("4a,00", 3),
        ("4a\0", 3),
        ("4a/0", 3),
        ("4a:0", 3),
        ("4a@0", 3),
        ("4a`0", 3),
    ] {
        let words = format!("no hexadecimal byte at character {place} of standard input");
        runs(given, test, "step -x", text.as_bytes(), not_taken(words));
    }
}

/// 65,536 bytes are taken, one more is not, whatever they are and whoever reads them. Bytes 74 only
/// are messages of 74 * 256 + 74 bytes, of which three end inside the datagram.
fn tool_takes_64_kib(given: &Given, test: &mut Test) {
    let most = 65_536;
    let finished = || done("", "count=0 finished=0".to_string());
    runs(given, test, "step", &vec![81; most], finished());
    runs(given, test, "step -x", &vec![b'0'; most], finished());
    let behind_three = 3 * (74 * 256 + 74);
    runs(
        given,
        test,
        "step",
        &vec![74; most],
        refused_at(
            12,
            behind_three,
            "the message declares 19018 bytes, 10536 are missing",
        ),
    );
    for (command, refusal, got) in [
        ("read-word", 2, "65536 bits came, a link word has 32"),
        ("read 5", 2, "65536 bits came, the image of link 5 has 394"),
        ("read-slot", 5, "28 of 54 bits differ, the first at place 0"),
        (
            "read-slot --parts 9",
            5,
            "28 of 54 bits differ, the first at place 0",
        ),
        ("write 5", 2, "65536 bytes came, link 5 holds 32"),
        ("write-slot 5", 2, "65536 bytes came, link 5 holds 32"),
    ] {
        let expected = refused_for(refusal, got);
        runs(given, test, command, &vec![b'0'; most], expected);
        for length in [most + 1, 100_000] {
            runs(given, test, command, &vec![b'0'; length], too_long());
        }
    }
    for command in ["step", "step -x", "step 0", "damage 1", "write 5 -x"] {
        runs(given, test, command, &vec![b'0'; most + 1], too_long());
    }
}

/// The places that a run of damage inverted, or none if it is not as it should be.
fn damaged(given: &Given, row: &[u8], count: usize, seed: &str) -> Option<BTreeSet<usize>> {
    let count_text = count.to_string();
    let mut arguments = vec!["damage", &count_text];
    if !seed.is_empty() {
        arguments.extend(["--seed", seed]);
    }
    let seen = run(&given.tool, &arguments, Input::whole(line(row)), 0);
    let came: Vec<u8> = seen.output.bytes().collect();
    let differ = (0..row.len()).filter(|&place| came.get(place) != Some(&(row[place] + b'0')));
    let places: BTreeSet<usize> = differ.collect();
    let chosen: Vec<usize> = places.iter().copied().collect();
    let named = seen.errors.trim_end().rsplit('=').next()?.split(',');
    let named: BTreeSet<usize> = named.filter_map(|place| place.parse().ok()).collect();
    let as_told = came == line(&inverted(row, &chosen)) && named == places;
    let seed = if seed.is_empty() { "1" } else { seed };
    let counts = format!("count={count} seed={seed} places=");
    let good = as_told && seen.exit == Some(0) && seen.errors.starts_with(&counts);
    good.then_some(places)
}

/// Just so many places are inverted, the same for the same seed; seeds reach every place.
fn tool_damages(given: &Given, test: &mut Test) {
    let mut random = test.random(607);
    for (length, count) in [
        (0, 0),
        (1, 0),
        (1, 1),
        (394, 7),
        (992, 1),
        (40, 40),
        (992, 500),
    ] {
        let row = random.bits(length);
        for seed in ["", "1", "0", "7", "18446744073709551615"] {
            let call = || format!("damage {count} of {length} bits, seed {seed:?}");
            let counts = [(); 2].map(|()| damaged(given, &row, count, seed));
            let twice = counts[0] == counts[1];
            let counts = counts.map(|places| places.map(|places| places.len()));
            test.case(call, ([Some(count); 2], true), [(counts, twice)]);
        }
    }
    let row = random.bits(6);
    let places = (0..80).filter_map(|seed: u32| damaged(given, &row, 1, &seed.to_string()));
    let reached: BTreeSet<usize> = places.flatten().collect();
    let call = || "one of 6 bits with the seeds 0 to 79".to_string();
    test.case(call, (0..6).collect(), [reached]);
}

fn tool_refuses_to_damage(given: &Given, test: &mut Test) {
    let too_few = |bits| {
        not_taken(format!(
            "more places to invert than the {bits} bits that came"
        ))
    };
    runs(given, test, "damage 1", b"\n", too_few(0));
    runs(given, test, "damage 9", b"00000000\n", too_few(8));
    runs(
        given,
        test,
        "damage 18446744073709551617",
        b"0101",
        too_few(4),
    );
    for (text, place, name) in [
        ("012", 3, "'2'"),
        ("x", 1, "'x'"),
        ("01\n\n", 3, "a newline"),
        ("01\r\n", 3, "a carriage return"),
        ("0 1", 2, "a blank"),
        ("\x01", 1, "byte 0x01"),
    ] {
        let words = format!("character {place} of standard input is {name}, neither 0 nor 1");
        runs(given, test, "damage 0", text.as_bytes(), not_taken(words));
    }
}

/// Help goes to standard output and names every command.
fn tool_helps(given: &Given, test: &mut Test) {
    for arguments in [
        &["--help"][..],
        &["-h"],
        &["help"],
        &["help", "write"],
        &["write", "--help"],
        &["nothing", "-h"],
    ] {
        let seen = run(&given.tool, arguments, Input::whole(""), 0);
        let commands = [
            "links",
            "word N",
            "read-word",
            "write LINK",
            "read LINK",
            "write-slot LINK",
            "read-slot [-x] [--parts N]",
            "step [POSITION]",
            "write-message --type T --source S [-x] [--into FILE [--at START]]\n ",
            "zero-fill SIZE [-x]",
            "damage N [--seed S]",
            "help",
        ];
        let missing: Vec<&str> = commands
            .into_iter()
            .filter(|command| !seen.output.contains(&format!("\n  {command} ")))
            .collect();
        let expected = (vec![], true, String::new(), Some(0));
        let usage = seen.output.starts_with("usage: decklewren ");
        let shown = (missing, usage, seen.errors, seen.exit);
        test.case(|| format!("{arguments:?}"), expected, [shown]);
    }
}

fn tool_refuses_wrong_usage(given: &Given, test: &mut Test) {
    for (arguments, words) in [
        ("nothing", "there is no command 'nothing'"),
        ("-x", "there is no command '-x'"),
        ("write", "a number is missing behind write"),
        ("read -x", "a number is missing behind read"),
        ("word", "a number is missing behind word"),
        ("damage --seed 5", "a number is missing behind damage"),
        ("word five", "word takes a number, and 'five' is none"),
        ("word -5", "word takes a number, and '-5' is none"),
        ("word +5", "word takes a number, and '+5' is none"),
        ("word 5x", "word takes a number, and '5x' is none"),
        ("word 0x5", "word takes a number, and '0x5' is none"),
        ("word 5 6", "word takes one number, and '6' is a second"),
        ("word 5 -x", "word does not take -x"),
        ("read-word 5", "read-word does not take '5'"),
        ("read-slot 5", "read-slot does not take '5'"),
        ("links 5", "links does not take '5'"),
        ("links --version", "there is no option '--version'"),
        ("write 6 --hex", "there is no option '--hex'"),
        ("step help", "step takes a number, and 'help' is none"),
        ("damage 1 -x", "damage does not take -x"),
        ("damage 1 --seed", "a number is missing behind --seed"),
        (
            "damage 1 --seed x",
            "--seed takes a number, and 'x' is none",
        ),
        ("write 5 --seed 1", "write does not take --seed"),
        ("read-slot --parts", "a number is missing behind --parts"),
        ("read-slot --parts 0", "--parts takes a number from 1 on"),
        (
            "read-slot --parts x",
            "--parts takes a number, and 'x' is none",
        ),
        (
            "read-slot --parts -1",
            "--parts takes a number, and '-1' is none",
        ),
        ("read-slot --parts 8 5", "read-slot does not take '5'"),
        (
            "read-slot --parts 8 --seed 1",
            "read-slot does not take --seed",
        ),
        ("read 5 --parts 8", "read does not take --parts"),
        ("read-word --parts 8", "read-word does not take --parts"),
        ("write-slot 5 --parts 8", "write-slot does not take --parts"),
        ("step --parts 8", "step does not take --parts"),
        ("damage 1 --parts 8", "damage does not take --parts"),
    ] {
        runs(given, test, arguments, b"0", wrong_usage(words));
    }
    let seen = run(&given.tool, &[], Input::whole(""), 0);
    let usage = seen.errors.starts_with("usage: decklewren ");
    let fault = "\ndecklewren: a command is missing\nTry 'decklewren --help'.\n";
    let shown = (
        seen.output,
        usage && seen.errors.ends_with(fault),
        seen.exit,
    );
    test.case(
        || "no argument".into(),
        (String::new(), true, Some(2)),
        [shown],
    );
}

/// An ice notice goes from hand to hand; a refusal on the way leaves the next command nothing.
fn tool_works_in_pipes(given: &Given, test: &mut Test) {
    let notice = [&[93, 0, 14, 0, 0, 0, 1, 0, 0, 0, 0, 0][..], b"ok"].concat();
    let full = [&notice[..], &[0; 66]].concat();
    let printed = "printf '\\135\\0\\016\\0\\0\\0\\1\\0\\0\\0\\0\\0ok'";
    for (rest, expected, exit) in [
        (
            "D write-slot 6 | D damage 1 --seed 7 | D read-slot | D step",
            "0 14\n".to_string(),
            0,
        ),
        (
            "D write-slot 6 | D damage 1 --seed 7 | D read-slot -x",
            hex_line(&full),
            0,
        ),
        (
            "D write 6 | D damage 1 | D read 6 -x | D step -x 0",
            "0 14\n".to_string(),
            0,
        ),
        (
            "D write-slot 6 | D damage 900 | D read-slot",
            String::new(),
            1,
        ),
        ("D write-slot 8 | D read-slot", String::new(), 1),
    ] {
        let script = format!("{printed} | {rest}");
        test.case(
            || script.clone(),
            (expected, Some(exit)),
            [shell(given, &script)],
        );
    }
    let printed = shell(given, "D word 5 | D damage 7 | D read-word");
    test.case(|| "word 5".into(), ("5\n".to_string(), Some(0)), [printed]);
}

/// The README's pipe, its sentence on the seeds of which the one wrong bit is in the training: they are
/// told, and none is refused; and that on two wrong bits.
fn tool_runs_the_pipe_of_the_readme(given: &Given, test: &mut Test) {
    let readme = |count: u32, seed: u32, last: &str| {
        let burst = "printf '5d 00 0e 0000000100000000 00 6f6b' | D write-slot 6 -x |";
        shell(
            given,
            &format!("{burst}\n D damage {count} --seed {seed} | {last}"),
        )
    };
    let printed = readme(1, 7, "D read-slot | D step");
    let expected = ("0 14\n".to_string(), Some(0));
    test.case(|| "the README's pipe".into(), expected, [printed]);
    let told = |seed| readme(1, seed, "D read-slot 2>&1 >/dev/null");
    let told: Vec<(String, Option<i32>)> = (1..=100).map(told).collect();
    let of_training = "count=80 wrong=0 link=6 word_wrong=0 training_wrong=1\n";
    let seeds = (1..=100).filter(|seed| told[seed - 1].0 == of_training);
    let call = || "the seeds 1 to 100 that are wrong in the training".to_string();
    test.case(call, vec![3, 29, 58, 99], [seeds.collect::<Vec<usize>>()]);
    let refused = told.iter().filter(|(_, exit)| *exit != Some(0)).count();
    test.case(|| "the seeds that are refused".into(), 0, [refused]);
    let two = readme(2, 7, "D read-slot 2>&1 >/dev/null");
    let expected = "decklewren: refusal 7: no valid block's image within one\n";
    let call = || "two wrong bits".to_string();
    test.case(call, (expected.to_string(), Some(1)), [two]);
}

/// Input or output that fails is told by an exit status of its own, and nothing is told as done: one
/// line on standard error, for short and long outputs, for one that is closed, and for input.
fn tool_fails_where_output_fails(given: &Given, test: &mut Test) {
    let output = "decklewren: standard output cannot be written\n";
    let input = "decklewren: standard input cannot be read\n";
    for (script, words) in [
        ("D word 5 2>&1 >/dev/full", output),
        ("D word 5 2>&1 >&-", output),
        ("D links 2>&1 >/dev/full", output),
        ("D write 33 </dev/null 2>&1 >/dev/full", output),
        ("D write 33 </dev/null | D read 33 2>&1 >/dev/full", output),
        ("D write-slot 6 </dev/null 2>&1 >/dev/full", output),
        (
            "D write-slot 6 </dev/null | D read-slot -x 2>&1 >/dev/full",
            output,
        ),
        ("D word 5 | D read-word 2>&1 >/dev/full", output),
        ("D word 5 | D damage 3 2>&1 >/dev/full", output),
        ("printf 4a000700000001 | D step -x 2>&1 >/dev/full", output),
        (
            "printf 4a000700000001 | D step -x 0 2>&1 >/dev/full",
            output,
        ),
        (
            "D write-message --type 9 --source 1 </dev/null 2>&1 >/dev/full",
            output,
        ),
        ("D zero-fill 9 </dev/null 2>&1 >/dev/full", output),
        ("D --help 2>&1 >/dev/full", output),
        ("D --version 2>&1 >/dev/full", output),
        ("D step 2>&1 </", input),
        ("D read-word 2>&1 <&-", input),
        ("D write-message --type 9 --source 1 2>&1 </", input),
        ("D zero-fill 9 2>&1 <&-", input),
    ] {
        let shown = shell(given, script);
        test.case(|| script.into(), (words.to_string(), Some(3)), [shown]);
    }
}

/// The version is that of the header that the tool was made with.
fn tool_tells_its_version(given: &Given, test: &mut Test) {
    let header = include_str!(concat!(
        env!("CARGO_MANIFEST_DIR"),
        "/../include/decklewren.h"
    ));
    let of = |part: &str| {
        let name = format!("#define DECKLEWREN_VERSION_{part} ");
        let line = header.lines().find_map(|line| line.strip_prefix(&name));
        line.expect("the header has the version").to_string()
    };
    let version = ["MAJOR", "MINOR", "PATCH"].map(of).join(".");
    let expected = ended(
        0,
        format!("decklewren {version}\n").as_bytes(),
        String::new(),
    );
    runs(given, test, "--version", b"", expected);
}
