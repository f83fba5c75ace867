//! The tests of the built command line tool's command step: walks and single steps against the second
//! implementation, and what it says of refusals typed out.

use crate::harness::program::Run;
use crate::harness::random::Random;
use crate::harness::report::{named_tests, Given, NamedTest, Test};
use crate::harness::tool::{done, hex_line, refused_at, runs};
use crate::second::messages::{step, Refused, Step};

pub const TESTS: &[NamedTest] = named_tests![
    tool_walks_messages,
    tool_walks_over_fill,
    tool_names_the_lies,
    tool_steps_at_positions,
];

/// What stepping through all of a datagram is to show.
fn walked(datagram: &[u8]) -> Run {
    let (mut lines, mut count, mut position) = (String::new(), 0, 0);
    loop {
        match step(datagram, position) {
            Ok(Step::Message { start, length }) => {
                lines += &format!("{start} {length}\n");
                count += 1;
                position = start + length;
            }
            Ok(Step::Finished) => return done(lines, format!("count={count} finished={position}")),
            Err(refused) => return step_refused(refused, datagram, position),
        }
    }
}

/// What a refused step is to show: how many bytes there are; or, behind the 81s passed over, where the
/// 0 is and which byte behind it is another; or where the message is and how it lies.
fn step_refused(refused: Refused, datagram: &[u8], position: usize) -> Run {
    match refused {
        Refused::Plain(8) => {
            let got = format!("the datagram has {} bytes", datagram.len());
            refused_at(8, position, got)
        }
        Refused::Plain(number) => {
            let count = |rest: &[u8], of| rest.iter().take_while(|&&byte| byte == of).count();
            let place = position + count(&datagram[position..], 81);
            let other = place + count(&datagram[place..], 0);
            let got = format!("the byte at {other} is {}", datagram[other]);
            refused_at(number, place, got)
        }
        Refused::Lie {
            number,
            start,
            missing,
        } => refused_at(number, start, lie_in_words(&datagram[start..], missing)),
    }
}

/// What the tool says of these bytes, the first of a message that lies and all that are left.
fn lie_in_words(left: &[u8], missing: usize) -> String {
    let [_, high, low, ..] = *left else {
        return format!("{} of 3 bytes left", left.len());
    };
    let declared = usize::from(high) * 256 + usize::from(low);
    let compared = match missing {
        0 => "at least 7 are needed".to_string(),
        1 => "1 is missing".to_string(),
        _ => format!("{missing} are missing"),
    };
    format!("the message declares {declared} bytes, {compared}")
}

/// Messages of up to 306 bytes with up to three 81s before, between and behind them, then zeros; the
/// last bytes may be cut off.
fn padded_messages(random: &mut Random) -> Vec<u8> {
    let mut datagram = vec![81; random.below(4)];
    for _ in 0..random.below(9) {
        let length = 7 + random.below(300);
        datagram.push(82 + random.below(100) as u8);
        datagram.extend((length as u16).to_be_bytes());
        datagram.extend(random.bytes(length - 3));
        datagram.extend(vec![81; random.below(4)]);
    }
    datagram.extend(vec![0; random.below(4)]);
    datagram.truncate(datagram.len() - random.below(3).min(datagram.len()));
    datagram
}

/// P11 and P12, last spring's lie, and rows of random messages that end well or not.
fn tool_walks_messages(given: &Given, test: &mut Test) {
    let mut random = test.random(606);
    let with_length = |length| vec![74, 0, length, 0, 0, 0, 1, 81];
    let mut datagrams: Vec<Vec<u8>> = [7, 8, 9, 6].map(with_length).to_vec();
    datagrams.extend([vec![], vec![81; 9], vec![0, 0, 1], vec![74, 0]]);
    datagrams.push([&[93, 3, 132, 0, 0, 0, 1][..], &[0; 25]].concat());
    datagrams.push(vec![74, 0, 7, 0, 0, 0, 1, 81, 0, 5]);
    datagrams.extend((0..40).map(|_| padded_messages(&mut random)));
    for datagram in datagrams {
        runs(given, test, "step", &datagram, walked(&datagram));
        let digits = hex_line(&datagram);
        runs(given, test, "step -x", digits.as_bytes(), walked(&datagram));
    }
}

/// Document 02's K1, with what is to be shown typed out: a message, an 81, and then what each case has.
fn tool_walks_over_fill(given: &Given, test: &mut Test) {
    let two = || done("0 7\n8 8\n", "count=2 finished=16".to_string());
    let one = || done("0 7\n", "count=1 finished=7".to_string());
    let lie = "the message declares 900 bytes, 891 are missing";
    for (behind, expected) in [
        (&[75, 0, 8, 0, 0, 0, 2, 9][..], two()),
        (&[75, 0, 8, 0, 0, 0, 2, 9, 81, 81, 81, 0, 0], two()),
        (&[], one()),
        (&[81, 0], one()),
        (&[0, 0], one()),
        (&[93, 3, 132, 0, 0, 0, 1, 0, 0], refused_at(12, 8, lie)),
        (
            &[81, 81, 93, 3, 132, 0, 0, 0, 1, 0, 0],
            refused_at(12, 10, lie),
        ),
        (&[81, 75, 0], refused_at(11, 9, "2 of 3 bytes left")),
        (&[0, 81], refused_at(10, 8, "the byte at 9 is 81")),
        (
            &[81, 0, 0, 75, 81],
            refused_at(10, 9, "the byte at 11 is 75"),
        ),
    ] {
        let datagram = [&[74, 0, 7, 0, 0, 0, 1, 81][..], behind].concat();
        runs(given, test, "step", &datagram, expected);
    }
}

/// Document 02's K3: the three lies alone, behind fill, behind a whole message, and from a position.
fn tool_names_the_lies(given: &Given, test: &mut Test) {
    let behind = [74, 0, 7, 0, 0, 0, 1, 81, 81, 75, 0, 6, 0, 0, 0, 2];
    for (command, datagram, place, left) in [
        ("step", &[1][..], 0, 1),
        ("step", &[81, 1], 1, 1),
        ("step", &behind[..11], 9, 2),
        ("step 8", &behind[..11], 9, 2),
    ] {
        let got = format!("{left} of 3 bytes left");
        runs(given, test, command, datagram, refused_at(11, place, got));
    }
    let last_spring = [&[93, 3, 132, 0, 0, 0, 1][..], &[0; 25]].concat();
    let (p12, at_2) = ([74, 0, 9, 0, 0, 0, 1, 81], [81, 81, 1, 255, 255]);
    let small = "6 bytes, at least 7 are needed";
    for (command, datagram, number, place, declared) in [
        ("step", &[1, 0, 6][..], 9, 0, small),
        ("step", &behind, 9, 9, small),
        ("step 7", &behind[..12], 9, 9, small),
        ("step", &p12, 12, 0, "9 bytes, 1 is missing"),
        ("step", &last_spring, 12, 0, "900 bytes, 868 are missing"),
        ("step", &at_2, 12, 2, "65535 bytes, 65532 are missing"),
        ("step 1", &at_2, 12, 2, "65535 bytes, 65532 are missing"),
    ] {
        let got = format!("the message declares {declared}");
        let expected = refused_at(number, place, got);
        runs(given, test, command, datagram, expected);
    }
}

/// One step, at every position of P11's datagram, of one with fill between and of ones that are
/// refused, and past their ends.
fn tool_steps_at_positions(given: &Given, test: &mut Test) {
    for datagram in [
        &[74, 0, 7, 0, 0, 0, 1, 81][..],
        &[81, 74, 0, 7, 0, 0, 0, 1, 81, 81, 75, 0, 7, 0, 0, 0, 2, 0],
        &[81, 81, 74, 0, 9, 0, 0, 0, 1, 81],
        &[81, 81, 74, 0, 10, 0, 0, 0, 1, 81],
        &[81, 81, 74, 0, 6, 81],
        &[81, 81, 0, 0, 81, 0],
    ] {
        for position in (0..datagram.len() + 4).chain([usize::MAX]) {
            let expected = match step(datagram, position) {
                Ok(Step::Message { start, length }) => {
                    done(format!("{start} {length}\n"), "count=1".to_string())
                }
                Ok(Step::Finished) => done("", format!("count=0 finished={position}")),
                Err(refused) => step_refused(refused, datagram, position),
            };
            let command = format!("step {position}");
            runs(given, test, &command, datagram, expected);
        }
    }
}
