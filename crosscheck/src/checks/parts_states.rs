//! The tests of the state that takes parts (document 02, K2): what it keeps of a burst that is too long,
//! every count over given bits, and counts and bytes that no parts leave.

use crate::harness::caller::Caller;
use crate::harness::every_status;
use crate::harness::guarded::ROOM;
use crate::harness::random::Random;
use crate::harness::report::{named_tests, Given, NamedTest, Test};
use crate::harness::requests::parts::ReadParts;
use crate::harness::samples::{burst_of, random_datagram, slot_found, state_of, SLOT_SIZES};
use crate::second::parts::{Heard, State, LONGEST};
use crate::second::Second;

pub const TESTS: &[NamedTest] = named_tests![
    second_stops_the_count_at_1505,
    archive_refuses_bursts_too_long_by_parts,
    archive_orders_refusals_of_bursts_too_long,
    archive_tells_1505_from_1504,
    archive_reads_every_count,
    archive_goes_on_from_every_count,
    archive_reads_forged_counts,
    archive_takes_parts_of_any_length,
];

/// The row with these bytes behind it, or cut, so that it has this length.
fn lengthened(row: &[u8], length: usize, byte: u8) -> Vec<u8> {
    let mut row = row.to_vec();
    row.resize(length, byte);
    row
}

/// Lengths with the count that document 02 gives them. The bytes behind the count are zeros.
fn second_stops_the_count_at_1505(_: &Given, test: &mut Test) {
    let counts = [(0, 0), (1, 1), (1503, 1503), (1504, 1504), (1505, 1505)];
    for (length, count) in counts.into_iter().chain([(1506, 1505), (ROOM, 1505)]) {
        let came: Vec<u8> = (0..length).map(|n| 1 + (n % 255) as u8).collect();
        let mut heard = Heard::of(&State::FRESH);
        heard.take(&came);
        let call = || format!("{length} bytes in one part");
        test.case(call, state_of(count, &came, &[0; LONGEST]), [heard.state()]);
    }
}

/// A good burst of link 7, cut short by one or with bits and other bytes behind it: in one part, and cut
/// before, at and behind the last place that is kept.
fn archive_refuses_bursts_too_long_by_parts(given: &Given, test: &mut Test) {
    let second = Second::read(&given.tables);
    let link = second.links.of(7);
    let mut caller = Caller::new(test);
    let good = burst_of(&second, link, &[7, 8, 9]);
    for length in LONGEST - 1..=1600 {
        for byte in [0, 1, 2, 255] {
            let burst = lengthened(&good, length, byte);
            let expected = match length {
                LONGEST => slot_found(link, &[7, 8, 9]),
                _ => Err(2),
            };
            caller.expect(ReadParts::of_fresh(&[&burst], 128), expected.clone());
            for place in [1, 1490, 1502, 1503, 1504, 1505, 1506] {
                let (start, end) = burst.split_at(place.min(length));
                caller.expect(ReadParts::of_fresh(&[start, end], 128), expected.clone());
            }
            let bytes: Vec<&[u8]> = burst[1500..].chunks(1).collect();
            let parts = [&[&burst[..1500]], &bytes[..]].concat();
            caller.expect(ReadParts::of_fresh(&parts, 128), expected);
        }
    }
}

/// What comes before the length of the rest still comes before it, and what comes behind it does not.
fn archive_orders_refusals_of_bursts_too_long(given: &Given, test: &mut Test) {
    let second = Second::read(&given.tables);
    let mut caller = Caller::new(test);
    for ((burst, buffer), _) in every_status::requests(&second) {
        for length in [LONGEST, LONGEST + 1, LONGEST + 2, 1600, 3000] {
            for byte in [0, 2] {
                let burst = lengthened(&burst, length, byte);
                let (start, end) = burst.split_at(1000);
                caller.compare(&second, ReadParts::of_fresh(&[start, end], buffer));
            }
        }
    }
}

/// Why the count goes one further: what a burst of 1,505 leaves would read as a good one of link 7 if
/// the count said 1,504.
fn archive_tells_1505_from_1504(given: &Given, test: &mut Test) {
    let second = Second::read(&given.tables);
    let link = second.links.of(7);
    let mut random = test.random(611);
    let mut caller = Caller::new(test);
    for byte in 0..=255 {
        let datagram = random_datagram(link, &mut random);
        let burst = lengthened(&burst_of(&second, link, &datagram), 1505, byte);
        caller.expect(ReadParts::of_fresh(&[&burst], 128), Err(2));
        let mut state = state_of(1505, &burst, &[]);
        caller.expect(ReadParts::of(&state, &[], 128), Err(2));
        state.count = 1504;
        caller.expect(ReadParts::of(&state, &[], 128), slot_found(link, &datagram));
    }
}

/// The counts 0 to 1,504 over a good burst of each link, with random bytes behind it: they are read as
/// so many bytes.
fn archive_reads_every_count(given: &Given, test: &mut Test) {
    let second = Second::read(&given.tables);
    let mut random = test.random(612);
    let mut caller = Caller::new(test);
    for (number, bytes, length) in SLOT_SIZES {
        let link = second.links.of(number);
        let datagram = random_datagram(link, &mut random);
        let burst = burst_of(&second, link, &datagram);
        let behind = random.bytes(LONGEST);
        for count in 0..=LONGEST {
            let expected = match count == length {
                true => slot_found(link, &datagram),
                false => Err(2),
            };
            let state = state_of(count as u32, &burst, &behind);
            caller.expect(ReadParts::of(&state, &[], bytes), expected);
        }
    }
}

/// A burst of each link whose first bytes are in the state, up to every count, with random bytes behind
/// them: the rest comes in one part.
fn archive_goes_on_from_every_count(given: &Given, test: &mut Test) {
    let second = Second::read(&given.tables);
    let mut random = test.random(613);
    let mut caller = Caller::new(test);
    for (number, bytes, length) in SLOT_SIZES {
        let link = second.links.of(number);
        let datagram = random_datagram(link, &mut random);
        let burst = burst_of(&second, link, &datagram);
        for count in 0..=length {
            let (start, end) = burst.split_at(count);
            let state = state_of(count as u32, start, &random.bytes(LONGEST));
            let expected = slot_found(link, &datagram);
            caller.expect(ReadParts::of(&state, &[end], bytes), expected);
        }
    }
}

/// What a state may hold that nobody made fresh: zeros, random bytes, random bits, and good bursts of
/// each link with random bits behind.
fn rows_of_junk(second: &Second, random: &mut Random) -> Vec<Vec<u8>> {
    let mut rows = vec![vec![0; LONGEST], random.bytes(LONGEST), vec![]];
    for (number, ..) in SLOT_SIZES {
        let link = second.links.of(number);
        rows.push(burst_of(second, link, &random_datagram(link, random)));
    }
    rows.iter_mut()
        .for_each(|row| row.extend(random.bits(LONGEST)));
    rows
}

/// Counts from 1,504 to the largest, among them those that a narrow number takes for the length of a
/// burst, and random ones.
fn forged_counts(random: &mut Random) -> Vec<u32> {
    let near = [1504, 1505, 1506, 1507, 2000, 65_535, 65_536, 65_536 + 480];
    let high = 1 << 31;
    let far = [65_536 + 1504, high - 1, high, high + 1504, u32::MAX - 1504];
    let any = (0..20).map(|_| 1505 + random.below(u32::MAX as usize - 1505) as u32);
    let largest = [u32::MAX - 1, u32::MAX];
    near.into_iter()
        .chain(far)
        .chain(any)
        .chain(largest)
        .collect()
}

/// Asked at once, and after parts.
fn archive_reads_forged_counts(given: &Given, test: &mut Test) {
    let second = Second::read(&given.tables);
    let mut random = test.random(614);
    let mut caller = Caller::new(test);
    for count in forged_counts(&mut random) {
        for row in rows_of_junk(&second, &mut random) {
            let state = state_of(count, &row, &[]);
            let (few, many) = (random.bits(5), random.bytes(2000));
            let handed: [&[&[u8]]; 5] = [&[], &[&[]], &[&few], &[&many], &[&few, &[], &many]];
            for parts in handed {
                caller.compare(&second, ReadParts::of(&state, parts, 128));
            }
        }
    }
}

/// In one call up to 64 KiB, by a fresh state and by one that holds the beginning already: a good burst
/// and random bits behind it.
fn archive_takes_parts_of_any_length(given: &Given, test: &mut Test) {
    let second = Second::read(&given.tables);
    let mut random = test.random(615);
    let mut caller = Caller::new(test);
    let long = [1505, 2000, 4096, 32_768, 32_768 + 1504, ROOM - 1, ROOM];
    for (number, bytes, right) in SLOT_SIZES {
        let link = second.links.of(number);
        let burst = burst_of(&second, link, &random_datagram(link, &mut random));
        let came = [burst, random.bits(2 * ROOM)].concat();
        for length in long.into_iter().chain([right, ROOM - right]) {
            for before in [0, 1, 86, right - 1, right, 1503, 1504, 1505] {
                let (start, behind) = came.split_at(before);
                let parts = [start, &behind[..length]];
                caller.compare(&second, ReadParts::of_fresh(&parts, bytes));
            }
        }
    }
}
