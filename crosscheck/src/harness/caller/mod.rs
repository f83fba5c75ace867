//! Makes the calls of a case: with each buffer against the guard before it and against the guard
//! behind it, and when writing each time over different old contents.

pub mod parts;

use crate::harness::guarded::{Guarded, Placed, BOTH_PLACES, LONG_ROOM, ROOM};
use crate::harness::random::Random;
use crate::harness::report::Test;
use crate::harness::state::LentState;
use std::fmt::Debug;

/// Bytes that a call is to write, and the place of its buffer where they begin.
pub struct WrittenAt {
    pub place: usize,
    pub bytes: Vec<u8>,
}

impl From<Vec<u8>> for WrittenAt {
    /// Most calls write at the buffer's start.
    fn from(bytes: Vec<u8>) -> WrittenAt {
        WrittenAt { place: 0, bytes }
    }
}

/// What is seen of a call that writes to a buffer: its answer, the first byte that is not as it was
/// to be written, and whether every other byte of the room, in the buffer and around it, is as it was.
#[derive(Debug, PartialEq)]
struct Writing<A> {
    answer: A,
    first_wrong: Option<WrongByte>,
    rest_unchanged: bool,
}

#[derive(Debug, PartialEq)]
struct WrongByte {
    place: usize,
    expected: u8,
    got: u8,
}

/// What is seen of a call that reads a buffer.
#[derive(Debug, PartialEq)]
struct Reading<A> {
    answer: A,
    input_unchanged: bool,
}

impl<A> Writing<A> {
    /// What is to be seen of a call that gives this answer.
    fn good(answer: A) -> Writing<A> {
        Writing {
            answer,
            first_wrong: None,
            rest_unchanged: true,
        }
    }
}

impl<A> Reading<A> {
    /// What is to be seen of a call that gives this answer.
    fn good(answer: A) -> Reading<A> {
        Reading {
            answer,
            input_unchanged: true,
        }
    }
}

/// Calls the archive in a running test. It has a room for what a call reads, one for what it writes
/// to, what the latter holds before each call of a case, and states that take parts.
pub struct Caller<'a> {
    pub test: &'a mut Test,
    /// Chooses where bursts are cut.
    pub cutting: Random,
    input: Guarded,
    output: Guarded,
    old_contents: Vec<Vec<u8>>,
    state: LentState,
}

impl<'a> Caller<'a> {
    pub fn new(test: &'a mut Test) -> Caller<'a> {
        Caller::of(test, Guarded::new(), two_contents(ROOM))
    }

    /// One whose output has room for more than the longest message.
    pub fn with_long_output(test: &'a mut Test) -> Caller<'a> {
        Caller::of(test, Guarded::new(), two_contents(LONG_ROOM))
    }

    /// One whose input is read-only while a call is made.
    pub fn with_read_only_input(test: &'a mut Test) -> Caller<'a> {
        Caller::of(test, Guarded::read_only_in_calls(), two_contents(ROOM))
    }

    /// One whose output is filled with each of the 256 bytes in turn.
    pub fn over_any_bytes(test: &'a mut Test) -> Caller<'a> {
        let fills = (0..=255).map(|byte| vec![byte; ROOM]);
        Caller::of(test, Guarded::new(), fills.collect())
    }

    fn of(test: &'a mut Test, input: Guarded, old_contents: Vec<Vec<u8>>) -> Caller<'a> {
        Caller {
            test,
            cutting: Random::from_seed(2),
            input,
            output: Guarded::of(old_contents[0].len()),
            old_contents,
            state: LentState::fresh(),
        }
    }

    /// How many old contents there are.
    pub fn contents(&self) -> usize {
        self.old_contents.len()
    }

    /// A call that reads this row: it is to give this answer. It is made at both places.
    pub fn read<A: Debug + PartialEq>(
        &mut self,
        name: impl Fn() -> String,
        row: &[u8],
        answer: A,
        call: impl Fn(&mut [u8]) -> A,
    ) {
        let places = BOTH_PLACES.into_iter();
        let calls = places.map(|placed| reading(&mut self.input, placed, row, &call));
        self.test.case(name, Reading::good(answer), calls);
    }

    /// A call that writes to a buffer of this length: it is to give this answer and to write these
    /// bytes. It is made at both places over each of the old contents.
    pub fn write<A: Debug + PartialEq>(
        &mut self,
        name: impl Fn() -> String,
        length: usize,
        (answer, written): (A, impl Into<WrittenAt>),
        call: impl Fn(&mut [u8]) -> A,
    ) {
        let written = written.into();
        let old_contents = &self.old_contents;
        let places = BOTH_PLACES.into_iter();
        let ways = places.flat_map(|placed| old_contents.iter().map(move |old| (placed, old)));
        let calls = ways
            .map(|(placed, old)| writing(&mut self.output, placed, old, length, &written, &call));
        self.test.case(name, Writing::good(answer), calls);
    }

    /// A call that reads this input and writes to a buffer of this length: it is to give this answer
    /// and to write these bytes. It is made over each of the old contents, at both places in turn.
    pub fn code<A: Debug + PartialEq>(
        &mut self,
        name: impl Fn() -> String,
        input: &[u8],
        length: usize,
        (answer, written): (A, impl Into<WrittenAt>),
        call: impl Fn(&mut [u8], &mut [u8]) -> A,
    ) {
        let written = written.into();
        let ways = BOTH_PLACES.into_iter().cycle().zip(&self.old_contents);
        let calls = ways.map(|(placed, old)| {
            reading(&mut self.input, placed, input, |input| {
                let call = |output: &mut [u8]| call(input, output);
                writing(&mut self.output, placed, old, length, &written, call)
            })
        });
        let expected = Reading::good(Writing::good(answer));
        self.test.case(name, expected, calls);
    }
}

/// Two contents of a room of so many bytes that differ in most of them.
fn two_contents(room: usize) -> Vec<Vec<u8>> {
    let running = (0..room).map(|n| (n * 7 % 251) as u8);
    vec![vec![0xA5; room], running.collect()]
}

/// Makes a call that reads this row at this place.
fn reading<A>(
    room: &mut Guarded,
    placed: Placed,
    row: &[u8],
    call: impl FnOnce(&mut [u8]) -> A,
) -> Reading<A> {
    room.buffer(placed, row.len()).copy_from_slice(row);
    Reading {
        answer: room.lend(placed, row.len(), call),
        input_unchanged: room.buffer(placed, row.len()) == row,
    }
}

/// Makes a call that is to write these bytes to a buffer of this length at this place.
fn writing<A>(
    room: &mut Guarded,
    placed: Placed,
    old: &[u8],
    length: usize,
    WrittenAt { place, bytes }: &WrittenAt,
    call: impl FnOnce(&mut [u8]) -> A,
) -> Writing<A> {
    room.lay(old);
    let answer = room.lend(placed, length, call);
    let start = room.span(placed, length).start + place;
    let span = start..start + bytes.len();
    Writing {
        answer,
        first_wrong: first_wrong(bytes, &room.bytes()[span.clone()]),
        rest_unchanged: room.rest_is(old, span),
    }
}

fn first_wrong(written: &[u8], seen: &[u8]) -> Option<WrongByte> {
    // The two are nearly always equal, and are found so faster whole than byte by byte.
    if written == seen {
        return None;
    }
    let place = (0..written.len()).find(|&place| written[place] != seen[place])?;
    Some(WrongByte {
        place,
        expected: written[place],
        got: seen[place],
    })
}
