//! The requests to write a message and the zero fill into a datagram.

use crate::harness::archive::{self, Laid};
use crate::harness::caller::{Caller, WrittenAt};
use crate::harness::requests::Request;
use crate::harness::shown::shown_bytes;
use crate::second::message_writing;
use crate::second::words::Refusal;
use crate::second::Second;

/// The bytes of a message before its body: type, length, source.
pub const BEFORE_BODY: usize = 7;

/// A message before it is written.
#[derive(Clone, Debug, PartialEq)]
pub struct Message {
    pub kind: u8,
    pub source: u32,
    pub body: Vec<u8>,
}

impl Message {
    /// The bytes that it takes.
    pub fn length(&self) -> usize {
        BEFORE_BODY + self.body.len()
    }
}

/// Bytes of the datagram, start, message.
pub struct WriteMessage<'a>(pub usize, pub usize, pub &'a Message);

impl WriteMessage<'_> {
    pub fn shown(&self) -> String {
        let WriteMessage(length, start, Message { kind, source, body }) = *self;
        let body = shown_bytes(body);
        format!("write_message at {start} of {length} bytes, type {kind}, source {source:#x}, body {body}")
    }
}

impl Request for WriteMessage<'_> {
    type Answer = Result<Vec<u8>, Refusal>;

    fn ask_second(&self, _: &Second) -> Self::Answer {
        let WriteMessage(length, start, Message { kind, source, body }) = *self;
        message_writing::write_message(length, start, *kind, *source, body)
    }

    fn ask_archive(&self, caller: &mut Caller, expected: Self::Answer) {
        let WriteMessage(length, start, Message { kind, source, body }) = *self;
        let expected = to_be_laid(start, expected);
        let name = || self.shown();
        caller.code(name, body, length, expected, |body, datagram| {
            archive::write_message(datagram, start, *kind, *source, body)
        });
    }
}

/// Bytes of the datagram, start.
pub struct ZeroFill(pub usize, pub usize);

impl Request for ZeroFill {
    type Answer = Result<Vec<u8>, Refusal>;

    fn ask_second(&self, _: &Second) -> Self::Answer {
        let ZeroFill(length, start) = *self;
        message_writing::zero_fill(length, start)
    }

    fn ask_archive(&self, caller: &mut Caller, expected: Self::Answer) {
        let ZeroFill(length, start) = *self;
        let name = || format!("zero_fill at {start} of {length} bytes");
        let expected = to_be_laid(start, expected);
        caller.write(name, length, expected, |datagram| {
            archive::zero_fill(datagram, start)
        });
    }
}

/// What a call that lays bytes at this place is to answer and to write.
fn to_be_laid(start: usize, expected: Result<Vec<u8>, Refusal>) -> (Laid, WrittenAt) {
    let answer = answer_of(&expected);
    let written = match expected {
        Ok(bytes) => WrittenAt {
            place: start,
            bytes,
        },
        Err(_) => WrittenAt::from(vec![]),
    };
    (answer, written)
}

/// What the C interface answers where the second implementation lays these bytes or refuses.
pub fn answer_of(answer: &Result<Vec<u8>, Refusal>) -> Laid {
    match answer {
        Ok(bytes) => laid([0, bytes.len()]),
        Err(status) => laid([*status as usize, 0]),
    }
}

/// The answer of the C interface that has these numbers.
pub fn laid([status, count]: [usize; 2]) -> Laid {
    Laid {
        status: status as u32,
        count: count as u64,
    }
}
