//! The requests to write and to read a slot burst.

use crate::harness::archive::{self, SlotRead};
use crate::harness::caller::Caller;
use crate::harness::requests::parts::{cut, ReadParts};
use crate::harness::requests::{to_be_written, Request};
use crate::harness::shown::{shown_datagram, shown_to};
use crate::second::parts::LONGEST;
use crate::second::slots::SlotReading;
use crate::second::words::Refusal;
use crate::second::Second;

/// Link, datagram, bytes of the buffer.
pub struct WriteSlot<'a>(pub u32, pub &'a [u8], pub usize);

impl Request for WriteSlot<'_> {
    type Answer = Result<Vec<u8>, Refusal>;

    fn ask_second(&self, second: &Second) -> Self::Answer {
        let WriteSlot(link, datagram, length) = *self;
        second.write_slot(link, datagram, length)
    }

    fn ask_archive(&self, caller: &mut Caller, expected: Self::Answer) {
        let WriteSlot(link, datagram, length) = *self;
        let name = || {
            let datagram = shown_datagram(datagram);
            format!("write_slot, link {link}, {datagram}, buffer of {length} bytes")
        };
        let expected = to_be_written(expected);
        caller.code(name, datagram, length, expected, |datagram, out| {
            archive::write_slot(link, datagram, out)
        });
    }
}

/// What came, bytes of the buffer. It is read whole and, as a case of its own, cut at random.
pub struct ReadSlot<'a>(pub &'a [u8], pub usize);

impl Request for ReadSlot<'_> {
    type Answer = Result<SlotReading, Refusal>;

    fn ask_second(&self, second: &Second) -> Self::Answer {
        let ReadSlot(burst, length) = *self;
        ReadWhole(burst, length).ask_second(second)
    }

    fn ask_archive(&self, caller: &mut Caller, expected: Self::Answer) {
        let ReadSlot(burst, length) = *self;
        ReadWhole(burst, length).ask_archive(caller, expected.clone());
        let parts = cut(burst, &mut caller.cutting);
        ReadParts::of_fresh(&parts, length).ask_archive_once(caller, expected);
    }
}

/// The same read whole alone.
pub struct ReadWhole<'a>(pub &'a [u8], pub usize);

impl Request for ReadWhole<'_> {
    type Answer = Result<SlotReading, Refusal>;

    fn ask_second(&self, second: &Second) -> Self::Answer {
        let ReadWhole(burst, length) = *self;
        second.read_slot(burst, length)
    }

    fn ask_archive(&self, caller: &mut Caller, expected: Self::Answer) {
        let ReadWhole(burst, length) = *self;
        let name = || {
            // The longest burst is shown whole.
            let burst = shown_to(LONGEST, burst);
            format!("read_slot, burst {burst}, buffer of {length} bytes")
        };
        let expected = to_be_read(expected);
        caller.code(name, burst, length, expected, archive::read_slot);
    }
}

/// What a reading call is to answer and to write. A refusal answers 0 for all else and writes nothing.
pub fn to_be_read(expected: Result<SlotReading, Refusal>) -> (SlotRead, Vec<u8>) {
    match expected {
        Ok(read) => {
            let answer = SlotRead {
                status: 0,
                count: read.block.datagram.len() as u32,
                wrong: read.block.wrong,
                link: read.link,
                word_wrong: read.word_wrong,
                training_wrong: read.training_wrong,
            };
            (answer, read.block.datagram)
        }
        Err(status) => {
            let answer = SlotRead {
                status,
                ..SlotRead::default()
            };
            (answer, vec![])
        }
    }
}
