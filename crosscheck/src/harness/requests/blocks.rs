//! The requests to write and to read a block.

use crate::harness::archive::{self, BlockRead};
use crate::harness::caller::Caller;
use crate::harness::requests::{to_be_written, Request};
use crate::harness::shown::{shown, shown_datagram};
use crate::second::blocks::BlockReading;
use crate::second::words::Refusal;
use crate::second::Second;

/// Link, datagram, bytes of the buffer.
pub struct WriteBlock<'a>(pub u32, pub &'a [u8], pub usize);

impl Request for WriteBlock<'_> {
    type Answer = Result<Vec<u8>, Refusal>;

    fn ask_second(&self, second: &Second) -> Self::Answer {
        let WriteBlock(link, datagram, length) = *self;
        second.write_block(link, datagram, length)
    }

    fn ask_archive(&self, caller: &mut Caller, expected: Self::Answer) {
        let WriteBlock(link, datagram, length) = *self;
        let name = || {
            let datagram = shown_datagram(datagram);
            format!("write_block, link {link}, {datagram}, buffer of {length} bytes")
        };
        let expected = to_be_written(expected);
        caller.code(name, datagram, length, expected, |datagram, out| {
            archive::write_block(link, datagram, out)
        });
    }
}

/// Link, what came, bytes of the buffer.
pub struct ReadBlock<'a>(pub u32, pub &'a [u8], pub usize);

impl Request for ReadBlock<'_> {
    type Answer = Result<BlockReading, Refusal>;

    fn ask_second(&self, second: &Second) -> Self::Answer {
        let ReadBlock(link, row, length) = *self;
        second.read_block(link, row, length)
    }

    fn ask_archive(&self, caller: &mut Caller, expected: Self::Answer) {
        let ReadBlock(link, row, length) = *self;
        let name = || {
            let row = shown(row);
            format!("read_block, link {link}, row {row}, buffer of {length} bytes")
        };
        let expected = to_be_read(expected);
        caller.code(name, row, length, expected, |bits, out| {
            archive::read_block(link, bits, out)
        });
    }
}

/// What a reading call is to answer and to write.
fn to_be_read(expected: Result<BlockReading, Refusal>) -> (BlockRead, Vec<u8>) {
    let (status, written, wrong) = match expected {
        Ok(BlockReading { datagram, wrong }) => (0, datagram, wrong),
        Err(status) => (status, vec![], 0),
    };
    let count = written.len() as u32;
    let answer = BlockRead {
        status,
        count,
        wrong,
    };
    (answer, written)
}
