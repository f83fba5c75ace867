//! The requests to write and to read a link word.

use crate::harness::archive::{self, WordRead};
use crate::harness::caller::Caller;
use crate::harness::requests::{to_be_written, Request};
use crate::harness::shown::shown;
use crate::second::words::{Reading, Refusal};
use crate::second::Second;

/// Number, bytes of the buffer.
pub struct WriteWord(pub u32, pub usize);

impl Request for WriteWord {
    type Answer = Result<Vec<u8>, Refusal>;

    fn ask_second(&self, second: &Second) -> Self::Answer {
        let WriteWord(number, length) = *self;
        second.words.write(number, length)
    }

    fn ask_archive(&self, caller: &mut Caller, expected: Self::Answer) {
        let WriteWord(number, length) = *self;
        let name = || format!("write_word, number {number}, buffer of {length} bytes");
        caller.write(name, length, to_be_written(expected), |out| {
            archive::write_word(number, out)
        });
    }
}

/// What came.
pub struct ReadWord<'a>(pub &'a [u8]);

impl Request for ReadWord<'_> {
    type Answer = Result<Reading, Refusal>;

    fn ask_second(&self, second: &Second) -> Self::Answer {
        second.words.read(self.0)
    }

    fn ask_archive(&self, caller: &mut Caller, expected: Self::Answer) {
        let name = || format!("read_word, row {}", shown(self.0));
        let (status, number, wrong) = match expected {
            Ok(Reading { number, wrong }) => (0, number, wrong),
            Err(status) => (status, 0, 0),
        };
        let answer = WordRead {
            status,
            number,
            wrong,
        };
        caller.read(name, self.0, answer, archive::read_word);
    }
}
