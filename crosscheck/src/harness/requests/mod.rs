//! The calls as requests, one type for each call. A call that is added is one more of them.

pub mod blocks;
pub mod message_writing;
pub mod messages;
pub mod parts;
pub mod slots;
pub mod words;

use crate::harness::archive::Written;
use crate::harness::caller::Caller;
use crate::second::words::Refusal;
use crate::second::Second;

/// A call with what it is given: it knows how to ask the second implementation and the archive.
pub trait Request {
    /// What the second implementation answers: what is done, or the number of a refusal.
    type Answer;

    fn ask_second(&self, second: &Second) -> Self::Answer;

    /// One case: the archive's calls, each of which is to give this answer.
    fn ask_archive(&self, caller: &mut Caller, expected: Self::Answer);
}

impl Caller<'_> {
    /// Holds the archive to what the second implementation answers.
    pub fn compare(&mut self, second: &Second, request: impl Request) {
        let expected = request.ask_second(second);
        request.ask_archive(self, expected);
    }

    /// Holds the archive to an answer that is known from elsewhere.
    pub fn expect<R: Request>(&mut self, request: R, expected: R::Answer) {
        request.ask_archive(self, expected);
    }
}

/// What a writing call is to answer and to write.
fn to_be_written(expected: Result<Vec<u8>, Refusal>) -> (Written, Vec<u8>) {
    let status = expected.clone().err().unwrap_or(0);
    let written = expected.unwrap_or_default();
    let count = written.len() as u32;
    (Written { status, count }, written)
}
