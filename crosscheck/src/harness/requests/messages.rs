//! The request to step to a message of a datagram.

use crate::harness::archive::{self, Stepped};
use crate::harness::caller::Caller;
use crate::harness::requests::Request;
use crate::harness::shown::shown_datagram;
use crate::second::messages::{step, Refused, Step};
use crate::second::Second;

/// Datagram, position.
pub struct StepMessage<'a>(pub &'a [u8], pub usize);

/// An answer as four numbers: status, start, length and missing bytes.
pub type Numbers = [usize; 4];

impl Request for StepMessage<'_> {
    type Answer = Numbers;

    fn ask_second(&self, _: &Second) -> Self::Answer {
        let StepMessage(datagram, position) = *self;
        numbers(step(datagram, position))
    }

    fn ask_archive(&self, caller: &mut Caller, expected: Self::Answer) {
        let StepMessage(datagram, position) = *self;
        let name = || format!("step_message at {position}, {}", shown_datagram(datagram));
        caller.read(name, datagram, stepped(expected), |datagram| {
            archive::step_message(datagram, position)
        });
    }
}

/// What the second implementation answers, in numbers.
pub fn numbers(answer: Result<Step, Refused>) -> Numbers {
    match answer {
        Ok(Step::Finished) => [0, 0, 0, 0],
        Ok(Step::Message { start, length }) => [0, start, length, 0],
        Err(Refused::Plain(number)) => [number as usize, 0, 0, 0],
        Err(Refused::Lie {
            number,
            start,
            missing,
        }) => [number as usize, start, 0, missing],
    }
}

/// The answer of the C interface that has these numbers.
pub fn stepped([status, start, length, missing]: Numbers) -> Stepped {
    Stepped {
        status: status as u32,
        start: start as u64,
        length: length as u64,
        missing: missing as u64,
    }
}
