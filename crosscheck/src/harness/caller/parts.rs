//! Hands bursts to the archive by parts and asks for them: each part, the buffer, the state's count and
//! its bytes against the guards of a room of their own.

use crate::harness::archive::SlotRead;
use crate::harness::caller::{first_wrong, reading, writing, Caller, Writing, WrongByte};
use crate::harness::guarded::{Guarded, Placed, BOTH_PLACES};
use crate::harness::state::LentState;
use crate::second::parts::State;
use std::ops::Range;

/// A burst by parts: what the state is made to hold first, or none where it is fresh, the parts that it
/// then takes, and what it is to hold before it is asked.
pub struct Handed<'a> {
    pub before: Option<&'a State>,
    pub parts: &'a [&'a [u8]],
    pub held: State,
}

/// What is seen of it: whether the parts are as they were, the state's count and its first wrong byte
/// before it is asked, the asking, and whether the state is fresh behind it and every byte around it as
/// it was.
#[derive(Debug, PartialEq)]
struct ByParts {
    parts_unchanged: bool,
    count: u32,
    first_wrong: Option<WrongByte>,
    asked: Writing<SlotRead>,
    left_fresh: bool,
    rest_unchanged: bool,
}

impl ByParts {
    /// What is to be seen where the state counts so many and gives this answer.
    fn good(count: u32, answer: SlotRead) -> ByParts {
        ByParts {
            parts_unchanged: true,
            count,
            first_wrong: None,
            asked: Writing::good(answer),
            left_fresh: true,
            rest_unchanged: true,
        }
    }
}

impl Caller<'_> {
    /// A burst that is handed over by parts and asked for with a buffer of this length: it is to give
    /// this answer and to write these bytes. It is done over these of the old contents, at both places
    /// in turn.
    pub fn hand_over(
        &mut self,
        name: impl Fn() -> String,
        handed: Handed,
        length: usize,
        (answer, written): (SlotRead, Vec<u8>),
        contents: Range<usize>,
    ) {
        let written = written.into();
        let (input, output, state) = (&mut self.input, &mut self.output, &mut self.state);
        let ways = BOTH_PLACES.into_iter().cycle().zip(&self.old_contents);
        let chosen = ways.take(contents.end).skip(contents.start);
        let calls = chosen.map(|(placed, old)| {
            let parts_unchanged = taken(state, input, placed, &handed);
            let held = state.held(placed);
            let ask = |out: &mut [u8]| state.ask(placed, out);
            let asked = writing(output, placed, old, length, &written, ask);
            let (left_fresh, rest_unchanged) = state.left(placed);
            ByParts {
                parts_unchanged,
                count: held.count,
                first_wrong: first_wrong(&handed.held.bits, &held.bits),
                asked,
                left_fresh,
                rest_unchanged,
            }
        });
        let expected = ByParts::good(handed.held.count, answer);
        self.test.case(name, expected, calls);
    }
}

/// Hands the parts to the state at this place; answers whether they are as they were.
fn taken(state: &mut LentState, input: &mut Guarded, placed: Placed, handed: &Handed) -> bool {
    if let Some(before) = handed.before {
        state.lay(placed, before);
    }
    handed.parts.iter().all(|part| {
        let take = |part: &mut [u8]| state.take(placed, part);
        reading(input, placed, part, take).input_unchanged
    })
}
