//! The request to read a slot burst that comes in parts: they are taken one after another, and then the
//! state is asked.

use crate::harness::caller::parts::Handed;
use crate::harness::caller::Caller;
use crate::harness::random::Random;
use crate::harness::requests::slots::to_be_read;
use crate::harness::requests::Request;
use crate::harness::shown::shown_to;
use crate::second::parts::{Heard, State, LONGEST};
use crate::second::slots::SlotReading;
use crate::second::words::Refusal;
use crate::second::Second;
use std::ops::Range;

/// What the state holds before, or none if the burst before it left it fresh; the parts; bytes of the
/// buffer.
pub struct ReadParts<'a> {
    pub before: Option<&'a State>,
    pub parts: &'a [&'a [u8]],
    pub length: usize,
}

impl<'a> ReadParts<'a> {
    pub fn of_fresh(parts: &'a [&'a [u8]], length: usize) -> ReadParts<'a> {
        ReadParts {
            before: None,
            parts,
            length,
        }
    }

    pub fn of(before: &'a State, parts: &'a [&'a [u8]], length: usize) -> ReadParts<'a> {
        ReadParts {
            before: Some(before),
            parts,
            length,
        }
    }

    /// The same, but over one of the old contents only.
    pub fn ask_archive_once(&self, caller: &mut Caller, expected: Result<SlotReading, Refusal>) {
        let one = caller.cutting.below(caller.contents());
        self.ask_over(one..one + 1, caller, expected);
    }

    fn ask_over(
        &self,
        contents: Range<usize>,
        caller: &mut Caller,
        expected: Result<SlotReading, Refusal>,
    ) {
        let handed = Handed {
            before: self.before,
            parts: self.parts,
            held: self.held(),
        };
        let expected = to_be_read(expected);
        caller.hand_over(|| self.shown(), handed, self.length, expected, contents);
    }

    fn heard(&self) -> Heard {
        let mut heard = Heard::of(self.before.unwrap_or(&State::FRESH));
        for part in self.parts {
            heard.take(part);
        }
        heard
    }

    /// What the state holds when it is asked. Without a part that is what it held before.
    fn held(&self) -> State {
        match (self.before, self.parts) {
            (Some(before), []) => before.clone(),
            _ => self.heard().state(),
        }
    }

    fn shown(&self) -> String {
        let before = match self.before {
            Some(State { count, bits }) => {
                format!("count {count}, bits {}", shown_to(LONGEST, bits))
            }
            None => "fresh".to_string(),
        };
        let lengths: Vec<usize> = self.parts.iter().map(|part| part.len()).collect();
        let parts = shown_to(LONGEST, &self.parts.concat());
        let length = self.length;
        format!("read_parts, state {before}, parts of {lengths:?}, together {parts}, buffer of {length} bytes")
    }
}

impl Request for ReadParts<'_> {
    type Answer = Result<SlotReading, Refusal>;

    fn ask_second(&self, second: &Second) -> Self::Answer {
        self.heard().ask(second, self.length)
    }

    fn ask_archive(&self, caller: &mut Caller, expected: Self::Answer) {
        self.ask_over(0..caller.contents(), caller, expected);
    }
}

/// The row in three to eight parts, cut at random, at least one of them empty.
pub fn cut<'a>(row: &'a [u8], random: &mut Random) -> Vec<&'a [u8]> {
    let cuts = 1 + random.below(6);
    let mut edges = vec![0, row.len()];
    edges.extend((0..cuts).map(|_| random.below(row.len() + 1)));
    edges.push(edges[random.below(edges.len())]);
    edges.sort_unstable();
    edges
        .windows(2)
        .map(|edge| &row[edge[0]..edge[1]])
        .collect()
}
