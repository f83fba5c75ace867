//! Slot bursts that come in parts (document 02, K2): all that came is joined, and asking reads it
//! whole.

use crate::second::slots::SlotReading;
use crate::second::words::Refusal;
use crate::second::Second;

/// The bits of the longest slot burst: a state keeps so many bytes, and its count goes one further.
pub const LONGEST: usize = 1504;

/// A state as the caller's memory holds it.
#[derive(Clone, Debug, PartialEq)]
pub struct State {
    pub count: u32,
    pub bits: [u8; LONGEST],
}

impl State {
    pub const FRESH: State = State {
        count: 0,
        bits: [0; LONGEST],
    };
}

/// What a state has heard, all of it, and the bytes that the state held before a part came.
pub struct Heard {
    came: Vec<u8>,
    held: [u8; LONGEST],
}

impl Heard {
    /// Whatever a count above the longest says, the burst is too long: how many bytes more there were,
    /// and which, no answer tells. Here it is heard twice over.
    pub fn of(state: &State) -> Heard {
        let came = match state.count as usize {
            count @ 0..=LONGEST => state.bits[..count].to_vec(),
            _ => state.bits.repeat(2),
        };
        Heard {
            came,
            held: state.bits,
        }
    }

    pub fn take(&mut self, part: &[u8]) {
        self.came.extend(part);
    }

    /// The state once a part has come: the first 1,504 bytes of what came, and behind them what it
    /// held before.
    pub fn state(&self) -> State {
        let kept = self.came.len().min(LONGEST);
        let mut bits = self.held;
        bits[..kept].copy_from_slice(&self.came[..kept]);
        let too_long = self.came.len() > kept;
        State {
            count: kept as u32 + u32::from(too_long),
            bits,
        }
    }

    pub fn ask(self, second: &Second, buffer_length: usize) -> Result<SlotReading, Refusal> {
        second.read_slot(&self.came, buffer_length)
    }
}
