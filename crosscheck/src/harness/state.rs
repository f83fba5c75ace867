//! The state of bursts that come in parts, lent to the archive: its count and its bytes each in a room
//! of its own. There is one state at the start of the rooms and one at their end.

use crate::harness::archive::{self, SlotRead};
use crate::harness::guarded::{Guarded, Placed, BOTH_PLACES, ROOM};
use crate::second::parts::{State, LONGEST};

/// The bytes of a count.
const COUNT: usize = 4;

/// The two rooms, and what each of them holds while the states at both places are fresh.
pub struct LentState {
    count: Guarded,
    bits: Guarded,
    fresh_count: Vec<u8>,
    fresh_bits: Vec<u8>,
}

impl LentState {
    pub fn fresh() -> LentState {
        let mut lent = LentState {
            count: Guarded::new(),
            bits: Guarded::new(),
            fresh_count: zeros_at_both_places(COUNT),
            fresh_bits: zeros_at_both_places(LONGEST),
        };
        lent.renew();
        lent
    }

    /// Makes both states fresh, and every byte around them what it was.
    fn renew(&mut self) {
        self.count.lay(&self.fresh_count);
        self.bits.lay(&self.fresh_bits);
    }

    pub fn lay(&mut self, placed: Placed, state: &State) {
        *self.count.number(placed) = state.count;
        *bits_at(&mut self.bits, placed) = state.bits;
    }

    /// What the state at this place holds.
    pub fn held(&mut self, placed: Placed) -> State {
        State {
            count: *self.count.number(placed),
            bits: *bits_at(&mut self.bits, placed),
        }
    }

    pub fn take(&mut self, placed: Placed, part: &mut [u8]) {
        let bits = bits_at(&mut self.bits, placed);
        archive::take_part(self.count.number(placed), bits, part);
    }

    pub fn ask(&mut self, placed: Placed, out: &mut [u8]) -> SlotRead {
        let bits = bits_at(&mut self.bits, placed);
        archive::read_parts(self.count.number(placed), bits, out)
    }

    /// Whether the state at this place is fresh again, and every byte around it as it was. What is not
    /// is made so, and the next case stands alone.
    pub fn left(&mut self, placed: Placed) -> (bool, bool) {
        let fresh = self.held(placed) == State::FRESH;
        let [count, bits] = [COUNT, LONGEST].map(|length| placed.span(ROOM, length));
        let rest_unchanged = self.count.rest_is(&self.fresh_count, count)
            && self.bits.rest_is(&self.fresh_bits, bits);
        if !(fresh && rest_unchanged) {
            self.renew();
        }
        (fresh, rest_unchanged)
    }
}

fn bits_at(room: &mut Guarded, placed: Placed) -> &mut [u8; LONGEST] {
    let buffer = room.buffer(placed, LONGEST);
    buffer.try_into().expect("a buffer of this length")
}

/// A room's content: so many zeros at its start and at its end, and other bytes between.
fn zeros_at_both_places(length: usize) -> Vec<u8> {
    let mut room = vec![0xA5; ROOM];
    for placed in BOTH_PLACES {
        room[placed.span(ROOM, length)].fill(0);
    }
    room
}
