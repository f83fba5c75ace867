//! One of the two encoders (M.2092-1, Annex 2, 1.2.4.2; document 01, "From datagram to block").

/// The last three register bits: a(t-1), a(t-2), a(t-3).
pub struct Encoder {
    a1: bool,
    a2: bool,
    a3: bool,
}

/// X, Y0 and Y1 of one clock.
pub type Output = [bool; 3];

impl Encoder {
    pub fn new() -> Encoder {
        Encoder {
            a1: false,
            a2: false,
            a3: false,
        }
    }

    pub fn clock(&mut self, u: bool) -> Output {
        let a = u ^ self.a2 ^ self.a3;
        let x = u;
        let y0 = a ^ self.a1 ^ self.a3;
        let y1 = a ^ self.a1 ^ self.a2 ^ self.a3;
        (self.a1, self.a2, self.a3) = (a, self.a1, self.a2);
        [x, y0, y1]
    }

    /// A clock of the ending, fed from the register itself.
    pub fn ending_clock(&mut self) -> Output {
        self.clock(self.a2 ^ self.a3)
    }
}
