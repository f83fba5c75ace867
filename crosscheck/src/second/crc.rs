//! The 32 check bits (M.2092-1, Annex 2, 1.2.5; document 01, "From datagram to block").

/// The exponents of the generator below its 32.
const GENERATOR: [u32; 14] = [26, 23, 22, 16, 12, 11, 10, 8, 7, 5, 4, 2, 1, 0];

/// The shift register: bit n belongs to the power n.
pub type Register = u32;

pub const ALL_ONES: Register = u32::MAX;
pub const ALL_ZEROS: Register = 0;

/// The register after one more bit.
pub fn clocked(register: Register, bit: bool) -> Register {
    let put_out = register >> 31 == 1;
    let mut next = register << 1;
    if put_out != bit {
        for exponent in GENERATOR {
            next ^= 1 << exponent;
        }
    }
    next
}

pub fn register_after(start: Register, bits: &[bool]) -> Register {
    bits.iter()
        .fold(start, |register, &bit| clocked(register, bit))
}

/// The check of these bits, its highest power first: the register, loaded with ones, after them.
pub fn check(bits: &[bool]) -> Vec<bool> {
    let register = register_after(ALL_ONES, bits);
    (0..32).rev().map(|n| register >> n & 1 == 1).collect()
}
