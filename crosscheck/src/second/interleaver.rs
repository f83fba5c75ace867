//! The interleaver (M.2092-1, Annex 2, 1.2.4.3; document 01, "From datagram to block").

use crate::second::links::Link;

/// The number of the bit that is the second encoder's s-th input; both are counted from 1.
pub fn pi(link: &Link, s: usize) -> usize {
    let (k1, k2) = (link.k1, link.k2);
    let m = (s - 1) % 2;
    let i = (s - 1) / (2 * k2);
    let j = (s - 1) / 2 - i * k2;
    let t = (19 * i + 1) % (k1 / 2);
    let q = t % 8 + 1;
    let c = (link.prime(q) * j + 21 * m) % k2;
    2 * (t + c * k1 / 2 + 1) - m
}
