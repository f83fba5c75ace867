//! From datagram to block and back (document 01, "From datagram to block").

use crate::second::bits::{of_plain_bytes, plain_bytes};
use crate::second::crc;
use crate::second::links::Link;
use std::iter::repeat_n;

/// The k bits: the datagram, zero bytes, the bits over, the check.
pub fn block(link: &Link, datagram: &[u8]) -> Vec<bool> {
    let mut filled = datagram.to_vec();
    filled.resize(link.bytes(), 0);
    let mut block = of_plain_bytes(&filled);
    block.extend(repeat_n(false, link.bits_over()));
    block.extend(crc::check(&block));
    block
}

/// Whether these k bits are a valid block: the check is right and the bits over are zero.
pub fn is_valid(link: &Link, block: &[bool]) -> bool {
    let (covered, check) = block.split_at(link.k - 32);
    let bits_over = &covered[8 * link.bytes()..];
    check == crc::check(covered) && bits_over.iter().all(|&bit| !bit)
}

/// The datagram of a block, as long as the link holds.
pub fn datagram(link: &Link, block: &[bool]) -> Vec<u8> {
    plain_bytes(&block[..8 * link.bytes()])
}
