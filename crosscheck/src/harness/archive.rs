//! The calls of the archive under test, as its C interface declares them, behind safe functions.

use crate::second::parts::LONGEST;
use std::ptr;

#[repr(C)]
#[derive(Clone, Copy, Debug, PartialEq)]
pub struct Written {
    pub status: u32,
    pub count: u32,
}

#[repr(C)]
#[derive(Clone, Copy, Debug, PartialEq)]
pub struct WordRead {
    pub status: u32,
    pub number: u32,
    pub wrong: u32,
}

#[repr(C)]
#[derive(Clone, Copy, Debug, PartialEq)]
pub struct BlockRead {
    pub status: u32,
    pub count: u32,
    pub wrong: u32,
}

#[repr(C)]
#[derive(Clone, Copy, Debug, Default, PartialEq)]
pub struct SlotRead {
    pub status: u32,
    pub count: u32,
    pub wrong: u32,
    pub link: u32,
    pub word_wrong: u32,
    pub training_wrong: u32,
}

#[repr(C)]
#[derive(Clone, Copy, Debug, PartialEq)]
pub struct Stepped {
    pub status: u32,
    pub start: u64,
    pub length: u64,
    pub missing: u64,
}

#[repr(C)]
#[derive(Clone, Copy, Debug, PartialEq)]
pub struct Laid {
    pub status: u32,
    pub count: u64,
}

extern "C" {
    fn decklewren_write_word(number: u32, out: *mut u8, out_len: usize) -> Written;
    fn decklewren_read_word(bits: *const u8, bits_len: usize) -> WordRead;
    fn decklewren_write_block(
        link: u32,
        datagram: *const u8,
        datagram_len: usize,
        out: *mut u8,
        out_len: usize,
    ) -> Written;
    fn decklewren_read_block(
        link: u32,
        bits: *const u8,
        bits_len: usize,
        out: *mut u8,
        out_len: usize,
    ) -> BlockRead;
    fn decklewren_write_slot(
        link: u32,
        datagram: *const u8,
        datagram_len: usize,
        out: *mut u8,
        out_len: usize,
    ) -> Written;
    fn decklewren_read_slot(
        bits: *const u8,
        bits_len: usize,
        out: *mut u8,
        out_len: usize,
    ) -> SlotRead;
    fn decklewren_take_part(count: *mut u32, bits: *mut u8, part: *const u8, part_len: usize);
    fn decklewren_read_parts(
        count: *mut u32,
        bits: *mut u8,
        out: *mut u8,
        out_len: usize,
    ) -> SlotRead;
    fn decklewren_step_message(
        datagram: *const u8,
        datagram_len: usize,
        position: usize,
    ) -> Stepped;
    fn decklewren_write_message(
        datagram: *mut u8,
        datagram_len: usize,
        start: usize,
        kind: u8,
        source: u32,
        body: *const u8,
        body_len: usize,
    ) -> Laid;
    fn decklewren_zero_fill(datagram: *mut u8, datagram_len: usize, start: usize) -> Laid;
}

pub fn write_word(number: u32, out: &mut [u8]) -> Written {
    // SAFETY: pointer and length are those of one slice, lent for the call.
    unsafe { decklewren_write_word(number, out.as_mut_ptr(), out.len()) }
}

// What a call reads is lent as changeable, so that a call which changes it is seen to do so.

pub fn read_word(bits: &mut [u8]) -> WordRead {
    // SAFETY: pointer and length are those of one slice, lent for the call.
    unsafe { decklewren_read_word(bits.as_mut_ptr(), bits.len()) }
}

pub fn write_block(link: u32, datagram: &mut [u8], out: &mut [u8]) -> Written {
    let (datagram, datagram_len) = (datagram.as_mut_ptr(), datagram.len());
    // SAFETY: each pointer and its length are those of one slice, lent for the call.
    unsafe { decklewren_write_block(link, datagram, datagram_len, out.as_mut_ptr(), out.len()) }
}

pub fn read_block(link: u32, bits: &mut [u8], out: &mut [u8]) -> BlockRead {
    let (bits, bits_len) = (bits.as_mut_ptr(), bits.len());
    // SAFETY: each pointer and its length are those of one slice, lent for the call.
    unsafe { decklewren_read_block(link, bits, bits_len, out.as_mut_ptr(), out.len()) }
}

pub fn write_slot(link: u32, datagram: &mut [u8], out: &mut [u8]) -> Written {
    let (datagram, datagram_len) = (datagram.as_mut_ptr(), datagram.len());
    // SAFETY: each pointer and its length are those of one slice, lent for the call.
    unsafe { decklewren_write_slot(link, datagram, datagram_len, out.as_mut_ptr(), out.len()) }
}

pub fn read_slot(bits: &mut [u8], out: &mut [u8]) -> SlotRead {
    let (bits, bits_len) = (bits.as_mut_ptr(), bits.len());
    // SAFETY: each pointer and its length are those of one slice, lent for the call.
    unsafe { decklewren_read_slot(bits, bits_len, out.as_mut_ptr(), out.len()) }
}

pub fn take_part(count: &mut u32, bits: &mut [u8; LONGEST], part: &mut [u8]) {
    // SAFETY: the state is the caller's; pointer and length are those of one slice, lent for the call.
    unsafe { decklewren_take_part(count, bits.as_mut_ptr(), part.as_mut_ptr(), part.len()) }
}

/// An empty part of a caller that has no pointer to it.
pub fn take_no_part(count: &mut u32, bits: &mut [u8; LONGEST]) {
    // SAFETY: the state is the caller's; of no bytes the pointer may be null.
    unsafe { decklewren_take_part(count, bits.as_mut_ptr(), ptr::null(), 0) }
}

pub fn read_parts(count: &mut u32, bits: &mut [u8; LONGEST], out: &mut [u8]) -> SlotRead {
    // SAFETY: the state is the caller's; pointer and length are those of one slice, lent for the call.
    unsafe { decklewren_read_parts(count, bits.as_mut_ptr(), out.as_mut_ptr(), out.len()) }
}

pub fn step_message(datagram: &mut [u8], position: usize) -> Stepped {
    // SAFETY: pointer and length are those of one slice, lent for the call.
    unsafe { decklewren_step_message(datagram.as_mut_ptr(), datagram.len(), position) }
}

pub fn write_message(
    datagram: &mut [u8],
    start: usize,
    kind: u8,
    source: u32,
    body: &mut [u8],
) -> Laid {
    let (body, body_len) = (body.as_mut_ptr(), body.len());
    let (datagram, datagram_len) = (datagram.as_mut_ptr(), datagram.len());
    // SAFETY: each pointer and its length are those of one slice, lent for the call.
    unsafe { decklewren_write_message(datagram, datagram_len, start, kind, source, body, body_len) }
}

/// A message of a caller that has no body and no pointer to one.
pub fn write_bodiless(datagram: &mut [u8], start: usize, kind: u8, source: u32) -> Laid {
    let (datagram, datagram_len) = (datagram.as_mut_ptr(), datagram.len());
    // SAFETY: one pointer and length are those of a lent slice; of no bytes the other may be null.
    unsafe { decklewren_write_message(datagram, datagram_len, start, kind, source, ptr::null(), 0) }
}

/// A message of a caller that has no datagram and no pointer to one.
pub fn write_message_nowhere(start: usize, kind: u8, source: u32, body: &mut [u8]) -> Laid {
    let (body, body_len) = (body.as_mut_ptr(), body.len());
    let nowhere = ptr::null_mut();
    // SAFETY: one pointer and length are those of a lent slice; of no bytes the other may be null.
    unsafe { decklewren_write_message(nowhere, 0, start, kind, source, body, body_len) }
}

pub fn zero_fill(datagram: &mut [u8], start: usize) -> Laid {
    // SAFETY: pointer and length are those of one slice, lent for the call.
    unsafe { decklewren_zero_fill(datagram.as_mut_ptr(), datagram.len(), start) }
}

/// The zero fill of a caller that has no datagram and no pointer to one.
pub fn zero_fill_nowhere(start: usize) -> Laid {
    // SAFETY: of no bytes the pointer may be null.
    unsafe { decklewren_zero_fill(ptr::null_mut(), 0, start) }
}
