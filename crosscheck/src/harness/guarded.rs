//! A room of whole pages between pages that nobody may touch. A buffer placed at its start or at
//! its end touches one of them: a call that steps over that edge by one byte ends the process.

use std::ffi::{c_int, c_void};
use std::ops::Range;
use std::{ptr, slice};

/// Bytes in a room and in the guard on either side: a multiple of every page size in use.
pub const ROOM: usize = 65_536;

/// Bytes in a room that has place for the longest message and for as many before and behind it.
pub const LONG_ROOM: usize = 3 * ROOM;

/// A room is laid in pieces of so many bytes: under an emulator one long copy takes ten times as long.
const PIECE: usize = 1024;

const PROT_NONE: c_int = 0;
const PROT_READ: c_int = 1;
const PROT_WRITE: c_int = 2;
const MAP_PRIVATE: c_int = 0x02;
const MAP_ANONYMOUS: c_int = 0x20;

extern "C" {
    fn mmap(
        address: *mut c_void,
        length: usize,
        protection: c_int,
        flags: c_int,
        file: c_int,
        offset: i64,
    ) -> *mut c_void;
    fn mprotect(address: *mut c_void, length: usize, protection: c_int) -> c_int;
    fn munmap(address: *mut c_void, length: usize) -> c_int;
}

#[derive(Clone, Copy)]
pub enum Placed {
    AtStart,
    AtEnd,
}

pub const BOTH_PLACES: [Placed; 2] = [Placed::AtStart, Placed::AtEnd];

impl Placed {
    /// The part of a room of so many bytes that a buffer of this length takes.
    pub fn span(self, room: usize, length: usize) -> Range<usize> {
        match self {
            Placed::AtStart => 0..length,
            Placed::AtEnd => room - length..room,
        }
    }
}

pub struct Guarded {
    mapping: *mut u8,
    room: usize,
    read_only_in_calls: bool,
}

impl Guarded {
    /// A room that may be written to at all times.
    pub fn new() -> Guarded {
        Guarded::of(ROOM)
    }

    /// The same of so many bytes.
    pub fn of(room: usize) -> Guarded {
        Guarded::mapped(room, false)
    }

    /// A room that is read-only while a call is made: whoever then writes to it ends the process.
    pub fn read_only_in_calls() -> Guarded {
        Guarded::mapped(ROOM, true)
    }

    fn mapped(room: usize, read_only_in_calls: bool) -> Guarded {
        let (all, flags) = (with_guards(room), MAP_PRIVATE | MAP_ANONYMOUS);
        // SAFETY: a new mapping of its own, at an address the system chooses.
        let mapping = unsafe { mmap(ptr::null_mut(), all, PROT_NONE, flags, -1, 0) };
        assert!(mapping as isize != -1, "no memory for the guarded room");
        let mut guarded = Guarded {
            mapping: mapping.cast(),
            room,
            read_only_in_calls,
        };
        guarded.protect(PROT_READ | PROT_WRITE);
        guarded
    }

    /// Makes a call with the buffer of this length at this place.
    pub fn lend<A>(
        &mut self,
        placed: Placed,
        length: usize,
        call: impl FnOnce(&mut [u8]) -> A,
    ) -> A {
        if self.read_only_in_calls {
            self.protect(PROT_READ);
        }
        let answer = call(self.buffer(placed, length));
        if self.read_only_in_calls {
            self.protect(PROT_READ | PROT_WRITE);
        }
        answer
    }

    fn protect(&mut self, protection: c_int) {
        // SAFETY: the room is whole pages of this mapping, and no slice of it is lent out.
        let done = unsafe { mprotect(self.start().cast(), self.room, protection) };
        assert_eq!(done, 0, "the room's protection cannot be changed");
    }

    fn start(&self) -> *mut u8 {
        self.mapping.wrapping_add(ROOM)
    }

    /// The whole room.
    pub fn bytes(&mut self) -> &mut [u8] {
        // SAFETY: the room is readable memory of this mapping, lent to one borrower at a time.
        unsafe { slice::from_raw_parts_mut(self.start(), self.room) }
    }

    /// Lays this content over the whole room.
    pub fn lay(&mut self, content: &[u8]) {
        let pieces = self.bytes().chunks_mut(PIECE).zip(content.chunks(PIECE));
        pieces.for_each(|(piece, content)| piece.copy_from_slice(content));
    }

    /// The part of the room that a buffer of this length at this place takes.
    pub fn span(&self, placed: Placed, length: usize) -> Range<usize> {
        placed.span(self.room, length)
    }

    /// The buffer of this length at this place.
    pub fn buffer(&mut self, placed: Placed, length: usize) -> &mut [u8] {
        let span = self.span(placed, length);
        &mut self.bytes()[span]
    }

    /// The four bytes at this place, as the number that a call is lent.
    pub fn number(&mut self, placed: Placed) -> &mut u32 {
        let bytes = self.buffer(placed, 4).as_mut_ptr();
        // SAFETY: the four bytes begin or end a page, so they are aligned, and this room is borrowed.
        unsafe { &mut *bytes.cast() }
    }

    /// Whether every byte outside this span is as in `old`.
    pub fn rest_is(&mut self, old: &[u8], span: Range<usize>) -> bool {
        let room = self.bytes();
        room[..span.start] == old[..span.start] && room[span.end..] == old[span.end..]
    }
}

impl Drop for Guarded {
    fn drop(&mut self) {
        // SAFETY: the mapping is this room's own and nothing borrows from it any more.
        unsafe { munmap(self.mapping.cast(), with_guards(self.room)) };
    }
}

/// The bytes of a room and of the guards on either side.
fn with_guards(room: usize) -> usize {
    ROOM + room + ROOM
}
