//! A ring of twelve bytes, as one would write it in Rust for speed: safe, no tricks, nothing of the papers. It tests how many bytes
//! it holds and nothing else.
//!
//! Tried for a block, in nanoseconds in a loop as in ring_work.rs (Neoverse-V1; reading / writing):
//!
//! |                                                         | 12 bytes    | 12 over the end | 1 byte    |
//! |---------------------------------------------------------|-------------|-----------------|-----------|
//! | byte by byte, the place set back to 0 at the end        | 10.5 / 10.0 | 10.5 / 10.0     | 1.9 / 2.3 |
//! | byte by byte, the place modulo 12                       | 11.9 / 12.7 | 11.9 / 12.7     | 3.0 / 2.7 |
//! | the two runs as one chained iterator                    | 10.7 / 11.5 | 12.3 / 12.3     | 2.7 / 3.0 |
//! | two runs by copy_from_slice, the second empty or not    | 5.5 / 5.4   | 5.4 / 5.3       | 5.8 / 5.8 |
//! | two runs by copy_from_slice, the second if there is one | 3.9 / 3.9   | 5.6 / 5.5       | 4.2 / 4.2 |
//! | two runs by loops, which the compiler makes memcpy      | 3.8 / 3.9   | 5.7 / 5.6       | 4.1 / 4.1 |
//!
//! Kept are the fifth, the fastest for twelve bytes (the last differs by noise), and the first, the plain loop and the fastest for one
//! byte. Not kept is what only serves a ring that is full or empty: twelve bytes from place 0 by one copy of fixed length (1.2, but
//! over the end 9.2), and the twelve bytes turned in a register of 128 bits (3.4 to 3.7 in both).

pub const PLACES: usize = 12;

#[repr(C)]
#[derive(Clone, Copy)]
pub struct Ring {
    bytes: [u8; PLACES],
    first: usize, // the place of the oldest byte
    held: usize,
}

/// The place so many places on, less than twice round.
#[inline]
fn wrapped(place: usize) -> usize {
    if place >= PLACES {
        place - PLACES
    } else {
        place
    }
}

impl Ring {
    pub fn empty() -> Ring {
        Ring { bytes: [0; PLACES], first: 0, held: 0 }
    }

    /// False if it is full.
    #[inline]
    pub fn push(&mut self, byte: u8) -> bool {
        if self.held >= PLACES {
            return false;
        }
        self.bytes[wrapped(self.first + self.held)] = byte;
        self.held += 1;
        true
    }

    #[inline]
    pub fn pop(&mut self) -> Option<u8> {
        if self.held == 0 {
            return None;
        }
        let byte = self.bytes[self.first];
        self.first = wrapped(self.first + 1);
        self.held -= 1;
        Some(byte)
    }

    /// Takes as many bytes as it holds and `out` has room for; says how many. In two runs: to the last place, and from the first.
    #[inline]
    pub fn read(&mut self, out: &mut [u8]) -> usize {
        let moved = out.len().min(self.held);
        let run = moved.min(PLACES - self.first);
        out[..run].copy_from_slice(&self.bytes[self.first..self.first + run]);
        if run < moved {
            out[run..moved].copy_from_slice(&self.bytes[..moved - run]);
        }
        self.first = wrapped(self.first + moved);
        self.held -= moved;
        moved
    }

    /// Puts in as many bytes of `from` as there is room for; says how many.
    #[inline]
    pub fn write(&mut self, from: &[u8]) -> usize {
        let moved = from.len().min(PLACES - self.held);
        let at = wrapped(self.first + self.held);
        let run = moved.min(PLACES - at);
        self.bytes[at..at + run].copy_from_slice(&from[..run]);
        if run < moved {
            self.bytes[..moved - run].copy_from_slice(&from[run..moved]);
        }
        self.held += moved;
        moved
    }

    /// The same byte by byte.
    #[inline]
    pub fn read_bytes(&mut self, out: &mut [u8]) -> usize {
        let moved = out.len().min(self.held);
        let mut at = self.first;
        for byte in &mut out[..moved] {
            *byte = self.bytes[at];
            at = if at == PLACES - 1 { 0 } else { at + 1 };
        }
        self.first = at;
        self.held -= moved;
        moved
    }

    #[inline]
    pub fn write_bytes(&mut self, from: &[u8]) -> usize {
        let moved = from.len().min(PLACES - self.held);
        let mut at = wrapped(self.first + self.held);
        for &byte in &from[..moved] {
            self.bytes[at] = byte;
            at = if at == PLACES - 1 { 0 } else { at + 1 };
        }
        self.held += moved;
        moved
    }
}
