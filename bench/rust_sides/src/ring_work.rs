//! The work of bench/work.h over the ring, in Rust so that the compiler may inline the ring into it; declared in bench/ring.h. Only
//! bench.c and count.c call these: every slice is as long as said.

use crate::ring::{Ring, PLACES};
use std::mem::size_of;
use std::slice::{from_raw_parts, from_raw_parts_mut};

const COPIES: usize = 64;
const LENT: usize = 4096;

// What struct ring of bench/ring.h says, on machines of 64 bits.
const _: () = assert!(size_of::<Ring>() == 32);

/// So many bytes have gone through, and so many wait: 30h, 31h and so on.
#[no_mangle]
pub extern "C" fn rust_ring_prepare(ring: &mut Ring, gone: u8, waiting: u8) {
    *ring = Ring::empty();
    for i in 0..gone + waiting {
        ring.push(0x30 + i);
        if i < gone {
            ring.pop();
        }
    }
}

/// Apart from the work, so that it is the same code there and where it is measured alone.
#[inline(never)]
fn restore(copies: &mut [Ring; COPIES], saved: &Ring) {
    for copy in copies {
        *copy = *saved;
    }
}

#[inline(always)]
fn each_copy(copies: &mut [Ring; COPIES], saved: &Ring, turns: usize, mut work: impl FnMut(&mut Ring) -> usize) -> usize {
    let mut moved = 0;
    for _ in 0..turns / COPIES {
        restore(copies, saved);
        for copy in copies.iter_mut() {
            moved += work(copy);
        }
    }
    moved
}

#[no_mangle]
pub extern "C" fn rust_ring_restore(copies: &mut [Ring; COPIES], saved: &Ring, turns: usize) {
    each_copy(copies, saved, turns, |_| 0);
}

#[no_mangle]
pub unsafe extern "C" fn rust_ring_in(
    copies: &mut [Ring; COPIES],
    saved: &Ring,
    turns: usize,
    data: *mut u8,
    length: usize,
) -> usize {
    let data = from_raw_parts_mut(data, length);
    each_copy(copies, saved, turns, |ring| ring.read(data))
}

#[no_mangle]
pub unsafe extern "C" fn rust_ring_out(
    copies: &mut [Ring; COPIES],
    saved: &Ring,
    turns: usize,
    data: *const u8,
    length: usize,
) -> usize {
    let data = from_raw_parts(data, length);
    each_copy(copies, saved, turns, |ring| ring.write(data))
}

#[no_mangle]
pub unsafe extern "C" fn rust_loop_in(
    copies: &mut [Ring; COPIES],
    saved: &Ring,
    turns: usize,
    data: *mut u8,
    length: usize,
) -> usize {
    let data = from_raw_parts_mut(data, length);
    each_copy(copies, saved, turns, |ring| ring.read_bytes(data))
}

#[no_mangle]
pub unsafe extern "C" fn rust_loop_out(
    copies: &mut [Ring; COPIES],
    saved: &Ring,
    turns: usize,
    data: *const u8,
    length: usize,
) -> usize {
    let data = from_raw_parts(data, length);
    each_copy(copies, saved, turns, |ring| ring.write_bytes(data))
}

/// The oldest byte, or 256.
#[no_mangle]
pub extern "C" fn rust_ring_pop(ring: &mut Ring) -> u32 {
    ring.pop().map_or(256, u32::from)
}

/// A whole transfer: the Target puts twelve bytes in, then what is left is lent, at most 4096 bytes, of which twelve move.
#[inline(always)]
fn carry_in(sent: &[u8], received: &mut [u8], read: impl Fn(&mut Ring, &mut [u8]) -> usize) {
    let mut ring = Ring::empty();
    let mut got = 0;
    for twelve in sent.chunks(PLACES) {
        for &byte in twelve {
            ring.push(byte);
        }
        let end = received.len().min(got + LENT);
        got += read(&mut ring, &mut received[got..end]);
    }
}

#[inline(always)]
fn carry_out(sent: &[u8], received: &mut [u8], write: impl Fn(&mut Ring, &[u8]) -> usize) {
    let mut ring = Ring::empty();
    let mut put = 0;
    for twelve in received.chunks_mut(PLACES) {
        let end = sent.len().min(put + LENT);
        put += write(&mut ring, &sent[put..end]);
        for byte in twelve {
            *byte = ring.pop().unwrap_or(0);
        }
    }
}

#[no_mangle]
pub unsafe extern "C" fn rust_ring_transfer_in(sent: *const u8, received: *mut u8, length: usize) {
    carry_in(from_raw_parts(sent, length), from_raw_parts_mut(received, length), Ring::read);
}

#[no_mangle]
pub unsafe extern "C" fn rust_ring_transfer_out(sent: *const u8, received: *mut u8, length: usize) {
    carry_out(from_raw_parts(sent, length), from_raw_parts_mut(received, length), Ring::write);
}

#[no_mangle]
pub unsafe extern "C" fn rust_loop_transfer_in(sent: *const u8, received: *mut u8, length: usize) {
    carry_in(from_raw_parts(sent, length), from_raw_parts_mut(received, length), Ring::read_bytes);
}

#[no_mangle]
pub unsafe extern "C" fn rust_loop_transfer_out(sent: *const u8, received: *mut u8, length: usize) {
    carry_out(from_raw_parts(sent, length), from_raw_parts_mut(received, length), Ring::write_bytes);
}
