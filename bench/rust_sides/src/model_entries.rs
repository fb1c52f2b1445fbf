//! The independent model in Rust (tests/model) behind C entries, as bench/model.h declares them. Only bench.c and count.c call these: every
//! pointer is a state's that `model_fresh` has written, every slice is as long as said.

use model::Controller;
use std::mem::{align_of, offset_of, size_of};

// What struct model of bench/model.h says of a state.
const _: () = assert!(size_of::<Controller>() == 60 && align_of::<Controller>() == 4 && offset_of!(Controller, pointer) == 0);

#[no_mangle]
pub unsafe extern "C" fn model_fresh(state: *mut Controller) -> u32 {
    state.write(Controller::fresh());
    0
}

#[no_mangle]
pub unsafe extern "C" fn model_pointer(state: &mut Controller, mark: u32, byte: u32) -> u32 {
    state.pointer(mark, byte).packed()
}

#[no_mangle]
pub unsafe extern "C" fn model_auxiliary(state: &Controller) -> u32 {
    state.auxiliary().packed()
}

#[no_mangle]
pub unsafe extern "C" fn model_register(state: &mut Controller, mark: u32, byte: u32) -> u32 {
    state.register(mark, byte).packed()
}

#[no_mangle]
pub unsafe extern "C" fn model_block(state: &mut Controller, mark: u32, data: *mut u8, length: usize) -> u32 {
    state.block(mark, std::slice::from_raw_parts_mut(data, length)).packed()
}

#[no_mangle]
pub unsafe extern "C" fn model_time(state: &mut Controller, units: u32) -> u32 {
    state.time(units).packed()
}

#[no_mangle]
pub unsafe extern "C" fn model_answer(state: &mut Controller) -> u32 {
    state.answer().packed()
}

#[no_mangle]
pub unsafe extern "C" fn model_reselection(state: &mut Controller, lines: u32) -> u32 {
    state.reselection(lines).packed()
}

#[no_mangle]
pub unsafe extern "C" fn model_request(state: &mut Controller, phase: u32, byte: u32, parity: u32) -> u32 {
    state.request(phase, byte, parity).packed()
}

#[no_mangle]
pub unsafe extern "C" fn model_free(state: &mut Controller) -> u32 {
    state.free().packed()
}

#[no_mangle]
pub unsafe extern "C" fn model_lines(state: &Controller) -> u32 {
    state.lines() << 8
}
