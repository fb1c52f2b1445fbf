//! The C entries of include/am33c93a.h. A length has 64 bits there on every target, also where `usize` has 32.

extern "C" {
    pub(crate) fn am33c93a_fresh(image: *mut u8, length: u64) -> u32;
    pub(crate) fn am33c93a_pointer(image: *mut u8, length: u64, mark: u32, byte: u32) -> u32;
    pub(crate) fn am33c93a_auxiliary(image: *mut u8, length: u64) -> u32;
    pub(crate) fn am33c93a_register(image: *mut u8, length: u64, mark: u32, byte: u32) -> u32;
    pub(crate) fn am33c93a_block(image: *mut u8, length: u64, mark: u32, data: *mut u8, data_length: u64) -> u32;
    pub(crate) fn am33c93a_time(image: *mut u8, length: u64, units: u32) -> u32;
    pub(crate) fn am33c93a_answer(image: *mut u8, length: u64) -> u32;
    pub(crate) fn am33c93a_reselection(image: *mut u8, length: u64, lines: u32) -> u32;
    pub(crate) fn am33c93a_request(image: *mut u8, length: u64, phase: u32, byte: u32, parity: u32) -> u32;
    pub(crate) fn am33c93a_free(image: *mut u8, length: u64) -> u32;
    pub(crate) fn am33c93a_lines(image: *const u8, length: u64) -> u32;
}
