//! A call, and its two sides: the library's entry over an image and the model's.

use model::{Answer, Controller, Image};

/// The longest slice that a block lends.
pub const LONGEST_SLICE: usize = 64;

/// Operands are as wide as the C entries take them.
#[derive(Clone, Copy, PartialEq, Debug)]
pub enum Call {
    Fresh,
    /// From here on these bytes are lent, an image or not.
    Lend(Image),
    Pointer {
        mark: u32,
        byte: u32,
    },
    Auxiliary,
    Register {
        mark: u32,
        byte: u32,
    },
    /// A slice of this length, filled with first, first + 7, first + 14 ..
    Block {
        mark: u32,
        length: u8,
        first: u8,
    },
    Time {
        units: u32,
    },
    Answer,
    Reselection {
        lines: u32,
    },
    Request {
        phase: u32,
        byte: u32,
        parity: u32,
    },
    Free,
    Lines,
}

pub type Slice = [u8; LONGEST_SLICE];

impl Call {
    /// What a block lends; the bytes beyond its length are guards.
    pub fn slice(&self) -> Slice {
        let mut slice = [0xa5; LONGEST_SLICE];
        if let Call::Block { length, first, .. } = *self {
            for (n, byte) in slice[..usize::from(length)].iter_mut().enumerate() {
                *byte = first.wrapping_add((n as u8).wrapping_mul(7));
            }
        }
        slice
    }

    pub fn to_model(self, state: &mut Controller, slice: &mut Slice) -> Answer {
        match self {
            Call::Fresh => {
                *state = Controller::fresh();
                Answer::Done(0)
            }
            Call::Lend(_) => Answer::Done(0),
            Call::Pointer { mark, byte } => state.pointer(mark, byte),
            Call::Auxiliary => state.auxiliary(),
            Call::Register { mark, byte } => state.register(mark, byte),
            Call::Block { mark, length, .. } => state.block(mark, &mut slice[..usize::from(length)]),
            Call::Time { units } => state.time(units),
            Call::Answer => state.answer(),
            Call::Reselection { lines } => state.reselection(lines),
            Call::Request { phase, byte, parity } => state.request(phase, byte, parity),
            Call::Free => state.free(),
            Call::Lines => Answer::Done(state.lines()),
        }
    }

    pub fn to_library(self, image: &mut Image, slice: &mut Slice) -> u32 {
        use crate::library::*;
        let (at, length) = (image.as_mut_ptr(), image.len() as u64);
        // Both slices are ours alone and as long as said.
        unsafe {
            match self {
                Call::Fresh => am33c93a_fresh(at, length),
                Call::Lend(_) => 0,
                Call::Pointer { mark, byte } => am33c93a_pointer(at, length, mark, byte),
                Call::Auxiliary => am33c93a_auxiliary(at, length),
                Call::Register { mark, byte } => am33c93a_register(at, length, mark, byte),
                Call::Block { mark, length: n, .. } => am33c93a_block(at, length, mark, slice.as_mut_ptr(), n.into()),
                Call::Time { units } => am33c93a_time(at, length, units),
                Call::Answer => am33c93a_answer(at, length),
                Call::Reselection { lines } => am33c93a_reselection(at, length, lines),
                Call::Request { phase, byte, parity } => am33c93a_request(at, length, phase, byte, parity),
                Call::Free => am33c93a_free(at, length),
                Call::Lines => am33c93a_lines(at, length),
            }
        }
    }
}
