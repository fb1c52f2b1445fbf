//! An independent model of the Am33C93A, written from paper 01 and its readings, a file for each section of the paper, and from
//! paper 02's requests 01 (translate.rs) and 14.
//!
//! It shares no code with the proved library. The form of an image is docs/IMAGE.md's, and states that no calls reach are treated
//! as docs/DECISIONS.md says. Where these and the paper leave something open, ten small places, it was made to follow the library
//! after the two had differed: tests/against_model/cases.txt names each, and there agreement says less.
//!
//! tests/against_model makes the same calls to both and compares; bench/ measures the library beside it.
//!
//! Public are the entries (entries.rs), with operands as plain as C gives them, the image (image.rs), and the fields of a state,
//! which a guide looks at to choose the next call.
#![forbid(unsafe_code)]

mod answers;
mod commands;
mod endings;
mod entries;
mod events;
mod fifo;
mod image;
mod registers;
mod select_and_transfer;
mod state;
mod transfer_info;
mod translate;

pub use answers::Answer;
pub use fifo::{Fifo, FIFO_SIZE};
pub use image::{Image, IMAGE_LENGTH};
pub use state::{BusId, Connection, Controller, Lun, Parity, Pending, Phase, Running, Way};
