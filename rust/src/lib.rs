//! The proved model of the Am33C93A SCSI controller, from safe Rust.
//!
//! A [`Controller`] owns its image; each method is one call of the C library and gives its [`Answer`]. Operands are typed so that
//! they are in range, and an image is checked when it comes in, so that nothing here is answered Bad number.
//!
//! ```
//! use am33c93a::{register, Answer, Controller, Parity, Phase};
//!
//! let mut chip = Controller::fresh();
//! chip.set_pointer(register::COMMAND);
//! assert_eq!(chip.write_register(am33c93a::command::SELECT), Answer::Done(0));
//! assert_eq!(chip.answer(), Answer::Done(0));
//! chip.set_pointer(register::SCSI_STATUS);
//! assert_eq!(chip.read_register(), Answer::Done(am33c93a::code::SELECTED.into()));
//! assert_eq!(chip.request(Phase::Command, 0, Parity::Good), Answer::Reported);
//! ```
#![no_std]

mod answer;
mod controller;
mod entries;
mod names;

pub use answer::Answer;
pub use controller::{Controller, NoImage, Parity, Phase, IMAGE_LENGTH};
pub use names::{auxiliary, code, command, line, register};
