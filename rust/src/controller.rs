//! A controller that owns its image.
//!
//! Every unsafe call here lends the library the controller's own 54 bytes, or a copy of them, and at most one slice that nobody else
//! holds: all that include/am33c93a.h asks of a caller.

use crate::answer::Answer;
use crate::entries::*;
use core::fmt;

/// The length of an image in bytes (docs/IMAGE.md).
pub const IMAGE_LENGTH: usize = 54;

/// The same as the library takes it: a length has 64 bits on every target.
const LENT_LENGTH: u64 = IMAGE_LENGTH as u64;

const READ: u32 = 0;
const WRITE: u32 = 1;

/// MSG, C/D and I/O as 4, 2 and 1.
#[derive(Clone, Copy, PartialEq, Eq, Hash, Debug)]
#[repr(u8)]
pub enum Phase {
    DataOut = 0,
    DataIn = 1,
    Command = 2,
    Status = 3,
    UnspecifiedOut = 4,
    UnspecifiedIn = 5,
    MessageOut = 6,
    MessageIn = 7,
}

#[derive(Clone, Copy, PartialEq, Eq, Hash, Debug)]
#[repr(u8)]
pub enum Parity {
    Good = 0,
    Bad = 1,
}

/// These bytes are no state's image.
#[derive(Clone, Copy, PartialEq, Eq, Debug)]
pub struct NoImage;

impl fmt::Display for NoImage {
    fn fmt(&self, f: &mut fmt::Formatter) -> fmt::Result {
        f.write_str("bytes that are no image of a controller's state")
    }
}

impl core::error::Error for NoImage {}

/// One Am33C93A. Copies are other controllers in the same state.
///
/// Equal are those with the same image. Two that differ only in the places of the FIFO where their waiting bytes stand, or in a
/// place where none waits, are not equal, though nobody is ever told the difference (docs/IMAGE.md).
#[derive(Clone, PartialEq, Eq, Hash, Debug)]
pub struct Controller {
    image: [u8; IMAGE_LENGTH],
}

impl Default for Controller {
    fn default() -> Controller {
        Controller::fresh()
    }
}

impl Controller {
    /// All registers zero, Disconnected, nothing pending.
    pub fn fresh() -> Controller {
        let mut image = [0; IMAGE_LENGTH];
        unsafe { am33c93a_fresh(image.as_mut_ptr(), LENT_LENGTH) };
        Controller { image }
    }

    /// The state that these bytes are the image of, as [`Controller::image`] gave them.
    pub fn from_image(bytes: &[u8]) -> Result<Controller, NoImage> {
        let image: [u8; IMAGE_LENGTH] = bytes.try_into().map_err(|_| NoImage)?;
        let controller = Controller { image };
        match controller.auxiliary() {
            Answer::BadNumber => Err(NoImage),
            _ => Ok(controller),
        }
    }

    /// The state as bytes, to keep and to come back from.
    pub fn image(&self) -> &[u8; IMAGE_LENGTH] {
        &self.image
    }

    /// Lends the image to one entry.
    fn call(&mut self, entry: impl FnOnce(*mut u8, u64) -> u32) -> Answer {
        Answer::from_returned(entry(self.image.as_mut_ptr(), LENT_LENGTH))
    }

    /// Lends a copy to an entry that changes nothing, for those that take an image as if to change it.
    fn look(&self, entry: impl FnOnce(*mut u8, u64) -> u32) -> Answer {
        self.clone().call(entry)
    }

    /// The address pointer.
    pub fn read_pointer(&self) -> Answer {
        self.look(|image, length| unsafe { am33c93a_pointer(image, length, READ, 0) })
    }

    pub fn set_pointer(&mut self, address: u8) -> Answer {
        self.call(|image, length| unsafe { am33c93a_pointer(image, length, WRITE, address.into()) })
    }

    /// Auxiliary status ([`crate::auxiliary`]).
    pub fn auxiliary(&self) -> Answer {
        self.look(|image, length| unsafe { am33c93a_auxiliary(image, length) })
    }

    /// The register at the pointer, which steps.
    pub fn read_register(&mut self) -> Answer {
        self.call(|image, length| unsafe { am33c93a_register(image, length, READ, 0) })
    }

    pub fn write_register(&mut self, byte: u8) -> Answer {
        self.call(|image, length| unsafe { am33c93a_register(image, length, WRITE, byte.into()) })
    }

    /// Reads at the Data register until the slice ends or no data comes; the value is the number read. The rest of the slice stays.
    pub fn read_block(&mut self, data: &mut [u8]) -> Answer {
        self.call(|image, length| unsafe { am33c93a_block(image, length, READ, data.as_mut_ptr(), data.len() as u64) })
    }

    /// Writes at the Data register until the slice ends or no more is taken; the value is the number written.
    ///
    /// The library is lent copies, because its entry takes bytes as if to change them.
    pub fn write_block(&mut self, data: &[u8]) -> Answer {
        let mut written = 0;
        for part in data.chunks(16) {
            let mut copy = [0; 16];
            copy[..part.len()].copy_from_slice(part);
            let moved =
                match self.call(|image, n| unsafe { am33c93a_block(image, n, WRITE, copy.as_mut_ptr(), part.len() as u64) }) {
                    Answer::Done(moved) => moved,
                    other => return other,
                };
            written += moved;
            if moved as usize != part.len() {
                break;
            }
        }
        Answer::Done(written)
    }

    /// Units of 8 ms pass.
    pub fn time(&mut self, units: u8) -> Answer {
        self.call(|image, length| unsafe { am33c93a_time(image, length, units.into()) })
    }

    /// The Target answers our selection.
    pub fn answer(&mut self) -> Answer {
        self.call(|image, length| unsafe { am33c93a_answer(image, length) })
    }

    /// A Target reselects us: the eight data lines.
    pub fn reselection(&mut self, lines: u8) -> Answer {
        self.call(|image, length| unsafe { am33c93a_reselection(image, length, lines.into()) })
    }

    /// The Target asserts REQ in a phase, with a byte that is looked at in the phases that come in.
    pub fn request(&mut self, phase: Phase, byte: u8, parity: Parity) -> Answer {
        self.call(|image, length| unsafe { am33c93a_request(image, length, phase as u32, byte.into(), parity as u32) })
    }

    /// The Target frees the bus.
    pub fn free(&mut self) -> Answer {
        self.call(|image, length| unsafe { am33c93a_free(image, length) })
    }

    /// What the controller drives on the bus ([`crate::line`]).
    pub fn lines(&self) -> Answer {
        Answer::from_returned(unsafe { am33c93a_lines(self.image.as_ptr(), LENT_LENGTH) })
    }
}
