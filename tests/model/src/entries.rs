//! The calls with operands as plain as C gives them: "3 everywhere first". "Bad number is a bad state image, a phase above 7, a
//! parity or read/write mark above 1, or any other operand above 255."

use crate::answers::Answer;
use crate::state::{Controller, Parity, Phase};

fn as_byte(operand: u32) -> Option<u8> {
    u8::try_from(operand).ok()
}

/// "Read/write mark: 0 reads, 1 writes."
fn writes(mark: u32) -> Option<bool> {
    match mark {
        0 => Some(false),
        1 => Some(true),
        _ => None,
    }
}

fn as_phase(operand: u32) -> Option<Phase> {
    (operand <= 7).then(|| Phase::from_low_bits(operand as u8))
}

fn as_parity(mark: u32) -> Option<Parity> {
    writes(mark).map(|is_bad| if is_bad { Parity::Bad } else { Parity::Good })
}

impl Controller {
    pub fn fresh() -> Controller {
        Controller::default()
    }

    pub fn pointer(&mut self, mark: u32, byte: u32) -> Answer {
        match (writes(mark), as_byte(byte)) {
            (Some(false), Some(_)) => Answer::Done(self.pointer.into()),
            (Some(true), Some(byte)) => {
                self.pointer = byte;
                Answer::Done(0)
            }
            _ => Answer::BadNumber,
        }
    }

    pub fn auxiliary(&self) -> Answer {
        Answer::Done(self.auxiliary_status().into())
    }

    pub fn register(&mut self, mark: u32, byte: u32) -> Answer {
        match (writes(mark), as_byte(byte)) {
            (Some(false), Some(_)) => self.read_register(),
            (Some(true), Some(byte)) => self.write_register(byte),
            _ => Answer::BadNumber,
        }
    }

    /// "It answers 3, or else Done with the number moved as its value."
    pub fn block(&mut self, mark: u32, slice: &mut [u8]) -> Answer {
        match writes(mark) {
            Some(false) => Answer::Done(self.read_block(slice) as u32),
            Some(true) => Answer::Done(self.write_block(slice) as u32),
            None => Answer::BadNumber,
        }
    }

    pub fn time(&mut self, units: u32) -> Answer {
        as_byte(units).map_or(Answer::BadNumber, |units| self.time_passes(units))
    }

    pub fn answer(&mut self) -> Answer {
        self.target_answers()
    }

    pub fn reselection(&mut self, lines: u32) -> Answer {
        as_byte(lines).map_or(Answer::BadNumber, |lines| self.target_reselects(lines))
    }

    pub fn request(&mut self, phase: u32, byte: u32, parity: u32) -> Answer {
        match (as_phase(phase), as_byte(byte), as_parity(parity)) {
            (Some(phase), Some(byte), Some(parity)) => self.target_requests(phase, byte, parity),
            _ => Answer::BadNumber,
        }
    }

    pub fn free(&mut self) -> Answer {
        self.target_frees()
    }
}
