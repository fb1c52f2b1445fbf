//! The nine answers.

/// What a call was answered, with its value.
#[derive(Clone, Copy, PartialEq, Eq, Hash, Debug)]
pub enum Answer {
    /// As the rules say; the byte read or crossed, the number of bytes a block moved, else 0.
    Done(u32),
    /// Nothing changed; offer it again.
    Held,
    /// Nothing changed; the event has no place in this state.
    OutOfPlace,
    /// Nothing changed; a bad image or operand. No method of [`crate::Controller`] is answered so.
    BadNumber,
    /// The register is not there or not reachable; only the pointer moves.
    Blind,
    /// Only LCI is set.
    CommandIgnored,
    /// Nothing changed; not for us.
    ReselectionIgnored,
    /// Nothing changed; the Data register is not ready for this access.
    NoDataNow,
    /// The byte was not taken; offer it again when the host has served the interrupt.
    Reported,
}

impl Answer {
    /// As a C entry returns it: the number in bits 0 to 7, the value from bit 8 up.
    pub(crate) fn from_returned(returned: u32) -> Answer {
        match returned & 0xff {
            0 => Answer::Done(returned >> 8),
            1 => Answer::Held,
            2 => Answer::OutOfPlace,
            3 => Answer::BadNumber,
            4 => Answer::Blind,
            5 => Answer::CommandIgnored,
            6 => Answer::ReselectionIgnored,
            7 => Answer::NoDataNow,
            8 => Answer::Reported,
            number => panic!("the library has no answer {number}"),
        }
    }

    /// The paper's number.
    pub fn number(self) -> u8 {
        match self {
            Answer::Done(_) => 0,
            Answer::Held => 1,
            Answer::OutOfPlace => 2,
            Answer::BadNumber => 3,
            Answer::Blind => 4,
            Answer::CommandIgnored => 5,
            Answer::ReselectionIgnored => 6,
            Answer::NoDataNow => 7,
            Answer::Reported => 8,
        }
    }

    /// The paper's value: FFh where there was no register or no data.
    pub fn value(self) -> u32 {
        match self {
            Answer::Done(value) => value,
            Answer::Blind | Answer::NoDataNow => 0xff,
            _ => 0,
        }
    }
}
