//! "The answers": number and value of each.

#[derive(Clone, Copy, PartialEq, Eq, Debug)]
pub enum Answer {
    /// The byte read or crossed, the number a block moved, else 0.
    Done(u32),
    Held,
    OutOfPlace,
    BadNumber,
    Blind,
    CommandIgnored,
    ReselectionIgnored,
    NoDataNow,
    Reported,
}

impl Answer {
    pub fn number(self) -> u32 {
        match self {
            Answer::Done(_) => 0,
            Answer::Held => 1,
            Answer::OutOfPlace => 2,
            Answer::BadNumber => 3,
            Answer::Blind => 4,
            Answer::CommandIgnored => 5,
            Answer::ReselectionIgnored => 6,
            Answer::NoDataNow => 7,
            Answer::Reported => 8,
        }
    }

    pub fn value(self) -> u32 {
        match self {
            Answer::Done(value) => value,
            Answer::Blind | Answer::NoDataNow => 0xff,
            _ => 0,
        }
    }

    /// As the C entries return it: the number in bits 0 to 7, the value from bit 8 up (include/am33c93a.h).
    pub fn packed(self) -> u32 {
        self.number() | self.value() << 8
    }
}
