//! What a controller remembers, in the paper's words.

use crate::fifo::Fifo;

/// A bus identity, 0 to 7: "never taken for" a logical unit number.
#[derive(Clone, Copy, PartialEq, Eq, Debug, Default)]
pub struct BusId(u8);

impl BusId {
    pub fn from_low_bits(byte: u8) -> BusId {
        BusId(byte & 7)
    }

    pub fn number(self) -> u8 {
        self.0
    }

    pub fn line(self) -> u8 {
        1 << self.0
    }
}

/// A logical unit number, 0 to 7.
#[derive(Clone, Copy, PartialEq, Eq, Debug)]
pub struct Lun(u8);

impl Lun {
    pub fn from_low_bits(byte: u8) -> Lun {
        Lun(byte & 7)
    }

    pub fn number(self) -> u8 {
        self.0
    }
}

/// "phase p 0 to 7 (MSG, C/D, I/O as 4, 2, 1)".
#[derive(Clone, Copy, PartialEq, Eq, Debug)]
#[repr(u8)]
pub enum Phase {
    DataOut = 0,
    DataIn = 1,
    Command = 2,
    Status = 3,
    UnspecifiedOut = 4,
    UnspecifiedIn = 5,
    MessageOut = 6,
    MessageIn = 7,
}

impl Phase {
    const ALL: [Phase; 8] = [
        Phase::DataOut,
        Phase::DataIn,
        Phase::Command,
        Phase::Status,
        Phase::UnspecifiedOut,
        Phase::UnspecifiedIn,
        Phase::MessageOut,
        Phase::MessageIn,
    ];

    pub fn from_low_bits(number: u8) -> Phase {
        Phase::ALL[(number & 7) as usize]
    }

    pub fn number(self) -> u8 {
        self as u8
    }

    /// "Odd p comes in."
    pub fn comes_in(self) -> bool {
        self.number() & 1 == 1
    }
}

#[derive(Clone, Copy, PartialEq, Eq, Debug)]
pub enum Parity {
    Good,
    Bad,
}

/// "no state has INT and an ending": so they are cases of one thing.
#[derive(Clone, Copy, PartialEq, Eq, Debug, Default)]
pub enum Pending {
    #[default]
    Nothing,
    Interrupt,
    /// "Ending with c": the incoming FIFO is read out first, then c is raised.
    Ending(u8),
    /// After a Free at 42h: read out first, "counts as an ending under every rule", "but raises no code".
    ReadOut,
}

#[derive(Clone, Copy, PartialEq, Eq, Debug, Default)]
pub enum Connection {
    #[default]
    Disconnected,
    Selecting,
    /// For reselection.
    Waiting,
    Connected,
}

/// The Level II command that runs.
#[derive(Clone, Copy, PartialEq, Eq, Debug, Default)]
pub enum Running {
    #[default]
    Nothing,
    Select {
        with_atn: bool,
    },
    SelectAndTransfer {
        with_atn: bool,
    },
    TransferInfo,
}

/// The direction of data.
#[derive(Clone, Copy, PartialEq, Eq, Debug, Default)]
pub enum Way {
    #[default]
    NotFixed,
    In,
    Out,
}

/// "A fresh state is all zero, Disconnected, nothing pending": the default.
#[derive(Clone, Copy, Debug, Default)]
#[repr(C)]
pub struct Controller {
    /// The address pointer; first, so that C finds it (bench/model.h).
    pub pointer: u8,
    /// 00 to 16h; 12h to 14h stand in `count`.
    pub registers: [u8; 0x17],
    /// 12h to 14h: what is left.
    pub count: u32,
    /// The one byte left that 12h to 14h do not show.
    pub single: bool,
    /// 17h.
    pub code: u8,
    /// 18h, the last command not ignored.
    pub command: u8,
    pub lci: bool,
    pub pe: bool,
    pub pending: Pending,
    pub connection: Connection,
    pub running: Running,
    pub way: Way,
    pub atn: bool,
    pub held_ack: bool,
    /// The reported phase; while Transfer Info runs, the phase under transfer.
    pub reported: Option<Phase>,
    /// "the phase of the last Request answered Done or Reported since connection".
    pub last_phase: Option<Phase>,
    pub own: BusId,
    /// Units of time added up while selecting.
    pub elapsed: u8,
    pub fifo: Fifo,
}

/// Registers that a rule looks into.
pub(crate) const OWN_ID: usize = 0x00;
pub(crate) const CONTROL: usize = 0x01;
pub(crate) const TIMEOUT: usize = 0x02;
pub(crate) const CDB_1: usize = 0x03;
pub(crate) const TARGET_LUN: usize = 0x0f;
pub(crate) const COMMAND_PHASE: usize = 0x10;
pub(crate) const DESTINATION_ID: usize = 0x15;
pub(crate) const SOURCE_ID: usize = 0x16;

impl Controller {
    /// Control bit 2.
    pub fn idi(&self) -> bool {
        self.registers[CONTROL] & 0x04 != 0
    }

    /// Control bit 0.
    pub fn hsp(&self) -> bool {
        self.registers[CONTROL] & 0x01 != 0
    }

    /// "ER (16h bit 7)".
    pub fn er(&self) -> bool {
        self.registers[SOURCE_ID] & 0x80 != 0
    }

    /// "0Fh bits 2 to 0".
    pub fn lun(&self) -> Lun {
        Lun::from_low_bits(self.registers[TARGET_LUN])
    }

    /// "15h bits 2 to 0".
    pub fn destination(&self) -> BusId {
        BusId::from_low_bits(self.registers[DESTINATION_ID])
    }

    /// The phase register, 10h.
    pub fn phase_register(&self) -> u8 {
        self.registers[COMMAND_PHASE]
    }

    pub(crate) fn set_phase_register(&mut self, byte: u8) {
        self.registers[COMMAND_PHASE] = byte;
    }

    /// How many bytes are left to cross: "zero or single byte means one".
    pub fn left(&self) -> u32 {
        if self.single {
            1
        } else {
            self.count
        }
    }
}
