//! "Select-And-Transfer": what comes next by the phase register.

use crate::answers::Answer;
use crate::state::{Connection, Controller, Parity, Pending, Phase, Way, CDB_1, TARGET_LUN};

/// "its top three bits give 6, 10 or 12 bytes for groups 0, 1, 5"
pub(crate) fn command_size(cdb_1: u8) -> Option<u8> {
    match cdb_1 >> 5 {
        0 => Some(6),
        1 => Some(10),
        5 => Some(12),
        _ => None,
    }
}

/// What a run expects next.
#[derive(Clone, Copy, PartialEq, Eq, Debug)]
enum Expected {
    /// Message Out takes our Identify.
    IdentifyOut,
    /// Command takes CDB byte x+1.
    CommandByte(u8),
    /// "Data (0 or 1), Status or Message In"
    DataOrEnd,
    /// 46h: "Status or Message In"
    End,
    /// 44h: the Target's Identify.
    IdentifyIn,
    /// 50h: Command Complete.
    CommandComplete,
    /// No Request at all: 42h, where a Free is due, and every value that a run never sets.
    Nothing,
}

const SAVE_POINTER: u8 = 0x02;
const DISCONNECT: u8 = 0x04;

impl Controller {
    fn expected(&self, with_atn: bool) -> Expected {
        match self.phase_register() {
            0x10 if with_atn => Expected::IdentifyOut,
            // "With 09, as 20h"
            0x10 | 0x20 => self.expected_after(0),
            at @ 0x30..=0x3f => self.expected_after(at & 0x0f),
            0x41 | 0x45 => Expected::DataOrEnd,
            0x44 => Expected::IdentifyIn,
            0x46 => Expected::End,
            0x50 => Expected::CommandComplete,
            _ => Expected::Nothing,
        }
    }

    /// x command bytes have been taken.
    fn expected_after(&self, x: u8) -> Expected {
        match command_size(self.registers[CDB_1]) {
            Some(size) if x < size => Expected::CommandByte(x),
            Some(size) if x == size => Expected::DataOrEnd,
            _ => Expected::Nothing,
        }
    }

    pub(crate) fn request_in_select_and_transfer(&mut self, with_atn: bool, phase: Phase, byte: u8, parity: Parity) -> Answer {
        use Expected::*;
        match (self.expected(with_atn), phase) {
            (IdentifyOut, Phase::MessageOut) => self.send_identify(),
            (CommandByte(x), Phase::Command) => self.send_command_byte(x),
            (DataOrEnd, Phase::DataOut) => self.data_goes_out(),
            (DataOrEnd, Phase::DataIn) => self.data_comes_in(byte, parity),
            (DataOrEnd | End, Phase::Status) => self.take_status(byte, parity),
            (DataOrEnd | End, Phase::MessageIn) if byte == SAVE_POINTER => self.take_save_pointer(parity),
            (DataOrEnd | End, Phase::MessageIn) if byte == DISCONNECT => self.take_message(byte, parity, 0x42),
            (IdentifyIn, Phase::MessageIn) if byte == 0x80 | self.lun().number() => self.take_message(byte, parity, 0x45),
            (CommandComplete, Phase::MessageIn) if byte == 0x00 => self.take_command_complete(parity),
            _ => self.unexpected(phase),
        }
    }

    /// "Anything else is Reported, ending with 48h+p, and not taken".
    fn unexpected(&mut self, phase: Phase) -> Answer {
        self.report(0x48 + phase.number())
    }

    /// "80h + LUN (0Fh bits 2 to 0), plus 40h if ER; ATN clears; 20h"
    fn send_identify(&mut self) -> Answer {
        let byte = 0x80 | u8::from(self.er()) << 6 | self.lun().number();
        self.atn = false;
        self.set_phase_register(0x20);
        Answer::Done(byte.into())
    }

    fn send_command_byte(&mut self, x: u8) -> Answer {
        self.set_phase_register(0x31 + x);
        Answer::Done(self.registers[CDB_1 + usize::from(x)].into())
    }

    /// "Going out, that first Request is Reported with no code and no byte moved: DBR opens, and it is offered again (house)."
    fn data_goes_out(&mut self) -> Answer {
        if self.left() == 0 || self.way == Way::In {
            return self.unexpected(Phase::DataOut);
        }
        if self.way == Way::NotFixed {
            self.way = Way::Out;
            return Answer::Reported;
        }
        if self.fifo.is_empty() {
            return Answer::Held;
        }
        let byte = self.take_outgoing();
        self.note_data_end();
        Answer::Done(byte.into())
    }

    fn data_comes_in(&mut self, byte: u8, parity: Parity) -> Answer {
        if self.left() == 0 || self.way == Way::Out {
            return self.unexpected(Phase::DataIn);
        }
        if self.fifo.is_full() {
            return Answer::Held;
        }
        if let Some(refusal) = self.refusal_of(parity) {
            return refusal;
        }
        self.way = Way::In;
        self.put_incoming(byte);
        self.note_data_end();
        Answer::Done(byte.into())
    }

    /// "at zero left, 46h"
    fn note_data_end(&mut self) {
        if self.left() == 0 {
            self.set_phase_register(0x46);
        }
    }

    /// "Status goes to 0Fh; 50h. Going out, the FIFO is dropped and DBR closes; a count not used up stays."
    fn take_status(&mut self, byte: u8, parity: Parity) -> Answer {
        if let Some(refusal) = self.refusal_of(parity) {
            return refusal;
        }
        self.registers[TARGET_LUN] = byte;
        self.set_phase_register(0x50);
        if self.way == Way::Out {
            self.fifo.drop_waiting();
            self.way = Way::NotFixed;
        }
        Answer::Done(byte.into())
    }

    fn take_message(&mut self, byte: u8, parity: Parity, phase_register: u8) -> Answer {
        if let Some(refusal) = self.refusal_of(parity) {
            return refusal;
        }
        self.set_phase_register(phase_register);
        Answer::Done(byte.into())
    }

    /// "02 gives 41h, ACK held, ending with 21h"
    fn take_save_pointer(&mut self, parity: Parity) -> Answer {
        if let Some(refusal) = self.refusal_of(parity) {
            return refusal;
        }
        self.set_phase_register(0x41);
        self.held_ack = true;
        self.ending_with(0x21);
        Answer::Done(SAVE_POINTER.into())
    }

    /// "Message In 00 gives 60h, ending with 16h"
    fn take_command_complete(&mut self, parity: Parity) -> Answer {
        if let Some(refusal) = self.refusal_of(parity) {
            return refusal;
        }
        self.set_phase_register(0x60);
        self.ending_with(0x16);
        Answer::Done(0)
    }

    /// "42h: Free gives 43h, Disconnected; with IDI, ending with 85h; without it, an outgoing FIFO stays, an incoming one is read
    /// out first .. then it waits for reselection."
    pub(crate) fn free_after_disconnect_message(&mut self) -> Answer {
        self.leave_bus();
        self.set_phase_register(0x43);
        if self.idi() {
            self.ending_with(0x85);
        } else if self.has_incoming() {
            self.pending = Pending::ReadOut;
        } else {
            self.connection = Connection::Waiting;
        }
        Answer::Done(0)
    }

    /// The bytes that were unread at the Free have been read out.
    pub(crate) fn wait_for_reselection(&mut self) {
        self.pending = Pending::Nothing;
        self.connection = Connection::Waiting;
    }
}
