//! "Commands".

use crate::answers::Answer;
use crate::select_and_transfer::command_size;
use crate::state::{BusId, Connection, Controller, Pending, Phase, Running, Way, CDB_1, CONTROL, OWN_ID};

/// The commands of the first version and Translate Address, bit 7 taken off.
#[derive(Clone, Copy, PartialEq, Eq)]
enum Code {
    Reset,
    Abort,
    AssertAtn,
    NegateAck,
    Disconnect,
    Select {
        with_atn: bool,
    },
    SelectAndTransfer {
        with_atn: bool,
    },
    SetIdi,
    TranslateAddress,
    TransferInfo,
    /// "Codes it lacks, left-out ones and those above 21h count as Level II", and are never valid.
    Other,
}

impl Code {
    fn of(byte: u8) -> Code {
        match byte & 0x7f {
            0x00 => Code::Reset,
            0x01 => Code::Abort,
            0x02 => Code::AssertAtn,
            0x03 => Code::NegateAck,
            0x04 => Code::Disconnect,
            0x06 => Code::Select { with_atn: true },
            0x07 => Code::Select { with_atn: false },
            0x08 => Code::SelectAndTransfer { with_atn: true },
            0x09 => Code::SelectAndTransfer { with_atn: false },
            0x0f => Code::SetIdi,
            0x18 => Code::TranslateAddress,
            0x20 => Code::TransferInfo,
            _ => Code::Other,
        }
    }

    fn is_level_i(self) -> bool {
        use Code::*;
        matches!(self, Reset | Abort | AssertAtn | NegateAck | Disconnect | SetIdi)
    }
}

impl Controller {
    pub(crate) fn write_command(&mut self, byte: u8) -> Answer {
        let code = Code::of(byte);
        if code == Code::Reset {
            self.reset(byte);
            return Answer::Done(0);
        }
        let is_valid = self.is_valid(code);
        if self.has_interrupt() || (self.is_busy() && !(code.is_level_i() && is_valid)) {
            self.lci = true;
            return Answer::CommandIgnored;
        }
        self.lci = false;
        self.pe = false;
        self.command = byte;
        if is_valid {
            self.carry_out(code, byte & 0x80 != 0);
        } else {
            // "one raising 40h otherwise changes only INT, 17h and 18h"
            self.pending = Pending::Interrupt;
            self.code = 0x40;
        }
        Answer::Done(0)
    }

    /// "registers 01 to 16h become zero, 00 is kept and its low three bits become our identity"; the pointer stays.
    fn reset(&mut self, byte: u8) {
        let own_id = self.registers[OWN_ID];
        *self = Controller { pointer: self.pointer, command: byte, own: BusId::from_low_bits(own_id), ..Controller::default() };
        self.registers[OWN_ID] = own_id;
        self.pending = Pending::Interrupt;
    }

    fn is_valid(&self, code: Code) -> bool {
        let is_connected = self.connection == Connection::Connected;
        match code {
            Code::Reset => true,
            Code::Abort => self.is_busy() && !self.is_ending(),
            Code::AssertAtn | Code::NegateAck | Code::Disconnect => is_connected,
            Code::SetIdi => is_connected || self.connection == Connection::Waiting,
            // Translate Address: "Add it for the Disconnected state" (paper 02, Req 01).
            Code::Select { .. } | Code::TranslateAddress => self.connection == Connection::Disconnected,
            Code::SelectAndTransfer { .. } => match self.connection {
                Connection::Disconnected => self.has_known_group(),
                Connection::Connected => self.may_resume(),
                Connection::Selecting | Connection::Waiting => false,
            },
            Code::TransferInfo => is_connected && !self.held_ack && self.reported.is_some(),
            Code::Other => false,
        }
    }

    fn has_known_group(&self) -> bool {
        command_size(self.registers[CDB_1]).is_some()
    }

    /// Resume "accepts 10h, 20h, 30h, 41h, 42h, 44h, 45h, 46h, 50h, 60h; else 40h"; the group is looked at "only at 10h, 20h, 30h".
    fn may_resume(&self) -> bool {
        match self.phase_register() {
            0x10 | 0x20 | 0x30 => self.has_known_group(),
            at => matches!(at, 0x41 | 0x42 | 0x44 | 0x45 | 0x46 | 0x50 | 0x60),
        }
    }

    fn carry_out(&mut self, code: Code, is_single: bool) {
        match code {
            Code::Abort => self.abort(),
            Code::AssertAtn => self.atn = true,
            Code::NegateAck => self.held_ack = false,
            Code::Disconnect => self.disconnect(),
            Code::SetIdi => self.registers[CONTROL] |= 0x04,
            Code::Select { with_atn } => self.start_selecting(Running::Select { with_atn }),
            Code::SelectAndTransfer { with_atn } => self.start_or_resume(with_atn),
            Code::TranslateAddress => self.translate_address(),
            Code::TransferInfo => self.start_transfer_info(is_single),
            Code::Reset | Code::Other => unreachable!("not carried out here"),
        }
    }

    /// "When connected it is ending with 28h plus the phase of the last Request .. Message Out's 2Eh if none".
    fn abort(&mut self) {
        if self.connection == Connection::Connected {
            let phase = self.last_phase.unwrap_or(Phase::MessageOut);
            self.ending_with(0x28 + phase.number());
        } else {
            self.connection = Connection::Disconnected;
            self.raise(0x22);
        }
    }

    /// "drops command, FIFO, ATN and held ACK; no interrupt (house)"; an ending goes too.
    fn disconnect(&mut self) {
        self.fifo.wipe();
        self.way = Way::NotFixed;
        self.running = Running::Nothing;
        self.leave_bus();
        if self.is_ending() {
            self.pending = Pending::Nothing;
        }
    }

    pub(crate) fn start_selecting(&mut self, running: Running) {
        self.running = running;
        self.connection = Connection::Selecting;
        self.elapsed = 0;
    }

    fn start_or_resume(&mut self, with_atn: bool) {
        self.fifo.wipe();
        self.single = false;
        self.way = Way::NotFixed;
        let running = Running::SelectAndTransfer { with_atn };
        if self.connection == Connection::Disconnected {
            self.set_phase_register(0x00);
            self.start_selecting(running);
        } else {
            self.running = running;
            self.resume();
        }
    }

    /// "It releases ACK except at 46h; 60h ends with 16h."
    fn resume(&mut self) {
        if self.phase_register() != 0x46 {
            self.held_ack = false;
        }
        if self.phase_register() == 0x60 {
            self.ending_with(0x16);
        }
    }
}
