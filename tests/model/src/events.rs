//! "Bus events", and the connected and idle state.

use crate::answers::Answer;
use crate::state::{BusId, Connection, Controller, Parity, Phase, Running, SOURCE_ID, TIMEOUT};

impl Controller {
    /// A selection is a command's, one that is not at its ending: an image may say selecting where none runs.
    fn is_selecting(&self) -> bool {
        self.connection == Connection::Selecting && self.running != Running::Nothing && !self.is_ending()
    }

    /// "While selecting with register 02 not 0, units add up; when they reach it, code 42h, Disconnected."
    pub(crate) fn time_passes(&mut self, units: u8) -> Answer {
        if !self.is_selecting() {
            return Answer::Done(0);
        }
        let timeout = self.registers[TIMEOUT];
        if timeout == 0 {
            return Answer::Done(0);
        }
        match self.elapsed.checked_add(units) {
            Some(sum) if sum < timeout => self.elapsed = sum,
            _ => {
                self.connection = Connection::Disconnected;
                self.raise(0x42);
            }
        }
        Answer::Done(0)
    }

    /// "Connected, ATN set for 06 and 08; for 06/07 code 11h; for 08/09 phase register 10h."
    pub(crate) fn target_answers(&mut self) -> Answer {
        // An image may say selecting in an ending: "bus events are Held".
        if self.connection == Connection::Selecting && self.is_ending() {
            return Answer::Held;
        }
        if !self.is_selecting() {
            return Answer::OutOfPlace;
        }
        if let Running::SelectAndTransfer { with_atn } = self.running {
            self.connect();
            self.atn |= with_atn;
            self.set_phase_register(0x10);
            return Answer::Done(0);
        }
        let with_atn = self.running == Running::Select { with_atn: true };
        self.connect();
        self.atn |= with_atn;
        self.raise(0x11);
        Answer::Done(0)
    }

    pub(crate) fn connect(&mut self) {
        self.connection = Connection::Connected;
        self.reported = None;
        self.last_phase = None;
    }

    pub(crate) fn target_reselects(&mut self, lines: u8) -> Answer {
        let ones = lines.count_ones();
        if !self.er() || lines & self.own.line() == 0 || !(ones == 1 || ones == 2) {
            return Answer::ReselectionIgnored;
        }
        if self.connection == Connection::Connected {
            return Answer::OutOfPlace;
        }
        if self.is_ending() {
            return Answer::Held;
        }
        let other = lines & !self.own.line();
        let from = (other != 0).then(|| BusId::from_low_bits(other.trailing_zeros() as u8));
        let is_awaited = self.connection == Connection::Waiting
            && matches!(self.running, Running::SelectAndTransfer { .. })
            && from == Some(self.destination());
        if self.has_interrupt() {
            return Answer::Held;
        }
        // "With two bits, SIV and the other identity go into 16h; with one, bits 3 to 0 become 0. Bits 7 to 4 stay."
        let named = from.map_or(0, |id| 0x08 | id.number());
        self.registers[SOURCE_ID] = self.registers[SOURCE_ID] & 0xf0 | named;
        self.connect();
        if is_awaited {
            self.set_phase_register(0x44);
        } else {
            self.raise(0x80);
        }
        Answer::Done(0)
    }

    pub(crate) fn target_requests(&mut self, phase: Phase, byte: u8, parity: Parity) -> Answer {
        if self.connection != Connection::Connected {
            return Answer::OutOfPlace;
        }
        if self.is_ending() || self.held_ack {
            return Answer::Held;
        }
        let answer = match self.running {
            Running::Nothing | Running::Select { .. } => self.request_while_idle(phase),
            Running::TransferInfo => self.request_in_transfer_info(phase, byte, parity),
            Running::SelectAndTransfer { with_atn } => self.request_in_select_and_transfer(with_atn, phase, byte, parity),
        };
        if matches!(answer, Answer::Done(_) | Answer::Reported) {
            self.last_phase = Some(phase);
        }
        answer
    }

    /// "a Request of a phase not yet reported raises 88h+p and reports p; the reported one again is Held"
    fn request_while_idle(&mut self, phase: Phase) -> Answer {
        if self.reported == Some(phase) || self.has_interrupt() {
            return Answer::Held;
        }
        self.raise(0x88 + phase.number());
        Answer::Reported
    }

    /// Nothing is taken; "Reported, ending with" the code.
    pub(crate) fn report(&mut self, code: u8) -> Answer {
        self.ending_with(code);
        Answer::Reported
    }

    /// "Bad parity on any byte that would be taken in sets PE; with HSP the byte is not taken or counted, ACK is held, answer 8,
    /// ending with 43h." An answer is given where the byte is not taken.
    pub(crate) fn refusal_of(&mut self, parity: Parity) -> Option<Answer> {
        self.pe |= parity == Parity::Bad;
        if parity == Parity::Bad && self.hsp() {
            self.held_ack = true;
            self.ending_with(0x43);
            return Some(Answer::Reported);
        }
        None
    }

    /// "unless Held, it disconnects and clears ATN and held ACK"
    pub(crate) fn target_frees(&mut self) -> Answer {
        if self.connection != Connection::Connected {
            return Answer::OutOfPlace;
        }
        if self.is_ending() {
            return Answer::Held;
        }
        match self.running {
            Running::SelectAndTransfer { .. } if self.phase_register() == 0x42 => self.free_after_disconnect_message(),
            Running::SelectAndTransfer { .. } => self.free_ending_with(0x41),
            Running::TransferInfo => self.free_ending_with(if self.left() == 0 { 0x85 } else { 0x41 }),
            Running::Nothing | Running::Select { .. } => self.free_while_idle(),
        }
    }

    /// Connected and idle: "Free raises 85h."
    fn free_while_idle(&mut self) -> Answer {
        if self.has_interrupt() {
            return Answer::Held;
        }
        self.leave_bus();
        self.raise(0x85);
        Answer::Done(0)
    }

    fn free_ending_with(&mut self, code: u8) -> Answer {
        self.leave_bus();
        self.ending_with(code);
        Answer::Done(0)
    }

    pub(crate) fn leave_bus(&mut self) {
        self.connection = Connection::Disconnected;
        self.atn = false;
        self.held_ack = false;
    }

    /// What the controller drives, as include/am33c93a.h packs it.
    pub fn lines(&self) -> u32 {
        let connection = match self.connection {
            Connection::Disconnected => 0x00,
            Connection::Connected => 0x08,
            Connection::Selecting => 0x10,
            Connection::Waiting => 0x20,
        };
        u32::from(self.destination().number())
            | connection
            | u32::from(self.atn) << 6
            | u32::from(self.held_ack) << 7
            | u32::from(self.own.number()) << 8
    }
}
