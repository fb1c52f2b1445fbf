//! "Transfer Info".

use crate::answers::Answer;
use crate::state::{Controller, Parity, Phase, Running, Way};

impl Controller {
    /// "The count is loaded; zero or single byte means one, and then 12h to 14h read 0."
    pub(crate) fn start_transfer_info(&mut self, is_single: bool) {
        self.fifo.wipe();
        self.single = is_single || self.count == 0;
        if self.single {
            self.count = 0;
        }
        let comes_in = self.reported.is_some_and(Phase::comes_in);
        self.way = if comes_in { Way::In } else { Way::Out };
        self.running = Running::TransferInfo;
    }

    /// "A Request of the phase under transfer with bytes left takes one from, or puts one into, the FIFO and lowers the count;
    /// Held if it is empty or full. With none left, or with another phase, it is Reported".
    pub(crate) fn request_in_transfer_info(&mut self, phase: Phase, byte: u8, parity: Parity) -> Answer {
        if self.left() == 0 {
            return self.report(0x18 + phase.number());
        }
        if self.reported != Some(phase) {
            return self.report(0x48 + phase.number());
        }
        if phase.comes_in() {
            self.info_comes_in(phase, byte, parity)
        } else {
            self.info_goes_out(phase)
        }
    }

    fn info_comes_in(&mut self, phase: Phase, byte: u8, parity: Parity) -> Answer {
        if self.fifo.is_full() {
            return Answer::Held;
        }
        // "The last Message In byte holds ACK and is ending with 20h."
        let ends = phase == Phase::MessageIn && self.left() == 1;
        if let Some(refusal) = self.refusal_of(parity) {
            return refusal;
        }
        self.put_incoming(byte);
        if ends {
            self.held_ack = true;
            self.ending_with(0x20);
        }
        Answer::Done(byte.into())
    }

    fn info_goes_out(&mut self, phase: Phase) -> Answer {
        if self.fifo.is_empty() {
            return Answer::Held;
        }
        let byte = self.take_outgoing();
        // "The last Message Out byte clears ATN."
        if phase == Phase::MessageOut && self.left() == 0 {
            self.atn = false;
        }
        Answer::Done(byte.into())
    }

    pub(crate) fn put_incoming(&mut self, byte: u8) {
        self.fifo.put(byte);
        self.lower_count();
    }

    pub(crate) fn take_outgoing(&mut self) -> u8 {
        self.lower_count();
        self.fifo.take()
    }

    fn lower_count(&mut self) {
        self.count = self.left() - 1;
        self.single = false;
    }
}
