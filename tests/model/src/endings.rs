//! "Interrupts and endings".

use crate::state::{Controller, Pending, Phase, Running, Way};

impl Controller {
    pub fn has_interrupt(&self) -> bool {
        self.pending == Pending::Interrupt
    }

    pub fn is_ending(&self) -> bool {
        matches!(self.pending, Pending::Ending(_) | Pending::ReadOut)
    }

    /// BSY: "a Level II command runs"; while ending "BSY stays", and so does the command.
    pub fn is_busy(&self) -> bool {
        self.running != Running::Nothing
    }

    /// A code that waits for no read-out.
    pub(crate) fn raise(&mut self, code: u8) {
        self.report_by(code);
        self.interrupt(code);
    }

    /// "A raised code sets INT, ends the command and drops an outgoing FIFO." An incoming way and the mark of a single byte left
    /// stay until the next load: no rule looks at them before, and the library's images keep them (cases.txt).
    fn interrupt(&mut self, code: u8) {
        if self.way == Way::Out {
            self.fifo.drop_waiting();
            self.way = Way::NotFixed;
        }
        self.running = Running::Nothing;
        self.pending = Pending::Interrupt;
        self.code = code;
    }

    /// "Codes 11h, 16h, 20h, 21h, 43h and 80h leave no phase reported; 18h+p, 28h+p and 48h+p report p", and so does 88h+p.
    fn report_by(&mut self, code: u8) {
        match code {
            0x11 | 0x16 | 0x20 | 0x21 | 0x43 | 0x80 => self.reported = None,
            _ if matches!(code & 0xf8, 0x18 | 0x28 | 0x48 | 0x88) => self.reported = Some(Phase::from_low_bits(code)),
            _ => {}
        }
    }

    pub(crate) fn has_incoming(&self) -> bool {
        self.way == Way::In && !self.fifo.is_empty()
    }

    /// "an incoming FIFO must be read out first, then c is raised"; the phase that c reports is reported at once (cases.txt).
    pub(crate) fn ending_with(&mut self, code: u8) {
        self.report_by(code);
        if self.has_incoming() {
            self.pending = Pending::Ending(code);
        } else {
            self.interrupt(code);
        }
    }

    /// The host has read a byte out of the FIFO.
    pub(crate) fn after_reading(&mut self) {
        if !self.fifo.is_empty() {
            return;
        }
        match self.pending {
            Pending::Ending(code) => self.interrupt(code),
            Pending::ReadOut => self.wait_for_reselection(),
            Pending::Nothing | Pending::Interrupt => {}
        }
    }
}
