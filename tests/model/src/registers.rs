//! "Registers": the pointer, auxiliary status, the registers, the Data register, and block moves there.

use crate::answers::Answer;
use crate::fifo::FIFO_SIZE;
use crate::state::{Controller, Pending, Way};

const SCSI_STATUS: u8 = 0x17;
const COMMAND: u8 = 0x18;
const DATA: u8 = 0x19;

impl Controller {
    /// "bit 7 INT, 6 LCI, 5 BSY .. 4 CIP (always 0, house), 1 PE, 0 DBR"
    pub fn auxiliary_status(&self) -> u8 {
        u8::from(self.has_interrupt()) << 7
            | u8::from(self.lci) << 6
            | u8::from(self.is_busy()) << 5
            | u8::from(self.pe) << 1
            | u8::from(self.dbr())
    }

    /// "DBR out: fewer bytes written than loaded, and room. DBR in: a byte waits." What was written has crossed or waits, so
    /// fewer were written than loaded exactly when fewer wait than are left.
    pub fn dbr(&self) -> bool {
        match self.way {
            Way::NotFixed => false,
            Way::In => !self.fifo.is_empty(),
            Way::Out => self.fifo.waiting() < FIFO_SIZE && (self.fifo.waiting() as u32) < self.left(),
        }
    }

    /// "steps by one, FFh going round to 00, except at 18h, 19h and 1Fh, where it stays"
    fn step_pointer(&mut self) {
        if !matches!(self.pointer, 0x18 | 0x19 | 0x1f) {
            self.pointer = self.pointer.wrapping_add(1);
        }
    }

    /// "While BSY is set only 18h and 19h are reachable"; 1Ah and above do not exist.
    fn is_reachable(&self, address: u8) -> bool {
        address <= DATA && (address >= COMMAND || !self.is_busy())
    }

    pub(crate) fn read_register(&mut self) -> Answer {
        let address = self.pointer;
        self.step_pointer();
        if !self.is_reachable(address) {
            return Answer::Blind;
        }
        match address {
            SCSI_STATUS => self.read_status(),
            COMMAND => Answer::Done(self.command.into()),
            DATA => self.read_data().map_or(Answer::NoDataNow, |byte| Answer::Done(byte.into())),
            _ => Answer::Done(self.stored(address).into()),
        }
    }

    pub(crate) fn write_register(&mut self, byte: u8) -> Answer {
        let address = self.pointer;
        self.step_pointer();
        if !self.is_reachable(address) || address == SCSI_STATUS {
            return Answer::Blind;
        }
        match address {
            COMMAND => self.write_command(byte),
            DATA if self.write_data(byte) => Answer::Done(0),
            DATA => Answer::NoDataNow,
            _ => {
                self.store(address, byte);
                Answer::Done(0)
            }
        }
    }

    /// "Reading 17h gives the code and clears INT; the code stays readable."
    fn read_status(&mut self) -> Answer {
        if self.has_interrupt() {
            self.pending = Pending::Nothing;
        }
        Answer::Done(self.code.into())
    }

    /// A register from 00 to 16h. "The count is 12h to 14h, high byte first."
    pub(crate) fn stored(&self, address: u8) -> u8 {
        match address {
            0x12 => (self.count >> 16) as u8,
            0x13 => (self.count >> 8) as u8,
            0x14 => self.count as u8,
            _ => self.registers[address as usize],
        }
    }

    pub(crate) fn store(&mut self, address: u8, byte: u8) {
        let byte_in = |shift: u32| (self.count & !(0xff << shift)) | u32::from(byte) << shift;
        match address {
            0x12 => self.count = byte_in(16),
            0x13 => self.count = byte_in(8),
            0x14 => self.count = byte_in(0),
            _ => self.registers[address as usize] = byte,
        }
    }

    /// "At 19h, answer 7 comes exactly when DBR is 0, or on a read going out or a write coming in."
    fn read_data(&mut self) -> Option<u8> {
        if self.way != Way::In || !self.dbr() {
            return None;
        }
        let byte = self.fifo.take();
        self.after_reading();
        Some(byte)
    }

    /// True if the byte was written. The count does not fall here: "It falls when a byte crosses."
    fn write_data(&mut self, byte: u8) -> bool {
        let is_taken = self.way == Way::Out && self.dbr();
        if is_taken {
            self.fifo.put(byte);
        }
        is_taken
    }

    /// "single accesses there, without the pointer, from the slice's start until the slice ends or answer 7 would come"
    pub(crate) fn read_block(&mut self, slice: &mut [u8]) -> usize {
        for (moved, place) in slice.iter_mut().enumerate() {
            match self.read_data() {
                Some(byte) => *place = byte,
                None => return moved,
            }
        }
        slice.len()
    }

    pub(crate) fn write_block(&mut self, slice: &[u8]) -> usize {
        slice.iter().take_while(|byte| self.write_data(**byte)).count()
    }
}
