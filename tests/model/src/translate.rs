//! "Req 01. Translate Address" of paper 02: where on a bare drive a logical address lies.

use crate::state::Controller;

/// Registers by the data sheets' names; Select-And-Transfer has its command bytes there.
const TOTAL_SECTORS: usize = 0x03;
const TOTAL_HEADS: usize = 0x04;
const TOTAL_CYLINDERS: usize = 0x05;
const LOGICAL_ADDRESS: usize = 0x07;
const SECTOR_NUMBER: usize = 0x0b;
const HEAD_NUMBER: usize = 0x0c;
const CYLINDER_NUMBER: usize = 0x0d;

/// "with spares also when cylinders exceed 4096 or heads exceed 15": these totals themselves pass.
const MOST_CYLINDERS_WITH_SPARES: u32 = 4096;
const MOST_HEADS_WITH_SPARES: u32 = 15;

/// A place on the drive, each number from 0.
struct Place {
    sector: u8,
    head: u8,
    cylinder: u16,
}

impl Controller {
    /// "Sector (from 0) goes to 0Bh, head to 0Ch, cylinder to 0D/0Eh, code 15h. Code 45h, with those registers unchanged", where
    /// there is no such place. All of it is done inside the write, so BSY is never seen.
    pub(crate) fn translate_address(&mut self) {
        let Some(place) = self.addressed_place() else {
            return self.raise(0x45);
        };
        self.registers[SECTOR_NUMBER] = place.sector;
        self.registers[HEAD_NUMBER] = place.head;
        self.registers[CYLINDER_NUMBER..][..2].copy_from_slice(&place.cylinder.to_be_bytes());
        self.raise(0x15);
    }

    /// None "when a divisor is zero, or the head or cylinder reached is not below its total", or for the limits with spares.
    fn addressed_place(&self) -> Option<Place> {
        let sectors = u32::from(self.registers[TOTAL_SECTORS]);
        let heads = u32::from(self.registers[TOTAL_HEADS]);
        let cylinders = self.high_byte_first(TOTAL_CYLINDERS, 2);
        let has_spares = self.registers[HEAD_NUMBER] != 0;
        if has_spares && (cylinders > MOST_CYLINDERS_WITH_SPARES || heads > MOST_HEADS_WITH_SPARES) {
            return None;
        }
        // "With 0Ch zero, sectors per cylinder are sectors times heads; otherwise they are 0D/0Eh", as they stand.
        let per_cylinder = if has_spares { self.high_byte_first(CYLINDER_NUMBER, 2) } else { sectors * heads };
        let address = self.high_byte_first(LOGICAL_ADDRESS, 4);
        let (cylinder, rest) = divided(address, per_cylinder)?;
        let (head, sector) = divided(rest, sectors)?;
        // The quotients are compared whole; below their totals they fit their registers.
        let is_on_drive = cylinder < cylinders && head < heads;
        is_on_drive.then_some(Place { sector: sector as u8, head: head as u8, cylinder: cylinder as u16 })
    }

    /// "The MS Byte should be loaded in address 05 and the LS byte in address 06 Hex", and so at 07 to 0Ah and 0D/0Eh.
    fn high_byte_first(&self, at: usize, length: usize) -> u32 {
        self.registers[at..][..length].iter().fold(0, |number, byte| number << 8 | u32::from(*byte))
    }
}

/// Quotient and rest.
fn divided(number: u32, by: u32) -> Option<(u32, u32)> {
    Some((number.checked_div(by)?, number.checked_rem(by)?))
}
