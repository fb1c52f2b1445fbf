//! Drives for Translate Address (paper 02, Req 01), at both sides of each limit: what stands in registers 03 to 0Eh.

use crate::random::Random;

/// Registers 03, 04, 05/06, 07 to 0Ah, 0Ch and 0D/0Eh.
struct Drive {
    sectors: u8,
    heads: u8,
    cylinders: u16,
    address: u32,
    spares: u8,
    per_cylinder: u16,
}

const fn drive(sectors: u8, heads: u8, cylinders: u16, address: u32, spares: u8, per_cylinder: u16) -> Drive {
    Drive { sectors, heads, cylinders, address, spares, per_cylinder }
}

/// What chance would seldom put together.
const CORNERS: [Drive; 8] = [
    // The largest address that lies on any drive, and the next.
    drive(255, 255, 0xffff, 255 * 255 * 0xffff - 1, 0, 0),
    drive(255, 255, 0xffff, 255 * 255 * 0xffff, 0, 0),
    // The largest with spares, and the next.
    drive(255, 15, 4096, 4095 * 0xffff + 255 * 15 - 1, 1, 0xffff),
    drive(255, 15, 4096, 4095 * 0xffff + 255 * 15, 1, 0xffff),
    // Cut to their registers these would be cylinder 0 and head 0.
    drive(1, 1, 0xffff, 0x10000, 0, 0),
    drive(1, 15, 4096, 0x100, 1, 0xffff),
    // Each divisor zero, at address 0.
    drive(0, 15, 4096, 0, 1, 100),
    drive(17, 4, 615, 0, 1, 0),
];

impl Drive {
    fn any(random: &mut Random) -> Drive {
        let (byte, word) = (random.byte(), random.below(0x10000) as u16);
        let sectors = random.one_of(&[0, 1, 1, 2, 17, 17, 32, 63, 63, 255, 255, byte]);
        let heads = random.one_of(&[0, 1, 1, 2, 8, 8, 15, 15, 16, 16, 255, byte]);
        let cylinders = random.one_of(&[0, 1, 2, 615, 615, 4096, 4096, 4097, 4097, 0xffff, 0xffff, word]);
        let spares = random.one_of(&[0, 0, 0, 1, 2, 0x80, byte]);
        let all = u16::from(sectors) * u16::from(heads);
        let fewer = all.saturating_sub(spares.into());
        let per_cylinder =
            random.one_of(&[fewer, fewer, all, all, all.saturating_sub(1), all + 1, all.max(word), 0xffff, 0, word]);
        let drive = Drive { sectors, heads, cylinders, address: 0, spares, per_cylinder };
        Drive { address: drive.some_address(random), ..drive }
    }

    /// Of a place that is on the drive or just beyond it; where there is no such place, of what the sum comes to.
    fn some_address(&self, random: &mut Random) -> u32 {
        let sectors = u32::from(self.sectors);
        let all = sectors * u32::from(self.heads);
        let per_cylinder = if self.spares == 0 { all } else { self.per_cylinder.into() };
        let cylinder = near(self.cylinders.into(), 0x10000, random);
        let head = near(self.heads.into(), 0x100, random);
        let sector = random.below(sectors);
        let of_place = cylinder.wrapping_mul(per_cylinder).wrapping_add(head * sectors + sector);
        match random.below(12) {
            0 => 0,
            1 => random.any(),
            2 => cylinder.wrapping_mul(per_cylinder),
            3 => cylinder.wrapping_mul(per_cylinder).wrapping_sub(1),
            _ => of_place,
        }
    }

    fn registers(&self, sector_number: u8) -> [u8; 12] {
        let ([c0, c1], [p0, p1]) = (self.cylinders.to_be_bytes(), self.per_cylinder.to_be_bytes());
        let [a0, a1, a2, a3] = self.address.to_be_bytes();
        [self.sectors, self.heads, c0, c1, a0, a1, a2, a3, sector_number, self.spares, p0, p1]
    }
}

/// A number mostly below this total; else the total itself, or one that is below it only if it is cut to its register.
fn near(total: u32, beyond_register: u32, random: &mut Random) -> u32 {
    match random.below(8) {
        0 => 0,
        1 => total.saturating_sub(1),
        2 => total,
        3 => beyond_register + random.below(3),
        _ => random.below(total),
    }
}

/// Registers 03 to 0Eh with some drive; 0Bh, which is not looked at, holds anything.
pub fn registers(random: &mut Random) -> [u8; 12] {
    let sector_number = random.byte();
    if random.percent(15) {
        let n = random.below(CORNERS.len() as u32) as usize;
        return CORNERS[n].registers(sector_number);
    }
    Drive::any(random).registers(sector_number)
}
