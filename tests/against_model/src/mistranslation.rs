//! Translate Address done wrong on purpose (mistakes.rs): all of it anew, with one mistake.

use model::{Connection, Controller};

#[derive(Clone, Copy, PartialEq, Debug)]
pub enum Mistranslation {
    /// 16 bits of the quotient are compared.
    CylinderCutBeforeCompared,
    /// 8 bits of the quotient are compared.
    HeadCutBeforeCompared,
    CylinderNotCompared,
    HeadNotCompared,
    /// 0D/0Eh are sectors without the spares; these are taken off once more.
    SparesTakenOffAgain,
    LimitsWithoutSpares,
    Cylinders4096Refused,
    Heads15Refused,
    /// 45h writes what it came to.
    NoPlaceIsWritten,
    TakenWhenConnected,
}

/// The right command has been carried out: its place and its code are replaced.
pub fn mistranslate(wrongly: Mistranslation, before: &Controller, state: &mut Controller) {
    use Mistranslation::*;
    let is_taken = before.connection == Connection::Disconnected
        || (wrongly == TakenWhenConnected && before.connection == Connection::Connected);
    if !is_taken {
        return;
    }
    let byte = |at: usize| u32::from(before.registers[at]);
    let two_bytes = |at: usize| byte(at) << 8 | byte(at + 1);
    let (sectors, heads, cylinders) = (byte(0x03), byte(0x04), two_bytes(0x05));
    let (address, spares) = (two_bytes(0x07) << 16 | two_bytes(0x09), byte(0x0c));
    let per_cylinder = match spares {
        0 => sectors * heads,
        _ if wrongly == SparesTakenOffAgain => two_bytes(0x0d).saturating_sub(spares),
        _ => two_bytes(0x0d),
    };
    state.registers[0x0b..0x0f].copy_from_slice(&before.registers[0x0b..0x0f]);
    state.code = 0x45;
    if per_cylinder == 0 || sectors == 0 {
        return;
    }
    let (cylinder, rest) = (address / per_cylinder, address % per_cylinder);
    let (head, sector) = (rest / sectors, rest % sectors);
    let most_cylinders = if wrongly == Cylinders4096Refused { 4095 } else { 4096 };
    let most_heads = if wrongly == Heads15Refused { 14 } else { 15 };
    let is_limited = spares != 0 || wrongly == LimitsWithoutSpares;
    let is_within_limits = !is_limited || (cylinders <= most_cylinders && heads <= most_heads);
    let is_cylinder = match wrongly {
        CylinderNotCompared => true,
        CylinderCutBeforeCompared => cylinder & 0xffff < cylinders,
        _ => cylinder < cylinders,
    };
    let is_head = match wrongly {
        HeadNotCompared => true,
        HeadCutBeforeCompared => head & 0xff < heads,
        _ => head < heads,
    };
    let is_found = is_within_limits && is_cylinder && is_head;
    if is_found {
        state.code = 0x15;
    }
    if is_found || wrongly == NoPlaceIsWritten {
        state.registers[0x0b..0x0f].copy_from_slice(&[sector as u8, head as u8, (cylinder >> 8) as u8, cylinder as u8]);
    }
}
