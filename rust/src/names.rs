//! The names of include/am33c93a.h; tests/names.rs compares their numbers.

/// Bits of auxiliary status.
pub mod auxiliary {
    /// An interrupt is pending: read SCSI_STATUS.
    pub const INT: u8 = 0x80;
    /// The last command was ignored.
    pub const LCI: u8 = 0x40;
    /// A Level II command runs, or its ending is under way.
    pub const BSY: u8 = 0x20;
    /// Command in progress: always 0 here.
    pub const CIP: u8 = 0x10;
    /// Bad parity came in.
    pub const PE: u8 = 0x02;
    /// The Data register wants to be read or written.
    pub const DBR: u8 = 0x01;
}

/// Register addresses.
pub mod register {
    /// Our identity, taken at Reset (bits 2 to 0).
    pub const OWN_ID: u8 = 0x00;
    /// IDI (bit 2), HSP (bit 0).
    pub const CONTROL: u8 = 0x01;
    /// Selection timeout in units of 8 ms; 0: none.
    pub const TIMEOUT: u8 = 0x02;
    /// Command bytes 1 to 12 stand at 03 to 0Eh.
    pub const CDB_1: u8 = 0x03;
    /// LUN (bits 2 to 0); after Select-And-Transfer the status byte.
    pub const TARGET_LUN: u8 = 0x0f;
    /// How far a Select-And-Transfer has come.
    pub const COMMAND_PHASE: u8 = 0x10;
    /// Stored, no effect.
    pub const SYNCHRONOUS: u8 = 0x11;
    /// The transfer count, high byte first.
    pub const COUNT_HIGH: u8 = 0x12;
    pub const COUNT_MIDDLE: u8 = 0x13;
    pub const COUNT_LOW: u8 = 0x14;
    /// The Target to select (bits 2 to 0).
    pub const DESTINATION_ID: u8 = 0x15;
    /// ER (bit 7); SIV (bit 3) and the identity that reselected us (bits 2 to 0).
    pub const SOURCE_ID: u8 = 0x16;
    /// The last code; a read clears INT.
    pub const SCSI_STATUS: u8 = 0x17;
    /// A write is a command.
    pub const COMMAND: u8 = 0x18;
    /// The FIFO's end for the host.
    pub const DATA: u8 = 0x19;

    // Of Translate Address, where the command bytes stand otherwise; numbers of two and four bytes have their high byte first. 15h writes
    // the place over 0Ch to 0Eh, so write them anew before the next address.

    /// On a track.
    pub const TOTAL_SECTORS: u8 = 0x03;
    pub const TOTAL_HEADS: u8 = 0x04;
    /// Two bytes.
    pub const TOTAL_CYLINDERS: u8 = 0x05;
    /// Four bytes.
    pub const LOGICAL_ADDRESS: u8 = 0x07;
    /// Of the place, from 0.
    pub const SECTOR_NUMBER: u8 = 0x0b;
    /// Of the place; before: the spare sectors on a cylinder, 0 if there are none.
    pub const HEAD_NUMBER: u8 = 0x0c;
    /// Two bytes, of the place; before, with spares: the sectors on a cylinder, spares not counted.
    pub const CYLINDER_NUMBER: u8 = 0x0d;
}

/// Commands; bit 7 asks Transfer Info for a single byte, and means nothing to the others.
pub mod command {
    /// Always taken.
    pub const RESET: u8 = 0x00;
    /// Ends the running command.
    pub const ABORT: u8 = 0x01;
    /// While connected.
    pub const ASSERT_ATN: u8 = 0x02;
    /// Lets go of a held ACK.
    pub const NEGATE_ACK: u8 = 0x03;
    /// Drops everything, no interrupt.
    pub const DISCONNECT: u8 = 0x04;
    /// Ends with 11h or 42h.
    pub const SELECT_WITH_ATN: u8 = 0x06;
    /// The same without ATN.
    pub const SELECT: u8 = 0x07;
    /// A whole SCSI command; while connected: resume.
    pub const SELECT_TRANSFER_WITH_ATN: u8 = 0x08;
    /// The same without ATN.
    pub const SELECT_TRANSFER: u8 = 0x09;
    /// Sets IDI only.
    pub const SET_IDI: u8 = 0x0f;
    /// While Disconnected; 15h or 45h at once.
    pub const TRANSLATE_ADDRESS: u8 = 0x18;
    /// Bytes of the reported phase.
    pub const TRANSFER_INFO: u8 = 0x20;
    /// With TRANSFER_INFO: one byte.
    pub const SINGLE_BYTE: u8 = 0x80;
}

/// Codes of SCSI status. Those that end in PHASE carry a phase: add it.
pub mod code {
    /// Reset is done.
    pub const RESET: u8 = 0x00;
    /// The Target answered a Select.
    pub const SELECTED: u8 = 0x11;
    /// The place of the address stands at 0Bh to 0Eh.
    pub const TRANSLATED: u8 = 0x15;
    /// A Select-And-Transfer came to its end.
    pub const COMPLETE: u8 = 0x16;
    /// Transfer Info is over, and this phase is asked for next.
    pub const TRANSFERRED_PHASE: u8 = 0x18;
    /// The last Message In byte came; ACK is held.
    pub const MESSAGE_IN: u8 = 0x20;
    /// Save Data Pointer came in a Select-And-Transfer; ACK is held.
    pub const SAVE_POINTER: u8 = 0x21;
    /// Aborted while selecting, or waiting for reselection.
    pub const ABORTED: u8 = 0x22;
    /// Aborted in this phase.
    pub const ABORTED_PHASE: u8 = 0x28;
    /// The command is invalid now.
    pub const INVALID: u8 = 0x40;
    /// The Target left in the middle.
    pub const GONE: u8 = 0x41;
    /// Nobody answered the selection in time.
    pub const TIMEOUT: u8 = 0x42;
    /// Bad parity, with HSP; ACK is held.
    pub const PARITY: u8 = 0x43;
    /// The address has no place on the disk, or the disk with spares is too large; no register is written.
    pub const OFF_DISK: u8 = 0x45;
    /// This phase came unexpected.
    pub const UNEXPECTED_PHASE: u8 = 0x48;
    /// A Target reselected us.
    pub const RESELECTED: u8 = 0x80;
    /// The Target freed the bus.
    pub const DISCONNECTED: u8 = 0x85;
    /// Connected and idle, this phase is asked for.
    pub const REQUESTED_PHASE: u8 = 0x88;
}

/// Bits of the value of `Controller::lines`.
pub mod line {
    pub const DESTINATION: u32 = 0x007;
    pub const CONNECTED: u32 = 0x008;
    pub const SELECTING: u32 = 0x010;
    /// For reselection.
    pub const WAITING: u32 = 0x020;
    pub const ATN: u32 = 0x040;
    /// ACK is held.
    pub const ACK: u32 = 0x080;
    pub const OWN: u32 = 0x700;
}
