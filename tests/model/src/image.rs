//! The 54 bytes of docs/IMAGE.md.

use crate::fifo::Fifo;
use crate::state::{BusId, Connection, Controller, Pending, Phase, Running, Way};

pub const IMAGE_LENGTH: usize = 54;
pub type Image = [u8; IMAGE_LENGTH];

fn phase_byte(phase: Option<Phase>) -> u8 {
    phase.map_or(0, |p| p.number() + 1)
}

fn phase_in(byte: u8) -> Option<Option<Phase>> {
    match byte {
        0 => Some(None),
        1..=8 => Some(Some(Phase::from_low_bits(byte - 1))),
        _ => None,
    }
}

fn flag_in(byte: u8) -> Option<bool> {
    (byte <= 1).then_some(byte == 1)
}

/// "A lent image with both set is Bad number": INT where no command runs, an ending where one does.
fn pending_in(kind: u8, code: u8, is_running: bool) -> Option<Pending> {
    match (kind, code, is_running) {
        (0, 0, _) => Some(Pending::Nothing),
        (1, 0, false) => Some(Pending::Interrupt),
        (2, code, true) => Some(Pending::Ending(code)),
        (3, 0, true) => Some(Pending::ReadOut),
        _ => None,
    }
}

fn connection_in(byte: u8) -> Option<Connection> {
    [Connection::Disconnected, Connection::Selecting, Connection::Waiting, Connection::Connected].get(byte as usize).copied()
}

fn running_in(byte: u8) -> Option<Running> {
    match byte {
        0 => Some(Running::Nothing),
        1 | 2 => Some(Running::Select { with_atn: byte == 1 }),
        3 | 4 => Some(Running::SelectAndTransfer { with_atn: byte == 3 }),
        5 => Some(Running::TransferInfo),
        _ => None,
    }
}

fn way_in(byte: u8) -> Option<Way> {
    [Way::NotFixed, Way::In, Way::Out].get(byte as usize).copied()
}

impl Controller {
    pub fn image(&self) -> Image {
        let mut image = [0; IMAGE_LENGTH];
        for address in 0..0x17 {
            image[usize::from(address)] = self.stored(address);
        }
        let (pending, ending_code) = match self.pending {
            Pending::Nothing => (0, 0),
            Pending::Interrupt => (1, 0),
            Pending::Ending(code) => (2, code),
            Pending::ReadOut => (3, 0),
        };
        let running = match self.running {
            Running::Nothing => 0,
            Running::Select { with_atn } => 2 - u8::from(with_atn),
            Running::SelectAndTransfer { with_atn } => 4 - u8::from(with_atn),
            Running::TransferInfo => 5,
        };
        image[0x17..0x2a].copy_from_slice(&[
            self.code,
            self.command,
            self.pointer,
            self.lci.into(),
            self.pe.into(),
            pending,
            ending_code,
            self.connection as u8,
            running,
            self.way as u8,
            self.single.into(),
            self.atn.into(),
            self.held_ack.into(),
            phase_byte(self.reported),
            phase_byte(self.last_phase),
            self.own.number(),
            self.elapsed,
            self.fifo.waiting() as u8,
            self.fifo.oldest(),
        ]);
        image[0x2a..].copy_from_slice(self.fifo.places());
        image
    }

    /// None for "bytes that are no state's image", and for another length.
    pub fn from_image(bytes: &[u8]) -> Option<Controller> {
        let image: &Image = bytes.try_into().ok()?;
        let mut state = Controller {
            code: image[0x17],
            command: image[0x18],
            pointer: image[0x19],
            lci: flag_in(image[0x1a])?,
            pe: flag_in(image[0x1b])?,
            pending: pending_in(image[0x1c], image[0x1d], image[0x1f] != 0)?,
            connection: connection_in(image[0x1e])?,
            running: running_in(image[0x1f])?,
            way: way_in(image[0x20])?,
            single: flag_in(image[0x21])?,
            atn: flag_in(image[0x22])?,
            held_ack: flag_in(image[0x23])?,
            reported: phase_in(image[0x24])?,
            last_phase: phase_in(image[0x25])?,
            own: (image[0x26] <= 7).then(|| BusId::from_low_bits(image[0x26]))?,
            elapsed: image[0x27],
            fifo: Fifo::of(image[0x28], image[0x29], image[0x2a..].try_into().ok()?)?,
            ..Controller::default()
        };
        for address in 0..0x17 {
            state.store(address, image[usize::from(address)]);
        }
        Some(state)
    }
}
