//! The FIFO's places kept wrongly on purpose (mistakes.rs): no answer shows it, so only the images can.

use crate::call::Call;
use crate::images::OLDEST;
use model::{Connection, Controller, Fifo, Image, Running, FIFO_SIZE};

#[derive(Clone, Copy, PartialEq, Debug)]
pub enum Misplacement {
    /// A byte that goes out leaves a 0 behind.
    TakenByteWiped,
    /// The oldest always stands in the first place, and 0 where none waits: the form before this one.
    OthersMoveUp,
    /// The next byte after a drop comes to where it would have come without.
    DropKeepsTheEnd,
    RaisedCodeWipesThePlaces,
    StatusWipesThePlaces,
    /// A byte that comes in and is dropped in the same call never stood in its place.
    DroppedByteIsNotPut,
    /// The last byte that goes out takes the ends back to the first place, as a drop does.
    ReadOutGoesToTheFirstPlace,
    StartKeepsThePlaces,
    ResumeKeepsThePlaces,
    TransferInfoKeepsThePlaces,
    DisconnectKeepsThePlaces,
    ResetKeepsThePlaces,
    /// Where none waits there is nothing to wipe.
    EmptyFifoIsNotWiped,
    /// A Select begins as the commands that move data do.
    SelectWipesThePlaces,
    /// An image may name a place behind the last.
    PlaceTwelveIsThere,
    /// Where no byte waits only 0 may stand.
    UnusedPlaceRefused,
}

/// The place behind the newest byte.
fn end(fifo: &Fifo) -> usize {
    (usize::from(fifo.oldest()) + fifo.waiting()) % FIFO_SIZE
}

/// The ends have gone back to the first place, and not because all were taken.
fn is_dropped(before: &Fifo, fifo: &Fifo) -> bool {
    fifo.is_empty() && fifo.oldest() == 0 && end(before) != 0
}

/// The same waiting bytes from the first place on.
fn moved_up(fifo: &Fifo) -> Fifo {
    let mut up = Fifo::default();
    (0..fifo.waiting()).for_each(|n| up.put(fifo.byte(n)));
    up
}

/// The command that this call wrote, bit 7 taken off; ignored or not.
fn command(call: Call, state: &Controller) -> Option<u32> {
    match call {
        Call::Register { mark: 1, byte } if state.pointer == 0x18 => Some(byte & 0x7f),
        _ => None,
    }
}

/// What a right call came to, misplaced.
pub fn misplace(wrongly: Misplacement, call: Call, was: &Controller, is: &Controller) -> Fifo {
    use Misplacement::*;
    let (before, fifo) = (&was.fifo, &is.fifo);
    let (waiting, mut places) = (fifo.waiting() as u8, *fifo.places());
    let command = command(call, was);
    let is_request = matches!(call, Call::Request { .. });
    let is_resume = was.connection == Connection::Connected;
    let is_kept = match wrongly {
        StartKeepsThePlaces => matches!(command, Some(0x08 | 0x09)) && !is_resume,
        ResumeKeepsThePlaces => matches!(command, Some(0x08 | 0x09)) && is_resume,
        TransferInfoKeepsThePlaces => command == Some(0x20),
        DisconnectKeepsThePlaces => command == Some(0x04),
        ResetKeepsThePlaces => command == Some(0x00),
        EmptyFifoIsNotWiped => command.is_some() && before.is_empty(),
        DroppedByteIsNotPut => is_request && is_dropped(before, fifo),
        _ => false,
    };
    let misplaced = match wrongly {
        _ if is_kept => Fifo::of(waiting, fifo.oldest(), *before.places()),
        TakenByteWiped if !is_dropped(before, fifo) => {
            let mut at = usize::from(before.oldest());
            while at != usize::from(fifo.oldest()) {
                places[at] = 0;
                at = (at + 1) % FIFO_SIZE;
            }
            Fifo::of(waiting, fifo.oldest(), places)
        }
        OthersMoveUp => Some(moved_up(fifo)),
        DropKeepsTheEnd if is_dropped(before, fifo) => Fifo::of(0, end(before) as u8, places),
        RaisedCodeWipesThePlaces if is_dropped(before, fifo) && is.has_interrupt() => Some(Fifo::default()),
        StatusWipesThePlaces if is_dropped(before, fifo) && is_request && !is.has_interrupt() => Some(Fifo::default()),
        SelectWipesThePlaces if matches!(is.running, Running::Select { .. }) && !was.is_busy() => Some(Fifo::default()),
        ReadOutGoesToTheFirstPlace if fifo.is_empty() && !before.is_empty() => Fifo::of(0, 0, places),
        _ => None,
    };
    misplaced.unwrap_or(*fifo)
}

/// The state that lent bytes say.
pub fn state_of(wrongly: Misplacement, image: &Image) -> Option<Controller> {
    let mut bytes = *image;
    if wrongly == Misplacement::PlaceTwelveIsThere && usize::from(bytes[OLDEST]) == FIFO_SIZE {
        bytes[OLDEST] = 0;
    }
    let state = Controller::from_image(&bytes)?;
    let is_tidy = || (0..FIFO_SIZE - state.fifo.waiting()).all(|n| state.fifo.places()[(end(&state.fifo) + n) % FIFO_SIZE] == 0);
    (wrongly != Misplacement::UnusedPlaceRefused || is_tidy()).then_some(state)
}
