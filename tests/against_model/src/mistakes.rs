//! Models that are wrong on purpose: the run has to catch each, or it proves nothing. The first four are the paper's "Readings to
//! shut out"; then some of its programs that "have to fall"; then the fault that the library is proved against, and one like it; then
//! three that paper 02's Req 14 shuts out; then mistakes that are easily made, those of Translate Address and of the FIFO's places
//! last.

use crate::call::{Call, Slice};
use crate::misplacement::{self, Misplacement};
use crate::mistranslation::{mistranslate, Mistranslation};
use model::{Answer, Connection, Controller, Image, Pending, Running, Way};

#[derive(Clone, Copy, PartialEq, Debug)]
pub enum Mistake {
    CountFallsOnHostWrite,
    AuxiliaryReadClearsInt,
    SuccessCodeBeforeReadOut,
    ReportedByteTaken,
    HoldsEveryEvent,
    NodsAtAllButTheFirstByte,
    AnswerTakenOverUnreadTimeout,
    TimeForgetsAnEnding,
    IntWithARunningCommandIsAState,
    CommandTakenOverUnreadStatus,
    TimeHeldOverUnreadStatus,
    TimeoutOneUnitLate,
    ThirteenthByteAccepted,
    PointerMovesAtData,
    ReportedPhaseReportedAgain,
    FreeKeepsAtn,
    BadParityTakenWithHsp,
    ResumeKeepsDirection,
    WaitsBeforeReadOut,
    ReturnForgetsDirection,
    StatusKeepsOutgoingFifo,
    LunTakenForBusIdentity,
    Translation(Mistranslation),
    Places(Misplacement),
}

impl Mistake {
    pub const ALL: [Mistake; 48] = [
        Mistake::CountFallsOnHostWrite,
        Mistake::AuxiliaryReadClearsInt,
        Mistake::SuccessCodeBeforeReadOut,
        Mistake::ReportedByteTaken,
        Mistake::HoldsEveryEvent,
        Mistake::NodsAtAllButTheFirstByte,
        Mistake::AnswerTakenOverUnreadTimeout,
        Mistake::TimeForgetsAnEnding,
        Mistake::IntWithARunningCommandIsAState,
        Mistake::CommandTakenOverUnreadStatus,
        Mistake::TimeHeldOverUnreadStatus,
        Mistake::TimeoutOneUnitLate,
        Mistake::ThirteenthByteAccepted,
        Mistake::PointerMovesAtData,
        Mistake::ReportedPhaseReportedAgain,
        Mistake::FreeKeepsAtn,
        Mistake::BadParityTakenWithHsp,
        Mistake::ResumeKeepsDirection,
        Mistake::WaitsBeforeReadOut,
        Mistake::ReturnForgetsDirection,
        Mistake::StatusKeepsOutgoingFifo,
        Mistake::LunTakenForBusIdentity,
        Mistake::Translation(Mistranslation::CylinderCutBeforeCompared),
        Mistake::Translation(Mistranslation::HeadCutBeforeCompared),
        Mistake::Translation(Mistranslation::CylinderNotCompared),
        Mistake::Translation(Mistranslation::HeadNotCompared),
        Mistake::Translation(Mistranslation::SparesTakenOffAgain),
        Mistake::Translation(Mistranslation::LimitsWithoutSpares),
        Mistake::Translation(Mistranslation::Cylinders4096Refused),
        Mistake::Translation(Mistranslation::Heads15Refused),
        Mistake::Translation(Mistranslation::NoPlaceIsWritten),
        Mistake::Translation(Mistranslation::TakenWhenConnected),
        Mistake::Places(Misplacement::TakenByteWiped),
        Mistake::Places(Misplacement::OthersMoveUp),
        Mistake::Places(Misplacement::DropKeepsTheEnd),
        Mistake::Places(Misplacement::RaisedCodeWipesThePlaces),
        Mistake::Places(Misplacement::StatusWipesThePlaces),
        Mistake::Places(Misplacement::DroppedByteIsNotPut),
        Mistake::Places(Misplacement::ReadOutGoesToTheFirstPlace),
        Mistake::Places(Misplacement::StartKeepsThePlaces),
        Mistake::Places(Misplacement::ResumeKeepsThePlaces),
        Mistake::Places(Misplacement::TransferInfoKeepsThePlaces),
        Mistake::Places(Misplacement::DisconnectKeepsThePlaces),
        Mistake::Places(Misplacement::ResetKeepsThePlaces),
        Mistake::Places(Misplacement::EmptyFifoIsNotWiped),
        Mistake::Places(Misplacement::SelectWipesThePlaces),
        Mistake::Places(Misplacement::PlaceTwelveIsThere),
        Mistake::Places(Misplacement::UnusedPlaceRefused),
    ];

    /// The state that lent bytes say to a model with the mistake.
    pub fn state_of(self, image: &Image) -> Option<Controller> {
        let mut bytes = *image;
        if self == Mistake::IntWithARunningCommandIsAState && bytes[28] == 1 && bytes[31] != 0 {
            bytes[28] = 0;
            return Controller::from_image(&bytes).map(|state| Controller { pending: Pending::Interrupt, ..state });
        }
        if let Mistake::Places(wrongly) = self {
            return misplacement::state_of(wrongly, image);
        }
        Controller::from_image(&bytes)
    }

    /// The right call, and then what the mistake makes of it.
    pub fn call(self, call: Call, state: &mut Controller, slice: &mut Slice) -> Answer {
        let before = *state;
        let answer = call.to_model(state, slice);
        match (self, call, answer) {
            (Mistake::CountFallsOnHostWrite, Call::Register { mark: 1, .. }, Answer::Done(_)) if before.pointer == 0x19 => {
                state.count = state.count.saturating_sub(1);
            }
            (Mistake::CountFallsOnHostWrite, Call::Block { mark: 1, .. }, Answer::Done(moved)) => {
                state.count = state.count.saturating_sub(moved);
            }
            (Mistake::AuxiliaryReadClearsInt, Call::Auxiliary, _) if state.has_interrupt() => state.pending = Pending::Nothing,
            (Mistake::SuccessCodeBeforeReadOut, _, _) if state.pending == Pending::Ending(0x16) => {
                state.pending = Pending::Interrupt;
                state.running = Running::Nothing;
                state.code = 0x16;
            }
            (Mistake::ReportedByteTaken, Call::Request { phase, byte, .. }, Answer::Reported) if phase & 1 == 1 => {
                return Answer::Done(byte);
            }
            (Mistake::HoldsEveryEvent, Call::Answer | Call::Free | Call::Request { .. }, Answer::Done(_)) => {
                *state = before;
                return Answer::Held;
            }
            (Mistake::NodsAtAllButTheFirstByte, Call::Block { mark: 1, .. }, Answer::Done(2..)) => {
                *state = before;
                state.block(1, &mut slice[..1]);
            }
            (Mistake::AnswerTakenOverUnreadTimeout, Call::Answer, Answer::OutOfPlace)
                if before.has_interrupt() && before.code == 0x42 =>
            {
                state.connection = Connection::Connected;
                return Answer::Done(0);
            }
            (Mistake::TimeForgetsAnEnding, Call::Time { .. }, Answer::Done(_))
                if matches!(before.pending, Pending::Ending(_)) =>
            {
                state.pending = Pending::Nothing;
            }
            (Mistake::CommandTakenOverUnreadStatus, Call::Register { mark: 1, byte }, Answer::CommandIgnored)
                if before.has_interrupt() =>
            {
                *state = before;
                state.pending = Pending::Nothing;
                return state.register(1, byte);
            }
            (Mistake::TimeHeldOverUnreadStatus, Call::Time { .. }, Answer::Done(_)) if before.has_interrupt() => {
                return Answer::Held;
            }
            (Mistake::TimeoutOneUnitLate, Call::Time { units: units @ 1..=255 }, _)
                if before.connection == Connection::Selecting =>
            {
                let sum = u32::from(before.elapsed) + units;
                if sum == u32::from(before.registers[2]) {
                    *state = before;
                    state.elapsed = sum as u8;
                }
            }
            (Mistake::ThirteenthByteAccepted, Call::Request { phase: 1, byte, .. }, Answer::Held) if state.fifo.is_full() => {
                return Answer::Done(byte);
            }
            (Mistake::PointerMovesAtData, Call::Register { .. }, Answer::Done(_)) if before.pointer == 0x19 => {
                state.pointer = 0x1a
            }
            (Mistake::ReportedPhaseReportedAgain, Call::Request { phase, .. }, Answer::Held) if !state.is_busy() => {
                if !state.has_interrupt() && state.reported.is_some_and(|p| u32::from(p.number()) == phase) {
                    state.pending = Pending::Interrupt;
                    state.code = 0x88 + phase as u8;
                    return Answer::Reported;
                }
            }
            (Mistake::FreeKeepsAtn, Call::Free, Answer::Done(_)) => state.atn = before.atn,
            (Mistake::BadParityTakenWithHsp, Call::Request { phase, byte, parity: 1 }, Answer::Reported) if before.hsp() => {
                if phase & 1 == 1 && state.pe && state.held_ack {
                    *state = before;
                    state.registers[1] &= 0xfe;
                    let answer = state.request(phase, byte, 1);
                    state.registers[1] = before.registers[1];
                    return answer;
                }
            }
            (Mistake::ResumeKeepsDirection, Call::Register { mark: 1, .. }, Answer::Done(_)) if before.pointer == 0x18 => {
                if !before.is_busy() && before.connection == Connection::Connected && is_combining(state) {
                    state.way = Way::Out;
                }
            }
            (Mistake::WaitsBeforeReadOut, Call::Free, Answer::Done(_)) if state.pending == Pending::ReadOut => {
                state.pending = Pending::Nothing;
                state.connection = Connection::Waiting;
            }
            (Mistake::ReturnForgetsDirection, Call::Reselection { .. }, Answer::Done(_)) if is_combining(state) => {
                state.way = Way::NotFixed;
            }
            (Mistake::StatusKeepsOutgoingFifo, Call::Request { phase: 3, .. }, Answer::Done(_)) if is_combining(state) => {
                if before.way == Way::Out {
                    (state.fifo, state.way) = (before.fifo, before.way);
                }
            }
            (Mistake::LunTakenForBusIdentity, Call::Reselection { .. }, Answer::Done(_)) if is_combining(state) => {
                if state.lun().number() != state.destination().number() {
                    state.pending = Pending::Interrupt;
                    state.code = 0x80;
                    state.running = Running::Nothing;
                }
            }
            (Mistake::Translation(wrongly), Call::Register { mark: 1, byte: 0x18 | 0x98 }, Answer::Done(_))
                if before.pointer == 0x18 =>
            {
                mistranslate(wrongly, &before, state);
            }
            (Mistake::Places(wrongly), _, _) => state.fifo = misplacement::misplace(wrongly, call, &before, state),
            _ => {}
        }
        answer
    }
}

fn is_combining(state: &Controller) -> bool {
    matches!(state.running, Running::SelectAndTransfer { .. })
}
