//! A host and a Target that mostly behave, with noise: the next calls are chosen by the model's state.

use crate::call::Call;
use crate::drives;
use crate::noise;
use crate::random::Random;
use model::{Connection, Controller, Running, Way};
use std::collections::VecDeque;

const OWN_ID: u32 = 0x00;
const CONTROL: u32 = 0x01;
const TIMEOUT: u32 = 0x02;
const CDB_1: u32 = 0x03;
const SECTOR_NUMBER: u32 = 0x0b;
const TARGET_LUN: u32 = 0x0f;
const COMMAND_PHASE: u32 = 0x10;
const COUNT_HIGH: u32 = 0x12;
const DESTINATION_ID: u32 = 0x15;
const SOURCE_ID: u32 = 0x16;
const SCSI_STATUS: u32 = 0x17;
const COMMAND: u32 = 0x18;
const DATA: u32 = 0x19;

const COMMAND_OUT: u32 = 2;
const STATUS_IN: u32 = 3;
const MESSAGE_OUT: u32 = 6;
const MESSAGE_IN: u32 = 7;

/// Calls that are next in turn.
#[derive(Default)]
pub struct Guide {
    next: VecDeque<Call>,
}

impl Guide {
    /// The host of a powered board: an identity, ER, mostly.
    pub fn powered(random: &mut Random) -> Guide {
        let mut guide = Guide::default();
        if random.percent(70) {
            guide.new_identity(random);
        }
        guide
    }

    pub fn next_call(&mut self, state: &Controller, random: &mut Random) -> Call {
        if random.percent(2) {
            return noise::noise(random);
        }
        if self.next.is_empty() {
            self.plan(state, random);
        }
        match self.next.pop_front() {
            Some(call) if random.below(500) == 0 => noise::spoiled(call, random),
            Some(call) => call,
            None => noise::noise(random),
        }
    }

    /// The same where the FIFO is what is asked about: more of what moves waiting bytes, ends their transfer or drops them.
    pub fn next_of_traffic(&mut self, state: &Controller, random: &mut Random) -> Call {
        if self.next.is_empty() {
            match random.below(100) {
                0..=34 => (0..1 + random.below(8)).for_each(|_| self.push(Guide::target_turn(state, random))),
                35..=64 => self.move_data(state, random),
                65..=67 => self.command(0x04, random),
                68..=69 => self.command(0x01, random),
                70 => self.command(0x00, random),
                71..=72 => self.push(Call::Free),
                73..=74 => self.any_request(random),
                75..=77 => self.transfer_or_resume(random),
                _ => {}
            }
        }
        self.next_call(state, random)
    }

    fn plan(&mut self, state: &Controller, random: &mut Random) {
        let turn = random.below(1000);
        if state.has_interrupt() {
            self.interrupted(turn, random);
        } else if state.is_ending() {
            self.ending(state, turn, random);
        } else {
            match (state.connection, state.running) {
                (Connection::Disconnected, _) => self.disconnected(state, turn, random),
                (Connection::Selecting, _) => self.selecting(state, turn, random),
                (Connection::Waiting, _) => self.waiting(state, turn, random),
                (_, Running::TransferInfo) => self.transferring(state, turn, random),
                (_, Running::SelectAndTransfer { with_atn }) => self.combining(state, with_atn, turn, random),
                _ => self.idle(state, turn, random),
            }
        }
    }

    fn push(&mut self, call: Call) {
        self.next.push_back(call);
    }

    fn read_at(&mut self, address: u32) {
        self.push(Call::Pointer { mark: 1, byte: address });
        self.push(Call::Register { mark: 0, byte: 0 });
    }

    fn write_at(&mut self, address: u32, byte: u32) {
        self.push(Call::Pointer { mark: 1, byte: address });
        self.push(Call::Register { mark: 1, byte });
    }

    fn command(&mut self, code: u32, random: &mut Random) {
        let bit_7 = if random.percent(5) { 0x80 } else { 0 };
        self.write_at(COMMAND, code ^ bit_7);
    }

    fn random_command(&mut self, random: &mut Random) {
        let code = noise::command(random);
        self.command(code, random);
    }

    fn request(&mut self, phase: u32, byte: u32, random: &mut Random) {
        self.push(Call::Request { phase, byte, parity: u32::from(random.percent(4)) });
    }

    /// Bad parity comes often where the FIFO is full: there it must not show.
    fn request_data(&mut self, state: &Controller, phase: u32, random: &mut Random) {
        let often = if state.fifo.is_full() { 40 } else { 4 };
        let parity = u32::from(random.percent(often));
        self.push(Call::Request { phase, byte: random.below(256), parity });
    }

    fn any_request(&mut self, random: &mut Random) {
        let any = random.below(256);
        let (phase, byte) = (random.below(8), random.one_of(&[0, 2, 4, any]));
        self.request(phase, byte, random);
    }

    fn any_event(&mut self, random: &mut Random) {
        match random.below(6) {
            0 => self.push(Call::Time { units: random.below(4) }),
            1 => self.push(Call::Answer),
            2 => self.push(Call::Reselection { lines: noise::two_lines(random) }),
            3 => self.push(Call::Free),
            _ => self.any_request(random),
        }
    }

    /// Lines that qualify: our bit, and the Target's, another's or none.
    fn reselect(&mut self, state: &Controller, random: &mut Random) {
        let another = 1 << random.below(8);
        let with = match random.below(100) {
            0..=79 => u32::from(state.destination().line()),
            80..=93 => another,
            _ => 0,
        };
        self.push(Call::Reselection { lines: u32::from(state.own.line()) | with });
    }

    fn new_identity(&mut self, random: &mut Random) {
        self.write_at(OWN_ID, random.below(256));
        self.command(0x00, random);
        self.read_at(SCSI_STATUS);
        let others = if random.percent(80) { 0 } else { random.below(128) };
        self.write_at(SOURCE_ID, 0x80 | others);
    }

    fn load_count(&mut self, random: &mut Random) {
        let (small, edge) = (random.below(40), random.below(3));
        let n = random.one_of(&[0, 1, 1, 2, 3, 5, 11, 12, 13, 14, small, small, 0x100 + edge, 0x10000 + edge]);
        self.write_at(COUNT_HIGH, n >> 16);
        self.push(Call::Register { mark: 1, byte: n >> 8 & 0xff });
        self.push(Call::Register { mark: 1, byte: n & 0xff });
    }

    fn load_command_bytes(&mut self, random: &mut Random) {
        let group = if random.percent(85) { random.one_of(&[0, 1, 5]) } else { random.below(8) };
        self.write_at(CDB_1, group << 5 | random.below(32));
        for _ in 0..random.below(12) {
            self.push(Call::Register { mark: 1, byte: random.below(256) });
        }
    }

    fn load_phase_register(&mut self, random: &mut Random) {
        let any = random.below(256);
        let known = random.one_of(&[0x10, 0x20, 0x30, 0x41, 0x42, 0x44, 0x45, 0x46, 0x50, 0x60]);
        let other = random.one_of(&[0x00, 0x31, 0x36, 0x3a, 0x40, 0x43, 0x47, any]);
        self.write_at(COMMAND_PHASE, if random.percent(85) { known } else { other });
    }

    fn prepare(&mut self, random: &mut Random) {
        let any = random.below(256);
        match random.below(9) {
            0 => self.write_at(CONTROL, random.one_of(&[0, 0, 0, 1, 4, 5, any])),
            1 => self.write_at(TIMEOUT, random.one_of(&[0, 1, 2, 3, 10, 255, any])),
            2 => self.load_command_bytes(random),
            3 => self.write_at(TARGET_LUN, random.one_of(&[any, any & 7])),
            4 => self.write_at(DESTINATION_ID, random.one_of(&[any, any & 7, any & 7, any & 7])),
            5 => self.write_at(SOURCE_ID, random.one_of(&[any, 0x80, 0x80])),
            6 => self.load_phase_register(random),
            _ => self.load_count(random),
        }
    }

    /// The host of a bare drive. The place comes to stand where parameters stood: a second command without a load takes it for
    /// them. Afterwards the registers mostly hold command bytes again.
    fn translate(&mut self, random: &mut Random) {
        match random.below(10) {
            0..=7 => self.load_drive(drives::registers(random)),
            8 => self.load_drive([(); 12].map(|()| random.byte())),
            _ => {}
        }
        self.translate_what_stands(random);
        if random.percent(25) {
            self.translate_what_stands(random);
        }
        if random.percent(80) {
            self.load_command_bytes(random);
        }
    }

    fn load_drive(&mut self, registers: [u8; 12]) {
        self.push(Call::Pointer { mark: 1, byte: CDB_1 });
        for byte in registers {
            self.push(Call::Register { mark: 1, byte: byte.into() });
        }
    }

    fn translate_what_stands(&mut self, random: &mut Random) {
        let code = random.one_of(&[0x18, 0x18, 0x18, 0x98]);
        self.command(code, random);
        if random.percent(90) {
            self.read_at(SCSI_STATUS);
        }
        if random.percent(80) {
            self.read_at(SECTOR_NUMBER);
            (0..3).for_each(|_| self.push(Call::Register { mark: 0, byte: 0 }));
        }
    }

    fn move_data(&mut self, state: &Controller, random: &mut Random) {
        let due = u32::from(state.way == Way::Out);
        let mark = if random.percent(4) { 1 - due } else { due };
        if random.percent(45) {
            self.push(noise::block(mark, random));
            return;
        }
        if random.percent(30) {
            self.push(Call::Auxiliary);
        }
        if u32::from(state.pointer) != DATA || random.percent(30) {
            self.push(Call::Pointer { mark: 1, byte: DATA });
        }
        for _ in 0..random.below(4) {
            self.push(Call::Register { mark, byte: random.below(256) });
        }
    }

    fn interrupted(&mut self, turn: u32, random: &mut Random) {
        match turn {
            0..=759 => self.read_at(SCSI_STATUS),
            760..=839 => self.any_event(random),
            840..=919 => self.random_command(random),
            920..=959 => self.prepare(random),
            _ => self.push(Call::Auxiliary),
        }
    }

    fn ending(&mut self, state: &Controller, turn: u32, random: &mut Random) {
        match turn {
            0..=649 => self.move_data(state, random),
            650..=789 => self.any_event(random),
            790..=819 => self.command(0x04, random),
            820..=879 => {
                let code = random.one_of(&[0x01, 0x0f, 0x03, 0x02]);
                self.command(code, random);
            }
            880..=939 => self.random_command(random),
            _ => self.reselect(state, random),
        }
    }

    fn disconnected(&mut self, state: &Controller, turn: u32, random: &mut Random) {
        match turn {
            0..=199 if !state.er() => self.write_at(SOURCE_ID, 0x80),
            0..=359 => self.prepare(random),
            360..=399 => self.translate(random),
            400..=699 => {
                let code = random.one_of(&[0x08, 0x08, 0x09]);
                self.command(code, random);
            }
            700..=839 => {
                let code = random.one_of(&[0x06, 0x07]);
                self.command(code, random);
            }
            840..=899 => self.reselect(state, random),
            900..=929 => self.new_identity(random),
            930..=969 => self.random_command(random),
            _ => self.any_event(random),
        }
    }

    fn selecting(&mut self, state: &Controller, turn: u32, random: &mut Random) {
        let any = random.below(256);
        match turn {
            0..=679 => self.push(Call::Answer),
            680..=839 => self.push(Call::Time { units: random.one_of(&[0, 1, 1, 2, 3, any]) }),
            840..=879 => self.reselect(state, random),
            880..=909 => self.command(0x01, random),
            910..=949 => self.random_command(random),
            _ => self.any_event(random),
        }
    }

    /// Without ER nobody comes back.
    fn waiting(&mut self, state: &Controller, turn: u32, random: &mut Random) {
        match turn {
            0..=399 if !state.er() => self.command(0x01, random),
            0..=619 => self.reselect(state, random),
            620..=759 => self.move_data(state, random),
            760..=799 => self.command(0x01, random),
            800..=839 => self.command(0x0f, random),
            840..=879 => self.random_command(random),
            _ => self.any_event(random),
        }
    }

    fn idle(&mut self, state: &Controller, turn: u32, random: &mut Random) {
        let any = random.below(256);
        match (turn, state.reported) {
            (0..=449, _) if state.held_ack => self.command(0x03, random),
            (0..=599, None) => self.request(any & 7, any, random),
            (0..=619, _) => self.transfer_or_resume(random),
            (620..=719, _) => self.any_request(random),
            (720..=779, Some(phase)) => self.request(phase.number().into(), any, random),
            (720..=819, _) => self.push(Call::Free),
            (820..=859, _) => self.command(0x02, random),
            (860..=879, _) => self.command(0x04, random),
            (880..=919, _) => self.random_command(random),
            (920..=969, _) => self.prepare(random),
            _ => self.any_event(random),
        }
    }

    fn transfer_or_resume(&mut self, random: &mut Random) {
        let resumes = random.percent(25);
        if resumes && random.percent(50) {
            self.load_phase_register(random);
        }
        if random.percent(60) {
            self.load_count(random);
        }
        let code = if resumes { random.one_of(&[0x08, 0x09]) } else { random.one_of(&[0x20, 0x20, 0x20, 0x20, 0xa0]) };
        self.command(code, random);
    }

    fn transferring(&mut self, state: &Controller, turn: u32, random: &mut Random) {
        let is_left = state.left() > 0;
        let phase = reported(state);
        match turn {
            0..=399 if state.dbr() => self.move_data(state, random),
            0..=859 if is_left => self.request_data(state, phase, random),
            0..=199 => self.request(phase, 0x55, random),
            200..=889 => self.any_request(random),
            890..=909 => self.push(Call::Free),
            910..=939 => self.command(0x01, random),
            940..=969 => self.random_command(random),
            _ => self.any_event(random),
        }
    }

    fn combining(&mut self, state: &Controller, with_atn: bool, turn: u32, random: &mut Random) {
        match turn {
            0..=399 if state.held_ack => self.command(0x03, random),
            0..=299 if state.dbr() => self.move_data(state, random),
            0..=954 => self.what_is_expected(state, with_atn, random),
            955..=964 => self.any_request(random),
            965..=969 => self.push(Call::Free),
            970..=974 => self.command(0x01, random),
            975..=979 => self.command(0x0f, random),
            980..=984 => self.random_command(random),
            _ => self.any_event(random),
        }
    }

    /// What a Target does next, whatever the host should do first.
    pub fn target_turn(state: &Controller, random: &mut Random) -> Call {
        let mut guide = Guide::default();
        match (state.connection, state.running) {
            (Connection::Selecting, _) => guide.push(Call::Answer),
            (Connection::Waiting | Connection::Disconnected, _) => guide.reselect(state, random),
            (_, Running::SelectAndTransfer { with_atn }) => guide.what_is_expected(state, with_atn, random),
            (_, Running::TransferInfo) => guide.request_data(state, reported(state), random),
            _ => guide.any_request(random),
        }
        guide.next.pop_front().unwrap_or(Call::Free)
    }

    /// By the phase register, as the paper lists it. The guide has a table of its own: one that it shared with the model would keep
    /// the model's mistakes out of sight.
    fn what_is_expected(&mut self, state: &Controller, with_atn: bool, random: &mut Random) {
        let any = random.below(256);
        let is_odd = random.percent(5);
        let size = [6, 10, 0, 0, 0, 12, 0, 0][usize::from(state.registers[CDB_1 as usize] >> 5)];
        match state.registers[COMMAND_PHASE as usize] {
            0x10 if with_atn => self.request(MESSAGE_OUT, any, random),
            0x10 | 0x20 => self.request(COMMAND_OUT, any, random),
            at @ 0x30..=0x3f if at & 0x0f < size => self.request(if is_odd { STATUS_IN } else { COMMAND_OUT }, any, random),
            0x42 => self.push(Call::Free),
            0x44 => {
                let lun = u32::from(state.registers[TARGET_LUN as usize]) & 7;
                self.request(MESSAGE_IN, if is_odd { any } else { 0x80 | lun }, random)
            }
            0x46 => self.request_end(random),
            0x50 => self.request(MESSAGE_IN, if is_odd { any & 7 } else { 0 }, random),
            _ if state.count > 0 && random.percent(85) => {
                let comes_in = match state.way {
                    Way::In => 1,
                    Way::Out => 0,
                    Way::NotFixed => random.below(2),
                };
                self.request_data(state, comes_in, random)
            }
            _ => self.request_end(random),
        }
    }

    /// Status, or a message before it.
    fn request_end(&mut self, random: &mut Random) {
        let any = random.below(256);
        let message = random.one_of(&[4, 4, 4, 2, 2, 0, 3, any]);
        let (phase, byte) = if random.percent(60) { (STATUS_IN, any) } else { (MESSAGE_IN, message) };
        self.request(phase, byte, random)
    }
}

/// The phase under transfer.
fn reported(state: &Controller) -> u32 {
    state.reported.map_or(0, |phase| phase.number().into())
}
