//! Calls at random. Low numbers, addresses that exist and known commands come often; some operands are out of range.

use crate::call::Call;
use crate::random::Random;

pub fn command(random: &mut Random) -> u32 {
    let any = random.below(256);
    random.one_of(&[
        0, 1, 1, 2, 2, 3, 3, 4, 6, 7, 8, 8, 9, 0x0f, 0x18, 0x18, 0x98, 0x20, 0x20, 0xa0, 0x05, 0x0d, 0x21, 0x22, 0x7f, 0x80, any,
    ])
}

fn wild(random: &mut Random) -> u32 {
    let any = random.any();
    random.one_of(&[2, 3, 8, 9, 255, 256, 257, 0xfff, 0x10000, 0x0100_0000, 0x7fff_ffff, 0x8000_0000, 0x8000_0001, u32::MAX, any])
}

/// One operand replaced by a wild one.
pub fn spoiled(call: Call, random: &mut Random) -> Call {
    let value = wild(random);
    match (call, random.below(3)) {
        (Call::Pointer { byte, .. }, 0) => Call::Pointer { mark: value, byte },
        (Call::Pointer { mark, .. }, _) => Call::Pointer { mark, byte: value },
        (Call::Register { byte, .. }, 0) => Call::Register { mark: value, byte },
        (Call::Register { mark, .. }, _) => Call::Register { mark, byte: value },
        (Call::Block { length, first, .. }, _) => Call::Block { mark: value, length, first },
        (Call::Time { .. }, _) => Call::Time { units: value },
        (Call::Reselection { .. }, _) => Call::Reselection { lines: value },
        (Call::Request { byte, parity, .. }, 0) => Call::Request { phase: value, byte, parity },
        (Call::Request { phase, parity, .. }, 1) => Call::Request { phase, byte: value, parity },
        (Call::Request { phase, byte, .. }, _) => Call::Request { phase, byte, parity: value },
        (other, _) => other,
    }
}

pub fn two_lines(random: &mut Random) -> u32 {
    1 << random.below(8) | 1 << random.below(8)
}

pub fn block(mark: u32, random: &mut Random) -> Call {
    let any = random.below(65);
    let length = random.one_of(&[0, 1, 1, 2, 3, 5, 8, 11, 12, 13, any]) as u8;
    Call::Block { mark, length, first: random.byte() }
}

pub fn noise(random: &mut Random) -> Call {
    let any = random.below(256);
    let call = match random.below(10) {
        0 => Call::Pointer { mark: u32::from(random.below(4) > 0), byte: if random.percent(80) { any & 0x1f } else { any } },
        1 => Call::Auxiliary,
        2 | 3 => Call::Register { mark: random.below(2), byte: if random.percent(70) { command(random) } else { any } },
        4 => block(random.below(2), random),
        5 => Call::Time { units: if random.percent(70) { any & 3 } else { any } },
        6 => random.one_of(&[Call::Answer, Call::Answer, Call::Free, Call::Lines]),
        7 => Call::Reselection { lines: if random.percent(70) { two_lines(random) } else { any } },
        _ => Call::Request {
            phase: random.below(8),
            byte: random.one_of(&[0, 2, 4, 0x80, any, any]),
            parity: u32::from(random.percent(15)),
        },
    };
    if random.percent(5) {
        spoiled(call, random)
    } else {
        call
    }
}
