//! Images to lend: any state's, reached or not, one near a reached state, and bytes that are no image.

use crate::drives;
use crate::random::Random;
use model::{Image, IMAGE_LENGTH};

/// Byte and first value out of range (docs/IMAGE.md).
const LIMITS: [(usize, u32); 14] = [
    (26, 2),
    (27, 2),
    (28, 4),
    (30, 4),
    (31, 6),
    (32, 3),
    (33, 2),
    (34, 2),
    (35, 2),
    (36, 9),
    (37, 9),
    (38, 8),
    (WAITING, 13),
    (OLDEST, 12),
];
pub const POINTER: usize = 25;
pub const PENDING: usize = 28;
const ENDING_CODE: usize = 29;
pub const CONNECTION: usize = 30;
const COMMAND: usize = 31;
const WAY: usize = 32;
const SINGLE: usize = 33;
const HELD_ACK: usize = 35;
const REPORTED: usize = 36;
pub const WAITING: usize = 40;
pub const OLDEST: usize = 41;
pub const PLACES: usize = 42;

fn limit(at: usize) -> u32 {
    LIMITS.iter().find(|(place, _)| *place == at).map_or(256, |(_, limit)| *limit)
}

/// Registers that lead somewhere, in place of random bytes.
fn lead_on(image: &mut Image, random: &mut Random) {
    let any = random.byte();
    image[1] = random.one_of(&[0, 0, 1, 4, 5, any]);
    image[3] = random.one_of(&[0, 0x20, 0xa0, any]);
    image[16] = random.one_of(&[0x10, 0x20, 0x30, 0x35, 0x36, 0x3a, 0x3c, 0x41, 0x42, 0x44, 0x45, 0x46, 0x50, 0x60, any]);
    image[18] = random.one_of(&[0, 0, 0, any]);
    image[19] = random.one_of(&[0, 0, 0, any]);
    image[20] = random.one_of(&[0, 1, 2, 12, any]);
    image[22] = random.one_of(&[0x80, 0x80, 0, any]);
    image[POINTER] = random.one_of(&[0x17, 0x18, 0x19, any & 0x1f, any]);
    image[PENDING] = random.one_of(&[0, 0, 0, 1, 2, 3]);
}

/// Disconnected and idle, a drive in the registers, the pointer at 18h: Translate Address is the next command.
fn await_translation(image: &mut Image, random: &mut Random) {
    image[3..15].copy_from_slice(&drives::registers(random));
    image[POINTER] = 0x18;
    image[PENDING] = 0;
    image[CONNECTION] = 0;
    image[COMMAND] = 0;
}

/// Transfer Info before its last Message In byte. Where the way is out, which no calls reach, it is put and dropped in one call.
fn await_last_message(image: &mut Image) {
    image[18..21].copy_from_slice(&[0, 0, 1]);
    image[PENDING] = 0;
    image[CONNECTION] = 3;
    image[COMMAND] = 5;
    image[HELD_ACK] = 0;
    image[REPORTED] = 8;
}

/// INT only where no command runs, an ending only where one does, its code only with an ending.
fn tidy(image: &mut Image, random: &mut Random) {
    match image[PENDING] {
        0 => {}
        1 => image[COMMAND] = 0,
        _ if image[COMMAND] == 0 => image[COMMAND] = 1 + random.below(5) as u8,
        _ => {}
    }
    if image[PENDING] != 2 {
        image[ENDING_CODE] = 0;
    }
}

/// Any state's image: the oldest byte stands in any place, and anything in the places where none waits.
pub fn any_state(random: &mut Random) -> Image {
    let mut image = [0; IMAGE_LENGTH];
    for (at, byte) in image.iter_mut().enumerate() {
        *byte = random.below(limit(at)) as u8;
    }
    if random.percent(85) {
        lead_on(&mut image, random);
    }
    if random.percent(8) {
        await_translation(&mut image, random);
    }
    if random.percent(4) {
        await_last_message(&mut image);
    }
    tidy(&mut image, random);
    image
}

/// A transfer in the midst of its data, one way or the other, or its ending: bytes wait, and more are to come.
pub fn under_way(random: &mut Random) -> Image {
    let mut image = any_state(random);
    let way = 1 + random.below(2) as u8;
    let (in_transfer_info, command) = (random.percent(60), 3 + random.below(2) as u8);
    image[1] = random.one_of(&[0, 0, 0, 1, 4]);
    image[3] = 0;
    image[16] = random.one_of(&[0x36, 0x36, 0x36, 0x41, 0x42, 0x45, 0x46]);
    image[18] = 0;
    image[19] = 0;
    image[20] = random.one_of(&[1, 2, 5, 11, 12, 13, 30, 200]);
    image[22] = 0x80;
    image[POINTER] = random.one_of(&[0x17, 0x18, 0x19, 0x19, 0x19]);
    image[CONNECTION] = 3;
    image[COMMAND] = if in_transfer_info { 5 } else { command };
    image[WAY] = way;
    image[SINGLE] = 0;
    image[HELD_ACK] = 0;
    // The phase plus 1: data mostly, else a message.
    image[REPORTED] = if random.percent(80) { 3 - way } else { 9 - way };
    // Going out no more wait than are left.
    image[WAITING] = random.below(13) as u8;
    if way == 2 {
        image[WAITING] = image[WAITING].min(image[20]);
    }
    image[PENDING] = if way == 1 && image[WAITING] > 0 && random.percent(15) { 2 + random.below(2) as u8 } else { 0 };
    image[ENDING_CODE] = if image[PENDING] == 2 { random.one_of(&[0x16, 0x20, 0x21, 0x41, 0x4b, 0x85]) } else { 0 };
    image
}

/// A few bytes of this image changed, within their ranges.
pub fn near(image: &Image, random: &mut Random) -> Image {
    let mut image = *image;
    for _ in 0..1 + random.below(3) {
        let at = random.below(IMAGE_LENGTH as u32) as usize;
        image[at] = random.below(limit(at)) as u8;
    }
    tidy(&mut image, random);
    image
}

/// INT beside a running command, one byte out of its range, as often as not by one, or a code where 0 must stand; now and then it
/// is an image all the same.
pub fn damaged(image: &Image, random: &mut Random) -> Image {
    let mut image = *image;
    let at = match random.below(4) {
        0 => {
            image[PENDING] = 1;
            image[ENDING_CODE] = 0;
            image[COMMAND] = 1 + random.below(5) as u8;
            return image;
        }
        1 => {
            image[ENDING_CODE] = random.byte();
            return image;
        }
        2 => random.one_of(&[WAITING, OLDEST]),
        _ => random.one_of(&LIMITS).0,
    };
    image[at] = if random.percent(50) { limit(at) as u8 } else { random.byte() };
    image
}
