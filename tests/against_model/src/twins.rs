//! Twins: two states with the same waiting bytes in other places of the FIFO, and other bytes in the places where none waits. By
//! the same calls to the library both have to be told the same (docs/IMAGE.md): every answer, value and lent byte; and bytes 0 to 40
//! of the two images and the waiting bytes in their order have to stay the same. The model only guides the calls.
//!
//! Every drop takes both to the first place, and a start wipes both, so one of the two is moved anew every few calls: a new pair.

use crate::call::{Call, Slice};
use crate::guide::Guide;
use crate::images::{self, CONNECTION, OLDEST, PENDING, PLACES, POINTER, WAITING};
use crate::random::Random;
use crate::told;
use model::{Controller, Image, FIFO_SIZE};

/// A library: the right one, or one that is wrong on purpose.
pub type Library = fn(Call, &mut Image, &mut Slice) -> u32;

const LONGEST: u32 = 160;

/// The place n behind the oldest's.
fn place(image: &Image, n: usize) -> usize {
    PLACES + (usize::from(image[OLDEST]) + n) % FIFO_SIZE
}

/// The places in turn from the oldest's on.
fn in_order(image: &Image) -> [u8; FIFO_SIZE] {
    std::array::from_fn(|n| image[place(image, n)])
}

fn goes_round(image: &Image, moved: usize) -> bool {
    usize::from(image[OLDEST]) + moved > FIFO_SIZE
}

/// The same waiting bytes from another place on, and anything in the other places. Now and then the oldest stays: only those
/// differ.
fn moved(image: &Image, random: &mut Random) -> Image {
    let waiting = usize::from(image[WAITING]);
    let on = if waiting < FIFO_SIZE && random.percent(5) { 0 } else { 1 + random.below(FIFO_SIZE as u32 - 1) as u8 };
    let mut moved = *image;
    moved[OLDEST] = (image[OLDEST] + on) % FIFO_SIZE as u8;
    for (n, byte) in in_order(image).into_iter().enumerate() {
        let at = place(&moved, n);
        moved[at] = if n < waiting { byte } else { random.byte() };
    }
    moved
}

/// What the calls have done to the FIFO: a run that does one of these never compares too little.
#[derive(Default)]
pub struct Traffic {
    came_in: u64,
    went_out: u64,
    read: u64,
    written: u64,
    /// Blocks that went round the end of the places in one of the two and not in the other.
    round_in_one: u64,
    endings: u64,
    read_outs: u64,
    disconnected: u64,
    dropped: u64,
}

impl Traffic {
    fn note(&mut self, call: Call, before: &Image, other: &Image, after: &Image) {
        let (was, is) = (usize::from(before[WAITING]), usize::from(after[WAITING]));
        let count = |number: &mut u64, holds: bool| *number += u64::from(holds);
        let is_request = matches!(call, Call::Request { .. });
        let reads = matches!(call, Call::Register { mark: 0, .. } | Call::Block { mark: 0, .. });
        let goes_out = is_request && was == is + 1 && after[OLDEST] == (before[OLDEST] + 1) % FIFO_SIZE as u8;
        let is_ending = |image: &Image| image[PENDING] >= 2;
        count(&mut self.came_in, is_request && is > was);
        count(&mut self.went_out, goes_out);
        count(&mut self.read, reads && is < was);
        count(&mut self.written, !is_request && is > was);
        if let Call::Block { mark, .. } = call {
            // A write goes on behind the newest, so what it comes to is looked at.
            let round = |image: &Image| goes_round(image, if mark == 0 { was.saturating_sub(is) } else { is });
            count(&mut self.round_in_one, was != is && round(before) != round(other));
        }
        count(&mut self.endings, !is_ending(before) && is_ending(after));
        count(&mut self.read_outs, reads && is_ending(before) && !is_ending(after));
        let disconnects = matches!(call, Call::Register { mark: 1, byte: 0x04 | 0x84 }) && before[POINTER] == 0x18;
        count(&mut self.disconnected, disconnects && was > 0 && before[CONNECTION] == 3 && after[CONNECTION] == 0);
        count(&mut self.dropped, !reads && !goes_out && was > 0 && is == 0);
    }

    fn all(&self) -> [(&'static str, u64); 9] {
        [
            ("came in", self.came_in),
            ("went out", self.went_out),
            ("read", self.read),
            ("written", self.written),
            ("blocks round the end in one of the two", self.round_in_one),
            ("endings", self.endings),
            ("read-outs", self.read_outs),
            ("Disconnects over waiting bytes", self.disconnected),
            ("drops", self.dropped),
        ]
    }

    /// What was never done.
    pub fn missing(&self) -> Vec<&'static str> {
        self.all().into_iter().filter(|(_, number)| *number == 0).map(|(what, _)| what).collect()
    }

    pub fn print(&self) {
        let all: Vec<String> = self.all().iter().map(|(what, number)| format!("{what} {number}")).collect();
        println!("  of the twins' calls: {}", all.join(", "));
    }
}

/// One pair: as it was when it was made, and every call since.
struct Twins {
    made: [Image; 2],
    calls: Vec<Call>,
    now: [Image; 2],
}

impl Twins {
    fn of(one: Image, random: &mut Random) -> Twins {
        let made = [one, moved(&one, random)];
        Twins { made, calls: Vec::new(), now: made }
    }

    /// The call to both, then what the two were told apart by.
    fn call(&mut self, call: Call, library: Library) -> Result<(), String> {
        self.calls.push(call);
        let [one, other] = &mut self.now;
        let (mut of_one, mut of_other) = (call.slice(), call.slice());
        let (returned, by_other) = (library(call, one, &mut of_one), library(call, other, &mut of_other));
        if returned != by_other {
            return Err(format!("returned: {} and {}", told::text_of_returned(returned), told::text_of_returned(by_other)));
        }
        apart("lent byte", &of_one, &of_other)?;
        apart("image byte", &one[..=WAITING], &other[..=WAITING])?;
        let waiting = usize::from(one[WAITING]).min(FIFO_SIZE);
        apart("waiting byte", &in_order(one)[..waiting], &in_order(other)[..waiting])
    }

    fn print(&self, difference: &str) {
        println!("  one   lend {}", told::hex(&self.made[0]));
        println!("  other lend {}", told::hex(&self.made[1]));
        self.calls.iter().for_each(|call| println!("  {}", told::text_of(call)));
        println!("  # the two are told apart, {difference}");
    }
}

fn apart(what: &str, one: &[u8], other: &[u8]) -> Result<(), String> {
    match one.iter().zip(other).position(|(a, b)| a != b) {
        Some(at) => Err(format!("{what} {at}: {:02x} and {:02x}", one[at], other[at])),
        None => Ok(()),
    }
}

/// What a run came to.
#[derive(Default)]
pub struct Run {
    pub pairs: u64,
    pub calls: u64,
    pub traffic: Traffic,
    pub is_apart: bool,
}

impl Run {
    /// Lists of calls until the twins are told apart or so many calls are made.
    pub fn of(library: Library, seed: u64, calls: u64, tells: bool) -> Run {
        let mut run = Run::default();
        let mut number = 0;
        while run.calls < calls && !run.is_apart {
            run.list(library, seed, number, calls, tells);
            number += 1;
        }
        run
    }

    fn list(&mut self, library: Library, seed: u64, number: u64, most: u64, tells: bool) {
        // Another seed than the run beside the model has.
        let mut random = Random::new(!seed, number);
        let one = if random.percent(75) { images::under_way(&mut random) } else { images::any_state(&mut random) };
        let mut guide = Guide::default();
        let mut twins = Twins::of(one, &mut random);
        self.pairs += 1;
        for _ in 0..20 + random.below(LONGEST - 20) {
            if self.calls == most {
                return;
            }
            let Some(state) = Controller::from_image(&twins.now[0]) else {
                self.tell(&twins, "no state's image", tells);
                return;
            };
            // Where nothing waits and nothing runs there is little to move.
            if twins.calls.len() > 8 && state.fifo.is_empty() && !state.is_busy() {
                return;
            }
            if random.percent(8) {
                twins = Twins::of(twins.now[0], &mut random);
                self.pairs += 1;
            }
            let before = twins.now;
            let call = guide.next_of_traffic(&state, &mut random);
            self.calls += 1;
            if let Err(difference) = twins.call(call, library) {
                self.tell(&twins, &difference, tells);
                return;
            }
            self.traffic.note(call, &before[0], &before[1], &twins.now[0]);
        }
    }

    fn tell(&mut self, twins: &Twins, difference: &str, tells: bool) {
        self.is_apart = true;
        if tells {
            twins.print(difference);
        }
    }
}

pub fn right(call: Call, image: &mut Image, slice: &mut Slice) -> u32 {
    call.to_library(image, slice)
}

/// Libraries that are wrong on purpose, where it shows by the places alone: the run has to tell the twins of each apart.
pub const WRONG: [(&str, Library); 6] = [
    ("reads the first place", reads_the_first_place),
    ("ends a block at the last place", ends_a_block_at_the_last_place),
    ("is full at the last place", is_full_at_the_last_place),
    ("loses what comes to the first place", loses_what_comes_to_the_first_place),
    ("shows what no longer waits", shows_what_no_longer_waits),
    ("counts from the last place on", counts_from_the_last_place_on),
];

fn reads_the_first_place(call: Call, image: &mut Image, slice: &mut Slice) -> u32 {
    let before = *image;
    let returned = right(call, image, slice);
    let reads = matches!(call, Call::Register { mark: 0, .. }) && image[WAITING] < before[WAITING];
    if reads {
        u32::from(before[PLACES]) << 8
    } else {
        returned
    }
}

fn ends_a_block_at_the_last_place(call: Call, image: &mut Image, slice: &mut Slice) -> u32 {
    let until_last = FIFO_SIZE as u8 - image[OLDEST];
    match call {
        Call::Block { mark: 0, length, first } => {
            right(Call::Block { mark: 0, length: length.min(until_last), first }, image, slice)
        }
        _ => right(call, image, slice),
    }
}

fn is_full_at_the_last_place(call: Call, image: &mut Image, slice: &mut Slice) -> u32 {
    let before = *image;
    let returned = right(call, image, slice);
    let came_in = matches!(call, Call::Request { .. }) && image[WAITING] > before[WAITING];
    if came_in && usize::from(before[OLDEST] + before[WAITING]) == FIFO_SIZE {
        *image = before;
        return 1;
    }
    returned
}

/// The answers are right, until the byte is read.
fn loses_what_comes_to_the_first_place(call: Call, image: &mut Image, slice: &mut Slice) -> u32 {
    let before = *image;
    let returned = right(call, image, slice);
    if matches!(call, Call::Request { .. }) && image[WAITING] > before[WAITING] {
        image[PLACES] = before[PLACES];
    }
    returned
}

/// A block that reads writes the place behind the last byte moved into the slice too.
fn shows_what_no_longer_waits(call: Call, image: &mut Image, slice: &mut Slice) -> u32 {
    let before = *image;
    let returned = right(call, image, slice);
    if let Call::Block { mark: 0, length, .. } = call {
        let number = (returned >> 8) as usize;
        if returned & 0xff == 0 && number > 0 && number < usize::from(length).min(FIFO_SIZE) {
            slice[number] = before[place(&before, number)];
        }
    }
    returned
}

/// A field that is none of the FIFO's goes by its places.
fn counts_from_the_last_place_on(call: Call, image: &mut Image, slice: &mut Slice) -> u32 {
    let before = *image;
    let returned = right(call, image, slice);
    if matches!(call, Call::Request { .. }) && image[WAITING] < before[WAITING] && before[OLDEST] == FIFO_SIZE as u8 - 1 {
        image[20] = before[20];
    }
    returned
}
