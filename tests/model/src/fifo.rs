//! "The FIFO holds 12 bytes (house)": a ring in which the ends travel. Every place shows in the image (docs/IMAGE.md), also one in
//! which no byte waits, so a byte stays where it was put until another is put there or all places are wiped.

pub const FIFO_SIZE: usize = 12;

#[derive(Clone, Copy, Debug, Default)]
pub struct Fifo {
    bytes: [u8; FIFO_SIZE],
    oldest: u8,
    waiting: u8,
}

impl Fifo {
    /// So many bytes wait, the oldest in this place. None if there are not so many places.
    pub fn of(waiting: u8, oldest: u8, bytes: [u8; FIFO_SIZE]) -> Option<Fifo> {
        let is_fifo = usize::from(waiting) <= FIFO_SIZE && usize::from(oldest) < FIFO_SIZE;
        is_fifo.then_some(Fifo { bytes, oldest, waiting })
    }

    /// What stands in the twelve places, whether it waits or not.
    pub fn places(&self) -> &[u8; FIFO_SIZE] {
        &self.bytes
    }

    /// The place of the oldest byte; where none waits, the place that the next one comes to.
    pub fn oldest(&self) -> u8 {
        self.oldest
    }

    pub fn waiting(&self) -> usize {
        self.waiting as usize
    }

    pub fn is_empty(&self) -> bool {
        self.waiting == 0
    }

    pub fn is_full(&self) -> bool {
        self.waiting() == FIFO_SIZE
    }

    fn place(&self, n: usize) -> usize {
        let at = self.oldest as usize + n;
        if at < FIFO_SIZE {
            at
        } else {
            at - FIFO_SIZE
        }
    }

    /// The waiting byte that is n after the oldest.
    pub fn byte(&self, n: usize) -> u8 {
        self.bytes[self.place(n)]
    }

    /// There must be room.
    pub fn put(&mut self, byte: u8) {
        assert!(!self.is_full());
        self.bytes[self.place(self.waiting())] = byte;
        self.waiting += 1;
    }

    /// The oldest byte; one must wait. After the last one the next place is still the oldest's: it does not go back to the first.
    pub fn take(&mut self) -> u8 {
        assert!(!self.is_empty());
        let byte = self.byte(0);
        self.oldest = self.place(1) as u8;
        self.waiting -= 1;
        byte
    }

    /// "bytes 40 and 41 become 0, and the places keep what they hold"
    pub fn drop_waiting(&mut self) {
        self.oldest = 0;
        self.waiting = 0;
    }

    /// "the places become 0 too"
    pub fn wipe(&mut self) {
        *self = Fifo::default();
    }
}
