//! What the server lends, between guard bytes: an area and, to a tick, a list.

use crate::calls::{Call, Manager, Outcome, SIZE};
use crate::random::Random;

const GUARD: usize = 256;

/// Bytes at any address between guard bytes.
struct Stretch {
    buffer: Vec<u8>,
    at: usize,
    length: usize,
    guard: u8,
}

impl Stretch {
    fn new(offset: usize, length: usize, guard: u8) -> Stretch {
        let buffer = vec![guard; GUARD + offset + length + GUARD];
        Stretch { buffer, at: GUARD + offset, length, guard }
    }

    fn bytes(&self) -> &[u8] {
        &self.buffer[self.at..self.at + self.length]
    }

    fn bytes_mut(&mut self) -> &mut [u8] {
        &mut self.buffer[self.at..self.at + self.length]
    }

    /// Whether nothing before these bytes was written, and nothing past so many of them.
    fn untouched(&self, most: usize) -> [bool; 2] {
        let past = self.at + most.min(self.length);
        [&self.buffer[..self.at], &self.buffer[past..]]
            .map(|bytes| bytes.iter().fold(0, |all, byte| all | (byte ^ self.guard)) == 0)
    }
}

pub struct Lent {
    area: Stretch,
    list: Stretch,
    /// Gives what stands in a list before a call.
    random: Random,
}

impl Lent {
    /// An area of random bytes, at any address and somewhat longer than needed.
    pub fn random(random: &mut Random) -> Lent {
        let length = SIZE + random.pick(&[0, 0, 1, 7, 64, 1000]);
        let mut lent = Lent::new(random.below(16) as usize, length, random.next() as u8);
        match random.below(3) {
            0 => random.fill(&mut lent.area()[..SIZE]),
            1 => lent.area()[..SIZE].fill(0),
            _ => lent.area()[..SIZE].fill(0xFF),
        }
        lent.random = Random::new(random.next(), 0);
        lent
    }

    pub fn new(offset: usize, length: usize, guard: u8) -> Lent {
        Lent {
            area: Stretch::new(offset, length, guard),
            list: Stretch::new(0, 0, guard),
            random: Random::new(guard.into(), (offset + length) as u64),
        }
    }

    pub fn area(&mut self) -> &mut [u8] {
        self.area.bytes_mut()
    }

    pub fn state_bytes(&self) -> &[u8] {
        &self.area.bytes()[..SIZE.min(self.area.length)]
    }

    /// Lends another list, of the length that the call names, at any address and with any bytes.
    pub fn renew_list(&mut self, call: &Call) {
        let (offset, guard) = (self.random.below(16) as usize, self.random.next() as u8);
        self.list = Stretch::new(offset, call.list_length(), guard);
        match self.random.below(4) {
            0 => self.list.bytes_mut().fill(0),
            1 => self.list.bytes_mut().fill(0xFF),
            _ => self.random.fill(self.list.bytes_mut()),
        }
    }

    pub fn list(&self) -> &[u8] {
        self.list.bytes()
    }

    pub fn call(&mut self, manager: &Manager, call: &Call) -> Outcome {
        manager.call(self.area.bytes_mut(), self.list.bytes_mut(), call)
    }

    /// Tests that nothing before the area, nothing past its 65,536 bytes and nothing around the list
    /// was written.
    pub fn guards(&self) -> Result<(), String> {
        let [before, past] = self.area.untouched(SIZE);
        if !before {
            return Err("bytes before the area were written".to_string());
        }
        if !past {
            return Err("bytes past the area's 65,536 were written".to_string());
        }
        if self.list.untouched(usize::MAX) != [true; 2] {
            return Err("bytes around the list were written".to_string());
        }
        Ok(())
    }
}

/// Says how two areas or lists differ, by the first bytes that do.
pub fn difference(got: &[u8], expected: &[u8]) -> String {
    let places: Vec<usize> = (0..got.len()).filter(|at| got[*at] != expected[*at]).collect();
    let mut text = format!("{} bytes differ", places.len());
    for at in places.iter().take(6) {
        text += &format!("; byte {}: {} instead of {}", at, got[*at], expected[*at]);
    }
    text
}
