//! A buffer to lend, in the middle of a larger one that is filled with a pattern, so that a byte written anywhere else is
//! seen.

use crate::random::Random;
use std::sync::LazyLock;

/// The bytes behind what is lent that must stay as they are; before it there are up to seven more.
pub const EDGE: usize = 64;

/// How many bytes the pattern has that a buffer is filled with, again and again.
pub const PERIOD: usize = 8191;

/// The pattern twice, so that a whole period can be taken from any phase on.
static PATTERN: LazyLock<Vec<u8>> = LazyLock::new(|| {
    let mut random = Random::new(0);
    let once: Vec<u8> = (0..PERIOD).map(|_| random.next() as u8).collect();
    once.repeat(2)
});

/// Where in its buffer a thing is lent, and where in the pattern the buffer starts: both change, so that what is lent
/// stands at any address and no written byte is like the pattern by rule.
#[derive(Clone, Copy, Default)]
pub struct Place {
    front: usize,
    phase: usize,
}

impl Place {
    /// Any place.
    pub fn any(random: &mut Random) -> Self {
        Place { front: EDGE + random.below(8) as usize, phase: random.below(PERIOD as u64) as usize }
    }
}

/// A buffer and what is lent of it.
#[derive(Default)]
pub struct Canary {
    buffer: Vec<u8>,
    length: usize,
    place: Place,
}

impl Canary {
    /// A buffer of so many bytes; they and what is about them are filled with the pattern.
    pub fn reset(&mut self, length: usize, place: Place) {
        (self.length, self.place) = (length, place);
        let whole = place.front + length + EDGE;
        if self.buffer.len() < whole {
            self.buffer.resize(whole, 0);
        }
        for part in self.buffer[..whole].chunks_mut(PERIOD) {
            part.copy_from_slice(&PATTERN[place.phase..place.phase + part.len()]);
        }
    }

    /// What is lent.
    pub fn slice(&mut self) -> &mut [u8] {
        &mut self.buffer[self.place.front..self.place.front + self.length]
    }

    /// The first bytes of what is lent.
    pub fn written(&self, bytes: usize) -> &[u8] {
        &self.buffer[self.place.front..self.place.front + bytes]
    }

    /// Whether a byte has changed, but for the bytes given of the front of what is lent.
    pub fn changed_beyond(&self, written: usize) -> bool {
        let front = self.place.front;
        !self.is_untouched(0, front) || !self.is_untouched(front + written, front + self.length + EDGE)
    }

    /// Whether the bytes of the buffer between two places are as they were lent.
    fn is_untouched(&self, from: usize, to: usize) -> bool {
        let mut at = from;
        while at < to {
            let next = to.min(at + PERIOD);
            let phase = (self.place.phase + at) % PERIOD;
            if self.buffer[at..next] != PATTERN[phase..phase + next - at] {
                return false;
            }
            at = next;
        }
        true
    }
}
