//! Nine tables to lend, each in the middle of a larger buffer, so that a byte written anywhere else is seen.

use crate::canary::{Canary, Place};
use crate::random::Random;

/// Nine buffers and what is lent of each.
#[derive(Default)]
pub struct Tables([Canary; 9]);

impl Tables {
    /// Makes tables of these lengths in bytes, each of them and what is about it filled with the pattern.
    pub fn reset(&mut self, lengths: [usize; 9], random: &mut Random) {
        let place = Place::any(random);
        self.0.iter_mut().zip(lengths).for_each(|(table, length)| table.reset(length, place));
    }

    /// The tables as they are handed to a reader.
    pub fn slices(&mut self) -> [&mut [u8]; 9] {
        self.0.each_mut().map(Canary::slice)
    }

    /// The first bytes of a table.
    pub fn written(&self, table: usize, bytes: usize) -> &[u8] {
        self.0[table].written(bytes)
    }

    /// The first table of which a byte has changed, but for the bytes given of each table's front.
    pub fn changed_beyond(&self, written: [usize; 9]) -> Option<usize> {
        (0..9).find(|&table| self.0[table].changed_beyond(written[table]))
    }
}
