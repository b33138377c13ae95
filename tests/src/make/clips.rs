//! Whole files of the usual kind, their sections in any order.

use super::Maker;

/// The sections by letter: sequences, programs, CPI, marks, extensions.
const SECTIONS: [u8; 5] = *b"spcme";

/// The sections one behind the other, as a pressed disc has them.
pub fn conventional(m: &mut Maker) {
    m.clip(&SECTIONS);
}

/// The sections the other way round.
pub fn backwards(m: &mut Maker) {
    m.clip(b"emcps");
}

/// The sections in any order, with bytes of no meaning between them.
pub fn any_order(m: &mut Maker) {
    let order = m.order();
    m.front();
    for section in order {
        let gap = m.random.below(9) as usize;
        m.noise(gap);
        m.section(section);
    }
    let tail = m.random.below(9) as usize;
    m.noise(tail);
}

impl Maker {
    /// A file of these sections, one behind the other.
    pub fn clip(&mut self, order: &[u8]) {
        self.front();
        for &section in order {
            self.section(section);
        }
    }

    /// The five sections in any order.
    pub fn order(&mut self) -> [u8; 5] {
        let mut order = SECTIONS;
        for k in 1..5 {
            order.swap(k, self.random.below(k as u64 + 1) as usize);
        }
        order
    }

    /// A section of a few rows, by its letter.
    pub fn section(&mut self, letter: u8) {
        match letter {
            b's' => {
                let atcs = self.random.below(4);
                self.sequences(atcs, 3);
            }
            b'p' => {
                let programs = self.random.below(4);
                self.program_section(programs, 3);
            }
            b'c' => {
                let maps = self.random.below(4);
                self.cpi(maps, 1, 3, 6);
            }
            b'm' => self.marks(),
            _ => self.extensions(),
        }
    }

    /// Extensions of a few rows, now and then a (2, 5) list; or none.
    fn extensions(&mut self) {
        if self.random.one_in(3) {
            return;
        }
        let rows = self.random.below(4);
        let block = self.extension_front(rows);
        for row in 0..rows as usize {
            let place = self.at();
            let ids = self.random.pick(&[[2, 5], [2, 4], [1, 1], [5, 2], [0xFFFF, 0x8000]]);
            if ids == [2, 5] && !self.random.one_in(4) {
                let programs = self.random.below(3);
                self.programs(programs, 2);
            } else {
                let length = self.random.below(9) as usize;
                self.noise(length);
            }
            self.extension_row(block, row, ids, place, (self.at() - place) as u64);
        }
        self.end_extensions(block);
    }
}
