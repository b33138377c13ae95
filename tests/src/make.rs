//! Clip files made by seed. A seed names one file: its class is the seed modulo the number of classes.

mod clips;
mod extensions;
mod faults;
mod greatest;
mod layouts;
mod map_faults;
mod maps;
mod parts;
mod sections;
mod streams;

use crate::random::Random;

/// What the files of a class are, and what makes one of them.
type Class = (&'static str, fn(&mut Maker));

/// The classes.
pub const CLASSES: &[Class] = &[
    ("conventional", clips::conventional),
    ("backwards", clips::backwards),
    ("any order, with gaps", clips::any_order),
    ("overlapping sections", layouts::overlapping),
    ("sections in a field of small numbers", layouts::small_numbers),
    ("start 0: the header read as a section", layouts::start_zero),
    ("random small starts", layouts::small_starts),
    ("ClipInfo length at its limits", layouts::info_length),
    ("every truncation of a small file", faults::truncated),
    ("flipped bytes", faults::flipped),
    ("letters and short files", faults::letters),
    ("several faults at once", faults::several),
    ("numbers near 2^32", faults::huge_numbers),
    ("splices of two files", faults::spliced),
    ("maps that share rows", maps::shared_rows),
    ("CPI length 0 to 5", maps::short_length),
    ("CPI type not 1", maps::other_type),
    ("fine address at the CPI end", maps::fine_at_end),
    ("rows past the CPI end", maps::rows_past_end),
    ("map headers past the CPI end", maps::headers_past_end),
    ("map addresses at their limits", maps::addresses),
    ("coarse counts of 0", maps::no_coarse),
    ("coarse references in any order", maps::references),
    ("odd and large coarse times", maps::times),
    ("map counts in high bits", maps::high_counts),
    ("two faults of maps", map_faults::two_faults),
    ("stream bodies of 0 to 8 bytes", streams::bodies),
    ("languages", streams::languages),
    ("counts of 255", streams::counts),
    ("marks cut short, at the end, at 0", extensions::marks),
    ("extension addresses and lengths", extensions::addresses),
    ("extension block lengths", extensions::block_lengths),
    ("(2, 5) list good", extensions::list_good),
    ("(2, 5) list bad, empty, twice", extensions::list_bad),
];

/// A map of the CPI section, by the places of its header and body in the file.
#[derive(Clone, Copy)]
struct Map {
    header: usize,
    body: usize,
    coarse: u64,
    fine: u64,
}

/// The file that is being made; the buffers are used again for the next one.
pub struct Maker {
    file: Vec<u8>,
    random: Random,
    /// Which file of its class this is.
    number: u64,
    /// The CPI's start, and its maps.
    cpi: usize,
    maps: Vec<Map>,
    /// A second file, for splices.
    other: Vec<u8>,
}

impl Maker {
    /// A maker with empty buffers.
    pub fn new() -> Self {
        Maker { file: Vec::new(), random: Random::new(0), number: 0, cpi: 0, maps: Vec::new(), other: Vec::new() }
    }

    /// The file that a seed names.
    pub fn make(&mut self, seed: u64) -> &[u8] {
        let classes = CLASSES.len() as u64;
        self.random = Random::new(seed);
        self.number = seed / classes;
        self.file.clear();
        CLASSES[(seed % classes) as usize].1(self);
        &self.file
    }
}
