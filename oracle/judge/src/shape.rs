//! The layouts of docs/RULES.md as one table, the two modes, a descriptor's words, and which records the crate opens that the rules keep
//! raw.

/// How the Ethernet addresses of flow record 2 are read: with two bytes of pad, as the memo has them, or without, as the crate does.
#[derive(Clone, Copy, PartialEq, Eq, PartialOrd, Ord, Debug)]
pub enum Mode {
    Memo,
    Base,
}

impl std::fmt::Display for Mode {
    fn fmt(&self, f: &mut std::fmt::Formatter) -> std::fmt::Result {
        f.write_str(match self {
            Mode::Memo => "memo",
            Mode::Base => "base",
        })
    }
}

impl Mode {
    /// The bytes of such an address, its pad among them.
    pub fn mac_size(self) -> usize {
        match self {
            Mode::Memo => 8,
            Mode::Base => 6,
        }
    }

    pub fn other(self) -> Self {
        match self {
            Mode::Memo => Mode::Base,
            Mode::Base => Mode::Memo,
        }
    }
}

/// An item of a layout.
#[derive(Clone, Copy, PartialEq, Debug)]
pub enum Shape {
    Version,
    Protocol,
    Word,
    Long,
    /// An Ethernet address of flow record 2: a fixed block whose size is the mode's, of which the first six bytes count.
    Mac,
    /// A fixed block of eight bytes in both modes, of which the first six count.
    SixOfEight,
    Sixteen,
    Address,
    Text,
    Opaque,
    List,
    /// The segments of an AS path.
    Path,
}

impl Shape {
    /// The bytes of an item of a counter record.
    pub fn fixed_size(&self) -> usize {
        if *self == Shape::Long {
            8
        } else {
            4
        }
    }
}

pub struct Layout {
    pub kind: u32,
    pub format: u32,
    pub shapes: &'static [Shape],
}

impl Layout {
    /// The bytes of a counter record.
    pub fn fixed_size(&self) -> usize {
        self.shapes.iter().map(Shape::fixed_size).sum()
    }
}

use Shape::*;

const fn row(kind: u32, format: u32, shapes: &'static [Shape]) -> Layout {
    Layout { kind, format, shapes }
}

pub const DATAGRAM: u32 = 0;
pub const SAMPLE: u32 = 1;
pub const FLOW: u32 = 2;
pub const COUNTER: u32 = 3;
pub const PDU: u32 = 4;
pub const ETHERNET: u32 = 2;
pub const AGGREGATION: u32 = 1016;
pub const NOBODY: u32 = u32::MAX;

// The rules' sizes, as this judge has them: written by hand on purpose, and not taken from the header, which `library::c_checks` holds
// to them.
pub const MAX_INPUT: usize = 16_777_216;
pub const MAX_OPAQUE: usize = 104_857_600;
pub const MAX_DEPTH: u32 = 8;
pub const DESCRIPTOR_WORDS: usize = 7;

/// Kind, format, start, length, parent, depth, first byte.
pub type Descriptor = [u32; DESCRIPTOR_WORDS];

/// The last word of a sample's row is the count of its records; that of 1016 the count of its PDUs.
pub const LAYOUTS: [Layout; 32] = [
    row(DATAGRAM, 0, &[Version, Address, Word, Word, Word, Word]),
    row(SAMPLE, 1, &[Word; 8]),
    row(SAMPLE, 2, &[Word; 3]),
    row(SAMPLE, 3, &[Word; 11]),
    row(SAMPLE, 4, &[Word; 4]),
    row(SAMPLE, 5, &[Word; 8]),
    row(FLOW, 1, &[Protocol, Word, Word, Opaque]),
    row(FLOW, ETHERNET, &[Word, Mac, Mac, Word]),
    row(FLOW, 3, &[Word; 8]),
    row(FLOW, 4, &[Word, Word, Sixteen, Sixteen, Word, Word, Word, Word]),
    row(FLOW, 1001, &[Word; 4]),
    row(FLOW, 1002, &[Address, Word, Word]),
    row(FLOW, 1003, &[Address, Word, Word, Word, Path, List, Word]),
    row(FLOW, 1004, &[Word, Text, Word, Text]),
    row(FLOW, 1005, &[Word, Text, Text]),
    row(FLOW, 1006, &[Address, List, List]),
    row(FLOW, 1007, &[Address, Address]),
    row(FLOW, 1008, &[Text, Word, Word]),
    row(FLOW, 1009, &[Text, Word, Word, Word]),
    row(FLOW, 1010, &[Address, Word]),
    row(FLOW, 1011, &[Word]),
    row(FLOW, 1012, &[List]),
    row(FLOW, 1013, &[Word, Opaque]),
    row(FLOW, 1014, &[Text, SixOfEight, Word, Word, Long, Word, Word, Word]),
    row(FLOW, 1015, &[Text, SixOfEight, Word, Word, Word, Word, Word, Long, Word]),
    row(FLOW, AGGREGATION, &[Word]),
    row(COUNTER, 1, &[Word, Word, Long, Word, Word, Long, Word, Word, Word, Word, Word, Word, Long, Word, Word, Word, Word, Word, Word]),
    row(COUNTER, 2, &[Word; 13]),
    row(COUNTER, 3, &[Word; 18]),
    row(COUNTER, 4, &[Word, Long, Word, Long, Word, Word, Word, Word, Word, Long, Word, Long, Long, Long]),
    row(COUNTER, 5, &[Word, Long, Word, Word, Word, Word]),
    row(COUNTER, 1001, &[Word, Word, Word, Long, Long]),
];

/// The row of a descriptor's kind and format word; none for what stays raw and for PDUs.
pub fn layout_of(kind: u32, format: u32) -> Option<&'static Layout> {
    row_of(kind, format).map(|row| &LAYOUTS[row])
}

/// The number of that row.
pub fn row_of(kind: u32, format: u32) -> Option<usize> {
    LAYOUTS.iter().position(|row| row.kind == kind && row.format == format)
}

/// Whether the crate opens a record of this kind and format that the rules keep raw.
pub fn only_the_crate_opens(kind: u32, format: u32) -> bool {
    let (enterprise, number) = (format >> 12, format & 0xfff);
    match (kind, enterprise) {
        (FLOW, 0) => matches!(number, 1017..=1042 | 2000..=2003 | 2100..=2103 | 2200..=2210),
        (FLOW, 4413) => number == 1,
        (COUNTER, 0) => matches!(number, 6..=10 | 1002..=1005 | 2000..=2010 | 2100..=2106 | 2200..=2204 | 2206 | 2207 | 3000..=3003),
        (COUNTER, 4413) => matches!(number, 1..=3),
        (COUNTER, 5703) => number == 1,
        _ => false,
    }
}

/// Every format word for which `only_the_crate_opens` holds.
pub fn opened_by_the_crate(kind: u32) -> Vec<u32> {
    let of = |enterprise: u32| (0..4096).map(move |number| enterprise << 12 | number);
    let all = of(0).chain(of(4413)).chain(of(5703));
    all.filter(|format| only_the_crate_opens(kind, *format)).collect()
}
