//! Random trees by the layouts of docs/RULES.md. With `trouble` above 0, places go wrong: so many in a thousand.

use crate::random::Random;
use crate::shape::*;
use crate::text;
use crate::tree::*;

/// How a case is made.
#[derive(Clone, Copy)]
pub struct Plan {
    pub trouble: usize,
    /// Whether records that only the crate opens may come.
    pub outside: bool,
    /// The depth that one record of the first flow sample is to reach.
    pub reach: u32,
    /// The modes by whose layouts the records are made: each record by one of them.
    pub modes: &'static [Mode],
}

pub struct Grower<'a> {
    pub random: &'a mut Random,
    pub plan: Plan,
}

/// Words of formats that nobody opens: near ones that are opened, and those of other enterprises with the same number.
const RAW_SAMPLES: [u32; 8] = [0, 6, 4095, 4097, 4300 << 12 | 1002, 4300 << 12 | 1003, 4300 << 12 | 1, u32::MAX];
const RAW_FLOWS: [u32; 12] = [0, 5, 999, 1000, 1043, 4095, 4097, 1 << 12 | 1001, 4413 << 12 | 2, 5703 << 12 | 1, 1 << 31 | 1016, u32::MAX];
const RAW_COUNTERS: [u32; 12] = [0, 11, 1000, 1006, 2205, 4095, 4097, 1 << 12 | 5, 1 << 12 | 1001, 4413 << 12 | 4, 1 << 31 | 2, u32::MAX];

impl Grower<'_> {
    fn goes_wrong(&mut self) -> bool {
        self.plan.trouble > 0 && self.random.chance(self.plan.trouble, 1000)
    }

    pub fn datagram(&mut self) -> Datagram {
        let version = if self.goes_wrong() { self.random.pick(&[0, 4, 6, 0x0500_0000, u32::MAX]) } else { 5 };
        let agent = self.address();
        let words = [self.random.word(), self.random.word(), self.random.word()];
        let mut samples: Vec<Frame> = (0..self.random.below(4)).map(|_| self.sample()).collect();
        if self.plan.reach > 0 {
            samples.push(self.opened_sample(self.plan.reach));
        }
        Datagram { version, agent, words, samples: self.counted(samples) }
    }

    fn counted<T>(&mut self, items: Vec<T>) -> Counted<T> {
        let more = items.len() as u32 + 1;
        let said = if self.goes_wrong() { Some(self.random.pick(&[more, more + 1, 0x4000_0000, u32::MAX])) } else { None };
        Counted { said, items }
    }

    /// A length that is not that of the bytes.
    fn said(&mut self, length: usize) -> Option<u32> {
        let near = length as u32;
        let most = MAX_OPAQUE as u32;
        let wrong = [near + 4, near + 1, near.saturating_sub(1), most, most + 1, u32::MAX, 0x8000_0000];
        self.goes_wrong().then(|| self.random.pick(&wrong))
    }

    fn pad(&mut self) -> [u8; 3] {
        let bytes = self.random.bytes(3);
        if self.random.chance(1, 2) {
            [bytes[0], bytes[1], bytes[2]]
        } else {
            [0; 3]
        }
    }

    fn frame(&mut self, format: u32, body: Body) -> Frame {
        let cut = if self.goes_wrong() { 1 + self.random.below(12) } else { 0 };
        let left = if cut == 0 && self.random.chance(1, 6) { self.random.below(9) } else { 0 };
        // What the body's length will be is not known yet: a wrong one is near nothing or beyond everything.
        let near = self.random.below(60);
        let said = self.said(near);
        Frame { format, said, body, cut, left: self.random.bytes(left), pad: self.pad() }
    }

    fn sample(&mut self) -> Frame {
        if self.random.chance(1, 7) {
            let format = self.random.pick(&RAW_SAMPLES);
            let length = self.random.below(24);
            let bytes = self.random.bytes(length);
            return self.frame(format, Body::Raw(bytes));
        }
        self.opened_sample(0)
    }

    /// A sample of format 1 to 5; with `reach`, a flow sample with a record of that depth.
    fn opened_sample(&mut self, reach: u32) -> Frame {
        let format = if reach > 0 { self.random.pick(&[1, 3, 5]) } else { 1 + self.random.below(5) as u32 };
        self.sample_of(format, reach)
    }

    /// The fields of a sample before the count of its records.
    fn fields_of(&mut self, format: u32) -> Vec<Item> {
        let shapes = layout_of(SAMPLE, format).unwrap().shapes;
        (1..shapes.len()).map(|_| Item::Word(self.random.word())).collect()
    }

    /// A sample of these records, which are counted right.
    pub fn sample_with(&mut self, format: u32, items: Vec<Frame>) -> Frame {
        let fields = self.fields_of(format);
        self.frame(format, Body::Records(fields, Counted { said: None, items }))
    }

    fn sample_of(&mut self, format: u32, reach: u32) -> Frame {
        let fields = self.fields_of(format);
        let mut records: Vec<Frame> = (0..self.random.below(4)).map(|_| self.record(format, 1)).collect();
        if reach > 0 {
            let deep = self.deep(1, reach);
            records.push(deep);
        }
        let records = self.counted(records);
        self.frame(format, Body::Records(fields, records))
    }

    fn record(&mut self, sample: u32, depth: u32) -> Frame {
        let kind = if matches!(sample, 2 | 4) { COUNTER } else { FLOW };
        if self.plan.outside && self.random.chance(1, 4) {
            return self.opened_by_the_crate(kind);
        }
        if self.random.chance(1, 9) {
            let format = if kind == COUNTER { self.random.pick(&RAW_COUNTERS) } else { self.random.pick(&RAW_FLOWS) };
            let length = self.random.below(24);
            let bytes = self.random.bytes(length);
            return self.frame(format, Body::Raw(bytes));
        }
        let rows: Vec<&Layout> = LAYOUTS.iter().filter(|row| row.kind == kind).collect();
        let layout = rows[self.random.below(rows.len())];
        self.opened_record(layout, depth)
    }

    /// A record of a format that is opened.
    fn opened_record(&mut self, layout: &Layout, depth: u32) -> Frame {
        if (layout.kind, layout.format) == (FLOW, AGGREGATION) {
            return self.aggregation(depth);
        }
        let mode = match self.plan.modes {
            [only] => *only,
            several => self.random.pick(several),
        };
        let items = layout.shapes.iter().map(|shape| self.item(*shape, mode)).collect();
        self.frame(layout.format, Body::Items(items))
    }

    /// A datagram with one sample or one record of the layout.
    pub fn datagram_of(&mut self, layout: &Layout) -> Datagram {
        let sample = match layout.kind {
            SAMPLE => self.sample_of(layout.format, 0),
            FLOW | COUNTER => {
                let record = self.opened_record(layout, 1);
                let format = if layout.kind == FLOW { 1 } else { self.random.pick(&[2, 4]) };
                self.sample_with(format, vec![record])
            }
            _ => self.sample(),
        };
        let words = [self.random.word(), self.random.word(), self.random.word()];
        Datagram { version: 5, agent: self.address(), words, samples: Counted { said: None, items: vec![sample] } }
    }

    /// Small words, so that some of it is what the crate expects there.
    fn opened_by_the_crate(&mut self, kind: u32) -> Frame {
        let formats = opened_by_the_crate(kind);
        let format = self.random.pick(&formats);
        let mut bytes = Vec::new();
        let length = if self.random.chance(1, 3) { self.random.below(8) } else { 20 + self.random.below(30) };
        for _ in 0..length {
            let word = if self.random.chance(1, 12) { self.random.word() } else { self.random.below(2) as u32 };
            bytes.extend_from_slice(&word.to_be_bytes());
        }
        self.frame(format, Body::Raw(bytes))
    }

    /// A few PDUs with records in them as long as the depth allows any.
    fn aggregation(&mut self, depth: u32) -> Frame {
        let deeper = depth < MAX_DEPTH || self.goes_wrong();
        let mut pdus = Vec::new();
        for _ in 0..self.random.below(3) {
            let records = if deeper { self.random.below(3) } else { 0 };
            let records = (0..records).map(|_| self.record(1, depth + 1)).collect();
            pdus.push(self.counted(records));
        }
        let pdus = self.counted(pdus);
        self.frame(AGGREGATION, Body::Pdus(pdus))
    }

    /// Aggregations in one another, down to a record at `reach`.
    fn deep(&mut self, depth: u32, reach: u32) -> Frame {
        if depth >= reach {
            return self.record(1, depth);
        }
        let mut records = vec![self.deep(depth + 1, reach)];
        if self.random.chance(1, 4) {
            let beside = self.record(1, depth + 1);
            records.insert(self.random.below(2), beside);
        }
        let mut pdus = vec![self.counted(records)];
        if self.random.chance(1, 4) {
            let empty = self.counted(Vec::new());
            pdus.insert(self.random.below(2), empty);
        }
        let pdus = self.counted(pdus);
        self.frame(AGGREGATION, Body::Pdus(pdus))
    }

    fn address(&mut self) -> Item {
        let wrong = self.goes_wrong();
        let kind = if wrong { self.random.pick(&[3, 4, 0x0100_0000, u32::MAX]) } else { self.random.below(3) as u32 };
        let length = match kind {
            1 => 4,
            2 => 16,
            _ => 0,
        };
        Item::Address(kind, self.random.bytes(length))
    }

    fn list(&mut self) -> Counted<u32> {
        let words = (0..self.random.below(5)).map(|_| self.random.word()).collect();
        self.counted(words)
    }

    fn path(&mut self) -> Item {
        let mut segments = Vec::new();
        for _ in 0..self.random.below(4) {
            let kind = if self.random.chance(1, 4) { self.random.word() } else { 1 + self.random.below(2) as u32 };
            segments.push((kind, self.list()));
        }
        Item::Path(self.counted(segments))
    }

    fn opaque(&mut self, bytes: Vec<u8>) -> Item {
        Item::Opaque(Opaque { said: self.said(bytes.len()), bytes, pad: self.pad() })
    }

    fn item(&mut self, shape: Shape, mode: Mode) -> Item {
        match shape {
            Shape::Version => Item::Word(5),
            Shape::Protocol => {
                let wrong = self.goes_wrong();
                Item::Word(if wrong { self.random.pick(&[0, 18, 19, 20, 0x0100_0000, u32::MAX]) } else { 1 + self.random.below(17) as u32 })
            }
            Shape::Word => Item::Word(self.random.word()),
            Shape::Long => Item::Long(self.random.long()),
            Shape::Mac => Item::Block(self.random.bytes(mode.mac_size())),
            Shape::SixOfEight => Item::Block(self.random.bytes(8)),
            Shape::Sixteen => Item::Block(self.random.bytes(16)),
            Shape::Address => self.address(),
            Shape::Text => {
                let bytes = if self.goes_wrong() { text::bad(self.random) } else { text::good(self.random) };
                self.opaque(bytes)
            }
            Shape::Opaque => {
                let length = self.random.below(40);
                let bytes = self.random.bytes(length);
                self.opaque(bytes)
            }
            Shape::List => Item::List(self.list()),
            Shape::Path => self.path(),
        }
    }
}
