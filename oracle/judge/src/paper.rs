//! The reading by the rules (docs/RULES.md) in both modes, first bytes and the position of code 7 included, item by item, written from
//! their text alone: what the crate cannot tell (positions, steps, starts, first bytes, depth 9) comes from here, and whether an input lies
//! in the domain of equality. Where the crate can tell, both are compared with it, in the base mode: of a position, it tells that of code
//! 7, counted from the string's first byte.

use crate::shape::*;
use crate::value::{sixteen, Value};
use std::ops::Range;

#[derive(Clone, Copy, PartialEq, Debug)]
pub struct Refusal {
    pub code: u32,
    pub at: usize,
}

type Read<T> = Result<T, Refusal>;

/// A range of the input, read from its start.
pub struct Cursor<'a> {
    data: &'a [u8],
    pub at: usize,
    end: usize,
    pub steps: usize,
    /// Where the last string's first byte is.
    text: usize,
    /// The pads of the opaques and strings that have one, and those of the memo's Ethernet addresses.
    pads: Vec<Range<usize>>,
}

impl<'a> Cursor<'a> {
    pub fn new(data: &'a [u8], at: usize, end: usize) -> Self {
        Cursor { data, at, end, steps: 0, text: 0, pads: Vec::new() }
    }

    fn refuse<T>(&self, code: u32, at: usize) -> Read<T> {
        Err(Refusal { code, at })
    }

    /// The next bytes, as an item or a part of one that begins at `first`.
    fn take(&mut self, count: usize, first: usize) -> Read<&'a [u8]> {
        if self.end - self.at < count {
            return self.refuse(2, first);
        }
        self.at += count;
        Ok(&self.data[self.at - count..self.at])
    }

    fn block(&mut self, count: usize) -> Read<&'a [u8]> {
        let bytes = self.take(count, self.at)?;
        self.steps += 1;
        Ok(bytes)
    }

    pub fn word(&mut self) -> Read<u32> {
        Ok(u32::from_be_bytes(self.block(4)?.try_into().unwrap()))
    }

    /// A word that must satisfy a rule; otherwise it is no step.
    fn word_that(&mut self, code: u32, holds: impl Fn(u32) -> bool) -> Read<u32> {
        let first = self.at;
        let word = self.word()?;
        if !holds(word) {
            self.steps -= 1;
            return self.refuse(code, first);
        }
        Ok(word)
    }

    /// An opaque's start and length, and the cursor behind its pad.
    pub fn opaque(&mut self) -> Read<(usize, usize)> {
        let first = self.at;
        let length = u32::from_be_bytes(self.take(4, first)?.try_into().unwrap()) as usize;
        if length > MAX_OPAQUE {
            return self.refuse(5, first);
        }
        self.take(length.div_ceil(4) * 4, first)?;
        self.steps += 1;
        let pad = first + 4 + length..self.at;
        if !pad.is_empty() {
            self.pads.push(pad);
        }
        Ok((first + 4, length))
    }

    /// A string; it is refused where the longest beginning of it that is UTF-8 ends.
    fn text(&mut self) -> Read<(usize, usize)> {
        let (start, length) = self.opaque()?;
        self.text = start;
        if let Err(ill_formed) = std::str::from_utf8(&self.data[start..start + length]) {
            self.steps -= 1;
            return self.refuse(7, start + ill_formed.valid_up_to());
        }
        Ok((start, length))
    }

    fn address(&mut self) -> Read<Value> {
        let kind = self.word_that(4, |kind| kind <= 2)?;
        let bytes = match kind {
            0 => &[],
            1 => self.block(4)?,
            _ => self.block(16)?,
        };
        Ok(Value::Address(kind, sixteen(bytes)))
    }

    fn list(&mut self) -> Read<(usize, usize)> {
        let count = self.word()? as usize;
        let start = self.at;
        for _ in 0..count {
            self.word()?;
        }
        Ok((start, count))
    }

    fn path(&mut self) -> Read<(usize, usize)> {
        let count = self.word()? as usize;
        let start = self.at;
        for _ in 0..count {
            self.word()?;
            self.list()?;
        }
        Ok((start, count))
    }

    /// An Ethernet address of flow record 2; in the memo's mode its pad is a part of the item.
    fn mac(&mut self, mode: Mode) -> Read<Value> {
        let bytes = self.block(mode.mac_size())?;
        if bytes.len() > 6 {
            self.pads.push(self.at - (bytes.len() - 6)..self.at);
        }
        Ok(Value::block(&bytes[..6]))
    }

    pub fn item(&mut self, shape: Shape, mode: Mode) -> Read<Value> {
        let span = |(start, count)| Value::Span(start, count);
        Ok(match shape {
            Shape::Version => Value::Word(self.word_that(3, |version| version == 5)?),
            Shape::Protocol => Value::Word(self.word_that(6, |protocol| (1..=17).contains(&protocol))?),
            Shape::Word => Value::Word(self.word()?),
            Shape::Long => Value::Long(u64::from_be_bytes(self.block(8)?.try_into().unwrap())),
            Shape::Mac => self.mac(mode)?,
            Shape::SixOfEight => Value::block(&self.block(8)?[..6]),
            Shape::Sixteen => Value::block(self.block(16)?),
            Shape::Address => self.address()?,
            Shape::Text => span(self.text()?),
            Shape::Opaque => span(self.opaque()?),
            Shape::List => span(self.list()?),
            Shape::Path => span(self.path()?),
        })
    }
}

/// What was being read when a refusal came.
#[derive(Clone, Copy, PartialEq, Eq, PartialOrd, Ord, Debug)]
pub enum Place {
    Header,
    SampleFrame,
    Sample(u32),
    RecordFrame(u32),
    Flow(u32),
    Counter(u32),
    PduCount,
}

/// A record that the crate opens and the rules keep raw.
#[derive(Clone, Copy)]
pub struct Opened {
    pub kind: u32,
    pub format: u32,
    /// Where its format word is.
    pub at: usize,
}

/// What the rules say to an input.
pub struct Reading {
    pub code: u32,
    pub at: usize,
    pub steps: usize,
    pub store: Vec<Descriptor>,
    pub header: Vec<Value>,
    pub place: Place,
    pub opened: Vec<Opened>,
    /// Where the last record at the limit of depth begins: on code 8, the one in which another would begin.
    pub at_limit: usize,
    /// Where the last string's first byte is: on code 7, the refused one's.
    pub text: usize,
    /// The sample or record whose field was refused.
    pub within: Option<Descriptor>,
    /// Of what is accepted, the pads of the opaques and strings that have one: one to three bytes each, behind the payload. In the memo's
    /// mode also the two bytes behind each Ethernet address of flow record 2.
    pub pads: Vec<Range<usize>>,
}

struct Reader<'a> {
    cursor: Cursor<'a>,
    mode: Mode,
    store: Vec<Descriptor>,
    header: Vec<Value>,
    place: Place,
    opened: Vec<Opened>,
    at_limit: usize,
}

impl<'a> Reader<'a> {
    fn new(data: &'a [u8], mode: Mode) -> Self {
        let cursor = Cursor::new(data, 0, data.len());
        Reader { cursor, mode, store: Vec::new(), header: Vec::new(), place: Place::Header, opened: Vec::new(), at_limit: 0 }
    }

    /// Writes a descriptor, and answers its index. What it stands for has its first byte at `first`, and its range is a start and a length.
    fn describe(&mut self, (kind, format): (u32, u32), (start, length): (usize, usize), parent: u32, depth: u32, first: usize) -> u32 {
        self.store.push([kind, format, start as u32, length as u32, parent, depth, first as u32]);
        self.store.len() as u32 - 1
    }

    fn datagram(&mut self) -> Read<()> {
        let start = self.cursor.at;
        let own = self.describe((DATAGRAM, 0), (start, 0), NOBODY, 0, start);
        self.place = Place::Header;
        self.header.clear();
        for shape in LAYOUTS[0].shapes {
            let value = self.cursor.item(*shape, self.mode)?;
            self.header.push(value);
        }
        for _ in 0..last_word(&self.header) {
            self.sample(own)?;
        }
        self.store[own as usize][3] = (self.cursor.at - start) as u32;
        Ok(())
    }

    fn sample(&mut self, parent: u32) -> Read<()> {
        self.place = Place::SampleFrame;
        let first = self.cursor.at;
        let format = self.cursor.word()?;
        let (start, length) = self.cursor.opaque()?;
        let own = self.describe((SAMPLE, format), (start, length), parent, 0, first);
        self.inside(start, length, |reader| reader.sample_fields(format, own))
    }

    /// Reads in a payload, and goes on behind it whatever was left there.
    fn inside(&mut self, start: usize, length: usize, read: impl Fn(&mut Self) -> Read<()>) -> Read<()> {
        let (behind, end) = (self.cursor.at, self.cursor.end);
        (self.cursor.at, self.cursor.end) = (start, start + length);
        read(self)?;
        (self.cursor.at, self.cursor.end) = (behind, end);
        Ok(())
    }

    fn sample_fields(&mut self, format: u32, own: u32) -> Read<()> {
        let Some(layout) = layout_of(SAMPLE, format) else { return Ok(()) };
        self.place = Place::Sample(format);
        let kind = if matches!(format, 2 | 4) { COUNTER } else { FLOW };
        let mut count = 0;
        for shape in layout.shapes {
            count = last_word(&[self.cursor.item(*shape, self.mode)?]);
        }
        for _ in 0..count {
            self.record(kind, own, 1)?;
        }
        Ok(())
    }

    fn record(&mut self, kind: u32, parent: u32, depth: u32) -> Read<()> {
        self.place = Place::RecordFrame(kind);
        let at = self.cursor.at;
        if depth > MAX_DEPTH {
            return Err(Refusal { code: 8, at });
        }
        if depth == MAX_DEPTH {
            self.at_limit = at;
        }
        let format = self.cursor.word()?;
        let (start, length) = self.cursor.opaque()?;
        let own = self.describe((kind, format), (start, length), parent, depth, at);
        if only_the_crate_opens(kind, format) {
            self.opened.push(Opened { kind, format, at });
        }
        self.inside(start, length, |reader| reader.record_fields(kind, format, own, depth))
    }

    fn record_fields(&mut self, kind: u32, format: u32, own: u32, depth: u32) -> Read<()> {
        let Some(layout) = layout_of(kind, format) else { return Ok(()) };
        self.place = if kind == COUNTER { Place::Counter(format) } else { Place::Flow(format) };
        let mut last = Value::Word(0);
        for shape in layout.shapes {
            last = self.cursor.item(*shape, self.mode)?;
        }
        if (kind, format) == (FLOW, AGGREGATION) {
            for _ in 0..last_word(&[last]) {
                self.pdu(own, depth)?;
            }
        }
        Ok(())
    }

    fn pdu(&mut self, parent: u32, depth: u32) -> Read<()> {
        self.place = Place::PduCount;
        let first = self.cursor.at;
        let count = self.cursor.word()?;
        let start = self.cursor.at;
        let own = self.describe((PDU, 0), (start, 0), parent, depth, first);
        for _ in 0..count {
            self.record(FLOW, own, depth + 1)?;
        }
        self.store[own as usize][3] = (self.cursor.at - start) as u32;
        Ok(())
    }

    fn answer(self, code: u32, at: usize) -> Reading {
        let Cursor { steps, text, pads, .. } = self.cursor;
        let Reader { place, opened, at_limit, .. } = self;
        // A sample's or record's fields come before anything that is in it.
        let in_fields = code != 0 && matches!(place, Place::Sample(_) | Place::Flow(_) | Place::Counter(_));
        let within = self.store.last().copied().filter(|_| in_fields);
        let (store, header, pads) = if code == 0 { (self.store, self.header, pads) } else { (Vec::new(), Vec::new(), Vec::new()) };
        Reading { code, at, steps, store, header, place, opened, at_limit, text, within, pads }
    }
}

fn last_word(values: &[Value]) -> u32 {
    match values.last() {
        Some(Value::Word(word)) => *word,
        _ => 0,
    }
}

/// One datagram.
pub fn decode(data: &[u8], mode: Mode) -> Reading {
    let mut reader = Reader::new(data, mode);
    if data.len() > MAX_INPUT {
        return reader.answer(1, 0);
    }
    match reader.datagram() {
        Ok(()) => {
            let end = reader.cursor.at;
            reader.answer(0, end)
        }
        Err(refusal) => reader.answer(refusal.code, refusal.at),
    }
}

/// Datagrams end to end: code 2 ends the run, any other refuses it.
pub fn decode_run(data: &[u8], mode: Mode) -> Reading {
    let mut reader = Reader::new(data, mode);
    if data.len() > MAX_INPUT {
        return reader.answer(1, 0);
    }
    while reader.cursor.at < data.len() {
        let (begun, kept, pads) = (reader.cursor.at, reader.store.len(), reader.cursor.pads.len());
        match reader.datagram() {
            Ok(()) => {}
            Err(refusal) if refusal.code == 2 => {
                reader.store.truncate(kept);
                reader.cursor.pads.truncate(pads);
                return reader.answer(0, begun);
            }
            Err(refusal) => return reader.answer(refusal.code, refusal.at),
        }
    }
    reader.answer(0, data.len())
}

/// What a field reading of this layout answers for a descriptor: code, position and steps, and the values, none on a refusal.
pub fn fields(data: &[u8], descriptor: &Descriptor, layout: &Layout, mode: Mode) -> ((u32, usize, usize), Vec<Value>) {
    let [kind, format, start, length, ..] = *descriptor;
    let end = start as usize + length as usize;
    if data.len() > MAX_INPUT {
        return ((1, 0, 0), Vec::new());
    }
    if end > data.len() {
        return ((10, 0, 0), Vec::new());
    }
    if (kind, format) != (layout.kind, layout.format) {
        return ((11, 0, 0), Vec::new());
    }
    let mut cursor = Cursor::new(data, start as usize, end);
    let mut values = Vec::with_capacity(layout.shapes.len());
    for shape in layout.shapes {
        match cursor.item(*shape, mode) {
            Ok(value) => values.push(value),
            Err(refusal) => return ((refusal.code, refusal.at, cursor.steps), Vec::new()),
        }
    }
    ((0, cursor.at, cursor.steps), values)
}

/// Where all of what a descriptor stands for lies, from its first byte to the end of its pad: nothing where the input is too long or ends
/// before that, or where its first byte is behind its start.
pub fn whole(data: &[u8], descriptor: &Descriptor) -> (usize, usize) {
    let [_, _, start, length, _, _, first, ..] = descriptor.map(|word| word as usize);
    let end = start + length.div_ceil(4) * 4;
    if data.len() > MAX_INPUT || end > data.len() || first > start {
        return (0, 0);
    }
    (first, end - first)
}

/// What is answered for the AS path segment at a position: code, position and steps; its type, and its list's start and count.
pub fn segment(data: &[u8], at: usize) -> ((u32, usize, usize), u32, (usize, usize)) {
    if data.len() > MAX_INPUT {
        return ((1, 0, 0), 0, (0, 0));
    }
    if at > data.len() {
        return ((10, 0, 0), 0, (0, 0));
    }
    let mut cursor = Cursor::new(data, at, data.len());
    let read = cursor.word().and_then(|kind| Ok((kind, cursor.list()?)));
    match read {
        Ok((kind, list)) => ((0, cursor.at, cursor.steps), kind, list),
        Err(refusal) => ((refusal.code, refusal.at, cursor.steps), 0, (0, 0)),
    }
}
