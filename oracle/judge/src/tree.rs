//! A datagram as a tree, and its bytes. What the tree says of itself (counts, lengths) may be wrong.

/// Things with a count before them; `said` is the count that is written, where it is not theirs.
pub struct Counted<T> {
    pub said: Option<u32>,
    pub items: Vec<T>,
}

/// Bytes with a length before them and a pad behind them.
pub struct Opaque {
    pub said: Option<u32>,
    pub bytes: Vec<u8>,
    /// What the pad is taken from.
    pub pad: [u8; 3],
}

pub enum Item {
    Word(u32),
    Long(u64),
    Block(Vec<u8>),
    Address(u32, Vec<u8>),
    Opaque(Opaque),
    List(Counted<u32>),
    Path(Counted<(u32, Counted<u32>)>),
}

pub enum Body {
    Raw(Vec<u8>),
    Items(Vec<Item>),
    /// A sample: its fields before the count, and its records.
    Records(Vec<Item>, Counted<Frame>),
    /// An aggregation: its PDUs, each of them its records.
    Pdus(Counted<Counted<Frame>>),
}

/// A sample or a record.
pub struct Frame {
    pub format: u32,
    pub said: Option<u32>,
    pub body: Body,
    /// How many of the body's last bytes are not in the opaque.
    pub cut: usize,
    /// Bytes left over behind the body, in the opaque.
    pub left: Vec<u8>,
    pub pad: [u8; 3],
}

pub struct Datagram {
    pub version: u32,
    pub agent: Item,
    pub words: [u32; 3],
    pub samples: Counted<Frame>,
}

fn put_word(out: &mut Vec<u8>, word: u32) {
    out.extend_from_slice(&word.to_be_bytes());
}

fn put_opaque(out: &mut Vec<u8>, said: Option<u32>, bytes: &[u8], pad: &[u8; 3]) {
    put_word(out, said.unwrap_or(bytes.len() as u32));
    out.extend_from_slice(bytes);
    out.extend_from_slice(&pad[..bytes.len().wrapping_neg() % 4]);
}

impl<T> Counted<T> {
    fn put(&self, out: &mut Vec<u8>, put: impl Fn(&mut Vec<u8>, &T)) {
        put_word(out, self.said.unwrap_or(self.items.len() as u32));
        self.items.iter().for_each(|item| put(out, item));
    }
}

impl Item {
    pub fn put(&self, out: &mut Vec<u8>) {
        match self {
            Item::Word(word) => put_word(out, *word),
            Item::Long(long) => out.extend_from_slice(&long.to_be_bytes()),
            Item::Block(bytes) => out.extend_from_slice(bytes),
            Item::Address(kind, bytes) => {
                put_word(out, *kind);
                out.extend_from_slice(bytes);
            }
            Item::Opaque(o) => put_opaque(out, o.said, &o.bytes, &o.pad),
            Item::List(words) => words.put(out, |out, word| put_word(out, *word)),
            Item::Path(segments) => segments.put(out, |out, (kind, path)| {
                put_word(out, *kind);
                path.put(out, |out, word| put_word(out, *word));
            }),
        }
    }
}

impl Body {
    fn put(&self, out: &mut Vec<u8>) {
        match self {
            Body::Raw(bytes) => out.extend_from_slice(bytes),
            Body::Items(items) => items.iter().for_each(|item| item.put(out)),
            Body::Records(fields, records) => {
                fields.iter().for_each(|item| item.put(out));
                records.put(out, |out, record| record.put(out));
            }
            Body::Pdus(pdus) => pdus.put(out, |out, records| records.put(out, |out, record| record.put(out))),
        }
    }
}

impl Frame {
    fn put(&self, out: &mut Vec<u8>) {
        let mut payload = Vec::new();
        self.body.put(&mut payload);
        payload.truncate(payload.len().saturating_sub(self.cut));
        payload.extend_from_slice(&self.left);
        put_word(out, self.format);
        put_opaque(out, self.said, &payload, &self.pad);
    }
}

impl Datagram {
    pub fn bytes(&self) -> Vec<u8> {
        let mut out = Vec::new();
        put_word(&mut out, self.version);
        self.agent.put(&mut out);
        self.words.iter().for_each(|word| put_word(&mut out, *word));
        self.samples.put(&mut out, |out, sample| sample.put(out));
        out
    }
}
