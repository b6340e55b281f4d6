//! What was compared: how often each format, code and class was reached, and the smallest input of each kind of difference.

use crate::paper::Place;
use crate::shape::*;
use std::collections::BTreeMap;

/// Something that the inputs are meant to reach.
#[derive(Clone, Copy, PartialEq, Eq, PartialOrd, Ord, Debug)]
pub enum Key {
    Code(u32),
    RunCode(u32),
    /// A field reading of a descriptor that was changed.
    FieldCode(u32),
    /// Of accepted datagrams: an opened sample, an opened flow or counter record, what is kept raw by kind, a record's depth.
    Sample(u32),
    Flow(u32),
    Counter(u32),
    Raw(u32),
    Depth(u32),
    Refusal(u32, Place),
    /// One of `SEEN`, in an accepted datagram.
    Seen(&'static str),
    /// Outside the domain: a record that only the crate opens; the answers of the rules and of the crate; the crate's answer
    /// where a record would begin at depth 9, and where the input is too long.
    Opened(u32, u32),
    OpenedAnswer(u32, u32),
    Deep(u32),
    Long(u32),
    /// A byte of a pad behind what is read there, in an accepted datagram.
    Pad(Place),
    /// A sampled Ethernet record: the code that it is read with, and its length.
    Ethernet(u32, u32),
}

/// Sampled Ethernet records of at most so many bytes are counted by their length.
pub const LONGEST_ETHERNET: u32 = 40;

/// What accepted datagrams hold besides: address types, strings, and bytes that are to be passed over.
pub const AGENTS: [&str; 3] = ["agent 0", "agent 1", "agent 2"];
pub const NOT_ASCII: &str = "string that is not ASCII";
pub const RUBBISH: &str = "pad that is not zero";
pub const LEFT: &str = "bytes left over in a record";
pub const BEHIND: &str = "bytes behind the datagram";

pub struct Difference {
    pub kind: String,
    pub detail: String,
}

pub type Checked = Result<(), Difference>;

/// Whether both are the same; `kind` says what differs if they are not.
pub fn same<T: PartialEq + std::fmt::Debug>(kind: &str, ours: &T, theirs: &T) -> Checked {
    if ours == theirs {
        return Ok(());
    }
    Err(Difference { kind: kind.to_string(), detail: format!("{} against {}", short(ours), short(theirs)) })
}

/// The beginning of what may be a whole store.
fn short(value: &impl std::fmt::Debug) -> String {
    format!("{value:?}").chars().take(300).collect()
}

struct Seen {
    count: u64,
    smallest: Vec<u8>,
    detail: String,
}

#[derive(Default)]
pub struct Tally {
    pub cases: u64,
    pub accepted: u64,
    pub differ: u64,
    /// How many had a position of code 7 compared with the crate's index.
    pub indexed: u64,
    pub bytes: u64,
    reached: BTreeMap<Key, u64>,
    differences: BTreeMap<String, Seen>,
}

/// Hex of at most this many bytes is printed.
const PRINTED: usize = 4096;

impl Tally {
    pub fn reach(&mut self, key: Key) {
        *self.reached.entry(key).or_insert(0) += 1;
    }

    pub fn keys(&self) -> impl Iterator<Item = Key> + '_ {
        self.reached.keys().copied()
    }

    pub fn note(&mut self, found: Difference, input: &[u8]) {
        let seen = Seen { count: 1, smallest: input.to_vec(), detail: found.detail };
        self.merge_seen(found.kind, seen);
    }

    fn merge_seen(&mut self, kind: String, seen: Seen) {
        let Some(known) = self.differences.get_mut(&kind) else {
            self.differences.insert(kind, seen);
            return;
        };
        known.count += seen.count;
        let order = |s: &Seen| (s.smallest.len(), s.smallest.clone());
        if order(&seen) < order(known) {
            (known.smallest, known.detail) = (seen.smallest, seen.detail);
        }
    }

    pub fn merge(&mut self, other: Tally) {
        self.cases += other.cases;
        self.accepted += other.accepted;
        self.differ += other.differ;
        self.indexed += other.indexed;
        self.bytes += other.bytes;
        for (key, count) in other.reached {
            *self.reached.entry(key).or_insert(0) += count;
        }
        for (kind, seen) in other.differences {
            self.merge_seen(kind, seen);
        }
    }

    pub fn print_reached(&self) {
        let mut line = String::new();
        let mut group = String::new();
        for (key, count) in &self.reached {
            let (of, what) = named(*key);
            if of != group {
                println!("{line}");
                (group, line) = (of.clone(), format!("{of}:"));
            }
            line += &format!(" {what}={count}");
        }
        println!("{line}");
    }

    /// What differs, each kind behind `of`.
    pub fn print_differences(&self, of: &str) {
        for (kind, seen) in &self.differences {
            let shown = &seen.smallest[..seen.smallest.len().min(PRINTED)];
            let hex: String = shown.iter().map(|byte| format!("{byte:02x}")).collect();
            println!("differs: {of}{kind}: {} times; smallest, {} bytes: {}", seen.count, seen.smallest.len(), seen.detail);
            println!("  {hex}");
        }
    }

    /// What of this was not reached; in the base mode a position that the crate's index tells must have been, too.
    pub fn unreached(&self, required: Vec<Key>, mode: Mode) -> Vec<String> {
        let unindexed = mode == Mode::Base && !required.is_empty() && self.indexed == 0;
        let missing = required.into_iter().filter(|key| !self.reached.contains_key(key));
        let unindexed = unindexed.then(|| "position of code 7 compared with the crate's index".to_string());
        missing.map(named).map(|(of, what)| format!("{of} {what}")).chain(unindexed).collect()
    }
}

/// A key as its group and its own name.
fn named(key: Key) -> (String, String) {
    const KINDS: [&str; 5] = ["datagram", "sample", "flow", "counter", "PDU"];
    let text = |of: &str, what: u32| (of.to_string(), what.to_string());
    match key {
        Key::Code(code) => text("decode, code", code),
        Key::RunCode(code) => text("run, code", code),
        Key::FieldCode(code) => text("field reading of a changed descriptor, code", code),
        Key::Sample(format) => text("sample", format),
        Key::Flow(format) => text("flow record", format),
        Key::Counter(format) => text("counter record", format),
        Key::Raw(kind) => ("kept raw".to_string(), KINDS[kind as usize].to_string()),
        Key::Depth(depth) => text("record at depth", depth),
        Key::Refusal(code, place) => (format!("refused with {code} in"), format!("{place:?}")),
        Key::Seen(what) => ("accepted, with".to_string(), what.replace(' ', "-")),
        Key::Opened(kind, format) => {
            let own = format!("{}:{}", format >> 12, format & 0xfff);
            (format!("outside, {} record that the crate opens", KINDS[kind as usize]), own)
        }
        Key::OpenedAnswer(code, crates) => (format!("outside, opened record, code {code} where the crate answers"), crates.to_string()),
        Key::Deep(crates) => text("outside, a record at depth 9, where the crate answers", crates),
        Key::Pad(place) => ("pad bytes in".to_string(), format!("{place:?}")),
        Key::Long(crates) => text("outside, input too long, where the crate answers", crates),
        Key::Ethernet(code, length) => (format!("sampled Ethernet record, code {code}, bytes"), length.to_string()),
    }
}

/// The lengths of sampled Ethernet records that tell the modes apart.
pub fn lengths(mode: Mode) -> Vec<Key> {
    let accepted = if mode == Mode::Memo { 24 } else { 20 };
    (20..=24).map(|length| Key::Ethernet(if length < accepted { 2 } else { 0 }, length)).collect()
}

/// Every sample, flow and counter format, code and class of refusal, and every record that only the crate opens.
pub fn required(mode: Mode) -> Vec<Key> {
    let mut all = vec![Key::Raw(SAMPLE), Key::Raw(FLOW), Key::Raw(COUNTER), Key::Code(0), Key::RunCode(0)];
    if mode == Mode::Base {
        all.extend([Key::Deep(0), Key::Deep(2)]);
    }
    all.extend(AGENTS.into_iter().chain([NOT_ASCII, RUBBISH, LEFT, BEHIND]).map(Key::Seen));
    all.extend((2..=9).map(Key::Code));
    all.extend((3..=9).map(Key::RunCode));
    all.extend((2..=7).chain(10..=11).map(Key::FieldCode));
    all.extend((1..=MAX_DEPTH).map(Key::Depth));
    for layout in &LAYOUTS {
        match layout.kind {
            SAMPLE => all.push(Key::Sample(layout.format)),
            FLOW => all.push(Key::Flow(layout.format)),
            COUNTER => all.push(Key::Counter(layout.format)),
            _ => {}
        }
        all.extend(refusals(layout));
    }
    all.extend([2, 5].map(|code| Key::Refusal(code, Place::SampleFrame)));
    all.extend([FLOW, COUNTER].map(|kind| Key::Refusal(2, Place::RecordFrame(kind))));
    all.extend([FLOW, COUNTER].map(|kind| Key::Refusal(5, Place::RecordFrame(kind))));
    all.extend([Key::Refusal(2, Place::PduCount), Key::Refusal(8, Place::RecordFrame(FLOW))]);
    for kind in [FLOW, COUNTER] {
        all.extend(opened_by_the_crate(kind).into_iter().map(|format| Key::Opened(kind, format)));
    }
    all
}

/// The refusals that a layout's items can meet.
fn refusals(layout: &Layout) -> Vec<Key> {
    let place = match layout.kind {
        DATAGRAM => Place::Header,
        SAMPLE => Place::Sample(layout.format),
        COUNTER => Place::Counter(layout.format),
        _ => Place::Flow(layout.format),
    };
    let mut codes = vec![2];
    for shape in layout.shapes {
        codes.extend_from_slice(match shape {
            Shape::Version => &[3],
            Shape::Address => &[4],
            Shape::Opaque => &[5],
            Shape::Protocol => &[6],
            Shape::Text => &[5, 7],
            _ => &[],
        });
    }
    codes.into_iter().map(|code| Key::Refusal(code, place)).collect()
}
