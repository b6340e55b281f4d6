//! Request §11, bytes that must not matter (docs/RULES.md, R2.4): an accepted input, read as one datagram, with other bytes in its pads,
//! and with other bytes behind the datagram, more of them or fewer, is answered as it was, in each mode. Which bytes are pads is told by
//! the reading by the rules (`paper`); the library has no part in that.

use crate::compare::{lent, theirs};
use crate::fault::Library;
use crate::make;
use crate::paper::{self, Place, Reading};
use crate::random::Random;
use crate::shape::*;
use crate::tally::{same, Checked, Difference, Key, Tally};
use crate::value::Value;
use crate::work;
use sflow_parser::models::core::SFlowDatagram;
use std::ops::Range;

/// At most so many bytes are added behind an input.
const ADDED: usize = 64;
/// One input in so many is made as long as an input may be, too.
const LONGEST: u64 = 4096;
/// How far apart the cases are that are tried for one input: no other input is taken from them.
const NEXT_CASE: u64 = 1 << 32;
/// From so many inputs on, pads of every sort must have been there, and half of the changes to other bytes must have been noticed.
const ENOUGH: u64 = 20_000;

/// The input of this number: the first that the rules accept in this mode of the cases that are tried for it.
fn accepted(seed: u64, number: u64, mode: Mode) -> (Vec<u8>, Reading) {
    let mut case = number;
    loop {
        let input = make::input(seed, case, make::EITHER);
        let reading = paper::decode(&input, mode);
        if reading.code == 0 {
            return (input, reading);
        }
        case += NEXT_CASE;
    }
}

/// The library's answer: code, position, steps and needed; the header's values; every word of the store.
#[derive(PartialEq)]
struct Answered {
    answer: (u32, usize, usize, usize),
    header: Vec<Value>,
    store: Vec<u32>,
}

/// An accepted input, and all that is answered to it.
struct Original<'a> {
    data: &'a [u8],
    reading: &'a Reading,
    ours: Answered,
    /// Of each descriptor.
    fields: Vec<Vec<Value>>,
    /// What the crate gives in the base mode, unless it refuses a record that only it opens.
    crates: Option<Vec<SFlowDatagram>>,
}

/// How much was done.
#[derive(Default)]
struct Counts {
    /// Inputs with a pad, and with bytes behind the datagram.
    padded: u64,
    tails: u64,
    /// Pad bytes.
    pads: u64,
    changed: u64,
    /// Changed inputs that the crate was asked about, and those of inputs that it refuses.
    asked: u64,
    skipped: u64,
    /// Changes to a byte that is no pad after which an answer was another.
    noticed: u64,
}

impl Counts {
    fn merge(&mut self, other: Counts) {
        self.padded += other.padded;
        self.tails += other.tails;
        self.pads += other.pads;
        self.changed += other.changed;
        self.asked += other.asked;
        self.skipped += other.skipped;
        self.noticed += other.noticed;
    }
}

struct Pads {
    seed: u64,
    library: Library,
    tally: Tally,
    counts: Counts,
}

impl Pads {
    fn new(seed: u64, fault: u32, mode: Mode) -> Self {
        Pads { seed, library: Library { fault, mode }, tally: Tally::default(), counts: Counts::default() }
    }

    /// The accepted input of this number, and each change to it.
    fn case(&mut self, number: u64) {
        let (data, reading) = accepted(self.seed, number, self.library.mode);
        let mut random = Random::of_case(!self.seed, number);
        self.tally.cases += 1;
        self.tally.bytes += data.len() as u64;
        self.count(&data, &reading);
        let original = match self.original(&data, &reading, random.below(2 * DESCRIPTOR_WORDS)) {
            Ok(original) => original,
            Err(found) => {
                self.tally.differ += 1;
                return self.tally.note(found, &data);
            }
        };
        let changes = changes(&data, &reading, number.is_multiple_of(LONGEST), &mut random);
        let mut differs = false;
        for (what, changed) in &changes {
            if let Err(found) = self.compare(&original, changed) {
                differs = true;
                self.note(what, found, &data, changed);
            }
        }
        self.tally.differ += u64::from(differs);
        self.counts.noticed += u64::from(self.notices(&original, &mut random));
    }

    /// The changed input is noted, and the one that it was beside the difference.
    fn note(&mut self, what: &str, found: Difference, data: &[u8], changed: &[u8]) {
        let before: String = data.iter().map(|byte| format!("{byte:02x}")).collect();
        let (kind, detail) = (format!("{what}: {}", found.kind), format!("{}; before the change: {before}", found.detail));
        self.tally.note(Difference { kind, detail }, changed);
    }

    fn count(&mut self, data: &[u8], reading: &Reading) {
        self.counts.padded += u64::from(!reading.pads.is_empty());
        self.counts.tails += u64::from(reading.at < data.len());
        for pad in &reading.pads {
            self.counts.pads += pad.len() as u64;
            let place = place_of(pad, &reading.store);
            pad.clone().for_each(|_| self.tally.reach(Key::Pad(place)));
        }
    }

    /// The input as it is: the library answers what the rules say, and the crate accepts what it does not open by itself.
    fn original<'a>(&self, data: &'a [u8], reading: &'a Reading, spare: usize) -> Result<Original<'a>, Difference> {
        let needed = reading.store.len();
        let ours = self.asked(data, needed * DESCRIPTOR_WORDS + spare);
        same("unchanged: answer", &ours.answer, &(0, reading.at, reading.steps, needed))?;
        same("unchanged: descriptors", &&ours.store[..needed * DESCRIPTOR_WORDS], &&reading.store.concat()[..])?;
        let crates = self.asked_crate(data, reading)?;
        let fields = reading.store.iter().map(|descriptor| self.fields(data, descriptor)).collect();
        Ok(Original { data, reading, ours, fields, crates })
    }

    /// What the crate gives for the input as it is; it reads only as the base mode does.
    fn asked_crate(&self, data: &[u8], reading: &Reading) -> Result<Option<Vec<SFlowDatagram>>, Difference> {
        if self.library.mode == Mode::Memo {
            return Ok(None);
        }
        let crates = theirs(data, false);
        same("unchanged: the crate accepts it", &(crates.is_ok() || !reading.opened.is_empty()), &true)?;
        Ok(crates.ok())
    }

    fn asked(&self, data: &[u8], words: usize) -> Answered {
        let mut store = lent(words);
        let got = self.library.decode(data, &mut store);
        let answer = (got.answer.code, got.answer.at, got.answer.steps, got.answer.needed);
        Answered { answer, header: got.values(), store }
    }

    /// All that the library answers for a descriptor: payload and whole; the field reading's code, position, steps and values; the words
    /// of its lists and segments.
    fn fields(&self, data: &[u8], descriptor: &Descriptor) -> Vec<Value> {
        let (payload, whole) = (self.library.payload(data, descriptor), self.library.whole(data, descriptor));
        let mut all = vec![Value::Span(payload.start, payload.count), Value::Span(whole.start, whole.count)];
        let Some(row) = row_of(descriptor[0], descriptor[1]) else { return all };
        let (outcome, values) = self.library.read(row, data, descriptor);
        all.extend([Value::Word(outcome.code), Value::Span(outcome.at, outcome.steps)]);
        all.extend_from_slice(&values);
        for (shape, value) in LAYOUTS[row].shapes.iter().zip(values) {
            match (shape, value) {
                (Shape::List, Value::Span(start, count)) => self.put_list(data, start, count, &mut all),
                (Shape::Path, Value::Span(start, count)) => self.put_path(data, start, count, &mut all),
                _ => {}
            }
        }
        all
    }

    fn put_list(&self, data: &[u8], start: usize, count: usize, into: &mut Vec<Value>) {
        into.extend((0..count).map(|n| Value::Word(self.library.list_word(data, start, count, n).value)));
    }

    fn put_path(&self, data: &[u8], start: usize, count: usize, into: &mut Vec<Value>) {
        let mut at = start;
        for _ in 0..count {
            let segment = self.library.next_segment(data, at);
            into.push(Value::Word(segment.kind));
            self.put_list(data, segment.path.start, segment.path.count, into);
            at = segment.outcome.at;
        }
    }

    /// A changed input against the one that it was.
    fn compare(&mut self, original: &Original, changed: &[u8]) -> Checked {
        self.counts.changed += 1;
        let ours = self.asked(changed, original.ours.store.len());
        same("code, position, steps, needed", &ours.answer, &original.ours.answer)?;
        same("header", &ours.header, &original.ours.header)?;
        same("store", &ours.store, &original.ours.store)?;
        self.compare_fields(original, changed)?;
        let (before, after) = (original.reading, paper::decode(changed, self.library.mode));
        same("the rules' answer", &(after.code, after.at, after.steps), &(before.code, before.at, before.steps))?;
        same("the rules' descriptors and pads", &(&after.store, &after.pads), &(&before.store, &before.pads))?;
        self.compare_crate(original, changed)
    }

    /// The same descriptors are read to the same fields.
    fn compare_fields(&self, original: &Original, changed: &[u8]) -> Checked {
        for (descriptor, before) in original.reading.store.iter().zip(&original.fields) {
            let after = self.fields(changed, descriptor);
            if after != *before {
                return same(&format!("fields of {}/{}", descriptor[0], descriptor[1]), &after, before);
            }
        }
        Ok(())
    }

    /// The crate accepts the changed input and holds the same.
    fn compare_crate(&mut self, original: &Original, changed: &[u8]) -> Checked {
        let Some(before) = &original.crates else {
            self.counts.skipped += 1;
            return Ok(());
        };
        self.counts.asked += 1;
        match theirs(changed, false) {
            Ok(after) => same("what the crate holds", &after, before),
            Err(refused) => same("the crate's code", &refused.code, &0),
        }
    }

    /// Whether the library answers otherwise once a byte of the datagram is another that is no pad.
    fn notices(&self, original: &Original, random: &mut Random) -> bool {
        let is_pad = |at: usize| original.reading.pads.iter().any(|pad| pad.contains(&at));
        let mut at = random.below(original.reading.at);
        while is_pad(at) {
            at = random.below(original.reading.at);
        }
        let mut changed = original.data.to_vec();
        change(random, &mut changed[at..=at]);
        self.asked(&changed, original.ours.store.len()) != original.ours || self.compare_fields(original, &changed).is_err()
    }
}

/// What a pad is behind: the payload of a sample or record, or else a string or an opaque in a record.
fn place_of(pad: &Range<usize>, store: &[Descriptor]) -> Place {
    let encloses = |&&[kind, _, start, length, _, _, first, ..]: &&Descriptor| {
        let behind = (start + length.next_multiple_of(4)) as usize;
        matches!(kind, SAMPLE | FLOW | COUNTER) && (first as usize) < pad.start && pad.end <= behind
    };
    let innermost = store.iter().rev().find(encloses).expect("a pad is in a sample");
    match *innermost {
        [_, format, start, length, ..] if pad.start < (start + length) as usize => Place::Flow(format),
        [SAMPLE, ..] => Place::SampleFrame,
        [kind, ..] => Place::RecordFrame(kind),
    }
}

/// Gives each of the bytes another value.
fn change(random: &mut Random, bytes: &mut [u8]) {
    bytes.iter_mut().for_each(|byte| *byte = byte.wrapping_add(1 + random.below(255) as u8));
}

fn add(random: &mut Random, bytes: &mut Vec<u8>) {
    let count = 1 + random.below(ADDED);
    bytes.extend(random.bytes(count));
}

/// The input with every pad byte changed.
fn other_pads(data: &[u8], reading: &Reading, random: &mut Random) -> Vec<u8> {
    let mut changed = data.to_vec();
    reading.pads.iter().for_each(|pad| change(random, &mut changed[pad.clone()]));
    changed
}

/// The input's changes, each with its name.
fn changes(data: &[u8], reading: &Reading, longest: bool, random: &mut Random) -> Vec<(&'static str, Vec<u8>)> {
    let mut all = Vec::new();
    if !reading.pads.is_empty() {
        all.push(("every pad byte changed", other_pads(data, reading, random)));
    }
    for at in reading.pads.iter().cloned().flatten() {
        let mut one = data.to_vec();
        change(random, &mut one[at..=at]);
        all.push(("one pad byte changed", one));
    }
    all.extend(other_tails(data, reading.at, random));
    let mut more = other_pads(data, reading, random);
    add(random, &mut more);
    all.push(("every pad byte changed, and bytes added", more));
    all.push(("all at once", all_at_once(data, reading, random)));
    if longest {
        let mut long = data.to_vec();
        long.resize(MAX_INPUT, random.below(256) as u8);
        all.push(("bytes added up to the longest input", long));
    }
    all
}

/// Changes behind the datagram, which ends at `end`.
fn other_tails(data: &[u8], end: usize, random: &mut Random) -> Vec<(&'static str, Vec<u8>)> {
    let mut more = data.to_vec();
    add(random, &mut more);
    let mut all = vec![("bytes added", more)];
    if end < data.len() {
        let mut other = data.to_vec();
        change(random, &mut other[end..]);
        all.push(("bytes behind the datagram changed", other));
        all.push(("bytes behind the datagram cut", data[..end + random.below(data.len() - end)].to_vec()));
        all.push(("all bytes behind the datagram cut", data[..end].to_vec()));
    }
    all
}

/// Every pad byte changed; of the bytes behind the datagram some cut and the others changed; and bytes added.
fn all_at_once(data: &[u8], reading: &Reading, random: &mut Random) -> Vec<u8> {
    let mut changed = other_pads(data, reading, random);
    changed.truncate(reading.at + random.below(data.len() - reading.at + 1));
    change(random, &mut changed[reading.at..]);
    add(random, &mut changed);
    changed
}

/// The sorts of pads that are in none of the inputs.
fn unreached(tally: &Tally, mode: Mode) -> Vec<Place> {
    let has_pad = |shape: &Shape| matches!(shape, Shape::Text | Shape::Opaque) || (*shape, mode) == (Shape::Mac, Mode::Memo);
    let has_pads = |layout: &&Layout| layout.shapes.iter().any(has_pad);
    let mut all = vec![Place::SampleFrame, Place::RecordFrame(FLOW), Place::RecordFrame(COUNTER)];
    all.extend(LAYOUTS.iter().filter(has_pads).map(|layout| Place::Flow(layout.format)));
    all.retain(|place| tally.keys().all(|key| key != Key::Pad(*place)));
    all
}

/// Compares so many accepted inputs of each mode with what they are changed to, and tells what was found. Answers whether all is as it must
/// be.
pub fn holds(cases: u64, seed: u64, fault: u32) -> bool {
    let found = [Mode::Base, Mode::Memo].map(|mode| in_mode(cases, seed, fault, mode));
    let differ: u64 = found.iter().map(|(differ, _)| differ).sum();
    println!("{} compared, {differ} differ", 2 * cases);
    differ == 0 && found.iter().all(|(_, reached)| *reached)
}

/// How many inputs differ, and whether enough was reached.
fn in_mode(cases: u64, seed: u64, fault: u32, mode: Mode) -> (u64, bool) {
    let (mut tally, mut counts) = (Tally::default(), Counts::default());
    for worker in work::on_all_cores(cases, || Pads::new(seed, fault, mode), Pads::case) {
        tally.merge(worker.tally);
        counts.merge(worker.counts);
    }
    println!("mode {mode}:");
    print_counts(&tally, &counts, mode);
    let mut lacks = Vec::new();
    if cases >= ENOUGH {
        lacks.extend(unreached(&tally, mode).iter().map(|place| format!("never reached: a pad of {place:?}")));
        lacks.extend((counts.noticed * 2 < cases).then(|| "too few changes to bytes that are no pads were noticed".to_string()));
    }
    lacks.iter().for_each(|what| println!("{what}"));
    tally.print_differences(&format!("{mode}, "));
    println!("{mode}: {cases} compared, {} differ", tally.differ);
    (tally.differ, lacks.is_empty())
}

fn print_counts(tally: &Tally, counts: &Counts, mode: Mode) {
    let Counts { padded, tails, pads, changed, asked, skipped, noticed } = counts;
    let (cases, average) = (tally.cases, tally.bytes / tally.cases.max(1));
    tally.print_reached();
    println!("accepted inputs: {cases}, {average} bytes on average, {padded} with pads, {tails} with bytes behind the datagram");
    println!("pad bytes: {pads}; changed inputs compared: {changed}");
    if mode == Mode::Base {
        println!("the crate: asked about {asked} of them; {skipped} are of inputs with a record that only the crate opens, and refuses");
    }
    println!("a byte that is no pad, changed in each input: another answer or field reading in {noticed}");
}
