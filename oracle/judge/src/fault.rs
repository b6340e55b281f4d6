//! The library as the comparison calls it, in one of the modes. With a fault's number, its answers are spoilt in one way, so that
//! `oracle/faults` can see whether the comparison notices. 0 is no fault.

use crate::library::{self, Answer, Decoded, Listed, Outcome, Segment, Span};
use crate::paper;
use crate::shape::*;
use crate::value::Value;

/// What each fault does; the first is number 1. Those that begin with `pads` are for `--pads` to find: hardly any random input meets them.
pub const FAULTS: [&str; 33] = [
    "code 2 is given four bytes too late",
    "an accepted datagram has a step too many",
    "the header's sequence number has its bytes turned round",
    "a PDU has the depth of the records in it",
    "the word behind the last descriptor is written",
    "a refusal writes the first word of the store",
    "a list's words have their bytes turned round",
    "every AS path segment is a set",
    "a record at depth 9 is answered with 2",
    "code 2 in a datagram refuses the run",
    "the two addresses of an IPv6 packet have changed places",
    "code 9 gives one descriptor too few",
    "a payload has its pad with it",
    "an ill-formed string is answered with 2",
    "a raw record's format has lost its enterprise",
    "a run's second datagram counts its parents from its own first descriptor",
    "a record's first byte is its payload's",
    "a PDU's first byte is the one behind its count word",
    "all of a record lacks its pad",
    "code 7 is given at the first byte of the word that it is in",
    "a field reading gives code 7 one byte too late",
    "pads: an accepted datagram with rubbish in each of its pads, ten or more, has a step too many",
    "pads: the header's field reading takes in bytes behind the datagram, where there are 48 and none is zero",
    "the octets in and out of an interface have changed places",
    "a u64 of a counter record has lost its upper half",
    "a counter record that is cut in a u64 is refused at the second word of that",
    "a counter record of another enterprise is opened",
    "a u64 of a counter record is two steps",
    "a counter record with bytes left over is refused",
    "the modes have changed places",
    "a sampled Ethernet record's field reading is that of the other mode",
    "a run in the memo's mode is that of the base mode",
    "pads: the type of a sampled Ethernet record takes in the last byte of the pad before it",
];

pub struct Library {
    pub fault: u32,
    pub mode: Mode,
}

impl Library {
    /// The mode of a call that these faults spoil.
    fn mode_but_for(&self, faults: &[u32]) -> Mode {
        if faults.contains(&self.fault) {
            self.mode.other()
        } else {
            self.mode
        }
    }

    pub fn decode(&self, data: &[u8], store: &mut [u32]) -> Decoded {
        let mut got = library::decode(data, store, self.mode_but_for(&[30]));
        self.spoil_answer(&mut got.answer, store);
        if self.fault == 3 {
            got.sequence_number = got.sequence_number.swap_bytes();
        }
        if self.fault == 22 && got.answer.code == 0 && has_rubbish_only(data, self.mode) {
            got.answer.steps += 1;
        }
        self.spoil_counters(data, &mut got.answer, store);
        got
    }

    pub fn decode_run(&self, data: &[u8], store: &mut [u32]) -> Answer {
        let mode = if self.mode == Mode::Memo { self.mode_but_for(&[30, 32]) } else { self.mode_but_for(&[30]) };
        let mut got = library::decode_run(data, store, mode);
        self.spoil_answer(&mut got, store);
        if self.fault == 10 && got.code == 0 && got.at < data.len() {
            got.code = 2;
        }
        if self.fault == 16 && got.code == 0 {
            spoil_parents(store, got.needed);
        }
        got
    }

    pub fn read(&self, row: usize, data: &[u8], descriptor: &Descriptor) -> (Outcome, Vec<Value>) {
        let (mut outcome, mut values) = library::read(row, data, descriptor, self.mode_but_for(&[30, 31]));
        if self.fault == 21 && outcome.code == 7 {
            outcome.at += 1;
        }
        if self.fault == 11 && row == 9 {
            values.swap(2, 3);
        }
        if self.fault == 23 && row == 0 {
            take_in_tail(data, descriptor, &mut values);
        }
        match (self.fault, LAYOUTS[row].kind, LAYOUTS[row].format) {
            (24, COUNTER, 1) => values.swap(5, 12),
            (25, COUNTER, _) => values.iter_mut().for_each(lose_upper_half),
            (33, FLOW, ETHERNET) if outcome.code == 0 && self.mode == Mode::Memo => take_in_pad(data, outcome.at, &mut values),
            _ => {}
        }
        (outcome, values)
    }

    pub fn payload(&self, data: &[u8], descriptor: &Descriptor) -> Span {
        let mut span = library::payload(data, descriptor);
        if self.fault == 13 {
            span.count = span.count.next_multiple_of(4);
        }
        span
    }

    pub fn whole(&self, data: &[u8], descriptor: &Descriptor) -> Span {
        let mut span = library::whole(data, descriptor);
        let [_, _, _, length, ..] = descriptor;
        if self.fault == 19 {
            span.count = span.count.saturating_sub(length.wrapping_neg() as usize % 4);
        }
        span
    }

    pub fn list_word(&self, data: &[u8], start: usize, count: usize, n: usize) -> Listed {
        let mut listed = library::list_word(data, start, count, n);
        if self.fault == 7 {
            listed.value = listed.value.swap_bytes();
        }
        listed
    }

    pub fn next_segment(&self, data: &[u8], at: usize) -> Segment {
        let mut segment = library::next_segment(data, at);
        if self.fault == 8 {
            segment.kind = 1;
        }
        segment
    }

    fn spoil_answer(&self, answer: &mut Answer, store: &mut [u32]) {
        let written = answer.needed * DESCRIPTOR_WORDS;
        match (self.fault, answer.code) {
            (1, 2) => answer.at += 4,
            (2, 0) => answer.steps += 1,
            (4, 0) => spoil(store, written, |[kind, _, _, _, _, depth, ..]| *depth += u32::from(*kind == PDU)),
            (5, 0) if written < store.len() => store[written] = 0,
            (6, 1..) if !store.is_empty() => store[0] = 0,
            (9, 8) | (14, 7) => answer.code = 2,
            (12, 9) => answer.needed -= 1,
            (15, 0) => spoil(store, written, |[_, format, ..]| *format &= 0xfff),
            (17, 0) => spoil_firsts(store, written, &[FLOW, COUNTER]),
            (18, 0) => spoil_firsts(store, written, &[PDU]),
            (20, 7) => answer.at &= !3,
            _ => {}
        }
    }

    fn spoil_counters(&self, data: &[u8], answer: &mut Answer, store: &[u32]) {
        let written = if answer.code == 0 { answer.needed * DESCRIPTOR_WORDS } else { 0 };
        let counters = store[..written].chunks_exact(DESCRIPTOR_WORDS).filter(|words| words[0] == COUNTER);
        // The layout that a record's number has in enterprise 0, whether that is its own, and how long it is.
        let mut rows = counters.filter_map(|words| Some((layout_of(COUNTER, words[1] & 0xfff)?, words[1] < 4096, words[3] as usize)));
        match (self.fault, answer.code) {
            (26, 2) if is_cut_in_u64(data, self.mode, answer.at) => answer.at += 4,
            (27, 0) if rows.any(|(layout, own, length)| !own && length < layout.fixed_size()) => answer.code = 2,
            (28, 0) => answer.steps += rows.filter(|row| row.1).map(|row| longs(row.0)).sum::<usize>(),
            (29, 0) if rows.any(|(layout, own, length)| own && length > layout.fixed_size()) => answer.code = 2,
            _ => {}
        }
    }
}

fn lose_upper_half(value: &mut Value) {
    if let Value::Long(long) = value {
        *long &= 0xffff_ffff;
    }
}

fn longs(layout: &Layout) -> usize {
    layout.shapes.iter().filter(|shape| **shape == Shape::Long).count()
}

/// Whether a datagram is refused at a u64 of a counter record of which a word is there.
fn is_cut_in_u64(data: &[u8], mode: Mode, at: usize) -> bool {
    match paper::decode(data, mode).within {
        Some([COUNTER, _, start, length, ..]) => (start + length) as usize - at >= 4,
        _ => false,
    }
}

fn spoil(store: &mut [u32], written: usize, change: impl Fn(&mut Descriptor)) {
    for words in store[..written].chunks_exact_mut(DESCRIPTOR_WORDS) {
        change(words.try_into().unwrap());
    }
}

fn spoil_parents(store: &mut [u32], needed: usize) {
    let mut datagram = 0;
    for (index, words) in store.chunks_exact_mut(DESCRIPTOR_WORDS).take(needed).enumerate() {
        if words[0] == DATAGRAM {
            datagram = index as u32;
        } else {
            words[4] -= datagram;
        }
    }
}

/// Whether there are ten pads or more in the datagram, and no zero in any.
fn has_rubbish_only(data: &[u8], mode: Mode) -> bool {
    let pads = paper::decode(data, mode).pads;
    pads.len() >= 10 && !pads.into_iter().any(|pad| data[pad].contains(&0))
}

/// Spoils the last value of a header with the first of 48 bytes behind its datagram, none of them zero.
fn take_in_tail(data: &[u8], descriptor: &Descriptor, values: &mut [Value]) {
    let [_, _, start, length, _, _, first, ..] = *descriptor;
    let end = start.saturating_add(length) as usize;
    let behind = data.get(end..end.saturating_add(48)).filter(|bytes| !bytes.contains(&0));
    // Where the comparison has changed a descriptor, its first byte too, the datagram does not end there.
    if let (Some(bytes), Some(Value::Word(last)), true) = (behind, values.last_mut(), first == start) {
        *last ^= u32::from(bytes[0]);
    }
}

/// Spoils the type of a sampled Ethernet record, which ends at `end`, with the last byte of the pad before it.
fn take_in_pad(data: &[u8], end: usize, values: &mut [Value]) {
    if let Some(Value::Word(last)) = values.last_mut() {
        *last ^= u32::from(data[end - 5]);
    }
}

/// Of these kinds, the first byte is the start.
fn spoil_firsts(store: &mut [u32], written: usize, kinds: &[u32]) {
    spoil(store, written, |[kind, _, start, _, _, _, first, ..]| {
        if kinds.contains(kind) {
            *first = *start;
        }
    });
}
