//! Sampled Ethernet records (flow record 2) that are not random: of every length up to some bytes more than either mode's layout has, at
//! several depths of each sample that holds flow records; alone, with bytes left over behind them or another record, at an end that is cut,
//! and in a run.

use crate::listed::{frame, raw};
use crate::modes::Both;
use crate::paper;
use crate::random::Random;
use crate::shape::*;
use crate::tally::{same, Checked, LONGEST_ETHERNET};
use crate::tree::*;
use crate::work;

const DEPTHS: [u32; 3] = [1, 2, MAX_DEPTH];
const SAMPLES: [u32; 3] = [1, 3, 5];
/// At most so many bytes are left over in the opaque that the record is in.
const LEFT: usize = 8;

/// What comes behind the record.
#[derive(Clone, Copy)]
enum End {
    Nothing,
    /// So many bytes that are left over in the opaque around it.
    Left(usize),
    Record,
    Datagram,
    /// The opaque around it lacks so many of its last bytes.
    CutOpaque(usize),
    /// The datagram lacks so many of its last bytes.
    CutDatagram(usize),
}

fn counted<T>(items: Vec<T>) -> Counted<T> {
    Counted { said: None, items }
}

/// A sample or an aggregation.
fn opaque(format: u32, body: Body, end: End) -> Frame {
    let around = frame(format, body);
    match end {
        End::Left(count) => Frame { left: vec![0xff; count], ..around },
        End::CutOpaque(cut) => Frame { cut, ..around },
        _ => around,
    }
}

/// A datagram with such a record at this depth of a sample.
fn datagram(sample: u32, depth: u32, payload: &[u8], mut end: End) -> Vec<u8> {
    let mut records = vec![Frame { pad: [0xff; 3], ..raw(ETHERNET, &[], payload) }];
    if let End::Record = end {
        records.push(raw(4097, &[], b"next"));
    }
    for _ in 1..depth {
        let pdus = counted(vec![counted(records)]);
        records = vec![opaque(AGGREGATION, Body::Pdus(pdus), end)];
        end = End::Nothing;
    }
    let fields = layout_of(SAMPLE, sample).unwrap().shapes.len() - 1;
    let fields = (0..fields).map(|_| Item::Word(0)).collect();
    let sample = opaque(sample, Body::Records(fields, counted(records)), end);
    Datagram { version: 5, agent: Item::Address(0, Vec::new()), words: [0, 1, 0], samples: counted(vec![sample]) }.bytes()
}

fn input(sample: u32, depth: u32, payload: &[u8], end: End) -> Vec<u8> {
    let mut bytes = datagram(sample, depth, payload, end);
    match end {
        End::Datagram => bytes.extend(datagram(sample, depth, &[7; 24], End::Nothing)),
        End::CutDatagram(cut) => bytes.truncate(bytes.len() - cut),
        _ => {}
    }
    bytes
}

/// Each end of a record of this length; those that cut it leave from none of its bytes to all but one.
fn ends(length: usize) -> Vec<End> {
    let mut all = vec![End::Nothing, End::Record, End::Datagram];
    all.extend((1..=LEFT).map(End::Left));
    let whole = 8 + length.next_multiple_of(4);
    all.extend((1..=whole).flat_map(|cut| [End::CutOpaque(cut), End::CutDatagram(cut)]));
    all
}

fn inputs() -> Vec<Vec<u8>> {
    let mut random = Random::of_case(1, 0);
    let mut all = Vec::new();
    for length in 0..=LONGEST_ETHERNET as usize {
        for payload in [vec![0; length], vec![0xff; length], random.bytes(length)] {
            for end in ends(length) {
                all.extend(SAMPLES.into_iter().flat_map(|sample| DEPTHS.map(|depth| input(sample, depth, &payload, end))));
            }
        }
    }
    all
}

/// The record in numbers, written down by hand beside the layouts: below this length it is refused with code 2, so many bytes behind its
/// start and after so many items.
fn refusals(mode: Mode) -> [(usize, usize, usize); 4] {
    match mode {
        Mode::Memo => [(4, 0, 0), (12, 4, 1), (20, 12, 2), (24, 20, 3)],
        Mode::Base => [(4, 0, 0), (10, 4, 1), (16, 10, 2), (20, 16, 3)],
    }
}

/// Whether the judge's own reading of a record with this payload is as those numbers say.
fn as_in_numbers(payload: &[u8], mode: Mode) -> Checked {
    let refusals = refusals(mode);
    let refused = refusals.iter().find(|(below, ..)| payload.len() < *below);
    let expected = refused.map_or((0, refusals[3].0, 4), |(_, at, items)| (2, *at, *items));
    let mut record = [0; DESCRIPTOR_WORDS];
    record[..4].copy_from_slice(&[FLOW, ETHERNET, 0, payload.len() as u32]);
    let (outcome, _) = paper::fields(payload, &record, layout_of(FLOW, ETHERNET).unwrap(), mode);
    same("the rules' reading of a sampled Ethernet record, and its numbers", &outcome, &expected)
}

/// Compares all of these inputs, and holds the judge's own reading to the numbers.
pub fn all(fault: u32) -> Both {
    let inputs = inputs();
    let mut both = work::spread(inputs.len() as u64, fault, |case| inputs[case as usize].clone());
    for payload in (0..=LONGEST_ETHERNET as usize).map(|length| vec![1; length]) {
        for (mode, tally) in [(Mode::Memo, &mut both.memo), (Mode::Base, &mut both.base)] {
            if let Err(found) = as_in_numbers(&payload, mode) {
                (tally.differ, both.differ) = (tally.differ + 1, both.differ + 1);
                tally.note(found, &payload);
            }
        }
    }
    both
}
