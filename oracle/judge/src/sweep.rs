//! Inputs that are not random: every byte of a datagram of each format, and inputs at the longest length.

use crate::grow::{Grower, Plan};
use crate::modes::{Both, Judges};
use crate::random::Random;
use crate::shape::*;
use crate::work;

/// The longest datagram of some that are not too long to be swept.
fn sizeable(grow: impl Fn(&mut Grower) -> Vec<u8>, reach: u32, modes: &'static [Mode]) -> Vec<u8> {
    let plan = Plan { trouble: 0, outside: false, reach, modes };
    let grown = (0..64).map(|case| grow(&mut Grower { random: &mut Random::of_case(1, case), plan }));
    grown.filter(|bytes| bytes.len() <= 300).max_by_key(Vec::len).expect("one of 64 is short enough")
}

fn bases() -> Vec<Vec<u8>> {
    let of = |layout: &Layout, modes| sizeable(|g| g.datagram_of(layout).bytes(), 0, modes);
    let mut all: Vec<Vec<u8>> = LAYOUTS.iter().map(|layout| of(layout, &[Mode::Base])).collect();
    let deep = sizeable(|g| g.datagram().bytes(), MAX_DEPTH, &[Mode::Base]);
    all.push(deep);
    let two = [all[2].clone(), all[1].clone()].concat();
    all.push(two);
    all.push(of(layout_of(FLOW, ETHERNET).unwrap(), &[Mode::Memo]));
    all
}

/// Every truncation, and every value of every byte.
pub fn every_byte(fault: u32) -> Both {
    let bases = bases();
    let inputs = |base: &[u8]| base.len() as u64 * 257;
    let total = bases.iter().map(|base| inputs(base)).sum();
    work::spread(total, fault, |case| {
        let (mut case, mut at) = (case, 0);
        while case >= inputs(&bases[at]) {
            case -= inputs(&bases[at]);
            at += 1;
        }
        let (place, value) = ((case / 257) as usize, case % 257);
        let mut bytes = bases[at].clone();
        match value {
            256 => bytes.truncate(place),
            _ => bytes[place] = value as u8,
        }
        bytes
    })
}

pub fn words(of: &[u32]) -> Vec<u8> {
    of.iter().flat_map(|word| word.to_be_bytes()).collect()
}

/// Words of a head that stand for what follows: the bytes behind the word, the bytes of the units, how many units.
const BEHIND: u32 = u32::MAX;
const BYTES: u32 = u32::MAX - 1;
const UNITS: u32 = u32::MAX - 2;

/// An input of at most `length` bytes: `head`, as many of the `unit` as there is room for, and `tail`.
fn filled(head: &[u32], unit: &[u8], tail: &[u32], length: usize) -> Vec<u8> {
    let around = (head.len() + tail.len()) * 4;
    let units = (length - around) / unit.len();
    let end = around + units * unit.len();
    let mut bytes = Vec::with_capacity(length + 8);
    for (place, word) in head.iter().enumerate() {
        let word = match *word {
            BEHIND => (end - (place + 1) * 4) as u32,
            BYTES => (units * unit.len()) as u32,
            UNITS => units as u32,
            word => word,
        };
        bytes.extend_from_slice(&word.to_be_bytes());
    }
    (0..units).for_each(|_| bytes.extend_from_slice(unit));
    bytes.extend(words(tail));
    bytes
}

/// The same with a lead byte for its last one.
fn last_wrong(mut input: Vec<u8>) -> Vec<u8> {
    *input.last_mut().expect("a long input has bytes") = b'\xf4';
    input
}

/// Long inputs, each of its own shape.
fn long_inputs(length: usize) -> Vec<(&'static str, Vec<u8>)> {
    const HEAD: [u32; 6] = [5, 0, 0, 1, 0, 1];
    let sample = |fields: &[u32]| [&HEAD[..], fields].concat();
    let flow = |format: u32, fields: &[u32]| [&HEAD[..], &[1, BEHIND, 0, 0, 0, 0, 0, 0, 0, 1, format, BEHIND], fields].concat();
    let (raw, character) = (words(&[4097, 0]), "\u{10ffff}".as_bytes());
    let vlan = words(&[5, 28, 1, 2, 3, 4, 5, 6, 7]);
    let two_datagrams = words(&[5, 0, 0, 1, 0, 0, 5, 0, 0, 1, 0, 0]);
    vec![
        ("an empty datagram, and zeros", filled(&[5, 0, 0, 1, 0, 0], &[0; 4], &[], length)),
        ("a raw sample", filled(&sample(&[4097, BEHIND]), b"\x01\x02\x03\x04", &[], length)),
        ("many raw samples", filled(&[5, 0, 0, 1, 0, UNITS], &raw, &[], length)),
        ("many raw records", filled(&sample(&[1, BEHIND, 0, 0, 0, 0, 0, 0, 0, UNITS]), &raw, &[], length)),
        ("many raw counter records", filled(&sample(&[2, BEHIND, 0, 0, UNITS]), &raw, &[], length)),
        ("many counter records", filled(&sample(&[4, BEHIND, 0, 0, 0, UNITS]), &vlan, &[], length)),
        ("a sampled header", filled(&flow(1, &[1, 0, 0, BYTES]), b"\xff\xfe\x00\x01", &[], length)),
        ("a string of ASCII", filled(&flow(1008, &[BYTES]), b"abcd", &[7, 8], length)),
        ("a string of four-byte characters", filled(&flow(1005, &[1, 0, BYTES]), character, &[], length)),
        ("a string with every fourth byte wrong", filled(&flow(1008, &[BYTES]), b"abc\xff", &[7, 8], length)),
        ("a string of ASCII with its last byte wrong", last_wrong(filled(&flow(1005, &[1, 0, BYTES]), b"abcd", &[], length))),
        (
            "a string of four-byte characters with its last byte wrong",
            last_wrong(filled(&flow(1005, &[1, 0, BYTES]), character, &[], length)),
        ),
        ("a list", filled(&flow(1012, &[UNITS]), &words(&[7]), &[], length)),
        ("an AS path", filled(&flow(1003, &[0, 1, 2, 3, UNITS]), &words(&[2, 0]), &[1, 8, 9], length)),
        ("PDUs", filled(&flow(AGGREGATION, &[UNITS]), &words(&[0]), &[], length)),
        ("a run of datagrams", filled(&[], &two_datagrams, &[], length)),
    ]
}

/// Inputs of the longest length, of one byte less and of one more, filled up with zeros; and such as lack their last bytes.
pub fn long(fault: u32) -> Both {
    let mut judges = Judges::new(fault);
    for length in [MAX_INPUT - 1, MAX_INPUT, MAX_INPUT + 1] {
        for made in [length, length + 4] {
            for (name, mut input) in long_inputs(made) {
                eprintln!("{length} bytes, made for {made}: {name}");
                input.resize(length, 0);
                judges.case(&input);
            }
        }
    }
    judges.ended()
}
