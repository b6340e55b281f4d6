//! Counter records that are not random, in both counter samples: each format that is opened at every length up to some bytes more than its
//! layout has, with all of its counters and with each by itself at their extremes; and the same bytes under the number of the format in
//! other enterprises, where they stay raw.

use crate::listed::{datagram, raw};
use crate::modes::Both;
use crate::random::Random;
use crate::shape::*;
use crate::work;

/// A record has at most so many bytes more than its layout.
const MORE: usize = 8;
/// The one whose formats are opened, and the least and the greatest other one.
const ENTERPRISES: [u32; 3] = [0, 1, 0xf_ffff];
const SAMPLES: [u32; 2] = [2, 4];

/// The bytes of a counter: all zero, all ones, or any.
#[derive(Clone, Copy)]
enum Fill {
    Zeros,
    Ones,
    Any,
}

fn filled(random: &mut Random, fill: Fill, count: usize) -> Vec<u8> {
    match fill {
        Fill::Zeros => vec![0; count],
        Fill::Ones => vec![0xff; count],
        Fill::Any => random.bytes(count),
    }
}

/// A record of this sample, and one that is kept raw behind it.
fn input(sample: u32, format: u32, payload: &[u8]) -> Vec<u8> {
    let fields = layout_of(SAMPLE, sample).unwrap().shapes.len() - 1;
    datagram(sample, fields, vec![raw(format, &[], payload), raw(4097, &[], b"next")])
}

/// Every length, with all bytes alike.
fn lengths(random: &mut Random, layout: &Layout, sample: u32) -> Vec<Vec<u8>> {
    let mut all = Vec::new();
    for length in 0..=layout.fixed_size() + MORE {
        for fill in [Fill::Zeros, Fill::Ones, Fill::Any] {
            let payload = filled(random, fill, length);
            all.extend(ENTERPRISES.map(|enterprise| input(sample, enterprise << 12 | layout.format, &payload)));
        }
    }
    all
}

/// Each counter by itself at an extreme, and the others anything.
fn extremes(random: &mut Random, layout: &Layout, sample: u32) -> Vec<Vec<u8>> {
    let mut all = Vec::new();
    for extreme in 0..layout.shapes.len() {
        for fill in [Fill::Zeros, Fill::Ones] {
            let parts = layout.shapes.iter().enumerate();
            let parts = parts.map(|(n, shape)| filled(random, if n == extreme { fill } else { Fill::Any }, shape.fixed_size()));
            let payload = parts.collect::<Vec<_>>().concat();
            all.push(input(sample, layout.format, &payload));
        }
    }
    all
}

pub fn all(fault: u32) -> Both {
    let mut random = Random::of_case(1, 0);
    let mut inputs = Vec::new();
    for layout in LAYOUTS.iter().filter(|layout| layout.kind == COUNTER) {
        for sample in SAMPLES {
            inputs.extend(lengths(&mut random, layout, sample));
            inputs.extend(extremes(&mut random, layout, sample));
        }
    }
    work::spread(inputs.len() as u64, fault, |case| inputs[case as usize].clone())
}
