//! The input of a case: one datagram or several, as grown, or with places that go wrong, or damaged afterwards.

use crate::grow::{Grower, Plan};
use crate::random::Random;
use crate::shape::{Mode, MAX_DEPTH};

/// Each record is made by the layout of either mode.
pub const EITHER: &[Mode] = &[Mode::Memo, Mode::Base];

/// The same seed, case and modes give the same bytes.
pub fn input(seed: u64, case: u64, modes: &'static [Mode]) -> Vec<u8> {
    let mut random = Random::of_case(seed, case);
    let manner = random.below(100);
    let trouble = if (42..80).contains(&manner) { 50 } else { 0 };
    let mut bytes = Vec::new();
    let datagrams = if random.chance(1, 5) { 2 + random.below(3) } else { 1 };
    for _ in 0..datagrams {
        bytes.extend(datagram(&mut random, trouble, modes));
    }
    if random.chance(1, 8) {
        let length = 1 + random.below(9);
        bytes.extend(random.bytes(length));
    }
    if manner >= 80 {
        for _ in 0..=random.below(2) {
            damage(&mut random, &mut bytes);
        }
    }
    bytes
}

fn datagram(random: &mut Random, trouble: usize, modes: &'static [Mode]) -> Vec<u8> {
    // One below the deepest is a place that goes wrong, too; the next is one whose first wrong record holds another.
    let reach = match random.below(12) {
        0 => MAX_DEPTH,
        1 => 1 + random.below(MAX_DEPTH as usize) as u32,
        2 if trouble > 0 => MAX_DEPTH + 1 + random.below(2) as u32,
        _ => 0,
    };
    let plan = Plan { trouble, outside: random.chance(1, 5), reach, modes };
    Grower { random, plan }.datagram().bytes()
}

/// One blow to the bytes, wherever it falls.
fn damage(random: &mut Random, bytes: &mut Vec<u8>) {
    if bytes.is_empty() {
        return;
    }
    let at = random.below(bytes.len());
    let word = at & !3;
    match random.below(7) {
        0 => bytes.truncate(at),
        1 => bytes[at] ^= 1 << random.below(8),
        2 => bytes[at] = random.below(256) as u8,
        3 if word + 4 <= bytes.len() => bytes[word..word + 4].copy_from_slice(&random.word().to_be_bytes()),
        4 => {
            bytes.drain(at..bytes.len().min(at + 4));
        }
        5 => {
            let more = random.bytes(4);
            bytes.splice(word..word, more);
        }
        _ => bytes.truncate(bytes.len() - random.below(bytes.len().min(8) + 1)),
    }
}
