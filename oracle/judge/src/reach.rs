//! What an input reaches: formats, codes and classes of refusal, and what accepted datagrams hold besides.

use crate::paper::{self, Reading};
use crate::shape::*;
use crate::tally::{Key, Tally, AGENTS, BEHIND, LEFT, LONGEST_ETHERNET, NOT_ASCII, RUBBISH};
use crate::value::Value;

/// The formats, codes and classes of a reading, and the code of the run.
pub fn count(tally: &mut Tally, reading: &Reading, run: &Reading) {
    tally.reach(Key::Code(reading.code));
    tally.reach(Key::RunCode(run.code));
    if reading.code >= 2 {
        tally.reach(Key::Refusal(reading.code, reading.place));
    }
    tally.accepted += u64::from(reading.code == 0);
    for [kind, format, _, _, _, depth, ..] in &reading.store {
        match (*kind, layout_of(*kind, *format)) {
            (SAMPLE, Some(_)) => tally.reach(Key::Sample(*format)),
            (FLOW, Some(_)) => tally.reach(Key::Flow(*format)),
            (COUNTER, Some(_)) => tally.reach(Key::Counter(*format)),
            (DATAGRAM | PDU, _) => {}
            (kind, _) => tally.reach(Key::Raw(kind)),
        }
        if matches!(*kind, FLOW | COUNTER) {
            tally.reach(Key::Depth(*depth));
        }
    }
    for opened in &reading.opened {
        tally.reach(Key::Opened(opened.kind, opened.format));
    }
}

/// What an accepted datagram holds besides its formats.
pub fn see(tally: &mut Tally, data: &[u8], reading: &Reading, mode: Mode) {
    if let Some(Value::Address(kind, _)) = reading.header.get(1) {
        tally.reach(Key::Seen(AGENTS[*kind as usize]));
    }
    if reading.code == 0 && reading.at < data.len() {
        tally.reach(Key::Seen(BEHIND));
    }
    for descriptor in &reading.store {
        let [kind, format, start, length, ..] = *descriptor;
        let (end, pad) = ((start + length) as usize, length.wrapping_neg() as usize % 4);
        if matches!(kind, SAMPLE | FLOW | COUNTER) && data[end..end + pad].iter().any(|byte| *byte != 0) {
            tally.reach(Key::Seen(RUBBISH));
        }
        if let (FLOW | COUNTER, Some(layout)) = (kind, layout_of(kind, format)) {
            see_record(tally, data, descriptor, layout, mode);
        }
    }
}

fn see_record(tally: &mut Tally, data: &[u8], descriptor: &Descriptor, layout: &Layout, mode: Mode) {
    let ((_, at, _), values) = paper::fields(data, descriptor, layout, mode);
    if layout.format != AGGREGATION && at < (descriptor[2] + descriptor[3]) as usize {
        tally.reach(Key::Seen(LEFT));
    }
    for (shape, value) in layout.shapes.iter().zip(&values) {
        if let (Shape::Text, Value::Span(start, count)) = (shape, value) {
            if !data[*start..start + count].is_ascii() {
                tally.reach(Key::Seen(NOT_ASCII));
            }
        }
    }
}

/// The lengths of the sampled Ethernet records of a reading: of those that are read, and of the one that is refused.
pub fn count_ethernet(tally: &mut Tally, reading: &Reading) {
    for [kind, format, _, length, ..] in reading.store.iter().chain(&reading.within) {
        if (*kind, *format) == (FLOW, ETHERNET) && *length <= LONGEST_ETHERNET {
            tally.reach(Key::Ethernet(reading.code, *length));
        }
    }
}
