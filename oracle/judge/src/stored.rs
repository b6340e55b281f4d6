//! Inputs with their answers in the base mode, for a program that replays them where no Rust is at hand: crates/replay. What the crate
//! tells (acceptance, the kind of refusal, where in a string it stops being UTF-8, the header, each descriptor's kind, format, parent and
//! depth, its fields, the payload of what is kept raw) is the crate's; other positions, steps, ranges, first bytes and depth 9 are read by
//! the rules. The library has no part in them.

use crate::compare::{brought_inside, holds_alone, is_named, reading_of, theirs, Judge};
use crate::make;
use crate::paper::{self, Reading};
use crate::shape::{layout_of, row_of, Descriptor, Mode, DESCRIPTOR_WORDS, LAYOUTS};
use crate::structure::{self, Held, Node};
use crate::tally::{same, Checked, Difference, Key, Tally};
use crate::value::Value;
use sflow_parser::models::core::SFlowDatagram;
use sflow_parser::models::record_flows::{AsPathSegment, AsPathType};
use std::collections::BTreeMap;
use std::fmt::Write;

/// What is asked of an input: one datagram, one with the fields of its descriptors, or a run.
#[derive(Clone, Copy, PartialEq)]
enum Call {
    One,
    Fields,
    Run,
}

/// A call, so many words of store, and the bytes.
pub struct Case {
    call: Call,
    words: usize,
    data: Vec<u8>,
}

/// An answer, and the header that goes with it.
struct Answer {
    reading: Reading,
    header: Vec<Value>,
}

fn header(datagram: &SFlowDatagram) -> Vec<Value> {
    let words = [datagram.sub_agent_id, datagram.sequence_number, datagram.uptime, datagram.samples.len() as u32];
    let mut all = vec![structure::address(&datagram.agent_address)];
    all.extend(words.map(Value::Word));
    all
}

/// Whether the crate's structure is that of the descriptors.
fn agrees(data: &[u8], reading: &Reading, datagrams: &[SFlowDatagram]) -> Checked {
    let nodes = structure::nodes(datagrams);
    let ours: Vec<_> = reading.store.iter().map(|&[kind, format, _, _, parent, depth, ..]| (kind, format, parent, depth)).collect();
    let crates: Vec<_> = nodes.iter().map(|node| (node.kind, node.format, node.parent, node.depth)).collect();
    same("the rules and the crate: descriptors", &ours, &crates)?;
    for (descriptor, node) in reading.store.iter().zip(&nodes) {
        let (start, length) = (descriptor[2] as usize, descriptor[3] as usize);
        if let Some(raw) = node.raw {
            same("the rules and the crate: payload", &&data[start..start + length], &raw)?;
        }
        fields_agree(data, descriptor, node)?;
    }
    Ok(())
}

/// Whether the crate's fields are those that are read by the rules.
fn fields_agree(data: &[u8], descriptor: &Descriptor, node: &Node) -> Checked {
    let Some(layout) = layout_of(node.kind, node.format) else {
        return Ok(());
    };
    let name = format!("the rules and the crate: fields of {}/{}", node.kind, node.format);
    let ((code, ..), values) = paper::fields(data, descriptor, layout, Mode::Base);
    same(&name, &(code, values.len()), &(0, node.held.len()))?;
    for (index, (value, held)) in values.iter().zip(&node.held).enumerate() {
        let alike = match (*value, held) {
            (Value::Span(start, count), Held::Words(own)) => is_list(data, start, count, own),
            (Value::Span(start, count), Held::Path(own)) => is_path(data, start, count, own),
            (value, held) => holds_alone(data, value, held),
        };
        same(&format!("{name}, {index}"), &alike, &true)?;
    }
    Ok(())
}

fn is_list(data: &[u8], start: usize, count: usize, own: &[u32]) -> bool {
    let bytes: Vec<u8> = own.iter().flat_map(|word| word.to_be_bytes()).collect();
    count == own.len() && data.get(start..start + bytes.len()) == Some(&bytes[..])
}

fn is_path(data: &[u8], start: usize, count: usize, own: &[AsPathSegment]) -> bool {
    let mut at = start;
    for segment in own {
        let ((code, end, _), kind, (first, words)) = paper::segment(data, at);
        let named = is_named(kind, matches!(kind, 1 | 2), segment.path_type as u32, AsPathType::AsSet as u32);
        if code != 0 || !named || !is_list(data, first, words, &segment.path) {
            return false;
        }
        at = end;
    }
    count == own.len()
}

/// The rules' answer, once the crate has been asked. Only depth 9 is the rules' alone.
fn agreed(data: &[u8], run: bool) -> Result<Answer, Difference> {
    let reading = reading_of(data, run, Mode::Base);
    if reading.code == 8 {
        return Ok(Answer { reading, header: Vec::new() });
    }
    let (inside, again) = brought_inside(data, &reading, run)?;
    match theirs(&inside, run) {
        Ok(datagrams) => {
            same("the rules and the crate: code", &reading.code, &0)?;
            agrees(&inside, &again, &datagrams)?;
            let header = if run { Vec::new() } else { header(&datagrams[0]) };
            Ok(Answer { reading, header })
        }
        Err(refused) => {
            same("the rules and the crate: code", &reading.code, &refused.code)?;
            if reading.code == 7 {
                refused.same_place("the rules and the crate", reading.at, &reading)?;
            }
            Ok(Answer { reading, header: Vec::new() })
        }
    }
}

fn put_header(line: &mut String, values: &[Value]) {
    let none = [Value::Address(0, [0; 16]), Value::Word(0), Value::Word(0), Value::Word(0), Value::Word(0)];
    for value in if values.is_empty() { &none } else { values } {
        match value {
            Value::Address(kind, bytes) => {
                let _ = write!(line, " header={kind},{}", hex(bytes));
            }
            Value::Word(word) => {
                let _ = write!(line, ",{word}");
            }
            _ => {}
        }
    }
}

fn hex(bytes: &[u8]) -> String {
    bytes.iter().map(|byte| format!("{byte:02x}")).collect()
}

/// The field reading of a descriptor: code, position and steps, and each value behind a space.
fn put_fields(line: &mut String, data: &[u8], descriptor: &Descriptor) {
    let Some(layout) = layout_of(descriptor[0], descriptor[1]) else { return };
    let ((code, at, steps), values) = paper::fields(data, descriptor, layout, Mode::Base);
    let _ = write!(line, "; {code},{at},{steps}");
    for value in values {
        let _ = match value {
            Value::Word(word) => write!(line, " {word}"),
            Value::Long(long) => write!(line, " {long}"),
            Value::Block(bytes, count) => write!(line, " {}", hex(&bytes[..count])),
            Value::Address(kind, bytes) => write!(line, " {kind}/{}", hex(&bytes)),
            Value::Span(start, count) => write!(line, " {start}+{count}"),
        };
    }
}

impl Case {
    /// With room for all and `spare` words besides; or with too little, by one word up to those of a descriptor.
    fn new(data: &[u8], call: Call, enough: bool, spare: usize) -> Self {
        let all = reading_of(data, call == Call::Run, Mode::Base).store.len() * DESCRIPTOR_WORDS;
        let words = if enough || all == 0 { all + spare } else { all - 1 - spare % DESCRIPTOR_WORDS };
        Case { call, words, data: data.to_vec() }
    }

    /// As the program reads it.
    pub fn put(&self, out: &mut Vec<u8>) {
        out.push(match self.call {
            Call::One => b'o',
            Call::Fields => b'f',
            Call::Run => b'r',
        });
        for number in [self.words, self.data.len()] {
            out.extend_from_slice(&u16::try_from(number).expect("a case is short").to_be_bytes());
        }
        out.extend_from_slice(&self.data);
    }

    /// What the program must print.
    pub fn line(&self) -> Result<String, Difference> {
        let Answer { reading, header } = agreed(&self.data, self.call == Call::Run)?;
        let needed = reading.store.len();
        let lacks = reading.code == 0 && needed > self.words / DESCRIPTOR_WORDS;
        let (code, at) = if lacks { (9, 0) } else { (reading.code, reading.at) };
        let (store, header) = if lacks { (&[][..], &[][..]) } else { (&reading.store[..], &header[..]) };
        let name = match self.call {
            Call::One => "one",
            Call::Fields => "fields",
            Call::Run => "run",
        };
        let mut line = format!("{name} code={code} at={at} steps={} needed={needed}", reading.steps);
        if self.call == Call::Fields {
            store.iter().for_each(|descriptor| put_fields(&mut line, &self.data, descriptor));
            return Ok(line + "\n");
        }
        if self.call == Call::One {
            put_header(&mut line, header);
        }
        let _ = write!(line, " kept={}", self.words - store.len() * DESCRIPTOR_WORDS);
        for descriptor in store {
            let _ = write!(line, "; {}", descriptor.map(|word| word.to_string()).join(","));
        }
        Ok(line + "\n")
    }
}

/// Random inputs are taken from so many.
const TRIED: u64 = 200_000;
/// None is longer than this.
const LONGEST: usize = 260;
/// An input is taken where it reaches a format, code or class that fewer than so many before it reach.
const EACH: usize = 14;
/// The spare words of a store are fewer than this: from none to more than a descriptor's.
const SPARE: usize = DESCRIPTOR_WORDS + 5;

/// The inputs that are taken, and what they reach.
fn chosen(seed: u64) -> (Vec<Vec<u8>>, Tally) {
    let (mut inputs, mut all) = (Vec::new(), Tally::default());
    let mut counts: BTreeMap<Key, usize> = BTreeMap::new();
    for case in 0..TRIED {
        let input = make::input(seed, case, &[Mode::Base]);
        if input.len() > LONGEST {
            continue;
        }
        let mut judge = Judge::new(0, Mode::Base);
        judge.case(&input);
        if judge.tally.keys().any(|key| counts.get(&key).is_none_or(|count| *count < EACH)) {
            judge.tally.keys().for_each(|key| *counts.entry(key).or_insert(0) += 1);
            inputs.push(input);
            all.merge(judge.tally);
        }
    }
    (inputs, all)
}

/// A chosen input has its fields read where it has a descriptor of a layout that fewer than so many before it have.
const FIELDED: usize = 6;

/// The inputs whose fields are read: those given that are accepted, and of the chosen ones some of every layout.
fn fielded<'a>(given: &'a [Vec<u8>], chosen: &'a [Vec<u8>]) -> Vec<&'a [u8]> {
    let mut counts = [0; LAYOUTS.len()];
    let mut all = Vec::new();
    for (data, always) in given.iter().map(|data| (data, true)).chain(chosen.iter().map(|data| (data, false))) {
        let reading = reading_of(data, false, Mode::Base);
        let rows: Vec<usize> = reading.store.iter().filter_map(|[kind, format, ..]| row_of(*kind, *format)).collect();
        if reading.code == 0 && (always || rows.iter().any(|row| counts[*row] < FIELDED)) {
            if !always {
                rows.iter().for_each(|row| counts[*row] += 1);
            }
            all.push(&data[..]);
        }
    }
    all
}

/// The cases: the given inputs as one datagram and as a run, the chosen ones each in one way, and some of both with their fields. With what
/// the chosen ones reach.
pub fn cases(seed: u64, given: &[Vec<u8>]) -> (Vec<Case>, Tally) {
    let mut all = Vec::new();
    for (n, data) in given.iter().enumerate() {
        all.extend([Call::One, Call::Run].map(|call| Case::new(data, call, n % 8 != 7, n % SPARE)));
    }
    let (inputs, tally) = chosen(seed);
    for (n, data) in inputs.iter().enumerate() {
        let one = reading_of(data, false, Mode::Base);
        let several = one.code == 0 && one.at < data.len();
        let call = if several || n % 4 == 3 { Call::Run } else { Call::One };
        all.push(Case::new(data, call, n % 8 != 5, n % SPARE));
    }
    for (n, data) in fielded(given, &inputs).into_iter().enumerate() {
        all.push(Case::new(data, Call::Fields, n % 16 != 15, n % SPARE));
    }
    (all, tally)
}
