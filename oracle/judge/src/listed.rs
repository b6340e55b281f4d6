//! The differences outside the domain that docs/DIFFERENCES.md lists: each input with what the rules and the crate give, as a datagram and
//! as a run. No record of the two modes' own is among them: both answer alike. That each of them is a row of that document, with the same
//! answers, is checked by tests/differences/run.

use crate::compare::{reading_of, theirs};
use crate::fault::Library;
use crate::shape::{Mode, AGGREGATION, DESCRIPTOR_WORDS, MAX_DEPTH, MAX_INPUT, MAX_OPAQUE};
use crate::tally::{same, Checked, Tally};
use crate::tree::*;

struct Row {
    what: &'static str,
    input: Vec<u8>,
    /// The code and position by the rules, and the crate's code.
    ours: (u32, usize),
    crates: u32,
    /// As a run: the code and position by the rules, and the crate's code with how many datagrams it gives.
    ours_run: (u32, usize),
    crates_run: (u32, usize),
}

pub fn frame(format: u32, body: Body) -> Frame {
    Frame { format, said: None, body, cut: 0, left: Vec::new(), pad: [0; 3] }
}

fn records(items: Vec<Frame>, said: Option<u32>) -> Counted<Frame> {
    Counted { said, items }
}

/// P2's header, and one sample of this format whose fields are 0.
pub fn datagram(format: u32, fields: usize, items: Vec<Frame>) -> Vec<u8> {
    let fields = (0..fields).map(|_| Item::Word(0)).collect();
    let sample = frame(format, Body::Records(fields, records(items, None)));
    let samples = Counted { said: None, items: vec![sample] };
    Datagram { version: 5, agent: Item::Address(0, Vec::new()), words: [0, 1, 0], samples }.bytes()
}

pub fn raw(format: u32, words: &[u32], more: &[u8]) -> Frame {
    let bytes: Vec<u8> = words.iter().flat_map(|word| word.to_be_bytes()).chain(more.iter().copied()).collect();
    frame(format, Body::Raw(bytes))
}

fn flows(items: Vec<Frame>) -> Vec<u8> {
    datagram(1, 7, items)
}

fn counter(record: Frame) -> Vec<u8> {
    datagram(2, 2, vec![record])
}

fn aggregation(inner: Counted<Frame>) -> Frame {
    frame(AGGREGATION, Body::Pdus(Counted { said: None, items: vec![inner] }))
}

/// P12, with the innermost PDU's records.
fn p12(innermost: Counted<Frame>) -> Vec<u8> {
    let mut record = aggregation(innermost);
    for _ in 1..MAX_DEPTH {
        record = aggregation(records(vec![record], None));
    }
    flows(vec![record])
}

/// A record that the crate opens and answers with `crates`, and that is kept raw here.
fn kept_raw(what: &'static str, input: Vec<u8>, crates: u32) -> Row {
    let end = input.len();
    let crates_run = match crates {
        0 => (0, 1),
        2 => (0, 0),
        code => (code, 0),
    };
    Row { what, input, ours: (0, end), crates, ours_run: (0, end), crates_run }
}

/// An input that the rules refuse with `ours`, as a run too.
fn refused(what: &'static str, input: Vec<u8>, ours: (u32, usize), crates: u32, crates_run: (u32, usize)) -> Row {
    Row { what, input, ours, crates, ours_run: ours, crates_run }
}

fn too_long() -> Vec<Row> {
    let p2: Vec<u8> = [5u32, 0, 0, 1, 0, 0].iter().flat_map(|word| word.to_be_bytes()).collect();
    let times = MAX_INPUT / p2.len() + 1;
    let to_length = |mut bytes: Vec<u8>| {
        bytes.resize(MAX_INPUT + 1, 0);
        bytes
    };
    vec![
        // The crate reads the zeros behind P2 as a datagram of another version.
        refused("longer than the longest input: P2, and zeros", to_length(p2.clone()), (1, 0), 0, (3, 0)),
        refused("longer than the longest input: version 4, and zeros", to_length(vec![0, 0, 0, 4]), (1, 0), 3, (3, 0)),
        refused("longer than the longest input: P2, end to end", p2.repeat(times), (1, 0), 0, (0, times)),
    ]
}

fn too_deep() -> Vec<Row> {
    let inner = aggregation(records(Vec::new(), None));
    vec![
        refused("a record at depth 9 that is not there", p12(records(Vec::new(), Some(1))), (8, 192), 2, (0, 0)),
        refused("a record at depth 9 that the crate keeps raw", p12(records(vec![raw(5, &[], &[])], None)), (8, 192), 0, (0, 1)),
        refused("an aggregation at depth 9", p12(records(vec![inner], None)), (8, 192), 0, (0, 1)),
    ]
}

fn opened() -> Vec<Row> {
    let (bad, long) = (b"\xff\0\0\0", MAX_OPAQUE as u32 + 1);
    let flow = |format, words: &[u32], more: &[u8]| flows(vec![raw(format, words, more)]);
    let unknown = raw(1, &[0], &[]);
    vec![
        kept_raw("flow record 1017, empty", flow(1017, &[], &[]), 2),
        kept_raw("flow record 1 of enterprise 4413, empty", flow(4413 << 12 | 1, &[], &[]), 2),
        kept_raw("flow record 1027, as the crate takes it", flow(1027, &[7], &[]), 0),
        kept_raw("flow record 1038, its string not UTF-8", flow(1038, &[1], bad), 7),
        kept_raw("flow record 2001, its length above the longest opaque", flow(2001, &[long], &[]), 5),
        refused("flow record 1017, empty, and a fault behind it", flows(vec![raw(1017, &[], &[]), unknown]), (6, 80), 2, (0, 0)),
        kept_raw("counter record 6, empty", counter(raw(6, &[], &[])), 2),
        kept_raw("counter record 3002, as the crate takes it", counter(raw(3002, &[7], &[])), 0),
        kept_raw("counter record 1005, its string not UTF-8", counter(raw(1005, &[1], bad)), 7),
        kept_raw("counter record 1005, its length above the longest opaque", counter(raw(1005, &[long], &[])), 5),
    ]
}

/// What the library and the rules answer in a mode.
fn check_mode(row: &Row, library: &Library) -> Checked {
    let mut store = vec![0; row.input.len().min(4096) * DESCRIPTOR_WORDS];
    let ours = library.decode(&row.input, &mut store).answer;
    let run = library.decode_run(&row.input, &mut store);
    let name = |part: &str| format!("listed, {}, {}: {part}", row.what, library.mode);
    same(&name("code and position"), &(ours.code, ours.at), &row.ours)?;
    same(&name("code and position as a run"), &(run.code, run.at), &row.ours_run)?;
    let [one, run] = [false, true].map(|run| reading_of(&row.input, run, library.mode));
    same(&name("the rules' code and position"), &(one.code, one.at), &row.ours)?;
    same(&name("the rules' code and position as a run"), &(run.code, run.at), &row.ours_run)
}

fn check_row(row: &Row, fault: u32) -> Checked {
    for mode in [Mode::Memo, Mode::Base] {
        check_mode(row, &Library { fault, mode })?;
    }
    let name = |part: &str| format!("listed, {}: {part}", row.what);
    let crates = theirs(&row.input, false).map_or_else(|refused| refused.code, |_| 0);
    same(&name("the crate's code"), &crates, &row.crates)?;
    let crates = theirs(&row.input, true).map_or_else(|refused| (refused.code, 0), |all| (0, all.len()));
    same(&name("the crate's code and datagrams as a run"), &crates, &row.crates_run)
}

fn rows() -> impl Iterator<Item = Row> {
    too_long().into_iter().chain(too_deep()).chain(opened())
}

/// How many bytes of an input are shown: those of all but the longest are there, and these are told apart by them.
const SHOWN: usize = 512;

/// A line for each: its length, its first bytes, the rules' code and position, the crate's code, and the same four as a run.
pub fn show() {
    for row in rows() {
        let first: String = row.input.iter().take(SHOWN).map(|byte| format!("{byte:02x}")).collect();
        let (one, run, crates) = (row.ours, row.ours_run, row.crates_run);
        println!("{} {first} {} {} {} {} {} {} {}", row.input.len(), one.0, one.1, row.crates, run.0, run.1, crates.0, crates.1);
    }
}

pub fn check(fault: u32) -> Tally {
    let mut tally = Tally::default();
    for row in rows() {
        tally.cases += 1;
        if let Err(found) = check_row(&row, fault) {
            tally.differ += 1;
            tally.note(found, &row.input);
        }
    }
    tally
}
