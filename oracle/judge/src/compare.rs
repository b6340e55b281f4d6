//! One input in one mode: the library's answers against the reading by the rules (docs/RULES.md), and in the base mode against the crate's,
//! which reads as that does.

use crate::fault::Library;
use crate::paper::{self, Cursor, Opened, Reading};
use crate::reach;
use crate::refused::Refused;
use crate::shape::*;
use crate::structure::{self, Held, Node};
use crate::tally::{same, Checked, Difference, Key, Tally};
use crate::value::Value;
use sflow_parser::models::core::{DropReason, SFlowDatagram};
use sflow_parser::models::record_flows::{AsPathSegment, AsPathType, UrlDirection};
use sflow_parser::parsers::{parse_datagram, parse_datagrams};
use std::panic::catch_unwind;

/// A format word that the crate keeps raw in every place.
const KEPT_RAW: u32 = 4097;

/// What the crate answers: its datagrams, or its refusal.
pub type Theirs = Result<Vec<SFlowDatagram>, Refused>;

/// The crate's answer to one datagram or to a run of them.
pub fn theirs(data: &[u8], run: bool) -> Theirs {
    let parse = || if run { parse_datagrams(data) } else { parse_datagram(data).map(|datagram| vec![datagram]) };
    match catch_unwind(parse) {
        Ok(answer) => answer.map_err(|error| Refused::new(&error)),
        Err(_) => Err(Refused::ended()),
    }
}

/// The reading by the rules.
pub fn reading_of(data: &[u8], run: bool, mode: Mode) -> Reading {
    if run {
        paper::decode_run(data, mode)
    } else {
        paper::decode(data, mode)
    }
}

/// The input with a format word that the crate keeps raw for each record that only the crate opens, and its reading in the base mode, whose
/// answers must be as they were.
pub fn brought_inside(data: &[u8], reading: &Reading, run: bool) -> Result<(Vec<u8>, Reading), Difference> {
    let mut inside = data.to_vec();
    for Opened { at, .. } in &reading.opened {
        inside[*at..*at + 4].copy_from_slice(&KEPT_RAW.to_be_bytes());
    }
    let again = reading_of(&inside, run, Mode::Base);
    let answer = |of: &Reading| (of.code, of.at, of.steps);
    same("brought inside: answer", &answer(&again), &answer(reading))?;
    let but_format = |of: &Reading| of.store.iter().map(|[kind, _, rest @ ..]| (*kind, *rest)).collect::<Vec<_>>();
    same("brought inside: descriptors", &but_format(&again), &but_format(reading))?;
    Ok((inside, again))
}

/// The library's answer to one datagram or a run: code, position, steps and needed; the header's values; the descriptors.
struct Ours {
    answer: (u32, usize, usize, usize),
    header: Vec<Value>,
    store: Vec<Descriptor>,
}

/// What every word of a lent store holds beforehand.
pub fn lent(words: usize) -> Vec<u32> {
    (0..words as u32).map(|n| 0xa5a5_0000 ^ n.wrapping_mul(0x9e37_79b9)).collect()
}

pub struct Judge {
    pub tally: Tally,
    library: Library,
    /// The differences of the case at hand.
    found: Vec<Difference>,
    /// Whether the case at hand had a position of code 7 compared with the crate's index.
    indexed: bool,
}

impl Judge {
    pub fn new(fault: u32, mode: Mode) -> Self {
        Judge { tally: Tally::default(), library: Library { fault, mode }, found: Vec::new(), indexed: false }
    }

    /// Compares one input, as a datagram and as a run; answers how it is read as a datagram.
    pub fn case(&mut self, data: &[u8]) -> Reading {
        let mode = self.library.mode;
        self.tally.cases += 1;
        self.tally.bytes += data.len() as u64;
        let (one, run) = (paper::decode(data, mode), paper::decode_run(data, mode));
        reach::count(&mut self.tally, &one, &run);
        reach::see(&mut self.tally, data, &one, mode);
        self.judge(data, &one, false);
        self.judge(data, &run, true);
        let parts = (0..3).try_for_each(|pick| self.parts(data, one.steps * 3 + pick));
        self.found.extend(parts.err());
        self.tally.indexed += u64::from(std::mem::take(&mut self.indexed));
        self.tally.differ += u64::from(!self.found.is_empty());
        for found in std::mem::take(&mut self.found) {
            self.tally.note(found, data);
        }
        one
    }

    /// Asks both judges, whatever the first one finds; in the memo's mode there is only the first.
    fn judge(&mut self, data: &[u8], reading: &Reading, run: bool) {
        let by_paper = self.answers(data, reading, run);
        self.found.extend(by_paper.err());
        if self.library.mode == Mode::Base {
            let by_crate = self.against(data, reading, &theirs(data, run), run);
            self.found.extend(by_crate.err());
        }
    }

    /// The library with this much room, and whether the store is as it must be.
    fn call(&self, data: &[u8], words: usize, run: bool) -> Result<Ours, Difference> {
        let mut store = lent(words);
        let (answer, header) = if run {
            (self.library.decode_run(data, &mut store), Vec::new())
        } else {
            let got = self.library.decode(data, &mut store);
            (got.answer, got.values())
        };
        let written = if answer.code == 0 { answer.needed.saturating_mul(DESCRIPTOR_WORDS).min(words) } else { 0 };
        same("store: words behind the last descriptor", &&store[written..], &&lent(words)[written..])?;
        let store = store[..written].chunks_exact(DESCRIPTOR_WORDS).map(|words| words.try_into().unwrap()).collect();
        Ok(Ours { answer: (answer.code, answer.at, answer.steps, answer.needed), header, store })
    }

    /// The library against the reading by the rules, with room, without, and field by field.
    fn answers(&mut self, data: &[u8], reading: &Reading, run: bool) -> Checked {
        let of = if run { "run" } else { "decode" };
        let needed = reading.store.len();
        let spare = (data.len() * 5 + needed) % (2 * DESCRIPTOR_WORDS);
        let ours = self.call(data, needed * DESCRIPTOR_WORDS + spare, run)?;
        same(&format!("{of}: code"), &ours.answer.0, &reading.code)?;
        same(&format!("{of}: position"), &ours.answer.1, &reading.at)?;
        same(&format!("{of}: steps"), &ours.answer.2, &reading.steps)?;
        same(&format!("{of}: descriptors needed"), &ours.answer.3, &needed)?;
        same(&format!("{of}: descriptors"), &ours.store, &reading.store)?;
        if !run {
            header_is(&ours.header, &reading.header)?;
        }
        self.too_little_room(data, reading, run)?;
        self.refused_fields(data, reading)?;
        for (index, descriptor) in ours.store.iter().enumerate() {
            self.fields(data, descriptor)?;
            self.changed_fields(data, descriptor, index + data.len())?;
        }
        Ok(())
    }

    /// A refusal that is not for want of room is the same with no room at all.
    fn too_little_room(&mut self, data: &[u8], reading: &Reading, run: bool) -> Checked {
        let needed = reading.store.len();
        let words = if needed == 0 { 0 } else { (needed - 1) * DESCRIPTOR_WORDS + data.len() % DESCRIPTOR_WORDS };
        let ours = self.call(data, words, run)?;
        let expected = match (reading.code, needed) {
            (0, 1..) => (9, 0, reading.steps, needed),
            (code, _) => (code, reading.at, reading.steps, 0),
        };
        if expected.0 == 9 {
            self.tally.reach(if run { Key::RunCode(9) } else { Key::Code(9) });
        }
        same("too little room: answer", &ours.answer, &expected)?;
        if !run {
            header_is(&ours.header, &[])?;
        }
        Ok(())
    }

    /// The fields of the sample or record in which the input was refused: they are refused as the input was, in the same place.
    fn refused_fields(&self, data: &[u8], reading: &Reading) -> Checked {
        let Some(within) = &reading.within else { return Ok(()) };
        let row = row_of(within[0], within[1]).unwrap();
        let answered = self.reading(data, within, row)?;
        same("fields of what was refused: code and position", &answered, &(reading.code, reading.at))
    }

    /// The payload, the whole and the fields of one descriptor.
    fn fields(&mut self, data: &[u8], descriptor: &Descriptor) -> Checked {
        let [kind, format, start, length, ..] = *descriptor;
        let payload = self.library.payload(data, descriptor);
        same("payload", &(payload.start, payload.count), &(start as usize, length as usize))?;
        self.whole(data, descriptor)?;
        match row_of(kind, format) {
            Some(row) => self.reading(data, descriptor, row).map(|_| ()),
            None => Ok(()),
        }
    }

    /// All of what a descriptor of the input stands for; of a sample or record it is read once more, from its first byte on.
    fn whole(&self, data: &[u8], descriptor: &Descriptor) -> Checked {
        let [kind, format, start, length, _, _, first, ..] = *descriptor;
        let whole = self.library.whole(data, descriptor);
        same("whole", &(whole.start, whole.count), &paper::whole(data, descriptor))?;
        if !matches!(kind, SAMPLE | FLOW | COUNTER) {
            return same("whole: its end", &(whole.start + whole.count), &((start + length) as usize));
        }
        let mut cursor = Cursor::new(data, first as usize, data.len());
        let again = cursor.word().and_then(|format| Ok((format, cursor.opaque()?)));
        same("whole, read again", &again, &Ok((format, (start as usize, length as usize))))?;
        same("whole: its end", &(whole.start + whole.count), &cursor.at)
    }

    /// One field reading against that by the rules; answers its code and position.
    fn reading(&self, data: &[u8], descriptor: &Descriptor, row: usize) -> Result<(u32, usize), Difference> {
        let layout = &LAYOUTS[row];
        let name = format_args!("fields of {}/{}", layout.kind, layout.format).to_string();
        let (outcome, values) = self.library.read(row, data, descriptor);
        let (expected, held) = paper::fields(data, descriptor, layout, self.library.mode);
        same(&format!("{name}: outcome"), &(outcome.code, outcome.at, outcome.steps), &expected)?;
        if expected.0 == 0 {
            same(&name, &values, &held)?;
        } else {
            same(&format!("{name}: zero on a refusal"), &values.iter().all(Value::is_zero), &true)?;
        }
        Ok((outcome.code, outcome.at))
    }

    /// A descriptor that is not one of the input's: another range, another kind, or another call; and another first byte, which no
    /// field reading looks at.
    fn changed_fields(&mut self, data: &[u8], descriptor: &Descriptor, pick: usize) -> Checked {
        let mut changed = *descriptor;
        let [_, _, _, _, _, _, first, ..] = &mut changed;
        *first = !*first;
        let own = row_of(descriptor[0], descriptor[1]);
        let mut row = own.unwrap_or(pick % LAYOUTS.len());
        match pick % 11 {
            0 => changed[3] /= 2,
            1 => changed[2] = changed[2].wrapping_add(4),
            2 => changed[3] = changed[3].saturating_sub(1),
            3 => changed[3] = u32::MAX,
            4 => (changed[2], changed[3]) = (u32::MAX, 1),
            5 => (changed[2], changed[3]) = (data.len() as u32, 0),
            6 => changed[0] ^= 1,
            7 => changed[1] ^= 1 << (pick / 11 % 32),
            8 => changed[2] = changed[2].wrapping_sub(4),
            9 => changed[3] = (data.len() as u32).wrapping_sub(changed[2]).wrapping_add(pick as u32 / 11 % 2),
            _ => row = pick / 11 % LAYOUTS.len(),
        }
        let (code, _) = self.reading(data, &changed, row)?;
        self.tally.reach(Key::FieldCode(code));
        let inside = changed[2] as usize + changed[3] as usize <= data.len();
        let expected = if inside { (changed[2] as usize, changed[3] as usize) } else { (0, 0) };
        let payload = self.library.payload(data, &changed);
        same("payload of a changed descriptor", &(payload.start, payload.count), &expected)?;
        self.changed_whole(data, changed, pick)
    }

    /// All of a changed descriptor, whose first byte is some way before its start, or behind it.
    fn changed_whole(&self, data: &[u8], mut changed: Descriptor, pick: usize) -> Checked {
        for first in [changed[6], changed[2].saturating_sub(pick as u32 % 16), changed[2].saturating_add(1)] {
            changed[6] = first;
            let whole = self.library.whole(data, &changed);
            same("whole of a changed descriptor", &(whole.start, whole.count), &paper::whole(data, &changed))?;
        }
        Ok(())
    }

    /// A segment and a list's word in places that no answer named.
    fn parts(&self, data: &[u8], pick: usize) -> Checked {
        let at = if pick % 16 == 15 { usize::MAX - pick } else { pick * 13 % (data.len() + 5) };
        let segment = self.library.next_segment(data, at);
        let (outcome, kind, path) = paper::segment(data, at);
        same("segment anywhere: outcome", &(segment.outcome.code, segment.outcome.at, segment.outcome.steps), &outcome)?;
        same("segment anywhere", &(segment.kind, segment.path.start, segment.path.count), &(kind, path.0, path.1))?;
        let (count, n) = (pick % 9, if pick % 17 == 16 { usize::MAX / 4 + 1 } else { pick % 8 });
        let word = n.checked_mul(4).and_then(|skipped| data.get(at.checked_add(skipped)?..)?.first_chunk::<4>());
        let expected = word.filter(|_| n < count).map_or((false, 0), |word| (true, u32::from_be_bytes(*word)));
        let listed = self.library.list_word(data, at, count, n);
        same("list's word anywhere", &(listed.present, listed.value), &expected)
    }

    /// The library against the crate, as far as the input lies in the domain; what lies outside is counted, and brought inside.
    fn against(&mut self, data: &[u8], reading: &Reading, crates: &Theirs, run: bool) -> Checked {
        let code = crates.as_ref().map_or_else(|refused| refused.code, |_| 0);
        same("the crate's refusal has no code in the rules", &(code == u32::MAX), &false)?;
        if reading.code == 1 {
            self.tally.reach(Key::Long(code));
            return Ok(());
        }
        if reading.code == 8 {
            self.tally.reach(Key::Deep(code));
            return self.made_shallow(data, reading, run);
        }
        if reading.opened.is_empty() {
            return self.equal(data, reading, crates, run);
        }
        if run {
            return self.inside(data, reading, true);
        }
        self.tally.reach(Key::OpenedAnswer(reading.code, code));
        match (reading.code, code) {
            (0, 0) => self.equal(data, reading, crates, false)?,
            // What the crate opens it may refuse; it reads on where the rules do, so it accepts nothing more.
            (_, 0) => same("outside: code", &reading.code, &code)?,
            _ => {}
        }
        self.inside(data, reading, false)
    }

    /// The crate judges the input with each record that only it opens kept raw.
    fn inside(&mut self, data: &[u8], reading: &Reading, run: bool) -> Checked {
        let (inside, again) = brought_inside(data, reading, run)?;
        self.judge(&inside, &again, run);
        Ok(())
    }

    /// Gives the record in which one would begin at depth 9 a format word that nobody opens. No fault may come before that place, and
    /// the crate judges what is left.
    fn made_shallow(&mut self, data: &[u8], reading: &Reading, run: bool) -> Checked {
        let mut shallow = data.to_vec();
        shallow[reading.at_limit..reading.at_limit + 4].copy_from_slice(&KEPT_RAW.to_be_bytes());
        let again = reading_of(&shallow, run, Mode::Base);
        same("made shallow: no fault before", &(again.code != 0 && again.at < reading.at), &false)?;
        self.judge(&shallow, &again, run);
        Ok(())
    }

    fn equal(&mut self, data: &[u8], reading: &Reading, crates: &Theirs, run: bool) -> Checked {
        let of = if run { "run and the crate" } else { "decode and the crate" };
        let ours = self.call(data, data.len() / 4 * DESCRIPTOR_WORDS, run)?;
        let datagrams = match crates {
            Ok(datagrams) => datagrams,
            Err(refused) => return self.equal_refusal(of, &ours, reading, refused),
        };
        same(&format!("{of}: code"), &ours.answer.0, &0)?;
        let nodes = structure::nodes(datagrams);
        same(&format!("{of}: how many descriptors"), &ours.store.len(), &nodes.len())?;
        for (descriptor, node) in ours.store.iter().zip(&nodes) {
            self.equal_node(data, descriptor, node)?;
        }
        Ok(())
    }

    /// The code, and of an ill-formed string the place in it.
    fn equal_refusal(&mut self, of: &str, ours: &Ours, reading: &Reading, refused: &Refused) -> Checked {
        same(&format!("{of}: code"), &ours.answer.0, &refused.code)?;
        if refused.code != 7 {
            return Ok(());
        }
        self.indexed = true;
        refused.same_place(of, ours.answer.1, reading)
    }

    fn equal_node(&self, data: &[u8], descriptor: &Descriptor, node: &Node) -> Checked {
        let [kind, format, _, _, parent, depth, first, ..] = *descriptor;
        let place = (node.kind, node.format, node.parent, node.depth);
        same("the crate: kind, format, parent, depth", &(kind, format, parent, depth), &place)?;
        if matches!(kind, SAMPLE | FLOW | COUNTER) {
            let word = data.get(first as usize..).and_then(|rest| rest.first_chunk());
            same("the crate: format word at the first byte", &word, &Some(&node.format.to_be_bytes()))?;
        }
        same("the crate: what only it opens", &only_the_crate_opens(kind, format), &node.opened)?;
        same("the crate: what is opened", &layout_of(kind, format).is_some(), &!node.held.is_empty())?;
        if let Some(raw) = node.raw {
            let payload = self.library.payload(data, descriptor);
            same("the crate: payload", &data.get(payload.start..payload.start + payload.count), &Some(raw))?;
        }
        let Some(row) = row_of(kind, format) else {
            return Ok(());
        };
        let name = format!("the crate: field of {kind}/{format}");
        let (_, values) = self.library.read(row, data, descriptor);
        same(&format!("{name}: how many"), &values.len(), &node.held.len())?;
        for (index, (value, held)) in values.iter().zip(&node.held).enumerate() {
            if !self.holds(data, *value, held) {
                return Err(Difference { kind: format!("{name}, {index}"), detail: format!("{value:?}") });
            }
        }
        Ok(())
    }

    /// Whether a field that the library answers is the one that the crate holds.
    fn holds(&self, data: &[u8], value: Value, held: &Held) -> bool {
        match (value, held) {
            (Value::Span(start, count), Held::Words(own)) => self.is_list(data, start, count, own),
            (Value::Span(start, count), Held::Path(own)) => self.is_path(data, start, count, own),
            _ => holds_alone(data, value, held),
        }
    }

    fn is_list(&self, data: &[u8], start: usize, count: usize, own: &[u32]) -> bool {
        let word = |n| {
            let listed = self.library.list_word(data, start, count, n);
            (listed.present, listed.value)
        };
        count == own.len() && word(count) == (false, 0) && own.iter().enumerate().all(|(n, own)| word(n) == (true, *own))
    }

    fn is_path(&self, data: &[u8], start: usize, count: usize, own: &[AsPathSegment]) -> bool {
        let mut at = start;
        for segment in own {
            let got = self.library.next_segment(data, at);
            let steps = 2 + segment.path.len();
            let named = is_named(got.kind, matches!(got.kind, 1 | 2), segment.path_type as u32, AsPathType::AsSet as u32);
            if got.outcome.code != 0 || got.outcome.steps != steps || !named {
                return false;
            }
            if got.path.count != segment.path_length as usize || !self.is_list(data, got.path.start, got.path.count, &segment.path) {
                return false;
            }
            at = got.outcome.at;
        }
        let behind = self.library.next_segment(data, data.len() + 1);
        count == own.len() && behind.outcome.code == 10
    }
}

/// What each of the three answers to an input, for people.
pub fn show(data: &[u8], fault: u32) {
    let mut store = lent(data.len() / 4 * DESCRIPTOR_WORDS);
    let answer = |of: Reading| format!("code {} at {}, steps {}, descriptors {}", of.code, of.at, of.steps, of.store.len());
    for mode in [Mode::Memo, Mode::Base] {
        let library = Library { fault, mode };
        let (one, run) = (library.decode(data, &mut store).answer, library.decode_run(data, &mut store));
        println!("library, {mode}: {one:?}, as a run {run:?}");
        println!("the rules, {mode}: {}; as a run {}", answer(paper::decode(data, mode)), answer(paper::decode_run(data, mode)));
    }
    println!("crate: {:?}; as a run {:?}", parse_datagram(data), parse_datagrams(data).map(|all| all.len()));
}

/// Whether a field that is no list is the one that the crate holds.
pub fn holds_alone(data: &[u8], value: Value, held: &Held) -> bool {
    match (value, held) {
        (Value::Word(word), Held::Word(own)) => word == *own,
        (Value::Word(word), Held::Protocol(own)) => word == *own as u32,
        (Value::Word(word), Held::Reason(own)) => {
            let listed = matches!(word, 0..=15 | 256..=303);
            is_named(word, listed, *own as u32, DropReason::Unknown as u32)
        }
        (Value::Word(word), Held::Direction(own)) => is_named(word, matches!(word, 1 | 2), *own as u32, UrlDirection::Source as u32),
        (Value::Long(long), Held::Long(own)) => long == *own,
        (Value::Block(bytes, 6), Held::Six(own)) => bytes[..6] == *own,
        (Value::Block(bytes, 16), Held::Sixteen(own)) => bytes == *own,
        (Value::Address(..), Held::Address(own)) => value == structure::address(own),
        (Value::Span(start, count), Held::Bytes(own)) => data.get(start..start + count) == Some(*own),
        _ => false,
    }
}

/// Whether a number is the one that the crate holds by name; its catch-all case matches every number that its table lacks.
pub fn is_named(word: u32, listed: bool, own: u32, catch_all: u32) -> bool {
    own == if listed { word } else { catch_all }
}

/// The header of an answer: the one by the rules, or all zero. The version is not among its fields.
fn header_is(ours: &[Value], expected: &[Value]) -> Checked {
    match expected {
        [] => same("decode: header on a refusal", &ours.iter().all(Value::is_zero), &true),
        [_, rest @ ..] => same("decode: header", &ours, &rest),
    }
}
