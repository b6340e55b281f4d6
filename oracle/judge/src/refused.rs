//! What the crate tells of a refusal: the rules' code for it, and of a string that is not UTF-8 the index of its first ill-formed
//! sequence.

use crate::paper::Reading;
use crate::tally::{same, Checked};
use sflow_parser::parsers::ParseError;

/// How the crate's text of code 7 begins; it ends with the index.
const NOT_UTF8: &str = "Invalid UTF-8 string";

/// A refusal of the crate.
#[derive(Debug)]
pub struct Refused {
    /// u32::MAX where the rules have no code for it.
    pub code: u32,
    /// On code 7: where the first ill-formed sequence begins, counted from the string's first byte.
    index: Option<usize>,
}

impl Refused {
    pub fn new(error: &ParseError) -> Self {
        Refused { code: code_of(error), index: index_of(error) }
    }

    /// The crate did not answer at all.
    pub fn ended() -> Self {
        Refused { code: u32::MAX, index: None }
    }

    /// Whether a position of code 7 is where the crate's index says. Where the string begins is told by the rules.
    pub fn same_place(&self, kind: &str, at: usize, reading: &Reading) -> Checked {
        let index = self.index.map(|index| index as isize);
        same(&format!("{kind}: index in the string"), &Some(at as isize - reading.text as isize), &index)
    }
}

/// The rules' code for a refusal of the crate.
fn code_of(error: &ParseError) -> u32 {
    const TEXTS: [(&str, u32); 5] =
        [("Invalid version", 3), ("Invalid address type", 4), ("Opaque data length", 5), ("Unknown header protocol", 6), (NOT_UTF8, 7)];
    match error {
        ParseError::Io(e) if e.kind() == std::io::ErrorKind::UnexpectedEof => 2,
        ParseError::Io(_) => u32::MAX,
        ParseError::InvalidData(text) => TEXTS.iter().find(|(begin, _)| text.starts_with(begin)).map_or(u32::MAX, |known| known.1),
    }
}

/// The number at the end of the crate's text of code 7.
fn index_of(error: &ParseError) -> Option<usize> {
    let ParseError::InvalidData(text) = error else { return None };
    let (_, index) = text.strip_prefix(NOT_UTF8)?.rsplit_once(" from index ")?;
    index.parse().ok()
}
