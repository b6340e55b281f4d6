//! Strings that are not random, each in a datagram that is accepted but for it: every short one at the edges of UTF-8, and each kind of
//! ill-formed sequence at each place of a text.

use crate::modes::Both;
use crate::sweep::words;
use crate::work;

/// Bytes at the edges of what UTF-8 allows in each place of a character.
const EDGES: [u8; 26] = [
    0x00, 0x41, 0x7f, 0x80, 0x8f, 0x90, 0x9f, 0xa0, 0xbf, 0xc0, 0xc1, 0xc2, 0xdf, 0xe0, 0xe1, 0xec, 0xed, 0xee, 0xef, 0xf0, 0xf1, 0xf3,
    0xf4, 0xf5, 0xf8, 0xff,
];

/// How many strings of one to four of these bytes there are.
const SHORT: usize = 26 + 26 * 26 + 26 * 26 * 26 + 26 * 26 * 26 * 26;

/// Sequences that are no characters: a tail by itself, an overlong form, a surrogate, above U+10FFFF, a byte of no character, a lead byte
/// with too few tails behind it. Of the last sort, the text that follows decides what comes instead of a tail: ASCII, another lead byte,
/// or the string's end.
const SEQUENCES: [&[u8]; 48] = [
    // With none, the text is UTF-8.
    b"",
    b"\x80",
    b"\xbf",
    b"\x80\x80\x80\x80",
    b"\xc0",
    b"\xc0\x80",
    b"\xc1",
    b"\xc1\xbf",
    b"\xe0\x80\x80",
    b"\xe0\x9f\xbf",
    b"\xe0\x9f",
    b"\xed\xa0\x80",
    b"\xed\xbf\xbf",
    b"\xed\xa0",
    b"\xf0\x80\x80\x80",
    b"\xf0\x8f\xbf\xbf",
    b"\xf0\x8f\xbf",
    b"\xf4\x90\x80\x80",
    b"\xf4\xbf\xbf\xbf",
    b"\xf4\x90",
    b"\xf5\x80\x80\x80",
    b"\xf7\xbf\xbf\xbf",
    b"\xf8\x88\x80\x80\x80",
    b"\xfc\x84\x80\x80\x80\x80",
    b"\xfe",
    b"\xff",
    b"\xc2",
    b"\xdf",
    b"\xe0",
    b"\xe0\xa0",
    b"\xe2",
    b"\xe2\x82",
    b"\xe2\x28\xa1",
    b"\xed",
    b"\xed\x9f",
    b"\xef\xbf",
    b"\xf0",
    b"\xf0\x90",
    b"\xf0\x90\x80",
    b"\xf0\x9f\x28\x80",
    b"\xf1",
    b"\xf1\x80",
    b"\xf3\xbf\xbf",
    b"\xf4",
    b"\xf4\x8f",
    b"\xf4\x8f\xbf",
    // Of two in one string, the first counts.
    b"\xc3\x28\xff",
    b"\xe2\x82abcdefghijklmnopqrstuvwxyz\x80",
];

/// Characters of one to four bytes, and all of them: what the text around a sequence is made of.
const AROUND: [&str; 5] = ["a", "\u{e9}", "\u{65e5}", "\u{1f980}", "a\u{e9}\u{65e5}\u{1f980}"];

/// How many bytes are before a sequence, and behind it: all in a short text; those at the edges of a reader's windows of 64 bytes; and
/// each place of a longer text.
fn places() -> Vec<(usize, usize)> {
    let short = (0..=80).flat_map(|text| (0..=text).map(move |before| (before, text - before)));
    let edges = (61..=68).chain(122..=131).flat_map(|before| (0..=72).map(move |behind| (before, behind)));
    let long = (148..=151).flat_map(|text| (0..=text).map(move |before| (before, text - before)));
    short.chain(edges).chain(long).collect()
}

/// As many whole characters as there is room for; and letters for the bytes that are left, in front of them or behind them.
fn text_of(unit: &str, length: usize, letters_first: bool) -> String {
    let whole = unit.chars().cycle().scan(0, |end, c| {
        *end += c.len_utf8();
        (*end <= length).then_some(c)
    });
    let whole: String = whole.collect();
    let letters = "z".repeat(length - whole.len());
    if letters_first {
        letters + &whole
    } else {
        whole + &letters
    }
}

/// A string of one to four of the edges, behind none to eleven letters, with this text before it and behind it.
fn short(case: usize, around: &str) -> Vec<u8> {
    let mut text = vec![b'a'; case % 12];
    text.extend_from_slice(around.as_bytes());
    let mut rest = case;
    loop {
        text.push(EDGES[rest % EDGES.len()]);
        if rest < EDGES.len() {
            break;
        }
        rest = rest / EDGES.len() - 1;
    }
    text.extend_from_slice(around.as_bytes());
    text
}

/// A sequence with so many bytes of text before it and behind it. Where it begins, and no sooner, the text stops being UTF-8.
fn placed(sequence: &[u8], around: &str, (before, behind): (usize, usize)) -> Vec<u8> {
    let text = [text_of(around, before, true).as_bytes(), sequence, text_of(around, behind, false).as_bytes()].concat();
    let good = std::str::from_utf8(&text).map_or_else(|error| error.valid_up_to(), str::len);
    assert_eq!(good, if sequence.is_empty() { text.len() } else { before });
    text
}

/// A flow sample with an MPLS tunnel of this name, whose pad would go on with a character that the name's end cuts.
fn tunnel(mut name: Vec<u8>) -> Vec<u8> {
    let length = name.len() as u32;
    name.resize(name.len().next_multiple_of(4), 0x80);
    name.extend_from_slice(&[0; 8]);
    let record = 4 + name.len() as u32;
    let head = words(&[5, 0, 0, 1, 0, 1, 1, 40 + record, 0, 0, 0, 0, 0, 0, 0, 1, 1008, record, length]);
    [head, name].concat()
}

/// Every short string, by itself and in the middle of a long text; and each sequence at each place of each text.
pub fn all(fault: u32) -> Both {
    let long = "\u{e9}\u{65e5}\u{672c}\u{1f980}a".repeat(8);
    let places = places();
    let total = 2 * SHORT + SEQUENCES.len() * AROUND.len() * places.len();
    work::spread(total as u64, fault, |case| {
        let case = case as usize;
        tunnel(if case < SHORT {
            short(case, "")
        } else if case < 2 * SHORT {
            short(case - SHORT, &long)
        } else {
            let case = case - 2 * SHORT;
            let (place, case) = (case % places.len(), case / places.len());
            placed(SEQUENCES[case / AROUND.len()], AROUND[case % AROUND.len()], places[place])
        })
    })
}

/// The first bytes of characters of four bytes, and their neighbours.
const FOUR: [u8; 7] = [0xef, 0xf0, 0xf1, 0xf2, 0xf3, 0xf4, 0xf5];

/// How many strings of one, two and three bytes there are; and of four bytes, with any second and the last two at the edges.
const UP_TO_THREE: usize = 256 + 256 * 256 + 256 * 256 * 256;
const OF_FOUR: usize = FOUR.len() * 256 * EDGES.len() * EDGES.len();

/// The strings of one to three bytes in their order, and those of four.
fn one_of_all(case: usize) -> Vec<u8> {
    if case >= UP_TO_THREE {
        let (rest, last) = ((case - UP_TO_THREE) / EDGES.len(), (case - UP_TO_THREE) % EDGES.len());
        let (rest, third) = (rest / EDGES.len(), rest % EDGES.len());
        return vec![FOUR[rest / 256], (rest % 256) as u8, EDGES[third], EDGES[last]];
    }
    let (size, number) = match case {
        0..=0xff => (1, case),
        0x100..=0x100ff => (2, case - 0x100),
        _ => (3, case - 0x10100),
    };
    number.to_be_bytes()[8 - size..].to_vec()
}

/// Every string of one to three bytes, and the characters of four bytes around each bound.
pub fn every(fault: u32) -> Both {
    work::spread((UP_TO_THREE + OF_FOUR) as u64, fault, |case| tunnel(one_of_all(case as usize)))
}
