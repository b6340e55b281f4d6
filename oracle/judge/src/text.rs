//! Strings, good and ill-formed.

use crate::random::Random;

/// Characters at the edges of each length, and some between.
const GOOD: [&str; 14] =
    ["\0", "a", "\u{7f}", "\u{80}", "é", "\u{7ff}", "\u{800}", "日", "\u{d7ff}", "\u{e000}", "\u{ffff}", "\u{10000}", "😀", "\u{10ffff}"];

/// Overlong forms, surrogates, above U+10FFFF, bytes of no character, and characters that are cut.
const BAD: [&[u8]; 22] = [
    b"\xc0\x80",
    b"\xc1\xbf",
    b"\xe0\x80\x80",
    b"\xe0\x9f\xbf",
    b"\xf0\x80\x80\x80",
    b"\xf0\x8f\xbf\xbf",
    b"\xed\xa0\x80",
    b"\xed\xbf\xbf",
    b"\xed\xa0",
    b"\xf4\x90\x80\x80",
    b"\xf5\x80\x80\x80",
    b"\xf7\xbf\xbf\xbf",
    b"\xf8\x88\x80\x80\x80",
    b"\xfe",
    b"\xff",
    b"\x80",
    b"\xbf",
    b"\xc3",
    b"\xe2\x82",
    b"\xf0\x9f\x98",
    b"\xe2\x28\xa1",
    b"\xf0\x9f\x28\x80",
];

pub fn good(random: &mut Random) -> Vec<u8> {
    let mut text = Vec::new();
    match random.below(4) {
        0 => {}
        // Long enough for a reader that goes by eight or sixteen bytes.
        1 => text.extend((0..random.below(40)).map(|n| b'a' + n as u8 % 26)),
        _ => (0..random.below(6)).for_each(|_| text.extend_from_slice(random.pick(&GOOD).as_bytes())),
    }
    if random.chance(1, 3) {
        text.extend_from_slice(random.pick(&GOOD).as_bytes());
    }
    text
}

pub fn bad(random: &mut Random) -> Vec<u8> {
    let mut text = good(random);
    text.extend_from_slice(random.pick(&BAD));
    if random.chance(1, 2) {
        text.extend(good(random));
    }
    text
}
