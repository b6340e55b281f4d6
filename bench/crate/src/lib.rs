//! The crate's two calls and the standard library's UTF-8 test, for a caller in C. What a call makes is dropped before it answers.

use sflow_parser::parsers::{parse_datagram, parse_datagrams};
use std::hint::black_box;

/// # Safety
/// `length` bytes can be read from `data` on, and nobody writes them meanwhile.
unsafe fn bytes<'a>(data: *const u8, length: usize) -> &'a [u8] {
    std::slice::from_raw_parts(data, length)
}

/// 1 where the crate accepts the input as one datagram.
///
/// # Safety
/// As for `bytes`.
#[no_mangle]
pub unsafe extern "C" fn crate_datagram(data: *const u8, length: usize) -> usize {
    black_box(parse_datagram(bytes(data, length))).is_ok().into()
}

/// The datagrams that the crate reads from a run; 0 where it refuses it.
///
/// # Safety
/// As for `bytes`.
#[no_mangle]
pub unsafe extern "C" fn crate_datagrams(data: *const u8, length: usize) -> usize {
    black_box(parse_datagrams(bytes(data, length))).map_or(0, |all| all.len())
}

/// The bytes before the first ill-formed sequence; all of them where they are UTF-8.
///
/// # Safety
/// As for `bytes`.
#[no_mangle]
pub unsafe extern "C" fn std_well_formed(data: *const u8, length: usize) -> usize {
    std::str::from_utf8(bytes(data, length)).map_or_else(|bad| bad.valid_up_to(), str::len)
}
