//! The comparison of the library with the crate; see ../../run. A fuzzer in C calls `oracle_judge`.

pub mod compare;
pub mod counters;
pub mod ethernet;
pub mod fault;
mod grow;
pub mod library;
pub mod listed;
pub mod make;
pub mod modes;
pub mod pads;
mod paper;
mod random;
mod reach;
mod refused;
pub mod shape;
pub mod stored;
pub mod strings;
mod structure;
pub mod sweep;
pub mod tally;
mod text;
mod tree;
mod value;
pub mod work;

/// Compares one input in both modes, as a datagram and as a run; 1 where they differ, and 0 where they do not. `fault` is as in `fault::Library`.
///
/// # Safety
/// `data` points to `length` bytes that can be read.
#[no_mangle]
pub unsafe extern "C" fn oracle_judge(data: *const u8, length: usize, fault: u32) -> u32 {
    let input = if length == 0 { &[] } else { std::slice::from_raw_parts(data, length) };
    u32::from(modes::Judges::new(fault).case(input))
}
