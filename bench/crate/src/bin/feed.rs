//! As ../../../feed.c, by the crate: reads datagram behind datagram from standard input into one buffer and decodes each. A mark prints how
//! many were accepted and refused so far, and how often the allocator was called meanwhile.

use sflow_parser::parsers::parse_datagram;
use std::alloc::{GlobalAlloc, Layout, System};
use std::hint::black_box;
use std::io::{stdin, stdout, Read, Write};
use std::sync::atomic::{AtomicU64, Ordering};

const LONGEST: usize = 65535;
const MARK: u32 = u32::MAX;

static CALLS: AtomicU64 = AtomicU64::new(0);

/// The system's allocator, whose calls are counted.
struct Counted;

// SAFETY: each call is handed on as it came.
unsafe impl GlobalAlloc for Counted {
    unsafe fn alloc(&self, layout: Layout) -> *mut u8 {
        CALLS.fetch_add(1, Ordering::Relaxed);
        System.alloc(layout)
    }
    unsafe fn alloc_zeroed(&self, layout: Layout) -> *mut u8 {
        CALLS.fetch_add(1, Ordering::Relaxed);
        System.alloc_zeroed(layout)
    }
    unsafe fn realloc(&self, from: *mut u8, layout: Layout, size: usize) -> *mut u8 {
        CALLS.fetch_add(1, Ordering::Relaxed);
        System.realloc(from, layout, size)
    }
    unsafe fn dealloc(&self, at: *mut u8, layout: Layout) {
        System.dealloc(at, layout);
    }
}

#[global_allocator]
static ALLOCATOR: Counted = Counted;

fn main() -> std::io::Result<()> {
    let (mut input, mut output) = (stdin().lock(), stdout().lock());
    let (mut data, mut word) = (vec![1; LONGEST], [0; 4]);
    let (mut accepted, mut refused, mut calls) = (0, 0, 0);
    while input.read_exact(&mut word).is_ok() {
        let length = u32::from_le_bytes(word);
        if length == MARK {
            writeln!(output, "{accepted} {refused} {calls}")?;
            output.flush()?;
            continue;
        }
        let datagram = &mut data[..length as usize];
        input.read_exact(datagram)?;
        let before = CALLS.load(Ordering::Relaxed);
        if black_box(parse_datagram(datagram)).is_ok() {
            accepted += 1;
        } else {
            refused += 1;
        }
        calls += CALLS.load(Ordering::Relaxed) - before;
    }
    Ok(())
}
