//! Cases on all cores, with progress.

use crate::modes::{Both, Judges};
use std::io::IsTerminal;
use std::sync::atomic::{AtomicU64, Ordering};
use std::thread;
use std::time::{Duration, Instant};

/// Cases that a core takes at a time.
const BATCH: u64 = 512;

/// Compares the cases 0 to `cases` - 1 that `input` makes, in both modes.
pub fn spread(cases: u64, fault: u32, input: impl Fn(u64) -> Vec<u8> + Sync) -> Both {
    let mut all = Both::default();
    let take = |judges: &mut Judges, case| {
        judges.case(&input(case));
    };
    let workers = on_all_cores(cases, || Judges::new(fault), take);
    workers.into_iter().for_each(|judges| all.merge(judges.ended()));
    all
}

/// Has the cases 0 to `cases` - 1 taken by a worker of each core; answers the workers.
pub fn on_all_cores<W: Send>(cases: u64, worker: impl Fn() -> W + Sync, take: impl Fn(&mut W, u64) + Sync) -> Vec<W> {
    let (next, done) = (AtomicU64::new(0), AtomicU64::new(0));
    let cores = thread::available_parallelism().map_or(1, |cores| cores.get());
    let work = || {
        let mut own = worker();
        loop {
            let first = next.fetch_add(BATCH, Ordering::Relaxed);
            if first >= cases {
                return own;
            }
            let behind = cases.min(first + BATCH);
            (first..behind).for_each(|case| take(&mut own, case));
            done.fetch_add(behind - first, Ordering::Relaxed);
        }
    };
    thread::scope(|scope| {
        let workers: Vec<_> = (0..cores).map(|_| scope.spawn(work)).collect();
        scope.spawn(|| show_progress(cases, &done));
        let ended: Vec<_> = workers.into_iter().map(|worker| worker.join()).collect();
        // A case that ended its worker must not keep the progress waiting.
        done.store(cases, Ordering::Relaxed);
        ended.into_iter().map(|own| own.expect("a worker ended early")).collect()
    })
}

/// A line on a terminal that is written over; elsewhere one every ten seconds.
fn show_progress(cases: u64, done: &AtomicU64) {
    let (begun, terminal) = (Instant::now(), std::io::stderr().is_terminal());
    let mut shown = Instant::now();
    let every = Duration::from_millis(if terminal { 500 } else { 10_000 });
    while done.load(Ordering::Relaxed) < cases {
        thread::sleep(Duration::from_millis(50));
        if shown.elapsed() >= every {
            shown = Instant::now();
            let (end, now) = (if terminal { "\r" } else { "\n" }, done.load(Ordering::Relaxed));
            eprint!("{now} of {cases}, {} s{end}", begun.elapsed().as_secs());
        }
    }
    eprintln!("{cases} of {cases}, {:.1} s", begun.elapsed().as_secs_f64());
}
