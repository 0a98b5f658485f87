//! What it costs to wake a sleeping thread and to be woken by it: two threads that work and wake one another in turn, in
//! plain Rust. The words say how often, and for how many nanoseconds each works before it wakes the other. For
//! `bench/fleet`.

use std::sync::atomic::{AtomicUsize, Ordering};
use std::thread;
use std::time::{Duration, Instant};

fn main() {
    let words: Vec<u32> = std::env::args().skip(1).filter_map(|word| word.parse().ok()).collect();
    let &[rounds, work] = words.as_slice() else {
        eprintln!("usage: fleet_plain ROUNDS NANOSECONDS");
        std::process::exit(2);
    };
    let work = Duration::from_nanos(work.into());
    let turn = AtomicUsize::new(0);
    let first = thread::current();
    thread::scope(|scope| {
        let second = scope.spawn(|| {
            for round in 0..rounds as usize {
                take(&turn, 2 * round + 1, work);
                first.unpark();
            }
        });
        for round in 0..rounds as usize {
            take(&turn, 2 * round, work);
            second.thread().unpark();
        }
    });
}

/// Sleeps until it is this turn, works, and lets the next one come.
fn take(turn: &AtomicUsize, number: usize, work: Duration) {
    while turn.load(Ordering::SeqCst) != number {
        thread::park();
    }
    let began = Instant::now();
    while began.elapsed() < work {}
    turn.store(number + 1, Ordering::SeqCst);
}
