//! A run over many cases, in batches, on one thread or more.

use cases::Case;
use std::io;
use std::sync::atomic::{AtomicU64, Ordering};
use std::thread;

/// The cases of a run: `make(0)` to `make(count - 1)`.
pub struct Plan<'a, T = Case> {
    pub make: &'a (dyn Fn(u64) -> T + Sync),
    pub count: u64,
    /// Cases that are held in memory at once, and that one process of the replay program gets.
    pub batch: u64,
    pub threads: u64,
    /// Whether progress goes to standard error.
    pub progress: bool,
}

/// What is counted along the way.
pub trait Counts: Default + Send {
    fn merge(&mut self, other: &Self);
}

#[derive(Debug)]
pub enum Found<C, D> {
    Same(C),
    Different(D),
}

/// Compares one batch, in order, and counts; gives the first difference.
pub type Compare<'a, T, C, D> = &'a (dyn Fn(&[T], &mut C) -> io::Result<Option<D>> + Sync);

/// Compares every case of the plan, and gives the difference with the lowest number if there is one.
pub fn in_batches<T, C: Counts, D: Send>(plan: &Plan<T>, compare: Compare<T, C, D>) -> io::Result<Found<C, D>> {
    let shared = Shared { stop: AtomicU64::new(u64::MAX), done: AtomicU64::new(0) };
    let threads = plan.threads.max(1);
    let results: Vec<_> = thread::scope(|scope| {
        let workers: Vec<_> = (0..threads).map(|nth| {
            let shared = &shared;
            scope.spawn(move || work(plan, compare, nth, shared))
        }).collect();
        workers.into_iter().map(|worker| worker.join().expect("a worker does not panic")).collect()
    });
    let mut counts = C::default();
    let mut first: Option<(u64, D)> = None;
    for result in results {
        let (part, found) = result?;
        counts.merge(&part);
        if let Some((batch, difference)) = found {
            if first.as_ref().is_none_or(|(lowest, _)| batch < *lowest) {
                first = Some((batch, difference));
            }
        }
    }
    Ok(first.map_or(Found::Same(counts), |(_, difference)| Found::Different(difference)))
}

/// What the threads of a run tell each other.
struct Shared {
    /// The lowest batch with a difference so far: no thread goes on past it.
    stop: AtomicU64,
    done: AtomicU64,
}

type Part<C, D> = (C, Option<(u64, D)>);

/// Every `threads`-th batch, from the one numbered `nth` on.
fn work<T, C: Counts, D>(plan: &Plan<T>, compare: Compare<T, C, D>, nth: u64, shared: &Shared) -> io::Result<Part<C, D>> {
    let mut counts = C::default();
    let mut batch = nth;
    while batch * plan.batch < plan.count && batch < shared.stop.load(Ordering::Relaxed) {
        let start = batch * plan.batch;
        let cases: Vec<T> = (start..plan.count.min(start + plan.batch)).map(plan.make).collect();
        match compare(&cases, &mut counts) {
            Ok(None) => {}
            Ok(Some(difference)) => {
                shared.stop.fetch_min(batch, Ordering::Relaxed);
                return Ok((counts, Some((batch, difference))));
            }
            Err(error) => {
                shared.stop.store(0, Ordering::Relaxed);
                return Err(error);
            }
        }
        tell(plan, shared, cases.len() as u64);
        batch += plan.threads.max(1);
    }
    Ok((counts, None))
}

fn tell<T>(plan: &Plan<T>, shared: &Shared, more: u64) {
    const STEP: u64 = 100_000;
    let before = shared.done.fetch_add(more, Ordering::Relaxed);
    if plan.progress && before / STEP != (before + more) / STEP {
        eprintln!("{} of {} cases", before + more, plan.count);
    }
}
