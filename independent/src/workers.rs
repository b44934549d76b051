//! Seeds shared out among as many threads as the machine has.

use std::ops::Range;
use std::sync::atomic::{AtomicBool, AtomicU64, Ordering};
use std::thread;

/// What `work` gives for each seed in no fixed order, or the failure of the lowest seed that fails.
///
/// Seeds are handed out in order and every one handed out is finished, so no lower seed is left untried.
pub fn share<T, E>(seeds: Range<u64>, work: impl Fn(u64) -> Result<T, E> + Sync) -> Result<Vec<T>, (u64, E)>
where
    T: Send,
    E: Send,
{
    let next = AtomicU64::new(0);
    let stop = AtomicBool::new(false);
    let worker = || {
        let mut done = vec![];
        while !stop.load(Ordering::SeqCst) {
            let Some(seed) = nth(&seeds, next.fetch_add(1, Ordering::SeqCst)) else {
                break;
            };
            match work(seed) {
                Ok(result) => done.push(result),
                Err(failure) => {
                    stop.store(true, Ordering::SeqCst);
                    return Err((seed, failure));
                }
            }
        }
        Ok(done)
    };
    let outcomes: Vec<_> = thread::scope(|scope| {
        let handles: Vec<_> = (0..threads()).map(|_| scope.spawn(worker)).collect();
        handles
            .into_iter()
            .map(|handle| handle.join().expect("a worker does not panic"))
            .collect()
    });
    gather(outcomes)
}

fn nth(seeds: &Range<u64>, index: u64) -> Option<u64> {
    seeds.start.checked_add(index).filter(|seed| *seed < seeds.end)
}

fn threads() -> usize {
    thread::available_parallelism().map_or(1, usize::from)
}

fn gather<T, E>(outcomes: Vec<Result<Vec<T>, (u64, E)>>) -> Result<Vec<T>, (u64, E)> {
    let mut all = vec![];
    let mut lowest: Option<(u64, E)> = None;
    for outcome in outcomes {
        match outcome {
            Ok(done) => all.extend(done),
            Err(failure) if lowest.as_ref().is_none_or(|(seed, _)| failure.0 < *seed) => lowest = Some(failure),
            Err(_) => {}
        }
    }
    lowest.map_or(Ok(all), Err)
}
