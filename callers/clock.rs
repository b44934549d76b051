// Two sides by turns, in one run: the best round of each, and the ratio.
use std::time::Instant;

pub const ROUNDS: usize = 31;

// A round is long enough for the clock on the faster side.
const ROUND_NS: u128 = 10_000_000;

// What the compiler cannot see through, so that neither how the value came nor what becomes of it is optimised away.
#[cfg(black_box)]
pub fn seen<T: ?Sized>(value: &T) -> &T {
    std::hint::black_box(value)
}

#[cfg(not(black_box))]
pub fn seen<T: ?Sized>(value: &T) -> &T {
    // Sound: what is read is a reference that is a local of this function.
    let seen = unsafe { std::ptr::read_volatile(&value) };
    // what the reference leads to may be read or changed here, as far as the compiler knows
    std::sync::atomic::compiler_fence(std::sync::atomic::Ordering::SeqCst);
    seen
}

pub fn done<T>(value: T) {
    seen(&value);
}

fn nanoseconds(times: u128, side: &mut impl FnMut()) -> u128 {
    let start = Instant::now();
    for _ in 0..times {
        side();
    }
    start.elapsed().as_nanos()
}

// Nanoseconds of one of `parts` that each run of a side has.
pub fn beside(name: &str, parts: usize, mut rattle: impl FnMut(), mut rust: impl FnMut()) {
    let once = nanoseconds(1, &mut rattle).min(nanoseconds(1, &mut rust)).max(1);
    let times = 1 + ROUND_NS / once;
    let mut best = (u128::MAX, u128::MAX);
    for round in 0..ROUNDS {
        if round % 2 == 0 {
            best.0 = best.0.min(nanoseconds(times, &mut rattle));
            best.1 = best.1.min(nanoseconds(times, &mut rust));
        } else {
            best.1 = best.1.min(nanoseconds(times, &mut rust));
            best.0 = best.0.min(nanoseconds(times, &mut rattle));
        }
    }
    let each = (times * parts as u128) as f64;
    let (rattle, rust) = (best.0 as f64 / each, best.1 as f64 / each);
    println!("{name}: Rattle {rattle:.0} ns, Rust {rust:.0} ns, ratio {:.2}", rattle / rust);
}
