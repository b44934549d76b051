// The library beside the Rust reading of document 01, in one process and on the same calls, made by chance from a seed; after every call
// every cell is compared.
//
//   compare COUNT FIRST-SEED [--fault NAME]   the fault is made on the Rust side, and must be noticed
//   compare --faults                          the names of the faults
//
// Exit status: 0 if no cell differs; 1 if one does, or if of many seeds some number of refusal never came; 2 for bad usage.
#![no_main]

mod calls;
mod cells;
#[path = "../reference/chance.rs"]
mod chance;
mod comparison;
mod damage;
mod faults;
mod lines;
mod onepass;
#[path = "../reference/paths.rs"]
mod paths;
mod play;
mod reading;
#[path = "../reference/session.rs"]
mod session;
#[path = "../reference/table.rs"]
mod table;
mod tally;
mod texts;
mod wrapper;

use comparison::Comparison;
use faults::Fault;

// So many seeds must have given every number of refusal.
const MANY: u64 = 1000;

fn compare(count: u64, first: u64, fault: Fault) -> i32 {
    let mut c = Comparison::new(fault);
    for seed in first..first + count {
        if let Some(difference) = c.seed(seed) {
            println!("{difference}");
            return 1;
        }
    }
    println!("{count} seeds from {first}: {} calls, and no cell differs", c.tally.calls());
    c.tally.print();
    let never = c.tally.never_refused();
    if count >= MANY && !never.is_empty() {
        println!("no call was refused by {never:?}");
        return 1;
    }
    0
}

fn run(words: &[&str]) -> Option<i32> {
    match words {
        ["--faults"] => {
            println!("{}", faults::names().join(" "));
            Some(0)
        }
        [count, first] => Some(compare(count.parse().ok()?, first.parse().ok()?, Fault::None)),
        [count, first, "--fault", name] => Some(compare(count.parse().ok()?, first.parse().ok()?, faults::named(name)?)),
        _ => None,
    }
}

#[no_mangle]
pub extern "C" fn main(_count: i32, _words: *const *const u8) -> i32 {
    wrapper::assert_layout();
    let words: Vec<String> = std::env::args().skip(1).collect();
    let words: Vec<&str> = words.iter().map(String::as_str).collect();
    run(&words).unwrap_or_else(|| {
        eprintln!("usage: compare COUNT FIRST-SEED [--fault NAME], or compare --faults");
        2
    })
}
