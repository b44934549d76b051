//! A second `linerun`, written from document 01 alone, and a comparer for the first.

mod calls;
mod compare;
mod extremes;
mod faults;
mod generate;
mod limits;
mod line;
mod meaning;
mod paths;
mod program;
mod random;
#[cfg(test)]
mod tests;
mod texts;
mod workers;

use std::env;
use std::io::{self, Read, Write};
use std::ops::Range;
use std::process::ExitCode;

const USAGE: &str = "usage:
  independent run < INPUT
  independent generate SEED
  independent compare COUNT FIRST-SEED -- COMMAND [ARGS..]
  independent faults COUNT FIRST-SEED";

fn main() -> ExitCode {
    let arguments: Vec<String> = env::args().skip(1).collect();
    let words: Vec<&str> = arguments.iter().map(String::as_str).collect();
    let code = match words[..] {
        ["run"] => run(),
        ["generate", seed] => seed.parse().ok().map(|seed| written(&generate::input(seed))),
        ["compare", count, first, "--", _, ..] => {
            seeds(count, first).map(|seeds| compare::report(seeds, &arguments[4..]))
        }
        ["faults", count, first] => seeds(count, first).map(report_faults),
        _ => None,
    };
    ExitCode::from(code.unwrap_or_else(|| {
        eprintln!("{USAGE}");
        2
    }))
}

fn run() -> Option<u8> {
    let mut input = vec![];
    // One byte more tells a longer input.
    let most = limits::LIMITS.input as u64 + 1;
    match io::stdin().lock().take(most).read_to_end(&mut input) {
        Ok(_) => Some(written(&program::transcript(&input, None))),
        Err(error) => {
            eprintln!("standard input: {error}");
            Some(2)
        }
    }
}

fn written(bytes: &[u8]) -> u8 {
    let mut output = io::stdout().lock();
    match output.write_all(bytes).and_then(|()| output.flush()) {
        Ok(()) => 0,
        Err(error) => {
            eprintln!("standard output: {error}");
            2
        }
    }
}

/// One or more seeds.
fn seeds(count: &str, first: &str) -> Option<Range<u64>> {
    let (count, first): (u64, u64) = (count.parse().ok()?, first.parse().ok()?);
    let end = first.checked_add(count)?;
    (count > 0).then_some(first..end)
}

fn report_faults(seeds: Range<u64>) -> u8 {
    let count = seeds.end - seeds.start;
    let noticed = faults::noticed(seeds);
    let mut code = 0;
    for (&(fault, reading), noticed) in faults::FAULTS.iter().zip(noticed) {
        println!("{noticed:6}  {fault:?}: {reading}");
        if noticed == 0 {
            eprintln!("never noticed in {count} inputs: {fault:?}: {reading}");
            code = 1;
        }
    }
    println!("{} faults, {count} inputs", faults::FAULTS.len());
    code
}
