// Document 01's compiler and session once more, in Rust and read from the document alone. What the program `turns` prints of a script is
// compared with what this prints, and the time that a call takes with the time that it takes here.
//
//   reference run < SCRIPT          prints what the script's lines give
//   reference time < SCRIPT         the same, with tests in one pass, for the comparison of times
//   reference generate SEED LINES   prints a script
//   reference busy LINES            prints a script for the largest path and a full list
use std::io::{Read, Write};
use std::sync::atomic::Ordering::Relaxed;

mod chance;
mod generate;
mod paths;
mod scripts;
mod session;
mod table;

fn number(words: &[String], i: usize) -> u64 {
    words.get(i).and_then(|w| w.parse().ok()).expect("a number")
}

fn main() {
    let words: Vec<String> = std::env::args().collect();
    let text = match words.get(1).map(String::as_str) {
        Some(word @ ("run" | "time")) => {
            session::FAST.store(word == "time", Relaxed);
            let mut script = Vec::new();
            std::io::stdin().read_to_end(&mut script).expect("a script on standard input");
            scripts::run(&script)
        }
        Some("generate") => generate::generate(number(&words, 2), number(&words, 3)),
        Some("busy") => generate::busy(number(&words, 2)),
        _ => panic!("run, time, generate SEED LINES, or busy LINES"),
    };
    std::io::stdout().write_all(text.as_bytes()).expect("standard output");
}
