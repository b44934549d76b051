//! Tests: document 01's listing and readings, its limits, and cross-checks by enumeration.

mod comparing;
mod grammar;
mod inputs;
mod readings;
mod sessions;
mod words;

use crate::program::transcript;

/// The transcript of an input, as text.
fn output(input: impl AsRef<[u8]>) -> String {
    String::from_utf8(transcript(input.as_ref(), None)).expect("replies are plain text")
}

/// What comes after the line for the path.
fn replies(path: &str, calls: &[&str]) -> Vec<String> {
    let input = format!("{path}\n{}\n", calls.join("\n"));
    let output = output(input);
    output.lines().skip(1).map(String::from).collect()
}
