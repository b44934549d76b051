//! The comparer: a command's transcripts against ours, byte for byte.

use crate::generate;
use crate::program::transcript;
use crate::workers;
use std::collections::BTreeMap;
use std::io::{self, Read, Write};
use std::ops::Range;
use std::process::{Child, Command, ExitStatus, Stdio};
use std::thread;

/// The refusals that linerun can give; 8 and 9 are about lent lists and records.
const REFUSALS: [u8; 15] = [1, 2, 3, 4, 5, 6, 7, 10, 11, 12, 13, 14, 15, 16, 17];
const REPLIES: [&str; 6] = [
    "path",
    "granted",
    "delayed",
    "finished",
    "finished..granted",
    "withdrawn",
];
/// From so many inputs on, every kind of reply must have come.
const ENOUGH: u64 = 2_000;
const SHOWN: usize = 200;

/// How many lines of each kind the transcripts held.
#[derive(Default)]
pub struct Coverage(BTreeMap<String, u64>);

pub enum Trouble {
    Differs(String),
    NotRun(io::Error),
}

/// Coverage over all the seeds, or the trouble with the lowest one that has any.
pub fn compare(seeds: Range<u64>, command: &[String]) -> Result<Coverage, (u64, Trouble)> {
    let all = workers::share(seeds, |seed| compare_one(seed, command))?;
    let mut sum = Coverage::default();
    for coverage in all {
        coverage
            .0
            .into_iter()
            .for_each(|(kind, count)| *sum.0.entry(kind).or_default() += count);
    }
    Ok(sum)
}

fn compare_one(seed: u64, command: &[String]) -> Result<Coverage, Trouble> {
    let input = generate::input(seed);
    let wanted = transcript(&input, None);
    let (given, status) = run(command, input, wanted.len() + 10 * SHOWN).map_err(Trouble::NotRun)?;
    if let Some(difference) = difference(&wanted, &given) {
        return Err(Trouble::Differs(difference));
    }
    if !status.success() {
        return Err(Trouble::Differs(format!(
            "no line differs, but the command ended with {status}"
        )));
    }
    Ok(coverage(&wanted))
}

/// Output and exit status of one run; of an endless output only the bytes up to `most`.
fn run(command: &[String], input: Vec<u8>, most: usize) -> io::Result<(Vec<u8>, ExitStatus)> {
    let mut child = Command::new(&command[0])
        .args(&command[1..])
        .stdin(Stdio::piped())
        .stdout(Stdio::piped())
        .spawn()?;
    let mut stdin = child.stdin.take().expect("a pipe");
    // A thread of its own, so that neither side waits for the other; a command need not read everything.
    let writer = thread::spawn(move || drop(stdin.write_all(&input)));
    let given = read_output(&mut child, most);
    let status = child.wait();
    writer.join().expect("the writer does not panic");
    Ok((given?, status?))
}

fn read_output(child: &mut Child, most: usize) -> io::Result<Vec<u8>> {
    let mut given = vec![];
    let stdout = child.stdout.take().expect("a pipe");
    stdout.take(most as u64 + 1).read_to_end(&mut given)?;
    if given.len() > most {
        child.kill()?;
    }
    Ok(given)
}

/// The first line that differs, as wanted and as given.
fn difference(wanted: &[u8], given: &[u8]) -> Option<String> {
    if wanted == given {
        return None;
    }
    let wanted_lines: Vec<&[u8]> = wanted.split_inclusive(|&byte| byte == b'\n').collect();
    let given_lines: Vec<&[u8]> = given.split_inclusive(|&byte| byte == b'\n').collect();
    let index = (0..).find(|&index| wanted_lines.get(index) != given_lines.get(index))?;
    Some(format!(
        "line {} of the transcript differs\n  wanted: {}\n  given:  {}",
        index + 1,
        shown(wanted_lines.get(index)),
        shown(given_lines.get(index))
    ))
}

fn shown(line: Option<&&[u8]>) -> String {
    match line {
        Some(line) => line.escape_ascii().to_string().chars().take(SHOWN).collect(),
        None => "(no such line)".into(),
    }
}

fn coverage(transcript: &[u8]) -> Coverage {
    let mut coverage = Coverage::default();
    for line in String::from_utf8_lossy(transcript).lines() {
        *coverage.0.entry(kind(line)).or_default() += 1;
    }
    coverage
}

fn kind(line: &str) -> String {
    let fields: Vec<&str> = line.split(' ').collect();
    match fields[..] {
        ["finished", _, "granted", ..] => "finished..granted".into(),
        ["refused", number, ..] => format!("refused {number}"),
        _ => fields[0].into(),
    }
}

impl Coverage {
    /// All kinds with their figures, in the order of document 01.
    fn figures(&self) -> Vec<(String, u64)> {
        let replies = REPLIES.iter().map(|reply| reply.to_string());
        let refusals = REFUSALS.iter().map(|number| format!("refused {number}"));
        let kinds = replies.chain(refusals);
        kinds
            .map(|kind| (kind.clone(), self.0.get(&kind).copied().unwrap_or(0)))
            .collect()
    }

    pub fn missing(&self) -> Vec<String> {
        self.figures()
            .into_iter()
            .filter(|(_, count)| *count == 0)
            .map(|(kind, _)| kind)
            .collect()
    }
}

/// Compares and tells; the result is the exit code.
pub fn report(seeds: Range<u64>, command: &[String]) -> u8 {
    let count = seeds.end - seeds.start;
    let (first, last) = (seeds.start, seeds.end - 1);
    match compare(seeds, command) {
        Ok(coverage) => {
            let figures = coverage.figures();
            let figures: Vec<String> = figures.iter().map(|(kind, count)| format!("{kind}: {count}")).collect();
            println!("{count} transcripts (seeds {first} to {last}), and no line differs");
            println!("{}", figures.join(", "));
            complain(count, &coverage.missing())
        }
        Err((seed, Trouble::Differs(difference))) => {
            eprintln!("seed {seed}: {difference}\n  the input: independent generate {seed}");
            1
        }
        Err((seed, Trouble::NotRun(error))) => {
            eprintln!("seed {seed}: the command {:?} could not be run: {error}", command[0]);
            2
        }
    }
}

/// Few inputs need not hold every kind of reply.
pub fn complain(count: u64, missing: &[String]) -> u8 {
    if count < ENOUGH || missing.is_empty() {
        return 0;
    }
    eprintln!(
        "but in {count} transcripts these never occurred: {}",
        missing.join(", ")
    );
    1
}
