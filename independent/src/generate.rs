//! Inputs from a seed: the kind goes round with the seed, the rest comes from its random numbers.

use crate::calls::{Caller, Mood, CROWDED, ODD, STEADY, WALKING};
use crate::extremes;
use crate::random::Random;
use crate::texts;

/// Every 25 seeds in a row hold each kind.
const ROUND: u64 = 25;
const SIZES: u64 = 12;
const INPUT: usize = 65_536;

/// The input of this seed.
pub fn input(seed: u64) -> Vec<u8> {
    let random = &mut Random::new(seed);
    match seed % ROUND {
        0 => sized(random, seed / ROUND % SIZES),
        1..=4 => {
            let text = texts::damaged(random);
            session(random, &text, (0, 6), STEADY)
        }
        5..=10 => {
            let text = extremes::at_limit(random);
            session(random, &text, (0, 30), STEADY)
        }
        11..=13 => {
            let text = texts::valid(random);
            session(random, &text, (10, 60), ODD)
        }
        14..=16 => crowd(random),
        17 | 18 => {
            let text = texts::wide(random);
            session(random, &text, (60, 300), WALKING)
        }
        _ => {
            let text = texts::valid(random);
            session(random, &text, (5, 90), STEADY)
        }
    }
}

fn session(random: &mut Random, text: &[u8], calls: (usize, usize), mood: Mood) -> Vec<u8> {
    let calls = random.between(calls.0, calls.1);
    let terminals = random.choose(&[2, 3, 5, 8, 64]);
    let cr = random.one_in(40);
    let text = &[text, if cr { b"\r" } else { b"" }].concat();
    let mut caller = Caller::new(random, text, terminals, mood, cr);
    let lines: Vec<_> = (0..calls).map(|_| caller.next_line()).collect();
    joined(random, text, &lines)
}

/// All 64 terminals at once.
fn crowd(random: &mut Random) -> Vec<u8> {
    let text = texts::valid(random);
    let calls = random.between(10, 90);
    let keep_free = random.one_in(2);
    let mut caller = Caller::new(random, &text, 64, CROWDED, false);
    let mut lines = caller.fill(keep_free);
    lines.extend((0..calls).map(|_| caller.next_line()));
    joined(random, &text, &lines)
}

/// One input in four has no LF at its end.
fn joined(random: &mut Random, text: &[u8], lines: &[Vec<u8>]) -> Vec<u8> {
    let mut input = text.to_vec();
    for line in lines {
        input.push(b'\n');
        input.extend_from_slice(line);
    }
    if !random.one_in(4) {
        input.push(b'\n');
    }
    input
}

/// The smallest and the greatest inputs.
fn sized(random: &mut Random, which: u64) -> Vec<u8> {
    match which {
        0 => vec![],
        1 => vec![b'\n'],
        2 => cut(long_session(random), INPUT, b'\n'),
        3 => cut(long_session(random), INPUT, b'1'),
        4 => cut(long_session(random), INPUT + 1, b'\n'),
        5 => cut(long_session(random), INPUT + 1, b'1'),
        6 => {
            let mut input = texts::valid(random);
            input.resize(INPUT, b'\n');
            input
        }
        7 => vec![b'\n'; INPUT],
        8 => vec![b'\n'; INPUT + 1],
        9 => vec![b'*'; random.between(4_097, INPUT)],
        10 => {
            let length = random.between(INPUT - 40, INPUT + 40);
            cut(long_session(random), length, b'\n')
        }
        _ => {
            let length = random.between(1, 40);
            (0..length).map(|_| random.byte()).collect()
        }
    }
}

/// More than 65,536 bytes of calls.
fn long_session(random: &mut Random) -> Vec<u8> {
    let mut input = texts::valid(random);
    let mood = random.choose(&[STEADY, CROWDED, ODD]);
    let text = input.clone();
    let mut caller = Caller::new(random, &text, 64, mood, false);
    while input.len() <= INPUT + 100 {
        input.push(b'\n');
        input.extend(caller.next_line());
    }
    input
}

fn cut(mut input: Vec<u8>, length: usize, last: u8) -> Vec<u8> {
    input.truncate(length - 1);
    input.push(last);
    input
}
