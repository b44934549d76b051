//! Path texts at the limits, on both sides, and texts where more than one refusal could be given.

use crate::random::Random;
use crate::texts::{blank, damaged, distinct_names, path_tokens, render, valid, valid_tokens, word};

/// One limit, on one side or the other, or several at once.
pub fn at_limit(random: &mut Random) -> Vec<u8> {
    let over = random.below(2);
    let tokens = match random.below(12) {
        0 | 1 => return at_text_limit(random, 4_096 + over),
        2 => {
            let more = random.choose(&[1, 1, 1, 2, 40]);
            with_long_name(random, 16 + over * more)
        }
        3 => nested(random, 16 + over),
        4 => {
            let names = random.between(1, 32);
            with_counts(random, 64 + over, names)
        }
        5 => {
            let positions = random.between(33, 64);
            with_counts(random, positions, 32 + over)
        }
        _ => several_limits(random),
    };
    render(random, &tokens)
}

fn at_text_limit(random: &mut Random, length: usize) -> Vec<u8> {
    let mut text = if random.one_in(4) {
        damaged(random)
    } else {
        valid(random)
    };
    let missing = length.saturating_sub(text.len());
    let blanks: Vec<u8> = (0..missing).map(|_| blank(random, true)).collect();
    // Stars may stand just before the keyword at the end.
    let before_end = text.windows(3).rposition(|three| three == b"end").unwrap_or(text.len());
    match random.below(3) {
        0 => text.splice(0..0, blanks),
        1 => text.splice(text.len().., blanks),
        _ => text.splice(before_end..before_end, vec![b'*'; missing]),
    };
    text
}

fn with_long_name(random: &mut Random, length: usize) -> Vec<String> {
    let mut tokens = valid_tokens(random);
    let place = random.below(tokens.len() + 1);
    tokens.insert(place, word(random, length));
    tokens
}

fn with_counts(random: &mut Random, positions: usize, names: usize) -> Vec<String> {
    let names = distinct_names(random, names);
    path_tokens(random, positions, &names, 3)
}

/// So many parentheses open at once, beside others that are closed before.
fn nested(random: &mut Random, depth: usize) -> Vec<String> {
    let names = distinct_names(random, 3);
    let mut tokens = vec!["path".to_string()];
    for _ in 0..random.below(9) {
        tokens.extend(["(".into(), random.choose(&names), ")".into()]);
    }
    for level in 0..depth {
        if level > 0 && random.one_in(3) {
            tokens.push(random.choose(&names));
        }
        tokens.push("(".into());
    }
    tokens.push(random.choose(&names));
    for _ in 0..depth {
        tokens.push(")".into());
        if random.one_in(3) {
            tokens.push("*".into());
        }
    }
    tokens.push("end".into());
    tokens
}

/// Close to the limits of positions and names, then tokens that more than one refusal could be about.
fn several_limits(random: &mut Random) -> Vec<String> {
    let others = [(40, 32), (64, 31), (64, 5), (63, 31), (65, 32), (64, 33)];
    let (positions, names) = match random.below(10) {
        0..=2 => (64, 32),
        3..=5 => (63, 32),
        _ => random.choose(&others),
    };
    let names = distinct_names(random, names);
    let mut tokens = path_tokens(random, positions, &names, 2);
    tokens.pop();
    tokens.extend(tail(random, &names));
    tokens
}

/// The end of a text whose names so far are these; several tails leave room for one refusal before another.
fn tail(random: &mut Random, names: &[String]) -> Vec<String> {
    let fresh = std::iter::repeat_with(|| word(random, 6))
        .find(|word| !names.contains(word))
        .expect("a new name");
    let long = word(random, 17);
    let known = random.choose(names);
    let open = "(".repeat(16);
    let tails: [&[&str]; 17] = [
        &["end", &fresh],
        &[&fresh, "end"],
        &["end", &known],
        &["end", &long],
        &[&long, "end"],
        &[&known, "end"],
        &["end", "3"],
        &["end", "("],
        &["end", "end"],
        &["end", "path"],
        &["end", "\u{e9}"],
        &["(", &known, ")", &fresh, "end"],
        &["+", "end"],
        &[")", &fresh],
        &[&open, &fresh, "("],
        &[&open, "(", &long],
        &["end"],
    ];
    // The first three are the ones where two numbers are closest.
    let count = if random.one_in(2) { 3 } else { tails.len() };
    random
        .pick(&tails[..count])
        .iter()
        .map(|token| token.to_string())
        .collect()
}
