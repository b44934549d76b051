//! Refusal 4 against all texts of the grammar, enumerated from its three rules.

use crate::paths::{read, Refused};
use std::collections::BTreeSet;

/// Tokens as letters: p is `path`, e is `end`, and a is the only name.
const TOKENS: &str = "pea;+*()";
/// A beginning of five tokens needs six more at most: a name, four parentheses and `end`.
const BEGINNING: usize = 5;
const EXPRESSION: usize = 9;

/// By number of tokens.
type Texts = Vec<BTreeSet<String>>;

fn expressions() -> Texts {
    let mut factors: Texts = vec![BTreeSet::new(); EXPRESSION + 1];
    let mut sequences = factors.clone();
    let mut expressions = factors.clone();
    for length in 1..=EXPRESSION {
        factors[length] = match length {
            1 => BTreeSet::from(["a".into()]),
            2 => BTreeSet::new(),
            _ => expressions[length - 2]
                .iter()
                .map(|inner| format!("({inner})"))
                .collect(),
        };
        let starred: Vec<String> = factors[length - 1].iter().map(|factor| format!("{factor}*")).collect();
        factors[length].extend(starred);
        sequences[length] = factors[length].clone();
        let longer = [
            joined(&sequences, "", &factors, length),
            joined(&sequences, ";", &factors, length),
        ];
        sequences[length].extend(longer.into_iter().flatten());
        expressions[length] = sequences[length].clone();
        let longer = joined(&expressions, "+", &sequences, length);
        expressions[length].extend(longer);
    }
    expressions
}

/// Both sides are shorter than the whole, so they are complete already.
fn joined(left: &Texts, between: &str, right: &Texts, length: usize) -> Vec<String> {
    let names = length - between.len();
    let splits = (1..names).map(|first| (&left[first], &right[names - first]));
    let pairs = splits.flat_map(|(ones, others)| {
        ones.iter()
            .flat_map(move |one| others.iter().map(move |other| (one, other)))
    });
    pairs.map(|(one, other)| format!("{one}{between}{other}")).collect()
}

fn beginnings() -> BTreeSet<String> {
    let texts = expressions()
        .into_iter()
        .flatten()
        .map(|expression| format!("p{expression}e"));
    texts
        .flat_map(|text| (0..=BEGINNING.min(text.len())).map(move |end| text[..end].to_string()))
        .collect()
}

fn spelled(tokens: &str) -> String {
    let words = tokens.chars().map(|token| match token {
        'p' => "path ".to_string(),
        'e' => "end ".to_string(),
        other => format!("{other} "),
    });
    words.collect()
}

#[test]
fn refusal_4_at_the_first_token_that_no_text_goes_on_with() {
    let beginnings = beginnings();
    let mut all = vec![String::new()];
    let mut last = all.clone();
    for _ in 0..BEGINNING {
        last = last
            .iter()
            .flat_map(|tokens| TOKENS.chars().map(move |token| format!("{tokens}{token}")))
            .collect();
        all.extend(last.iter().cloned());
    }
    for tokens in all {
        let text = spelled(&tokens);
        let refused = (1..=tokens.len()).find(|&end| !beginnings.contains(&tokens[..end]));
        let place = refused.map_or(text.len(), |end| spelled(&tokens[..end - 1]).len());
        let complete = refused.is_none() && tokens.ends_with('e');
        let wanted = if complete {
            None
        } else {
            Some(Refused { number: 4, place })
        };
        assert_eq!(read(text.as_bytes(), None).err(), wanted, "{text}");
    }
}
