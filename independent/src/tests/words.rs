//! Permitted histories against all words, enumerated from the language of the expression alone.

use crate::meaning::Meaning;
use crate::paths::{read, Expression, Name};
use crate::random::Random;
use std::collections::BTreeSet;

/// Words of one-letter names, by length.
type Words = Vec<BTreeSet<String>>;

fn empty_word(most: usize) -> Words {
    let mut words = vec![BTreeSet::new(); most + 1];
    words[0].insert(String::new());
    words
}

/// All words of the expression with at most so many names.
fn words(expression: &Expression, most: usize) -> Words {
    match expression {
        Expression::Name(name) => {
            let mut words = vec![BTreeSet::new(); most + 1];
            words[1].insert(name.to_string());
            words
        }
        Expression::Choice(parts) => {
            let mut sum = vec![BTreeSet::new(); most + 1];
            for part in parts {
                sum.iter_mut()
                    .zip(words(part, most))
                    .for_each(|(all, more)| all.extend(more));
            }
            sum
        }
        Expression::Sequence(parts) => parts.iter().fold(empty_word(most), |left, part| {
            (0..=most)
                .map(|length| joined(&left, &words(part, most), length))
                .collect()
        }),
        Expression::Star(part) => repeated(&words(part, most)),
    }
}

/// All words of this length with a left and a right part.
fn joined(left: &Words, right: &Words, length: usize) -> BTreeSet<String> {
    let splits = (0..=length).map(|first| (&left[first], &right[length - first]));
    let pairs =
        splits.flat_map(|(ones, others)| ones.iter().flat_map(|one| others.iter().map(move |other| (one, other))));
    pairs.map(|(one, other)| format!("{one}{other}")).collect()
}

/// The empty word, or a word that is not empty and then a repetition again.
fn repeated(once: &Words) -> Words {
    let most = once.len() - 1;
    let mut all = empty_word(most);
    let mut first = once.clone();
    first[0].clear();
    for length in 1..=most {
        all[length] = joined(&first, &all, length);
    }
    all
}

fn histories(names: &[Name], length: usize) -> Vec<String> {
    let mut all = vec![String::new()];
    let mut last = all.clone();
    for _ in 0..length {
        last = last
            .iter()
            .flat_map(|word| names.iter().map(move |name| format!("{word}{name}")))
            .collect();
        all.extend(last.iter().cloned());
    }
    all
}

/// From any beginning, fewer names than there are positions complete a word.
fn check(text: &str, length: usize) {
    let path = read(text.as_bytes(), None).expect(text);
    let once = words(&path.expression, length + path.positions);
    let all: BTreeSet<String> = repeated(&once).into_iter().flatten().collect();
    let beginnings: BTreeSet<&str> = all
        .iter()
        .flat_map(|word| (0..=length.min(word.len())).map(move |end| &word[..end]))
        .collect();
    let (mut meaning, start) = Meaning::new(&path.expression, None);
    for history in histories(&path.names, length) {
        let mut operations = history.chars().map(|letter| Name::from(letter.to_string()));
        let state = operations.try_fold(start, |state, name| meaning.after(state, &name));
        assert_eq!(
            state.is_some(),
            beginnings.contains(&history[..]),
            "{text}: {history:?}"
        );
    }
}

/// All expressions with so many names out of a and b, each part starred or not.
fn expressions(names: usize) -> Vec<String> {
    let mut bare: Vec<String> = vec![];
    if names == 1 {
        bare.extend(["a".into(), "b".into()]);
    }
    for left in 1..names {
        for (one, other) in pairs(&expressions(left), &expressions(names - left)) {
            bare.push(format!("({one} {other})"));
            bare.push(format!("({one} + {other})"));
        }
    }
    let starred: Vec<String> = bare.iter().map(|part| format!("{part}*")).collect();
    [bare, starred].concat()
}

fn pairs(left: &[String], right: &[String]) -> Vec<(String, String)> {
    left.iter()
        .flat_map(|one| right.iter().map(move |other| (one.clone(), other.clone())))
        .collect()
}

#[test]
fn every_small_expression() {
    for names in 1..=3 {
        for expression in expressions(names) {
            check(&format!("path {expression} end"), 4);
        }
    }
}

#[test]
fn expressions_at_random() {
    let mut random = Random::new(1);
    let by_size: Vec<Vec<String>> = (1..=3).map(expressions).collect();
    for _ in 0..150 {
        let mut part = || {
            let size = random.below(3);
            random.choose(&by_size[size])
        };
        let (one, two, three) = (part(), part().replace('a', "c"), part());
        let text = match random.below(4) {
            0 => format!("path {one} {two} + {three} end"),
            1 => format!("path {one} ({two} + {three})* end"),
            2 => format!("path ({one} {two})* {three} end"),
            _ => format!("path {one} + {two} {three} end"),
        };
        if read(text.as_bytes(), None).is_ok_and(|path| path.positions <= 6) {
            check(&text, 3);
        }
    }
}

#[test]
fn paths_of_document_001() {
    for text in [
        "path a b (a + b*) c end",
        "path w (w (w r)* r)* r end",
        "path a (b + b (a b)*) end",
        "path a (f g)* b* (f g)* c end",
    ] {
        check(text, 4);
    }
}
