//! The comparer and its workers.

use crate::compare::{compare, complain, Coverage, Trouble};
use crate::workers::share;

fn command(words: &[&str]) -> Vec<String> {
    words.iter().map(|word| word.to_string()).collect()
}

fn trouble(words: &[&str]) -> (u64, Trouble) {
    compare(25..27, &command(words)).err().expect("some trouble")
}

#[test]
fn the_lowest_seed_that_fails_is_told() {
    for start in [0, 7, 1_000] {
        let outcome = share(
            start..start + 500,
            |seed| if seed % 100 < 90 { Ok(seed) } else { Err(()) },
        );
        let lowest = (start..start + 500).find(|seed| seed % 100 >= 90).expect("a failure");
        assert_eq!(outcome, Err((lowest, ())));
    }
    let mut all = share(u64::MAX - 9..u64::MAX, Ok::<u64, ()>).expect("no failure");
    all.sort();
    assert_eq!(all, Vec::from_iter(u64::MAX - 9..u64::MAX));
}

#[test]
fn a_command_that_differs() {
    assert!(matches!(trouble(&["cat"]), (25, Trouble::Differs(_))));
    assert!(matches!(trouble(&["true"]), (25, Trouble::Differs(_))));
    assert!(matches!(trouble(&["yes"]), (25, Trouble::Differs(_))));
}

#[test]
fn a_command_that_cannot_be_started() {
    assert!(matches!(trouble(&["/no/such/command"]), (_, Trouble::NotRun(_))));
}

#[test]
fn the_exit_status_counts() {
    // Seed 25's input is one LF.
    let refused = |code: &str| command(&["sh", "-c", &format!("echo refused 4 at 0; exit {code}")]);
    assert!(compare(25..26, &refused("0")).is_ok());
    let outcome = compare(25..26, &refused("3"));
    assert!(matches!(outcome, Err((25, Trouble::Differs(text))) if text.contains("exit status: 3")));
}

#[test]
fn many_transcripts_must_hold_every_kind_of_reply() {
    let missing = Coverage::default().missing();
    assert_eq!(missing.len(), 6 + 15);
    assert_eq!(complain(1_999, &missing), 0);
    assert_eq!(complain(2_000, &missing), 1);
    assert_eq!(complain(2_000, &[]), 0);
}
