//! The generated inputs: the same for the same seed, of every kind, cheap, and telling.

use super::output;
use crate::faults::{noticed, FAULTS};
use crate::generate::input;

const SEEDS: std::ops::Range<u64> = 1..2_001;

/// FNV-1a, so that a change of the generator is seen.
fn checksum(bytes: &[u8]) -> u64 {
    bytes.iter().fold(0xcbf2_9ce4_8422_2325, |sum, &byte| {
        (sum ^ u64::from(byte)).wrapping_mul(0x0100_0000_01b3)
    })
}

#[test]
fn a_seed_always_gives_the_same_input() {
    let all: Vec<u8> = (1..201).flat_map(input).collect();
    assert_eq!(checksum(&all), 16_624_101_328_919_296_965);
}

#[test]
fn sizes() {
    let sizes: Vec<usize> = SEEDS.map(|seed| input(seed).len()).collect();
    assert!(sizes.iter().sum::<usize>() < 8_000_000);
    for size in [0, 1, 65_536, 65_537] {
        assert!(
            sizes.iter().filter(|&&other| other == size).count() >= 5,
            "{size} bytes"
        );
    }
    assert!(sizes.iter().filter(|&&size| size < 2_048).count() > 1_600);
}

#[test]
fn full_lists() {
    let outputs: Vec<String> = SEEDS.map(|seed| output(input(seed))).collect();
    let holding = |line: &str| {
        outputs
            .iter()
            .filter(|output| output.lines().any(|other| other == line))
            .count()
    };
    assert!(holding("delayed 63") > 10, "64 wait on a free line");
    assert!(holding("delayed 62") > 10, "63 wait");
    assert!(holding("withdrawn 63") > 0);
    assert!(holding("path 64 32 0") > 10);
    assert!(holding("path 32 32 1") > 0);
}

#[test]
fn every_fault_is_noticed() {
    for ((fault, _), count) in FAULTS.iter().zip(noticed(1..1_001)) {
        assert!(count > 0, "{fault:?}");
    }
}
