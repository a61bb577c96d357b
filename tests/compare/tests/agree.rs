//! The C functions and the second program on seeded cases of all kinds, and how many they were.
//! A case on which they differ is printed with its kind and seed, and as small as it can be made.
//!
//! This runs without the test harness, so that what was compared is always printed.

use cases::{Case, Kind, OBJECTIVES, case, shrink};
use compare::{Tally, compare, on_threads};

/// How many seeds of each kind are gone through.
const SEEDS: [(Kind, u64); 14] = [
    (Kind::Constraint, 20_000),
    (Kind::BadConstraint, 20_000),
    (Kind::Sane, 4_000),
    (Kind::Tiny, 80_000),
    (Kind::Large, 400),
    (Kind::Fault, 4_000),
    (Kind::TwoFaults, 4_000),
    (Kind::Plan, 4_000),
    (Kind::Record, 4_000),
    (Kind::Garbage, 4_000),
    (Kind::Text, 4_000),
    (Kind::TextFault, 6_000),
    (Kind::TwoTextFaults, 4_000),
    (Kind::TextGarbage, 4_000),
];
/// How many catalogues all calls must be compared on.
const CATALOGUES: u64 = 100_000;
/// How often each call must give each number that it can give.
const OFTEN: u64 = 100;
/// How many threads share the seeds.
const THREADS: u64 = 2;

/// The numbers that each call can give; 8 cannot be had.
const NUMBERS: [(&str, &[u8]); 6] = [
    ("fits", &[0, 4]),
    ("check", &[0, 1, 2, 3, 4, 5, 6, 7]),
    ("first", &[0, 1, 2, 3, 4, 5, 6, 7, 11]),
    ("next", &[0, 1, 2, 3, 4, 5, 6, 7, 10, 11]),
    ("turn", &[0, 1, 2, 3, 4, 5, 6, 7, 9, 10, 11]),
    ("read", &[0, 1, 3, 7, 12]),
];

fn main() {
    let mut tally = Tally::default();
    for counted in on_threads(THREADS, run) {
        tally.add(counted);
    }
    println!("{tally}");
    assert_reached(&tally);
}

/// Compares the cases of one thread's seeds.
fn run(thread: u64) -> Tally {
    let mut tally = Tally::default();
    for (kind, seeds) in SEEDS {
        for seed in (1..=seeds).filter(|seed| seed % THREADS == thread) {
            let case = case(kind, seed);
            if let Err(difference) = compare(&case.inputs, &mut tally) {
                panic!("{}", report(&case, &difference));
            }
        }
    }
    tally
}

/// The case, what differs, and the smallest inputs found on which the programs still differ.
fn report(case: &Case, difference: &str) -> String {
    let again = |inputs: &_| compare(inputs, &mut Tally::default());
    let small = shrink(&case.inputs, |inputs| again(inputs).is_err());
    let small_difference = again(&small).err().unwrap_or_default();
    let Case { kind, seed, .. } = case;
    format!("{kind:?}, seed {seed}: {difference}\nmade small: {small:?}\n{small_difference}")
}

/// Asserts that every call gave every number that it can and no other, that every condition was
/// named, and that listings were compared in every setting.
fn assert_reached(tally: &Tally) {
    assert!(tally.catalogues >= CATALOGUES, "{}", tally.catalogues);
    for (call, numbers) in NUMBERS {
        assert_eq!(tally.numbers(call), numbers, "{call}");
        for number in numbers {
            assert!(tally.given[&(call, *number)] >= OFTEN, "{call} {number}");
        }
    }
    for condition in 0..=6 {
        assert!(tally.conditions[&condition] >= OFTEN, "{condition}");
    }
    assert_eq!(tally.settings.len(), 3 * 2 * OBJECTIVES.len());
}
