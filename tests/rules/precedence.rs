//! Refusals over all clauses: each alone gives its number, and of several the lowest is given,
//! whatever they are.

use crate::program::{check, first, next, read, turn};
use cases::{
    ChangedText, FAULTS, Fault, Lent, NUMBERS, Random, TEXT_CLAUSES, one_text_fault,
    two_text_faults, with_faults,
};
use second::{CheckAnswer, PlanAnswer};

/// How many catalogues each fault is made in.
const SEEDS: u64 = 30;

/// Asserts that turn gives the number, and so do check, first and next if it is up to 7.
fn assert_given(lent: &Lent, number: u8, clauses: &str) {
    let (catalogue, settings) = (lent.catalogue(), lent.settings());
    let refused = PlanAnswer {
        refusal: number,
        ..PlanAnswer::default()
    };
    let mut buffer = lent.buffer.clone();
    let mut record = lent.record;
    let mut expected = lent.record;
    if number == 11 {
        expected.stage = 2;
    }
    assert_eq!(
        turn(&catalogue, &settings, &mut record, &mut buffer),
        refused,
        "{clauses}"
    );
    assert_eq!(record, expected, "{clauses}");
    if number <= 7 {
        let checked = CheckAnswer {
            refusal: number,
            ..CheckAnswer::default()
        };
        assert_eq!(
            check(&catalogue, &settings, lent.set, &buffer),
            checked,
            "{clauses}"
        );
        assert_eq!(
            first(&catalogue, &settings, &mut buffer),
            refused,
            "{clauses}"
        );
    }
    if number <= 7 || number == 10 {
        assert_eq!(
            next(&catalogue, &settings, lent.set, &mut buffer),
            refused,
            "{clauses}"
        );
    }
    assert_eq!(buffer, lent.buffer, "{clauses}");
}

/// Makes the faults in a catalogue and asserts that the lowest number is given.
fn assert_lowest(seed: u64, faults: &[&Fault]) {
    let lent = with_faults(&mut Random::new(seed), faults);
    let lowest = faults.iter().map(|fault| fault.number).min().unwrap();
    let clauses: Vec<String> = faults
        .iter()
        .map(|fault| format!("{} {}", fault.number, fault.clause))
        .collect();
    assert_given(
        &lent,
        lowest,
        &format!("seed {seed}: {}", clauses.join(", ")),
    );
}

#[test]
fn every_number_that_can_be_had_has_its_clauses() {
    let mut numbers: Vec<u8> = FAULTS.iter().map(|fault| fault.number).collect();
    numbers.dedup();
    assert_eq!(numbers, NUMBERS);
}

#[test]
fn each_clause_alone_gives_its_number() {
    for fault in &FAULTS {
        for seed in 0..SEEDS {
            assert_lowest(seed, &[fault]);
        }
    }
}

#[test]
fn of_any_two_clauses_the_lower_number() {
    for (place, one) in FAULTS.iter().enumerate() {
        for other in FAULTS[place + 1..]
            .iter()
            .filter(|other| other.number != one.number)
        {
            for seed in 0..SEEDS / 10 {
                assert_lowest(seed, &[one, other]);
            }
        }
    }
}

#[test]
fn of_any_numbers_at_once_the_lowest() {
    for which in 1u64..1 << NUMBERS.len() {
        let mut random = Random::new(which);
        let numbers = NUMBERS
            .iter()
            .enumerate()
            .filter(|(place, _)| which >> place & 1 == 1);
        let faults: Vec<&Fault> = numbers
            .map(|(_, number)| {
                let of_number: Vec<&Fault> = FAULTS
                    .iter()
                    .filter(|fault| fault.number == *number)
                    .collect();
                random.pick(&of_number)
            })
            .collect();
        assert_lowest(which, &faults);
    }
}

/// Asserts that read gives the number of the text that `change` makes from a seed.
fn assert_read(seed: u64, change: impl Fn(&mut Random, u64) -> ChangedText) {
    let random = &mut Random::new(seed);
    let changed = change(random, seed);
    let mut lent = changed.draft.lent(random);
    let answer = read(&lent.text, &mut lent.entries, &mut lent.slots);
    assert_eq!(
        answer.refusal, changed.number,
        "seed {seed}: {}",
        changed.clause
    );
}

#[test]
fn each_change_to_a_text_gives_its_number() {
    for seed in 0..10 * TEXT_CLAUSES as u64 {
        assert_read(seed, one_text_fault);
    }
}

#[test]
fn of_two_changes_to_a_text_the_one_tested_first() {
    for seed in 0..400 {
        assert_read(seed, two_text_faults);
    }
}
