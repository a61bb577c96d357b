//! What the cases reach: every setting, every refusal, every condition alone, and every limit.

use std::collections::{BTreeMap, BTreeSet};

use cases::{Inputs, Kind, Lent, OBJECTIVES, Random, breaking, case, sane};
use second::{LIMIT, boxplan, check, combinations, conditions, fits, listing, read, turn};

/// The inputs of a kind that is for check, first, next and turn.
fn lent(kind: Kind, seed: u64) -> Lent {
    let Inputs::Plans(lent) = case(kind, seed).inputs else {
        panic!("{kind:?} is for other calls");
    };
    lent
}

#[test]
fn a_case_is_made_again_from_its_kind_and_seed() {
    for kind in Kind::ALL {
        for seed in 0..20 {
            assert_eq!(case(kind, seed).inputs, case(kind, seed).inputs);
            assert_ne!(case(kind, seed).inputs, case(kind, seed + 1).inputs);
        }
    }
}

#[test]
fn sane_cases_are_sane_few_tabled_and_of_all_settings() {
    let mut settings = BTreeSet::new();
    for seed in 0..3_000 {
        let lent = lent(Kind::Sane, seed);
        let listed = listing(&lent.catalogue(), &lent.settings());
        assert!(listed.is_ok(), "seed {seed}");
        assert!(combinations(&lent.catalogue()) <= LIMIT, "seed {seed}");
        assert_eq!(lent.buffer.len(), lent.slot_count());
        settings.insert((lent.mode, lent.cycles, lent.objectives));
    }
    assert_eq!(settings.len(), 3 * 2 * OBJECTIVES.len());
}

/// A shape of catalogue that the sane cases must show often.
type Shape = (&'static str, fn(&Lent) -> bool);

const SHAPES: [Shape; 13] = [
    ("no plan", |lent| plans(lent) == 0),
    ("one plan", |lent| plans(lent) == 1),
    ("many plans", |lent| plans(lent) > 8),
    ("a tie", |lent| {
        let plans = listing(&lent.catalogue(), &lent.settings()).unwrap();
        plans.windows(2).any(|two| two[0].cost == two[1].cost)
    }),
    ("a plan with a cycle", |lent| {
        let plans = listing(&lent.catalogue(), &lent.settings()).unwrap();
        let forbidden = Lent {
            cycles: 0,
            ..lent.clone()
        };
        plans.len()
            > listing(&forbidden.catalogue(), &forbidden.settings())
                .unwrap()
                .len()
    }),
    ("a root other than 0", |lent| lent.root > 0),
    ("no slots", |lent| lent.slots.is_empty()),
    ("a slot for the root's package", |lent| {
        (0..lent.slot_count()).any(|slot| lent.wanted(slot) == lent.package(lent.root.into()))
    }),
    ("a slot for its owner's package", |lent| {
        (0..lent.slot_count())
            .any(|slot| lent.wanted(slot) == lent.package(lent.owner(slot).into()))
    }),
    ("two slots of an owner for one package", |lent| {
        lent.slots.chunks(4).any(|one| {
            lent.slots
                .chunks(4)
                .filter(|other| other[..2] == one[..2])
                .count()
                > 1
        })
    }),
    ("a slot for a package without entries", |lent| {
        (0..lent.slot_count()).any(|slot| {
            !(0..lent.entry_count()).any(|entry| lent.package(entry) == lent.wanted(slot))
        })
    }),
    ("weights of 0", |lent| {
        lent.entries.chunks(5).all(|entry| entry[4] == 0)
    }),
    ("a caret with a leading 0", |lent| {
        lent.text.windows(4).any(|part| part == b"(^ 0")
    }),
];

fn plans(lent: &Lent) -> usize {
    listing(&lent.catalogue(), &lent.settings()).unwrap().len()
}

#[test]
fn sane_cases_have_every_shape() {
    let lents: Vec<Lent> = (0..2_000)
        .map(|seed| sane(&mut Random::new(seed)))
        .collect();
    for (what, has) in SHAPES {
        let share = lents.iter().filter(|lent| has(lent)).count();
        assert!(share > 60, "{what}: {share} of 2000");
    }
}

#[test]
fn large_cases_are_sane_and_at_the_limits() {
    let mut last_entry_member = 0;
    for seed in 0..200 {
        let lent = lent(Kind::Large, seed);
        assert_eq!((lent.entry_count(), lent.slot_count()), (64, 256));
        assert!(combinations(&lent.catalogue()) <= LIMIT);
        let listed = listing(&lent.catalogue(), &lent.settings()).unwrap();
        assert_eq!(
            check(&lent.catalogue(), &lent.settings(), lent.set, &lent.buffer).refusal,
            0
        );
        last_entry_member += usize::from(listed.iter().any(|plan| plan.set >> 63 == 1));
    }
    assert!(last_entry_member > 10, "{last_entry_member}");
}

#[test]
fn each_condition_is_broken_alone() {
    for condition in 1..=6 {
        for seed in 0..30 {
            let lent = breaking(&mut Random::new(seed), condition);
            let judged =
                conditions(&lent.catalogue(), &lent.settings(), lent.set, &lent.buffer).unwrap();
            let failing: Vec<usize> = (1..=6).filter(|number| !judged[number - 1]).collect();
            assert_eq!(failing, [condition]);
        }
    }
}

#[test]
fn turn_gives_every_number_that_can_be_had() {
    let mut numbers: BTreeMap<u8, usize> = BTreeMap::new();
    let kinds = [
        Kind::Sane,
        Kind::Fault,
        Kind::TwoFaults,
        Kind::Plan,
        Kind::Record,
        Kind::Garbage,
    ];
    for kind in kinds {
        for seed in 0..300 {
            let mut lent = lent(kind, seed);
            if combinations(&lent.catalogue()) <= LIMIT {
                let mut record = lent.record;
                let mut buffer = std::mem::take(&mut lent.buffer);
                let answer = turn(
                    &lent.catalogue(),
                    &lent.settings(),
                    &mut record,
                    &mut buffer,
                );
                *numbers.entry(answer.refusal).or_default() += 1;
            }
        }
    }
    let given: Vec<u8> = numbers.into_keys().collect();
    assert_eq!(given, [0, 1, 2, 3, 4, 5, 6, 7, 9, 10, 11]);
}

#[test]
fn read_and_boxplan_give_every_number_that_can_be_had() {
    let mut by_read = BTreeSet::new();
    let mut by_boxplan = BTreeSet::new();
    for kind in [
        Kind::Text,
        Kind::TextFault,
        Kind::TwoTextFaults,
        Kind::TextGarbage,
    ] {
        for seed in 0..300 {
            let Inputs::Read(mut lent) = case(kind, seed).inputs else {
                panic!("{kind:?} is for other calls");
            };
            assert!(
                second::text_combinations(&lent.text) <= LIMIT,
                "{kind:?} {seed}"
            );
            let answer = read(&lent.text, &mut lent.entries, &mut lent.slots);
            by_read.insert(answer.refusal);
            let output = String::from_utf8(boxplan(&lent.text)).unwrap();
            let number = output.strip_prefix("refusal\r\n").unwrap_or("0");
            by_boxplan.insert(number.trim_end().parse::<u8>().unwrap());
        }
    }
    assert_eq!(by_read.into_iter().collect::<Vec<_>>(), [0, 1, 3, 7, 12]);
    assert_eq!(
        by_boxplan.into_iter().collect::<Vec<_>>(),
        [0, 1, 2, 3, 4, 11, 12]
    );
}

#[test]
fn constraints_fit_and_do_not_and_are_refused() {
    let mut counts = BTreeMap::new();
    for kind in [Kind::Constraint, Kind::BadConstraint] {
        for seed in 0..1_000 {
            let Inputs::Fits {
                constraint,
                version,
            } = case(kind, seed).inputs
            else {
                panic!("{kind:?} is for other calls");
            };
            let answer = fits(&constraint, version);
            *counts
                .entry((kind == Kind::Constraint, answer.refusal, answer.fits))
                .or_insert(0) += 1;
        }
    }
    assert!(counts[&(true, 0, true)] > 300);
    assert!(counts[&(true, 0, false)] > 100);
    assert!(!counts.contains_key(&(true, 4, false)));
    assert!(counts[&(false, 4, false)] > 900);
    assert!(counts[&(false, 0, true)] > 10);
}
