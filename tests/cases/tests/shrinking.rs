//! The shrinker: what is left of a failing case, for failures whose smallest case is known.

use cases::{Inputs, Kind, Lent, case, shrink};
use second::{boxplan, combinations, first, fits, listing, read};

/// The first case of the kind for which the predicate holds, shrunk.
fn shrunk(kind: Kind, mut fails: impl FnMut(&Inputs) -> bool) -> Inputs {
    let found = (0..)
        .map(|seed| case(kind, seed).inputs)
        .find(|inputs| fails(inputs));
    shrink(&found.unwrap(), fails)
}

/// A predicate on what is handed to check, first, next and turn.
fn plans(fails: impl Fn(&Lent) -> bool) -> impl FnMut(&Inputs) -> bool {
    move |inputs| match inputs {
        Inputs::Plans(lent) => combinations(&lent.catalogue()) <= 20_000 && fails(lent),
        _ => false,
    }
}

fn lent(inputs: Inputs) -> Lent {
    match inputs {
        Inputs::Plans(lent) => lent,
        other => panic!("{other:?}"),
    }
}

#[test]
fn a_plan_of_three_members_needs_three_entries_and_two_slots() {
    let small = lent(shrunk(
        Kind::Sane,
        plans(|lent| {
            let listed = listing(&lent.catalogue(), &lent.settings()).unwrap_or_default();
            listed.iter().any(|plan| plan.set.count_ones() == 3)
        }),
    ));
    assert_eq!((small.entry_count(), small.slot_count()), (3, 2));
    assert_eq!(small.objectives.len(), 1);
    assert_eq!(small.text, b"**");
    assert!(small.entries.chunks(5).all(|entry| entry[4] == 0));
    assert_eq!((small.mode, small.cycles), (0, 0));
}

#[test]
fn a_large_catalogue_shrinks_to_its_core() {
    let small = lent(shrunk(
        Kind::Large,
        plans(|lent| {
            let mut buffer = vec![0; lent.slot_count()];
            let answer = first(&lent.catalogue(), &lent.settings(), &mut buffer);
            answer.set.count_ones() == 2
        }),
    ));
    assert_eq!((small.entry_count(), small.slot_count()), (2, 1));
    assert_eq!((small.text, small.buffer), (b"*".to_vec(), vec![]));
}

#[test]
fn a_refusal_keeps_only_its_fault() {
    let refusal = |number: u8| {
        plans(move |lent| {
            let mut buffer = lent.buffer.clone();
            first(&lent.catalogue(), &lent.settings(), &mut buffer).refusal == number
        })
    };
    assert_eq!(lent(shrunk(Kind::Fault, refusal(2))).entry_count(), 2);
    assert_eq!(lent(shrunk(Kind::Fault, refusal(3))).slots.len(), 1);
    let small = lent(shrunk(Kind::Fault, refusal(4)));
    assert_eq!(
        (small.entry_count(), small.slot_count(), small.text.len()),
        (1, 1, 0)
    );
    let small = lent(shrunk(Kind::Fault, refusal(7)));
    assert_eq!((small.slots.len(), small.buffer.len()), (0, 1));
}

#[test]
fn a_constraint_keeps_only_what_counts() {
    let small = shrunk(Kind::Constraint, |inputs| match inputs {
        Inputs::Fits {
            constraint,
            version,
        } => {
            let nested = constraint.windows(4).any(|part| part == b"(and");
            nested && fits(constraint, *version).refusal == 0
        }
        _ => false,
    });
    let Inputs::Fits {
        constraint,
        version,
    } = small
    else {
        panic!("not a constraint");
    };
    assert_eq!(constraint, b"(and * *)");
    assert_eq!(version, [0, 0, 0]);
}

#[test]
fn a_text_keeps_only_the_records_that_count() {
    let small = shrunk(Kind::Text, |inputs| match inputs {
        Inputs::Read(lent) => {
            let mut lent = lent.clone();
            let answer = read(&lent.text, &mut lent.entries, &mut lent.slots);
            (answer.refusal, answer.entries, answer.slots) == (0, 2, 1)
        }
        _ => false,
    });
    let Inputs::Read(lent) = small else {
        panic!("not a text");
    };
    // The header with its line end, then two entries and a slot, the last without a line end.
    assert_eq!(lent.text.len(), 41 + 13 + 13 + 6);
    assert!(
        lent.entries
            .iter()
            .chain(&lent.slots)
            .all(|number| *number == 0)
    );
}

#[test]
fn a_text_that_boxplan_refuses() {
    let small = shrunk(Kind::Text, |inputs| match inputs {
        Inputs::Read(lent) => boxplan(&lent.text) == b"refusal\r\n2\r\n",
        _ => false,
    });
    let Inputs::Read(lent) = small else {
        panic!("not a text");
    };
    // Two entries of one name and one version, which cannot be shortened alone.
    let records: Vec<&[u8]> = lent.text.split(|byte| *byte == b'\n').collect();
    assert_eq!(records.len(), 3);
    assert!(records[1..].iter().all(|record| record[1] == b','));
}
