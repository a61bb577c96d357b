//! How slices cross: empty ones as null pointers, and those for what comes back, which are refused
//! with 7 before all else where they are of another length than their own.

use compare::ffi::{self, Written};
use second::{Catalogue, Settings};

/// The root needs A; A 1.0.0, of weight 4, is entry 1, and A 2.0.0, of weight 7, entry 2.
const TWO_PLANS: Catalogue = Catalogue {
    entries: &[0, 1, 0, 0, 0, 1, 1, 0, 0, 4, 1, 2, 0, 0, 7],
    slots: &[0, 1, 0, 1],
    text: b"*",
};
/// The root alone, of weight 9.
const ROOT_ALONE: Catalogue = Catalogue {
    entries: &[0, 1, 0, 0, 9],
    slots: &[],
    text: &[],
};
/// No entry, which is 1.
const NOTHING: Catalogue = Catalogue {
    entries: &[],
    slots: &[],
    text: &[],
};
const SETTINGS: Settings = Settings {
    root: 0,
    mode: 0,
    cycles: 0,
    objectives: &[0],
};
const NO_OBJECTIVES: Settings = Settings {
    objectives: &[],
    ..SETTINGS
};
const TEXT: &[u8] = b"package,version,weight,needs,constraint\r\na,1.0.0,0,,";

/// What the slices of a listing call hold: plan, set and cost.
type Held = (Vec<u8>, Vec<u64>, Vec<u32>);

/// Calls with slices of the lengths for plan, set and cost that hold 9, and gives the number and
/// what they then hold.
fn listed([plan, set, cost]: [usize; 3], call: impl FnOnce(Written) -> u8) -> (u8, Held) {
    let mut held = (vec![9; plan], vec![9; set], vec![9; cost]);
    let number = call(Written {
        plan: &mut held.0,
        set: &mut held.1,
        cost: &mut held.2,
    });
    (number, held)
}

/// Calls check with slices of the lengths for condition and cost that hold 9.
fn checked(
    catalogue: &Catalogue,
    settings: &Settings,
    set: u64,
    table: &[u8],
    [condition, cost]: [usize; 2],
) -> (u8, Vec<u8>, Vec<u32>) {
    let mut held = (vec![9; condition], vec![9; cost]);
    let number = ffi::check(catalogue, settings, set, table, &mut held.0, &mut held.1);
    (number, held.0, held.1)
}

/// Calls read with slices of the lengths for entries, slots and counts that hold 9.
fn read(text: &[u8], [entries, slots, counts]: [usize; 3]) -> (u8, [Vec<u16>; 3]) {
    let mut held = [vec![9; entries], vec![9; slots], vec![9; counts]];
    let [new_entries, new_slots, new_counts] = &mut held;
    let number = ffi::read(text, new_entries, new_slots, new_counts);
    (number, held)
}

#[test]
fn fits_with_an_empty_part() {
    let mut fit = [9];
    assert_eq!(ffi::fits(&[], [1, 0, 0], &mut fit), 4);
    assert_eq!(fit, [0]);
    assert_eq!(ffi::fits(&[], [1, 0, 0], &mut []), 7);
}

#[test]
fn check_with_empty_slices() {
    let check = |catalogue, settings, set| checked(catalogue, settings, set, &[], [1, 3]);
    assert_eq!(
        check(&ROOT_ALONE, &SETTINGS, 1),
        (0, vec![0], vec![9, 0, 0])
    );
    assert_eq!(
        check(&ROOT_ALONE, &SETTINGS, 0),
        (0, vec![1], vec![0, 0, 0])
    );
    assert_eq!(
        check(&ROOT_ALONE, &NO_OBJECTIVES, 1),
        (6, vec![0], vec![0, 0, 0])
    );
    assert_eq!(check(&TWO_PLANS, &SETTINGS, 1), (7, vec![0], vec![0, 0, 0]));
    assert_eq!(check(&NOTHING, &SETTINGS, 1), (1, vec![0], vec![0, 0, 0]));
}

/// A listing call by its catalogue, settings and room.
type Listing = fn(&Catalogue, &Settings, Written) -> u8;

/// First, next after the root alone, and turn with a fresh record.
const LISTINGS: [Listing; 3] = [
    |catalogue, settings, written| ffi::first(catalogue, settings, written),
    |catalogue, settings, written| ffi::next(catalogue, settings, 1, written),
    |catalogue, settings, written| ffi::turn(catalogue, settings, &mut [0], &mut [5], written),
];

#[test]
fn listing_calls_with_empty_slices() {
    for (place, call) in LISTINGS.iter().enumerate() {
        let given = |catalogue, settings| {
            let (number, held) = listed([0, 1, 3], |written| call(catalogue, settings, written));
            (number, held.1, held.2)
        };
        let refused = |number| (number, vec![0], vec![0, 0, 0]);
        // The root's plan has none after it.
        let alone = match place {
            1 => refused(11),
            _ => (0, vec![1], vec![9, 0, 0]),
        };
        assert_eq!(given(&ROOT_ALONE, &SETTINGS), alone, "{place}");
        assert_eq!(given(&ROOT_ALONE, &NO_OBJECTIVES), refused(6), "{place}");
        assert_eq!(given(&TWO_PLANS, &SETTINGS), refused(7), "{place}");
        assert_eq!(given(&NOTHING, &SETTINGS), refused(1), "{place}");
    }
}

#[test]
fn read_with_empty_slices() {
    let (number, [entries, slots, counts]) = read(&[], [320, 1024, 2]);
    assert_eq!((number, &counts[..]), (12, &[0, 0][..]));
    assert!(entries.iter().chain(&slots).all(|held| *held == 9));
    let (number, [_, slots, counts]) = read(TEXT, [0, 1024, 2]);
    assert_eq!((number, &counts[..]), (7, &[0, 0][..]));
    assert!(slots.iter().all(|held| *held == 9));
    let (number, [entries, _, counts]) = read(TEXT, [320, 0, 2]);
    assert_eq!((number, &counts[..]), (7, &[0, 0][..]));
    assert!(entries.iter().all(|held| *held == 9));
    assert_eq!(read(&[], [0, 0, 0]).0, 7);
}

#[test]
fn a_fit_of_another_length_is_7() {
    for length in [0, 2, 3] {
        for part in [&b"*"[..], b"?"] {
            let mut fit = vec![9; length];
            assert_eq!(ffi::fits(part, [1, 0, 0], &mut fit), 7);
            assert_eq!(fit, vec![9; length]);
        }
    }
}

#[test]
fn a_condition_or_cost_of_another_length_is_7() {
    for lengths in [[0, 3], [2, 3], [1, 0], [1, 2], [1, 4], [0, 0], [3, 1]] {
        let [condition, cost] = lengths;
        // Before 1 too.
        for catalogue in [TWO_PLANS, NOTHING] {
            assert_eq!(
                checked(&catalogue, &SETTINGS, 3, &[1], lengths),
                (7, vec![9; condition], vec![9; cost])
            );
        }
    }
}

#[test]
fn a_set_or_cost_of_another_length_is_7() {
    for [set, cost] in [[0, 3], [2, 3], [1, 0], [1, 2], [1, 4], [0, 0], [3, 1]] {
        for call in LISTINGS {
            for catalogue in [TWO_PLANS, NOTHING] {
                let given = listed([1, set, cost], |written| {
                    call(&catalogue, &SETTINGS, written)
                });
                assert_eq!(given, (7, (vec![9], vec![9; set], vec![9; cost])));
            }
        }
    }
}

#[test]
fn a_record_of_another_length_is_7() {
    for lengths in [[0, 1], [2, 1], [1, 0], [1, 2], [0, 0], [2, 2]] {
        for catalogue in [TWO_PLANS, NOTHING] {
            let mut stage = vec![0; lengths[0]];
            let mut last = vec![5; lengths[1]];
            let given = listed([1, 1, 3], |written| {
                ffi::turn(&catalogue, &SETTINGS, &mut stage, &mut last, written)
            });
            assert_eq!(given, (7, (vec![9], vec![9], vec![9; 3])));
            assert_eq!(stage, vec![0; lengths[0]]);
            assert_eq!(last, vec![5; lengths[1]]);
        }
    }
}

#[test]
fn counts_of_another_length_are_7() {
    for counts in [0, 1, 3, 9] {
        // Before 12 and before the tables' own 7 too.
        for (text, entries) in [(TEXT, 320), (&b"?"[..], 320), (TEXT, 5)] {
            let (number, held) = read(text, [entries, 1024, counts]);
            assert_eq!(number, 7);
            assert_eq!(held, [vec![9; entries], vec![9; 1024], vec![9; counts]]);
        }
    }
}
