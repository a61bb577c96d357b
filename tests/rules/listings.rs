//! Whole listings of one small catalogue in all six settings and by all fifteen lists of
//! objectives.

use super::bench::{ALLOWED, Bench, CARGO, FORBIDDEN, NPM, PIP};
use super::costs::COSTS;

/// The root needs A, E, and E 1.1.0. A 1.0.0 (1) needs nothing; A 2.0.0 (2) needs B (3), which
/// needs A. E 1.0.0 is entry 4, E 1.1.0 entry 5.
fn catalogue() -> Bench {
    Bench::new()
        .entry(0, [1, 0, 0], 0)
        .needs(1, "*")
        .needs(3, "*")
        .needs(3, "(= 1 1 0)")
        .entry(1, [1, 0, 0], 4)
        .entry(1, [2, 0, 0], 1)
        .needs(2, "*")
        .entry(2, [1, 0, 0], 1)
        .needs(1, "*")
        .entry(3, [1, 0, 0], 0)
        .entry(3, [1, 1, 0], 2)
}

/// A plan of the catalogue, its weight, dependencies and duplicates.
struct Worked {
    set: u64,
    table: [u8; 5],
    amounts: [u32; 3],
}

const fn worked(set: u64, table: [u8; 5], amounts: [u32; 3]) -> Worked {
    Worked {
        set,
        table,
        amounts,
    }
}

/// A 1.0.0 alone; A 2.0.0 in a cycle with B; both A. Each with E 1.1.0 alone, then with both E.
const PLANS: [Worked; 6] = [
    worked(35, [1, 5, 5, 255, 255], [6, 2, 0]),
    worked(51, [1, 4, 5, 255, 255], [6, 3, 1]),
    worked(45, [2, 5, 5, 3, 2], [4, 3, 0]),
    worked(61, [2, 4, 5, 3, 2], [4, 4, 1]),
    worked(47, [2, 5, 5, 3, 1], [8, 4, 1]),
    worked(63, [2, 4, 5, 3, 1], [8, 5, 2]),
];

/// Which of the plans each setting leaves: both E have major 1, so only npm takes both; the two A
/// differ in theirs, so cargo takes both and pip does not.
const SETTINGS: [(u8, u8, &[usize]); 6] = [
    (NPM, ALLOWED, &[0, 1, 2, 3, 4, 5]),
    (NPM, FORBIDDEN, &[0, 1, 4, 5]),
    (CARGO, ALLOWED, &[0, 2, 4]),
    (CARGO, FORBIDDEN, &[0, 4]),
    (PIP, ALLOWED, &[0, 2]),
    (PIP, FORBIDDEN, &[0]),
];

#[test]
fn all_settings_and_all_objectives() {
    for (mode, cycles, left) in SETTINGS {
        for (objectives, ..) in COSTS {
            let mut expected = Vec::new();
            for place in left {
                let plan = &PLANS[*place];
                let mut cost = [0; 3];
                for (number, code) in cost.iter_mut().zip(objectives) {
                    *number = plan.amounts[usize::from(*code)];
                }
                expected.push((plan.set, plan.table.to_vec(), cost));
            }
            expected.sort_by_key(|(_, table, cost)| (*cost, table.clone()));
            let bench = catalogue().settings_of(mode, cycles, objectives);
            assert_eq!(
                bench.listing(),
                expected,
                "mode {mode}, cycles {cycles}, objectives {objectives:?}"
            );
        }
    }
}

#[test]
fn the_order_written_out() {
    // By weight alone the plans tie two by two, and the lower table decides.
    let sets = |objectives| -> Vec<u64> {
        let bench = catalogue().settings_of(NPM, ALLOWED, objectives);
        bench.listing().into_iter().map(|(set, ..)| set).collect()
    };
    assert_eq!(sets(&[0]), [61, 45, 51, 35, 63, 47]);
    assert_eq!(sets(&[0, 1]), [45, 61, 35, 51, 47, 63]);
    assert_eq!(sets(&[1, 0]), [35, 45, 51, 61, 47, 63]);
    assert_eq!(sets(&[2, 1, 0]), [35, 45, 51, 61, 47, 63]);
    assert_eq!(sets(&[2, 0]), [45, 35, 61, 51, 47, 63]);
}
