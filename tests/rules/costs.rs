//! The cost by every list of objectives, and the order of the listing.

use super::bench::{Bench, CARGO, FORBIDDEN, NPM};
use second::Cost;

/// Every list of objectives with the costs of the input's two plans: weight 3 and 8,
/// dependencies 4 and 3, duplicates 1 and 0.
pub const COSTS: [(&[u8], Cost, Cost); 15] = [
    (&[0], [3, 0, 0], [8, 0, 0]),
    (&[1], [4, 0, 0], [3, 0, 0]),
    (&[2], [1, 0, 0], [0, 0, 0]),
    (&[0, 1], [3, 4, 0], [8, 3, 0]),
    (&[0, 2], [3, 1, 0], [8, 0, 0]),
    (&[1, 0], [4, 3, 0], [3, 8, 0]),
    (&[1, 2], [4, 1, 0], [3, 0, 0]),
    (&[2, 0], [1, 3, 0], [0, 8, 0]),
    (&[2, 1], [1, 4, 0], [0, 3, 0]),
    (&[0, 1, 2], [3, 4, 1], [8, 3, 0]),
    (&[0, 2, 1], [3, 1, 4], [8, 0, 3]),
    (&[1, 0, 2], [4, 3, 1], [3, 8, 0]),
    (&[1, 2, 0], [4, 1, 3], [3, 0, 8]),
    (&[2, 0, 1], [1, 3, 4], [0, 8, 3]),
    (&[2, 1, 0], [1, 4, 3], [0, 3, 8]),
];

#[test]
fn all_fifteen_lists_of_objectives() {
    for (objectives, cost_59, cost_45) in COSTS {
        let bench = Bench::input().settings_of(CARGO, FORBIDDEN, objectives);
        let mut plans = vec![
            (59, vec![1, 3, 4, 255, 5], cost_59),
            (45, vec![2, 3, 255, 5, 5], cost_45),
        ];
        // Weight puts set 59 first, the two others set 45.
        if objectives[0] != 0 {
            plans.reverse();
        }
        assert_eq!(bench.listing(), plans, "{objectives:?}");
        for (set, table, cost) in plans {
            assert_eq!(bench.check(set, &table).cost, cost, "{objectives:?}");
        }
    }
}

#[test]
fn duplicates_are_counted_by_package() {
    // Three of package 1, two of package 2, one of package 3: 2 + 1 + 0. The root has package 2.
    let bench = Bench::new()
        .entry(2, [1, 0, 0], 0)
        .needs(1, "*")
        .needs(1, "*")
        .needs(1, "*")
        .needs(2, "(>= 2 0 0)")
        .needs(3, "*")
        .entry(1, [1, 0, 0], 0)
        .entry(1, [2, 0, 0], 0)
        .entry(1, [3, 0, 0], 0)
        .entry(2, [2, 0, 0], 0)
        .entry(3, [1, 0, 0], 0)
        .settings_of(CARGO, FORBIDDEN, &[2, 1]);
    assert_eq!(bench.check(63, &[1, 2, 3, 4, 5]).cost, [3, 5, 0]);
    assert_eq!(bench.check(51, &[1, 1, 1, 4, 5]).cost, [1, 3, 0]);
}

#[test]
fn all_64_entries_of_the_greatest_weight() {
    let mut bench = Bench::new().entry(0, [1, 0, 0], 65535);
    for package in 1..64 {
        bench = bench.needs(package, "*");
    }
    for package in 1..64 {
        bench = bench.entry(package, [1, 0, 0], 65535);
    }
    let bench = bench.settings_of(CARGO, FORBIDDEN, &[0, 1, 2]);
    let table: Vec<u8> = (1..64).collect();
    assert_eq!(bench.check(u64::MAX, &table).cost, [64 * 65535, 63, 0]);
}

#[test]
fn the_first_objective_decides_before_the_second() {
    // A 1.0.0 weighs 1 and needs two more; A 2.0.0 weighs 2 and needs nothing.
    let bench = |objectives| {
        Bench::new()
            .entry(0, [1, 0, 0], 0)
            .needs(1, "*")
            .entry(1, [1, 0, 0], 1)
            .needs(2, "*")
            .needs(3, "*")
            .entry(1, [2, 0, 0], 2)
            .entry(2, [1, 0, 0], 0)
            .entry(3, [1, 0, 0], 0)
            .settings_of(NPM, FORBIDDEN, objectives)
    };
    assert_eq!(
        bench(&[0, 1]).listing(),
        [
            (27, vec![1, 3, 4], [1, 3, 0]),
            (5, vec![2, 255, 255], [2, 1, 0])
        ]
    );
    assert_eq!(
        bench(&[1, 0]).listing(),
        [
            (5, vec![2, 255, 255], [1, 2, 0]),
            (27, vec![1, 3, 4], [3, 1, 0])
        ]
    );
}

#[test]
fn the_second_objective_decides_at_equal_first() {
    // Both A weigh 5; A 1.0.0 needs one more, so A 2.0.0 comes first under 0 1.
    let bench = |objectives| {
        Bench::new()
            .entry(0, [1, 0, 0], 0)
            .needs(1, "*")
            .entry(1, [1, 0, 0], 5)
            .needs(2, "*")
            .entry(1, [2, 0, 0], 5)
            .entry(2, [1, 0, 0], 0)
            .settings_of(NPM, FORBIDDEN, objectives)
    };
    assert_eq!(bench(&[0, 1]).listed_tables(), [[2, 255], [1, 3]]);
    // Under 0 alone they tie, and the table decides.
    assert_eq!(bench(&[0]).listed_tables(), [[1, 3], [2, 255]]);
}

#[test]
fn none_stands_after_every_entry_in_a_tie() {
    // Root 2 needs A (slot 1); A 1.0.0, entry 0, needs C (slot 0); A 2.0.0 is entry 1.
    let bench = Bench::new()
        .entry(1, [1, 0, 0], 0)
        .needs(3, "*")
        .entry(1, [2, 0, 0], 0)
        .entry(0, [1, 0, 0], 0)
        .needs(1, "*")
        .entry(3, [1, 0, 0], 0)
        .with(|bench| bench.root = 2);
    assert_eq!(
        bench.listing(),
        [(13, vec![3, 0], [0, 0, 0]), (6, vec![255, 1], [0, 0, 0])]
    );
}
