//! The six conditions, each broken alone where that can be had, and the errors of reasoning that
//! 01 excludes.

use super::bench::{ALLOWED, Bench, CARGO, FORBIDDEN, NPM, PIP};
use second::{CheckAnswer, conditions};

/// Asserts that check names the first of the given conditions. That exactly these fail is asked of
/// the second program, the only one that judges each on its own.
fn assert_fails(bench: &Bench, set: u64, table: &[u8], failing: &[u8]) {
    let first = CheckAnswer {
        refusal: 0,
        condition: failing[0],
        cost: [0, 0, 0],
    };
    assert_eq!(bench.check(set, table), first, "set {set}, table {table:?}");
    let each = conditions(&bench.catalogue(), &bench.settings(), set, table).unwrap();
    let expected: Vec<bool> = (1..=6).map(|number| !failing.contains(&number)).collect();
    assert_eq!(each[..], expected, "set {set}, table {table:?}");
}

fn assert_sound(bench: &Bench, set: u64, table: &[u8]) {
    let answer = bench.check(set, table);
    assert_eq!(
        (answer.refusal, answer.condition),
        (0, 0),
        "set {set}, table {table:?}"
    );
}

/// The root needs A twice; A 1.0.0 is entry 1, the other A is entry 2.
fn two_slots_for_a(other: [u16; 3], mode: u8) -> Bench {
    Bench::new()
        .entry(0, [1, 0, 0], 0)
        .needs(1, "*")
        .needs(1, "*")
        .entry(1, [1, 0, 0], 0)
        .entry(1, other, 0)
        .settings_of(mode, FORBIDDEN, &[1])
}

#[test]
fn condition_1_existing_entries_and_the_root() {
    let bench = Bench::input();
    assert_sound(&bench, 59, &[1, 3, 4, 255, 5]);
    // Alone: a set without any member.
    assert_fails(&bench, 0, &[255; 5], &[1]);
    // The root missing: nothing is then reached, and the root's slots must hold 255.
    assert_fails(&bench, 58, &[1, 3, 4, 255, 5], &[1, 2, 3]);
    // A bit past the last entry, the lowest and the highest.
    assert_fails(&bench, 59 | 1 << 6, &[1, 3, 4, 255, 5], &[1, 2]);
    assert_fails(&bench, 59 | 1 << 63, &[1, 3, 4, 255, 5], &[1, 2]);
    // One that a slot names: then it is reached, but it is no entry that could fit.
    assert_fails(&Bench::two_plans(), 1 | 1 << 40, &[40], &[1, 4]);
}

#[test]
fn condition_2_reached_along_the_arrows() {
    let bench = Bench::input();
    // Player 1.4.0 only points into the plan.
    assert_fails(&bench, 63, &[1, 3, 4, 5, 5], &[2]);
    // Codec 2.0.0 is not named at all.
    assert_fails(&bench, 61, &[2, 3, 255, 5, 5], &[2]);
    // Codec 2.0.0 is named, but only by what is no member.
    assert_fails(&bench, 57, &[1, 3, 4, 255, 5], &[2, 3]);
}

#[test]
fn condition_2_a_loop_apart_from_the_root() {
    let bench = Bench::new()
        .entry(0, [1, 0, 0], 0)
        .entry(1, [1, 0, 0], 0)
        .needs(2, "*")
        .entry(2, [1, 0, 0], 0)
        .needs(1, "*")
        .settings_of(NPM, ALLOWED, &[1]);
    assert_fails(&bench, 7, &[2, 1], &[2]);
    assert_sound(&bench, 1, &[255, 255]);
    assert_eq!(bench.listed_tables(), [[255, 255]]);
}

#[test]
fn condition_3_slots_name_members() {
    // A slot of an entry that is no member.
    assert_fails(&Bench::input(), 59, &[1, 3, 4, 5, 5], &[3]);
    // A slot of a member names an entry that fits and is no member.
    let bench = two_slots_for_a([2, 0, 0], NPM);
    assert_fails(&bench, 3, &[1, 2], &[3]);
    // Nothing, or a number past the entries, is no member and fits nothing.
    for byte in [255, 254, 64, 63, 3] {
        assert_fails(&bench, 3, &[1, byte], &[3, 4]);
    }
}

#[test]
fn condition_4_wanted_package_and_fitting_version() {
    // Guide needs codec (<= 1 9 9) and is given 2.0.0.
    assert_fails(&Bench::input(), 27, &[1, 3, 4, 255, 4], &[4]);
    // The last slot wants package 2 and is given a member of package 1.
    let bench = Bench::new()
        .entry(0, [1, 0, 0], 0)
        .needs(1, "*")
        .needs(2, "*")
        .needs(2, "*")
        .entry(1, [1, 0, 0], 0)
        .entry(2, [1, 0, 0], 0);
    assert_fails(&bench, 7, &[1, 2, 1], &[4]);
    assert_sound(&bench, 7, &[1, 2, 2]);
}

#[test]
fn condition_5_consistent_members() {
    let pip = Bench::input().settings_of(PIP, FORBIDDEN, &[0, 1, 2]);
    assert_fails(&pip, 59, &[1, 3, 4, 255, 5], &[5]);
    assert_sound(&pip, 45, &[2, 3, 255, 5, 5]);

    assert_sound(&two_slots_for_a([1, 1, 0], NPM), 7, &[1, 2]);
    assert_fails(&two_slots_for_a([1, 1, 0], CARGO), 7, &[1, 2], &[5]);
    assert_fails(&two_slots_for_a([1, 1, 0], PIP), 7, &[1, 2], &[5]);
    assert_sound(&two_slots_for_a([2, 0, 0], CARGO), 7, &[1, 2]);
    assert_sound(&two_slots_for_a([0, 0, 0], CARGO), 7, &[1, 2]);
    assert_fails(&two_slots_for_a([2, 0, 0], PIP), 7, &[1, 2], &[5]);
}

#[test]
fn condition_5_counts_the_root_too() {
    // The root's own package, in another version of the same major.
    let bench = |mode| {
        Bench::new()
            .entry(0, [1, 0, 0], 0)
            .needs(0, "(>= 1 1 0)")
            .entry(0, [1, 1, 0], 0)
            .settings_of(mode, FORBIDDEN, &[0])
    };
    assert_sound(&bench(NPM), 3, &[1]);
    assert_fails(&bench(CARGO), 3, &[1], &[5]);
    assert_fails(&bench(PIP), 3, &[1], &[5]);
}

#[test]
fn condition_6_a_slot_naming_its_owner() {
    let bench = |cycles| {
        let bench = Bench::new().entry(0, [1, 0, 0], 0).needs(0, "*");
        bench.settings_of(PIP, cycles, &[0])
    };
    assert_fails(&bench(FORBIDDEN), 1, &[0], &[6]);
    assert_eq!(bench(FORBIDDEN).listing(), []);
    assert_sound(&bench(ALLOWED), 1, &[0]);
    assert_eq!(bench(ALLOWED).listed_tables(), [[0]]);
}

#[test]
fn condition_6_cycles_of_three_away_from_the_root() {
    let bench = |cycles| {
        Bench::new()
            .entry(0, [1, 0, 0], 0)
            .needs(1, "*")
            .entry(1, [1, 0, 0], 0)
            .needs(2, "*")
            .entry(2, [1, 0, 0], 0)
            .needs(3, "*")
            .entry(3, [1, 0, 0], 0)
            .needs(1, "*")
            .settings_of(NPM, cycles, &[0])
    };
    assert_fails(&bench(FORBIDDEN), 15, &[1, 2, 3, 1], &[6]);
    assert_sound(&bench(ALLOWED), 15, &[1, 2, 3, 1]);
}

#[test]
fn condition_6_two_ways_to_one_member_are_no_cycle() {
    let bench = Bench::new()
        .entry(0, [1, 0, 0], 0)
        .needs(1, "*")
        .needs(2, "*")
        .needs(3, "*")
        .entry(1, [1, 0, 0], 0)
        .needs(3, "*")
        .entry(2, [1, 0, 0], 0)
        .needs(3, "*")
        .entry(3, [1, 0, 0], 0);
    assert_sound(&bench, 15, &[1, 2, 3, 3, 3]);
}

#[test]
fn each_condition_with_every_later_one() {
    // The root needs A twice and B (= 1 0 0); A 1.0.0 needs C, and C needs A. Entries 1 and 2 are
    // A 1.0.0 and 2.0.0, 3 and 4 are B 1.0.0 and 2.0.0, 5 is C.
    let bench = Bench::new()
        .entry(0, [1, 0, 0], 0)
        .needs(1, "*")
        .needs(1, "*")
        .needs(2, "(= 1 0 0)")
        .entry(1, [1, 0, 0], 0)
        .needs(3, "*")
        .entry(1, [2, 0, 0], 0)
        .entry(2, [1, 0, 0], 0)
        .entry(2, [2, 0, 0], 0)
        .entry(3, [1, 0, 0], 0)
        .needs(1, "*")
        .settings_of(PIP, FORBIDDEN, &[0]);
    // A 1.0.0 and C in a circle; then both A; then B 2.0.0; then no B named; then B 2.0.0 beside
    // what is reached; then a bit past the last entry too.
    assert_fails(&bench, 43, &[1, 1, 3, 5, 1], &[6]);
    assert_fails(&bench, 47, &[1, 2, 3, 5, 1], &[5, 6]);
    assert_fails(&bench, 55, &[1, 2, 4, 5, 1], &[4, 5, 6]);
    assert_fails(&bench, 39, &[1, 2, 255, 5, 1], &[3, 4, 5, 6]);
    assert_fails(&bench, 55, &[1, 2, 255, 5, 1], &[2, 3, 4, 5, 6]);
    assert_fails(&bench, 119, &[1, 2, 255, 5, 1], &[1, 2, 3, 4, 5, 6]);
    // What is sound here: one A without a circle.
    assert_sound(&bench, 13, &[2, 2, 3, 255, 255]);
}

#[test]
fn the_newest_version_may_fail_and_an_older_one_serve() {
    let bench = Bench::new()
        .entry(0, [1, 0, 0], 0)
        .needs(1, "*")
        .entry(1, [2, 0, 0], 0)
        .needs(2, "*")
        .entry(1, [1, 0, 0], 9);
    assert_eq!(bench.listing(), [(5, vec![2, 255], [9, 0, 0])]);
}

#[test]
fn the_cheapest_may_be_a_cycle_and_a_dearer_one_serve() {
    let bench = |cycles| {
        Bench::new()
            .entry(0, [1, 0, 0], 0)
            .needs(1, "*")
            .entry(1, [2, 0, 0], 1)
            .needs(0, "*")
            .entry(1, [1, 0, 0], 5)
            .settings_of(NPM, cycles, &[0])
    };
    assert_eq!(bench(FORBIDDEN).listing(), [(5, vec![2, 255], [5, 0, 0])]);
    assert_eq!(
        bench(ALLOWED).listing(),
        [(3, vec![1, 0], [1, 0, 0]), (5, vec![2, 255], [5, 0, 0])]
    );
}

#[test]
fn two_slots_for_one_package_may_agree_or_differ() {
    assert_eq!(
        two_slots_for_a([2, 0, 0], CARGO).listed_tables(),
        [[1, 1], [2, 2], [1, 2], [2, 1]]
    );
    assert_eq!(
        two_slots_for_a([1, 1, 0], CARGO).listed_tables(),
        [[1, 1], [2, 2]]
    );
    assert_eq!(
        two_slots_for_a([2, 0, 0], PIP).listed_tables(),
        [[1, 1], [2, 2]]
    );
}

#[test]
fn a_member_that_only_points_in_is_never_listed() {
    // Entry 1, a plug-in, needs the player; nothing needs the plug-in.
    let bench = Bench::new()
        .entry(0, [1, 0, 0], 0)
        .needs(2, "*")
        .entry(1, [1, 0, 0], 0)
        .needs(2, "*")
        .entry(2, [1, 0, 0], 0);
    assert_eq!(bench.listing(), [(5, vec![2, 255], [0, 0, 0])]);
    assert_fails(&bench, 7, &[2, 2], &[2]);
}
