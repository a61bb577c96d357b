//! "Bench examples", one test each. Those of the caret stand in `constraints`, the limits of
//! entries and slots in `refusals`, the depth and length in `constraints` and here.

use super::bench::{ALLOWED, Bench, CARGO, FORBIDDEN, NPM, PIP, given, refused};
use second::Record;

/// "Loop catalogue: root 0; A 1.0.0 (1); A 2.0.0 (2) needs B; B 1.0.0 (3) needs A; root needs A;
/// all `*`. Objective 1."
fn loop_catalogue(mode: u8, cycles: u8) -> Bench {
    Bench::new()
        .entry(0, [1, 0, 0], 0)
        .needs(1, "*")
        .entry(1, [1, 0, 0], 0)
        .entry(1, [2, 0, 0], 0)
        .needs(2, "*")
        .entry(2, [1, 0, 0], 0)
        .needs(1, "*")
        .settings_of(mode, cycles, &[1])
}

#[test]
fn the_input_has_two_plans() {
    assert_eq!(
        Bench::input().listing(),
        [
            (59, vec![1, 3, 4, 255, 5], [3, 4, 1]),
            (45, vec![2, 3, 255, 5, 5], [8, 3, 0])
        ]
    );
}

#[test]
fn the_input_under_pip_has_only_set_45() {
    let bench = Bench::input().settings_of(PIP, FORBIDDEN, &[0, 1, 2]);
    assert_eq!(bench.listing(), [(45, vec![2, 3, 255, 5, 5], [8, 3, 0])]);
}

#[test]
fn loop_with_cycles_allowed() {
    assert_eq!(
        loop_catalogue(NPM, ALLOWED).listing(),
        [
            (3, vec![1, 255, 255], [1, 0, 0]),
            (13, vec![2, 3, 2], [2, 0, 0]),
            (15, vec![2, 3, 1], [3, 0, 0])
        ]
    );
}

#[test]
fn loop_with_cycles_forbidden() {
    assert_eq!(
        loop_catalogue(NPM, FORBIDDEN).listing(),
        [
            (3, vec![1, 255, 255], [1, 0, 0]),
            (15, vec![2, 3, 1], [3, 0, 0])
        ]
    );
}

#[test]
fn loop_under_pip() {
    assert_eq!(
        loop_catalogue(PIP, FORBIDDEN).listing(),
        [(3, vec![1, 255, 255], [1, 0, 0])]
    );
    // Not in 01: with cycles allowed the plan with one A comes back, the one with two does not.
    assert_eq!(
        loop_catalogue(PIP, ALLOWED).listed_tables(),
        [[1, 255, 255], [2, 3, 2]]
    );
}

#[test]
fn loop_under_cargo_is_as_under_npm_since_the_majors_differ() {
    assert_eq!(
        loop_catalogue(CARGO, ALLOWED).listed_tables(),
        [[1, 255, 255], [2, 3, 2], [2, 3, 1]]
    );
}

#[test]
fn root_alone_has_one_plan_then_11() {
    let bench = Bench::new()
        .entry(0, [1, 0, 0], 9)
        .settings_of(NPM, FORBIDDEN, &[0, 1, 2]);
    assert_eq!(bench.first(&mut []), given(1, [9, 0, 0]));
    assert_eq!(bench.next(1, &mut []), refused(11));
    let mut record = Record::default();
    assert_eq!(bench.turn(&mut record, &mut []), given(1, [9, 0, 0]));
    assert_eq!(bench.turn(&mut record, &mut []), refused(11));
}

#[test]
fn a_package_without_entries_gives_11_at_once() {
    let bench = Bench::new().entry(0, [1, 0, 0], 0).needs(1, "*");
    assert_eq!(bench.first(&mut [7]), refused(11));
    assert_eq!(bench.turn(&mut Record::default(), &mut [7]), refused(11));
}

#[test]
fn a_tie_of_two_a_is_listed_by_table() {
    let bench = Bench::new()
        .entry(0, [1, 0, 0], 0)
        .needs(1, "*")
        .entry(1, [1, 0, 0], 5)
        .entry(1, [2, 0, 0], 5);
    assert_eq!(
        bench.listing(),
        [(3, vec![1], [5, 0, 0]), (5, vec![2], [5, 0, 0])]
    );
}

#[test]
fn depth_and_length_in_a_slot() {
    let nested =
        |depth: usize| format!("{}*{}", "(and * ".repeat(depth - 1), ")".repeat(depth - 1));
    let first = |constraint: &str| {
        let bench = Bench::new()
            .entry(0, [1, 0, 0], 0)
            .needs(1, constraint)
            .entry(1, [1, 0, 0], 0);
        bench.first(&mut [0]).refusal
    };
    assert_eq!(first(&nested(16)), 0);
    assert_eq!(first(&nested(17)), 4);
    // A pair of `and` has 7 bytes more than its sides: 256 = 7 + 1 + (7 + 117 + 124).
    let pair = |left: &str, right: &str| format!("(and {left} {right})");
    let bytes_24 = pair("*", "(= 100 100 1000)");
    let bytes_55 = pair(&bytes_24, &bytes_24);
    let bytes_117 = pair(&bytes_55, &bytes_55);
    let bytes_124 = format!("(or * {bytes_117})");
    let bytes_256 = pair("*", &pair(&bytes_117, &bytes_124));
    assert_eq!(bytes_256.len(), 256);
    assert_eq!(first(&bytes_256), 4);
    // One byte less, and still a constraint that 1.0.0 fits.
    assert_eq!(first(&bytes_256.replacen("(and", "(or", 1)), 0);
}

#[test]
fn bad_mode_and_bad_root_give_5() {
    let bench = Bench::two_plans().with(|bench| {
        bench.mode = 3;
        bench.root = 3;
    });
    assert_eq!(bench.first(&mut [0]), refused(5));
    assert_eq!(bench.check(3, &[1]).refusal, 5);
}
