//! The program beside the second one, on many generated texts: sane ones, each clause of the layout
//! broken in turn, two faults at once, and any bytes.

use cases::{Inputs, Kind, case};
use second::{LIMIT, text_combinations};

/// Runs both on the texts of a kind, and answers on how many.
fn compare(kind: Kind, seeds: u64) -> u64 {
    let mut compared = 0;
    for seed in 0..seeds {
        let Inputs::Read(lent) = case(kind, seed).inputs else {
            panic!("{kind:?} has no text");
        };
        if text_combinations(&lent.text) <= LIMIT {
            let text = String::from_utf8_lossy(&lent.text);
            let expected = second::boxplan(&lent.text);
            assert_eq!(
                program::run(&lent.text),
                expected,
                "{kind:?} {seed}\n{text}"
            );
            compared += 1;
        }
    }
    compared
}

#[test]
fn sane_texts() {
    assert!(compare(Kind::Text, 1500) > 1000);
}

#[test]
fn each_clause_of_the_layout_broken() {
    assert!(compare(Kind::TextFault, 1000) > 500);
}

#[test]
fn two_faults_at_once() {
    assert!(compare(Kind::TwoTextFaults, 500) > 250);
}

#[test]
fn any_bytes() {
    assert!(compare(Kind::TextGarbage, 500) > 250);
}
