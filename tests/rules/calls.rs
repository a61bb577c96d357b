//! What the calls leave in the plan buffer and in the record.

use super::bench::{Bench, given, refused};
use second::Record;

#[test]
fn a_plan_overwrites_the_whole_buffer() {
    let bench = Bench::input();
    let mut buffer = [9, 8, 7, 6, 5];
    assert_eq!(bench.first(&mut buffer), given(59, [3, 4, 1]));
    assert_eq!(buffer, [1, 3, 4, 255, 5]);
    assert_eq!(bench.next(59, &mut buffer), given(45, [8, 3, 0]));
    assert_eq!(buffer, [2, 3, 255, 5, 5]);
    assert_eq!(bench.next(45, &mut buffer), refused(11));
    assert_eq!(buffer, [2, 3, 255, 5, 5]);
}

#[test]
fn a_fresh_record_turned_over_and_over() {
    let bench = Bench::input();
    let mut record = Record { stage: 0, set: 0 };
    let mut buffer = [0; 5];
    assert_eq!(bench.turn(&mut record, &mut buffer), given(59, [3, 4, 1]));
    assert_eq!(
        (record, buffer),
        (Record { stage: 1, set: 59 }, [1, 3, 4, 255, 5])
    );
    assert_eq!(bench.turn(&mut record, &mut buffer), given(45, [8, 3, 0]));
    assert_eq!(
        (record, buffer),
        (Record { stage: 1, set: 45 }, [2, 3, 255, 5, 5])
    );
    for _ in 0..3 {
        // "11 makes its stage 2 and keeps its set", and the answer's set is 0.
        assert_eq!(bench.turn(&mut record, &mut buffer), refused(11));
        assert_eq!(
            (record, buffer),
            (Record { stage: 2, set: 45 }, [2, 3, 255, 5, 5])
        );
    }
}

#[test]
fn fresh_ignores_the_buffer_and_the_set() {
    let bench = Bench::two_plans();
    let mut record = Record {
        stage: 0,
        set: u64::MAX,
    };
    let mut buffer = [200];
    assert_eq!(bench.turn(&mut record, &mut buffer), given(3, [4, 0, 0]));
    assert_eq!((record, buffer), (Record { stage: 1, set: 3 }, [1]));
}

#[test]
fn fresh_without_any_plan_ends_and_keeps_the_set() {
    let bench = Bench::new().entry(0, [1, 0, 0], 0).needs(1, "*");
    let mut record = Record { stage: 0, set: 77 };
    let mut buffer = [200];
    for _ in 0..2 {
        assert_eq!(bench.turn(&mut record, &mut buffer), refused(11));
        assert_eq!((record, buffer), (Record { stage: 2, set: 77 }, [200]));
    }
}

#[test]
fn running_goes_on_from_any_sound_plan() {
    let bench = Bench::two_plans();
    let mut record = Record { stage: 1, set: 3 };
    let mut buffer = [1];
    assert_eq!(bench.turn(&mut record, &mut buffer), given(5, [7, 0, 0]));
    assert_eq!((record, buffer), (Record { stage: 1, set: 5 }, [2]));
}

#[test]
fn next_goes_by_cost_before_table() {
    // The dearer plan has the lower table, so it comes second.
    let bench = Bench::new()
        .entry(0, [1, 0, 0], 0)
        .needs(1, "*")
        .entry(1, [1, 0, 0], 9)
        .entry(1, [2, 0, 0], 4);
    let mut buffer = [0];
    assert_eq!(bench.first(&mut buffer), given(5, [4, 0, 0]));
    assert_eq!(bench.next(5, &mut buffer), given(3, [9, 0, 0]));
    assert_eq!(bench.next(3, &mut buffer), refused(11));
}
