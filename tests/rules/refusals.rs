//! The table of refusals, clause by clause, and the limits that just pass. Read's own stand in
//! `read_layout` and `read_tables`; 8 cannot be had.

use super::bench::{Bench, given, refused};
use second::{CheckAnswer, Record};

/// Asserts that check, first, next and turn at every stage give the refusal and write nothing.
fn assert_refused_by_all(bench: &Bench, buffer: &[u8], refusal: u8) {
    assert_eq!(
        bench.check(3, buffer),
        CheckAnswer {
            refusal,
            condition: 0,
            cost: [0, 0, 0]
        }
    );
    let mut held = buffer.to_vec();
    assert_eq!(bench.first(&mut held), refused(refusal));
    assert_eq!(bench.next(3, &mut held), refused(refusal));
    for stage in [0, 1, 2] {
        let mut record = Record { stage, set: 3 };
        assert_eq!(bench.turn(&mut record, &mut held), refused(refusal));
        assert_eq!(record, Record { stage, set: 3 });
    }
    assert_eq!(held, buffer);
}

/// Asserts that two plans with one change are refused by all; table 1 is sound without it.
fn assert_change_refused(refusal: u8, change: impl FnOnce(&mut Bench)) {
    assert_refused_by_all(&Bench::two_plans().with(change), &[1], refusal);
}

/// As many entries of different packages, the first of them the root, without slots.
fn entries(number: u16) -> Bench {
    (0..number).fold(Bench::new(), |bench, package| {
        bench.entry(package, [1, 0, 0], 0)
    })
}

/// The root without slots, and an entry that nothing reaches with as many slots.
fn slots(number: usize) -> Bench {
    let owner = Bench::new().entry(0, [1, 0, 0], 0).entry(1, [1, 0, 0], 0);
    (0..number).fold(owner, |bench, _| bench.needs(2, "*"))
}

#[test]
fn refusal_1_entry_numbers() {
    for odd in 1..5 {
        assert_change_refused(1, |bench| bench.entries.truncate(15 - odd));
        assert_change_refused(1, |bench| bench.entries.extend(vec![9; odd]));
    }
    assert_change_refused(1, |bench| bench.entries.clear());
    assert_refused_by_all(&entries(65), &[], 1);
    assert_refused_by_all(&entries(1000), &[], 1);
    assert_eq!(entries(64).first(&mut []), given(1, [0, 0, 0]));
    assert_eq!(entries(1).first(&mut []), given(1, [0, 0, 0]));
}

#[test]
fn refusal_2_equal_entries() {
    assert_change_refused(2, |bench| bench.entries.extend([1, 2, 0, 0, 7]));
    // Another weight makes no difference.
    assert_change_refused(2, |bench| bench.entries.extend([1, 2, 0, 0, 8]));
    // Nor does it matter where the two stand.
    assert_change_refused(2, |bench| bench.entries.extend([0, 1, 0, 0, 0]));
    // Another package or another number of the version makes them different.
    for other in [
        [2, 2, 0, 0, 7],
        [1, 3, 0, 0, 7],
        [1, 2, 1, 0, 7],
        [1, 2, 0, 1, 7],
    ] {
        let bench = Bench::two_plans().with(|bench| bench.entries.extend(other));
        assert_eq!(bench.first(&mut [0]), given(3, [4, 0, 0]));
    }
}

#[test]
fn refusal_3_slot_numbers() {
    for odd in 1..4 {
        assert_change_refused(3, |bench| bench.slots.truncate(4 - odd));
        assert_change_refused(3, |bench| bench.slots.extend(vec![0; odd]));
    }
    assert_refused_by_all(&slots(257), &[255; 257], 3);
    assert_eq!(slots(256).first(&mut [0; 256]), given(1, [0, 0, 0]));
    assert_eq!(slots(0).first(&mut []), given(1, [0, 0, 0]));
}

#[test]
fn refusal_3_owners() {
    assert_change_refused(3, |bench| bench.slots[0] = 3);
    assert_change_refused(3, |bench| bench.slots[0] = 65535);
    let rising = |owners: [u16; 2]| {
        let bench = Bench::two_plans().needs(9, "*");
        bench.with(|bench| {
            bench.slots[0] = owners[0];
            bench.slots[4] = owners[1];
        })
    };
    assert_refused_by_all(&rising([2, 1]), &[255, 255], 3);
    assert_refused_by_all(&rising([1, 0]), &[255, 255], 3);
    assert_eq!(rising([1, 1]).first(&mut [0, 0]), given(1, [0, 0, 0]));
    assert_eq!(rising([1, 2]).first(&mut [0, 0]), given(1, [0, 0, 0]));
}

#[test]
fn refusal_3_marks() {
    assert_change_refused(3, |bench| bench.slots[2] = 2);
    assert_change_refused(3, |bench| bench.slots[3] = 2);
    assert_change_refused(3, |bench| bench.slots[3] = 65535);
    assert_change_refused(3, |bench| bench.text.clear());
}

#[test]
fn refusal_4_constraints() {
    // An empty part, at the front and at the end of the text.
    assert_change_refused(4, |bench| bench.slots[3] = 0);
    assert_change_refused(4, |bench| bench.slots[2] = 1);
    assert_change_refused(4, |bench| bench.text[0] = b'?');
    // Also in a slot whose owner nothing reaches, and whose package has no entry.
    let unreached = Bench::two_plans().needs(1, "(= 1 2)");
    assert_refused_by_all(&unreached, &[1, 255], 4);
    let no_entry = Bench::two_plans().needs(9, "(= 1 2)");
    assert_refused_by_all(&no_entry, &[1, 255], 4);
}

#[test]
fn refusal_4_looks_only_between_the_marks() {
    // Parts may overlap, and what no part holds may be anything. The second slot belongs to an
    // entry that nothing reaches.
    let marked = |start, end| {
        let unreached = Bench::two_plans().entry(5, [1, 0, 0], 0).needs(9, "*");
        unreached.with(|bench| {
            bench.text = b"?(or * (= 1 0 0))?".to_vec();
            bench.slots[2..4].copy_from_slice(&[start, end]);
            bench.slots[6..8].copy_from_slice(&[1, 17]);
        })
    };
    assert_eq!(marked(7, 16).listed_tables(), [[1, 255]]);
    assert_eq!(marked(5, 6).listed_tables(), [[1, 255], [2, 255]]);
    for (start, end) in [
        (8, 16),
        (6, 16),
        (7, 15),
        (7, 17),
        (0, 17),
        (1, 18),
        (0, 18),
    ] {
        assert_refused_by_all(&marked(start, end), &[1, 255], 4);
    }
}

#[test]
fn a_text_past_65535_bytes_is_fine_outside_read() {
    let bench = Bench::two_plans().with(|bench| bench.text.resize(70_000, b'?'));
    assert_eq!(bench.first(&mut [0]), given(3, [4, 0, 0]));
}

#[test]
fn refusal_5_root() {
    for root in [3, 4, 63, 64, 255, 256, 65535] {
        assert_change_refused(5, |bench| bench.root = root);
    }
    let bench = Bench::two_plans().with(|bench| bench.root = 2);
    assert_eq!(bench.first(&mut [0]), given(4, [7, 0, 0]));
}

#[test]
fn refusal_6_settings() {
    for number in [3, 4, 128, 255] {
        assert_change_refused(6, |bench| bench.mode = number);
    }
    for number in [2, 3, 128, 255] {
        assert_change_refused(6, |bench| bench.cycles = number);
    }
    let lists: [&[u8]; 12] = [
        &[],
        &[3],
        &[255],
        &[0, 0],
        &[0, 3],
        &[1, 2, 1],
        &[0, 1, 1],
        &[2, 2, 0],
        &[0, 1, 3],
        &[0, 1, 2, 0],
        &[0, 1, 2, 3],
        &[0, 0, 0, 0],
    ];
    for objectives in lists {
        assert_change_refused(6, |bench| bench.objectives = objectives.to_vec());
    }
}

#[test]
fn refusal_7_plan_buffer() {
    let bench = Bench::two_plans();
    assert_refused_by_all(&bench, &[], 7);
    assert_refused_by_all(&bench, &[1, 255], 7);
    assert_refused_by_all(&bench, &[1; 300], 7);
    assert_refused_by_all(&entries(1), &[255], 7);
}

#[test]
fn refusal_9_stage() {
    let bench = Bench::two_plans();
    for stage in [3, 4, 255] {
        let mut record = Record { stage, set: 3 };
        let mut buffer = [1];
        assert_eq!(bench.turn(&mut record, &mut buffer), refused(9));
        assert_eq!((record, buffer), (Record { stage, set: 3 }, [1]));
    }
}

#[test]
fn refusal_10_unsound_plan() {
    let bench = Bench::two_plans();
    for (set, byte) in [
        (3, 2),
        (5, 1),
        (7, 1),
        (0, 255),
        (1, 255),
        (3, 255),
        (3, 77),
    ] {
        let mut buffer = [byte];
        assert_eq!(bench.next(set, &mut buffer), refused(10));
        let mut record = Record { stage: 1, set };
        assert_eq!(bench.turn(&mut record, &mut buffer), refused(10));
        assert_eq!((record, buffer), (Record { stage: 1, set }, [byte]));
    }
}

#[test]
fn refusal_11_no_plan_none_after_it_or_ended() {
    let bench = Bench::two_plans();
    assert_eq!(bench.next(5, &mut [2]), refused(11));
    assert_eq!(
        bench.turn(&mut Record { stage: 1, set: 5 }, &mut [2]),
        refused(11)
    );
    assert_eq!(
        bench.turn(&mut Record { stage: 2, set: 3 }, &mut [1]),
        refused(11)
    );
    let none = bench.with(|bench| bench.slots[1] = 9);
    assert_eq!(none.first(&mut [1]), refused(11));
    assert_eq!(
        none.turn(&mut Record { stage: 0, set: 3 }, &mut [1]),
        refused(11)
    );
}
