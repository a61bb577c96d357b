//! Two faults at once: "Outside read the lowest number that applies is given."

use super::bench::{Bench, refused};
use second::Record;

/// What is handed to a turn, and to next with the record's set.
struct Handed {
    bench: Bench,
    record: Record,
    buffer: Vec<u8>,
}

/// One fault, made in what is handed over.
type Fault = fn(&mut Handed);

/// A fault for each number, each leaving the others possible.
const FAULTS: [(u8, Fault); 10] = [
    (1, |handed| handed.bench.entries.push(0)),
    (2, |handed| handed.bench.entries.extend([1, 1, 0, 0, 0])),
    (3, |handed| handed.bench.slots[0] = 60),
    (4, |handed| handed.bench.text[0] = b'?'),
    (5, |handed| handed.bench.root = 60),
    (6, |handed| handed.bench.mode = 3),
    (7, |handed| handed.buffer.push(255)),
    (9, |handed| handed.record.stage = 3),
    (10, |handed| handed.record.set = 2),
    (11, |handed| handed.bench.slots[1] = 9),
];

/// Two plans, the first of them in the buffer and the record.
fn handed() -> Handed {
    Handed {
        bench: Bench::two_plans(),
        record: Record { stage: 1, set: 3 },
        buffer: vec![1],
    }
}

#[test]
fn each_fault_alone() {
    for (number, fault) in FAULTS {
        let mut handed = handed();
        fault(&mut handed);
        // Without any plan the one handed over is not sound either.
        let expected = if number == 11 { 10 } else { number };
        assert_eq!(
            handed.bench.turn(&mut handed.record, &mut handed.buffer),
            refused(expected)
        );
    }
}

#[test]
fn of_two_faults_the_lower_number() {
    for (place, (lower, low_fault)) in FAULTS.iter().enumerate() {
        for (_, high_fault) in &FAULTS[place + 1..] {
            let mut handed = handed();
            high_fault(&mut handed);
            low_fault(&mut handed);
            let Handed {
                bench,
                mut record,
                mut buffer,
            } = handed;
            assert_eq!(bench.turn(&mut record, &mut buffer), refused(*lower));
            if *lower <= 7 {
                assert_eq!(bench.first(&mut buffer), refused(*lower));
                assert_eq!(bench.check(record.set, &buffer).refusal, *lower);
            }
            if *lower != 9 {
                assert_eq!(bench.next(record.set, &mut buffer), refused(*lower));
            }
        }
    }
}

#[test]
fn ended_gives_11_before_10_but_after_7() {
    let bench = Bench::two_plans();
    let ended = Record { stage: 2, set: 2 };
    assert_eq!(bench.turn(&mut ended.clone(), &mut [77]), refused(11));
    assert_eq!(bench.turn(&mut ended.clone(), &mut [77, 77]), refused(7));
}
