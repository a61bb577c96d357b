//! The deepest search: a catalogue whose least plan decides all 256 slots one inside the other, run
//! on a stack of 2 MiB, a quarter of the usual one.

use compare::proved;
use second::{Catalogue, Settings};

/// A chain of packages, each with a version that needs the next one in many slots and a later entry
/// that needs nothing. All weigh nothing, so only the tables' order tells the plans apart, and the
/// least table has the lower entry in every slot.
fn chain() -> (Vec<u16>, Vec<u16>) {
    let first = (0..32).flat_map(|package| [package, 0, 0, 0, 0]);
    let second = (1..32).flat_map(|package| [package, 1, 0, 0, 0]);
    let slots = (0..31).flat_map(|owner| {
        let needs = if owner == 30 { 16 } else { 8 };
        (0..needs).flat_map(move |_| [owner, owner + 1, 0, 1])
    });
    (first.chain(second).collect(), slots.collect())
}

#[test]
fn all_slots_are_decided() {
    let deep = || {
        let (entries, slots) = chain();
        let catalogue = Catalogue {
            entries: &entries,
            slots: &slots,
            text: b"*",
        };
        let settings = Settings {
            root: 0,
            mode: 0,
            cycles: 0,
            objectives: &[0],
        };
        let mut buffer = vec![0; 256];
        let answer = proved::first(&catalogue, &settings, &mut buffer);
        let named: Vec<u8> = slots.chunks(4).map(|slot| slot[0] as u8 + 1).collect();
        assert_eq!(
            (answer.refusal, answer.set, answer.cost),
            (0, 0xffff_ffff, [0, 0, 0])
        );
        assert_eq!(buffer, named);
    };
    let stack = std::thread::Builder::new().stack_size(2 << 20);
    stack.spawn(deep).expect("a thread").join().expect("a plan");
}
