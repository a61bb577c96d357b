//! Faults: every clause of the table of refusals that check, first, next and turn can give, as a
//! change to make in what is handed over. 8 cannot be had; read's stand in `text_faults`.

use second::listing;

use crate::catalogues::rich;
use crate::constraints::{WAYS, damaged};
use crate::inputs::Lent;
use crate::random::Random;

/// One clause of the table.
pub struct Fault {
    /// The refusal's number.
    pub number: u8,
    /// The clause.
    pub clause: &'static str,
    make: fn(&mut Random, &mut Lent),
}

/// The numbers that faults can be had for, in order.
pub const NUMBERS: [u8; 10] = [1, 2, 3, 4, 5, 6, 7, 9, 10, 11];

const fn fault(number: u8, clause: &'static str, make: fn(&mut Random, &mut Lent)) -> Fault {
    Fault {
        number,
        clause,
        make,
    }
}

/// Every clause. A turn gives its number when no clause of a lower number applies as well.
pub static FAULTS: [Fault; 36] = [
    fault(1, "entry numbers not a multiple of five", |random, lent| {
        odd_length(random, &mut lent.entries, 5);
    }),
    fault(1, "no entries", |_, lent| lent.entries.clear()),
    fault(1, "65 entries", |_, lent| fill_entries(lent, 65)),
    fault(1, "over 65 entries", |random, lent| {
        fill_entries(lent, 66 + random.below(100))
    }),
    fault(2, "equal package, version and weight", |random, lent| {
        repeat_entry(random, lent, 0)
    }),
    fault(2, "equal package and version alone", |random, lent| {
        repeat_entry(random, lent, 1)
    }),
    fault(3, "slot numbers not a multiple of four", |random, lent| {
        odd_length(random, &mut lent.slots, 4);
    }),
    fault(3, "257 slots", |_, lent| fill_slots(lent, 257)),
    fault(3, "over 257 slots", |random, lent| {
        fill_slots(lent, 258 + random.below(100))
    }),
    fault(3, "owner not an entry", |random, lent| {
        let last = lent.slots.len() - 4;
        let past = lent.entry_count() as u16;
        lent.slots[last] = random.pick(&[past, past + 1, 64, 65535]);
    }),
    fault(3, "owner below the one before", |_, lent| {
        lent.slots[0] = 1;
        lent.slots[4] = 0;
    }),
    fault(3, "start after end", |random, lent| {
        let slot = 4 * random.below(lent.slot_count());
        lent.slots[slot + 2] = lent.slots[slot + 3] + 1;
    }),
    fault(3, "end past the text", |random, lent| {
        let slot = 4 * random.below(lent.slot_count());
        let past = lent.text.len() as u16 + 1;
        lent.slots[slot + 3] = random.pick(&[past, 65535]);
    }),
    fault(4, "any constraint outside the rules", |random, lent| {
        let way = random.below(WAYS);
        lent.set_constraint(random.below(lent.slot_count()), &damaged(way));
    }),
    fault(4, "an empty part", |random, lent| {
        let slot = 4 * random.below(lent.slot_count());
        lent.slots[slot + 3] = lent.slots[slot + 2];
    }),
    fault(4, "in a slot whose package has no entry", |random, lent| {
        let slot = random.below(lent.slot_count());
        lent.slots[4 * slot + 1] = lent.absent_package();
        lent.set_constraint(slot, b"(= 1 2)");
    }),
    fault(4, "in a slot whose owner nothing reaches", |_, lent| {
        push_unwanted_owner(lent);
        let owner = lent.entry_count() as u16 - 1;
        lent.push_slot(owner, lent.absent_package(), b"(or *)");
        lent.buffer.push(255);
    }),
    fault(5, "root just past the entries", |_, lent| {
        lent.root = lent.entry_count() as u16
    }),
    fault(5, "root far past the entries", |random, lent| {
        lent.root = random.pick(&[64, 65, 255, 256, 65535]);
    }),
    fault(6, "mode", |random, lent| {
        lent.mode = random.pick(&[3, 4, 255])
    }),
    fault(6, "cycles", |random, lent| {
        lent.cycles = random.pick(&[2, 3, 255])
    }),
    fault(6, "no objectives", |_, lent| lent.objectives.clear()),
    fault(6, "four objectives", |_, lent| {
        lent.objectives = vec![0, 1, 2, 3]
    }),
    fault(6, "an objective twice", |random, lent| {
        lent.objectives = random
            .pick(&[&[0, 0][..], &[1, 2, 1], &[2, 1, 1], &[0, 1, 2, 0]])
            .to_vec();
    }),
    fault(6, "an unknown objective", |random, lent| {
        lent.objectives = random
            .pick(&[&[3][..], &[255], &[0, 3], &[2, 1, 3]])
            .to_vec();
    }),
    fault(7, "buffer one byte short", |_, lent| {
        lent.buffer.truncate(lent.slot_count() - 1)
    }),
    fault(7, "buffer one byte long", |_, lent| {
        lent.buffer.resize(lent.slot_count() + 1, 255)
    }),
    fault(7, "empty buffer", |_, lent| lent.buffer.clear()),
    fault(9, "stage 3", |_, lent| lent.record.stage = 3),
    fault(9, "stage 255", |_, lent| lent.record.stage = 255),
    fault(10, "the set without the root", |_, lent| {
        run_with_set(lent, !(1 << lent.root))
    }),
    fault(10, "a set without members", |_, lent| run_with_set(lent, 0)),
    fault(
        10,
        "the buffer with an entry that is none",
        |random, lent| {
            let slot = random.below(lent.slot_count());
            lent.buffer[slot] = 100;
            run_with_set(lent, u64::MAX);
        },
    ),
    fault(11, "no sound plan", |_, lent| {
        push_unwanted_owner(lent);
        lent.root = lent.entry_count() as u16 - 1;
        lent.push_slot(lent.root, lent.absent_package(), b"*");
        lent.buffer.push(255);
        lent.record.stage = 0;
    }),
    fault(11, "none after it", |_, lent| {
        let plans = listing(&lent.catalogue(), &lent.settings()).unwrap_or_default();
        plans.last().into_iter().for_each(|plan| lent.hold(plan));
    }),
    fault(11, "stage 2", |_, lent| lent.record.stage = 2),
];

/// A sane catalogue with the faults made in it, the highest number first, so that a lower fault
/// stays as it was made.
pub fn with_faults(random: &mut Random, faults: &[&Fault]) -> Lent {
    let mut lent = rich(random);
    let mut faults = faults.to_vec();
    faults.sort_by_key(|fault| std::cmp::Reverse(fault.number));
    for fault in faults {
        (fault.make)(random, &mut lent);
    }
    lent
}

/// One fault; seeds that follow each other go through all clauses.
pub fn one_fault(random: &mut Random, seed: u64) -> Lent {
    let fault = &FAULTS[(seed % FAULTS.len() as u64) as usize];
    with_faults(random, &[fault])
}

/// Two faults of neighbouring numbers; seeds that follow each other go through all neighbours.
pub fn two_faults(random: &mut Random, seed: u64) -> Lent {
    let place = (seed % (NUMBERS.len() as u64 - 1)) as usize;
    let pair = [NUMBERS[place], NUMBERS[place + 1]].map(|number| any_of(random, number));
    with_faults(random, &pair)
}

/// Any fault of the number.
fn any_of(random: &mut Random, number: u8) -> &'static Fault {
    let of_number: Vec<&Fault> = FAULTS
        .iter()
        .filter(|fault| fault.number == number)
        .collect();
    random.pick(&of_number)
}

/// Adds or takes numbers until their count is no multiple any more.
fn odd_length(random: &mut Random, numbers: &mut Vec<u16>, multiple: usize) {
    let odd = 1 + random.below(multiple - 1);
    if random.one_in(2) {
        numbers.truncate(numbers.len() - odd);
    } else {
        numbers.extend(std::iter::repeat_n(0, odd));
    }
}

/// Adds entries up to the number.
fn fill_entries(lent: &mut Lent, number: usize) {
    while lent.entry_count() < number {
        push_unwanted_owner(lent);
    }
}

/// Adds an entry of a package that no other entry has.
fn push_unwanted_owner(lent: &mut Lent) {
    let wanted = |package| (0..lent.slot_count()).any(|slot| lent.wanted(slot) == package);
    let has = |package| (0..lent.entry_count()).any(|entry| lent.package(entry) == package);
    let free = (10_000..u16::MAX).find(|package| !wanted(*package) && !has(*package));
    lent.push_entry(free.unwrap_or(0), [1, 0, 0], 1);
}

/// Adds an entry equal to another but for its weight, which is heavier by the number given.
fn repeat_entry(random: &mut Random, lent: &mut Lent, heavier: u16) {
    let entry = random.below(lent.entry_count());
    let weight = lent.entries[5 * entry + 4].wrapping_add(heavier);
    lent.push_entry(lent.package(entry), lent.version(entry), weight);
}

/// Repeats the last slot up to the number, with a byte of the buffer for each.
fn fill_slots(lent: &mut Lent, number: usize) {
    let last = lent.slots[lent.slots.len() - 4..].to_vec();
    while lent.slot_count() < number {
        lent.slots.extend(&last);
    }
    lent.buffer.resize(number, 255);
}

/// Keeps only what the mask lets through of the set, given and recorded, and sets stage 1.
fn run_with_set(lent: &mut Lent, mask: u64) {
    lent.set &= mask;
    lent.record.set = lent.set;
    lent.record.stage = 1;
}
