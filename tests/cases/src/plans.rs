//! Plans and records to be handed over in sane catalogues: each condition broken alone, plans
//! with one change, bytes that are no plan, and records that are none.

use second::{Plan, Record, conditions, listing};

use crate::catalogues::{rich, sane};
use crate::inputs::Lent;
use crate::random::Random;

/// How many kinds of damage [`damaged`] knows: six conditions and three others.
const DAMAGES: u64 = 9;

/// A damaged plan; seeds that follow each other go through all kinds of damage.
pub fn damaged(random: &mut Random, seed: u64) -> Lent {
    let damage = seed % DAMAGES;
    if damage < 6 {
        return breaking(random, damage as usize + 1);
    }
    let mut lent = rich(random);
    match damage {
        6 => bytes(random, &mut lent),
        7 => lent.set |= 1 << (lent.entry_count() + random.below(64 - lent.entry_count())),
        _ => one_change(random, &mut lent),
    }
    lent.record = Record {
        stage: 1,
        set: lent.set,
    };
    lent
}

/// A damaged record; seeds that follow each other go through all kinds of damage.
pub fn damaged_record(random: &mut Random, seed: u64) -> Lent {
    let mut lent = rich(random);
    match seed % 8 {
        0 => lent.record.stage = 3,
        1 => lent.record.stage = 255,
        2 => lent.record.stage = random.byte(),
        3 => {
            lent.record = Record {
                stage: 0,
                set: random.number(),
            }
        }
        4 => lent.record.set = random.number(),
        5 => lent.record.set ^= 1 << random.below(64),
        6 => {
            bytes(random, &mut lent);
            lent.record.stage = 2;
        }
        _ => {
            bytes(random, &mut lent);
            lent.record.stage = random.below(2) as u8;
        }
    }
    lent
}

/// A plan that breaks the condition and no other.
pub fn breaking(random: &mut Random, condition: usize) -> Lent {
    loop {
        let mut lent = sane(random);
        let settings = (lent.mode, lent.cycles);
        (lent.mode, lent.cycles) = (0, 1);
        let plans = listing(&lent.catalogue(), &lent.settings()).unwrap_or_default();
        (lent.mode, lent.cycles) = settings;
        if plans.is_empty() {
            continue;
        }
        lent.hold(&plans[random.below(plans.len())]);
        break_condition(random, &mut lent, condition);
        lent.record = Record {
            stage: 1,
            set: lent.set,
        };
        let holding = conditions(&lent.catalogue(), &lent.settings(), lent.set, &lent.buffer);
        let expected: Vec<bool> = (1..=6).map(|number| number != condition).collect();
        if holding.is_ok_and(|holding| holding[..] == expected) {
            return lent;
        }
    }
}

/// Makes a change that may break the condition; the fifth and sixth are broken by the settings.
fn break_condition(random: &mut Random, lent: &mut Lent, condition: usize) {
    match condition {
        1 => {
            lent.set = 0;
            lent.buffer.fill(255);
        }
        2 => add_member(random, lent),
        3 => change_byte(random, lent),
        4 => name_any_member(random, lent),
        _ => {}
    }
}

/// Adds a member, its slots filled with members of the packages they want where there are any.
fn add_member(random: &mut Random, lent: &mut Lent) {
    let added = random.below(lent.entry_count());
    lent.set |= 1 << added;
    for slot in 0..lent.slot_count() {
        if usize::from(lent.owner(slot)) == added {
            let serves = |entry: &usize| {
                lent.set >> entry & 1 == 1 && lent.package(*entry) == lent.wanted(slot)
            };
            let serving: Vec<usize> = (0..lent.entry_count()).filter(serves).collect();
            if !serving.is_empty() {
                lent.buffer[slot] = random.pick(&serving) as u8;
            }
        }
    }
}

/// Changes one byte of the buffer to an entry or to none.
fn change_byte(random: &mut Random, lent: &mut Lent) {
    if !lent.buffer.is_empty() {
        let slot = random.below(lent.buffer.len());
        let entry = random.below(lent.entry_count()) as u8;
        lent.buffer[slot] = random.pick(&[entry, entry, 255]);
    }
}

/// Lets one slot of a member name any member.
fn name_any_member(random: &mut Random, lent: &mut Lent) {
    let member = |entry: usize| lent.set >> entry & 1 == 1;
    let of_member = |slot: &usize| member(lent.owner(*slot).into());
    let slots: Vec<usize> = (0..lent.slot_count()).filter(of_member).collect();
    let members: Vec<usize> = (0..lent.entry_count())
        .filter(|entry| member(*entry))
        .collect();
    if !slots.is_empty() {
        lent.buffer[random.pick(&slots)] = random.pick(&members) as u8;
    }
}

/// Changes one byte of the buffer or one bit of the set.
fn one_change(random: &mut Random, lent: &mut Lent) {
    if random.one_in(2) {
        let slot = random.below(lent.buffer.len());
        lent.buffer[slot] = random.byte();
    } else {
        lent.set ^= 1 << random.below(64);
    }
}

/// Any bytes and any set.
fn bytes(random: &mut Random, lent: &mut Lent) {
    let table = lent.buffer.iter().map(|_| random.byte()).collect();
    lent.hold(&Plan {
        cost: [0; 3],
        table,
        set: random.number(),
    });
}
