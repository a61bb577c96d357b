//! Small sane catalogues of many shapes, with sane settings and a plan.

use second::{Version, combinations, listing};

use crate::constraints;
use crate::inputs::Lent;
use crate::random::Random;

/// Every list of objectives.
pub const OBJECTIVES: [&[u8]; 15] = [
    &[0],
    &[1],
    &[2],
    &[0, 1],
    &[0, 2],
    &[1, 0],
    &[1, 2],
    &[2, 0],
    &[2, 1],
    &[0, 1, 2],
    &[0, 2, 1],
    &[1, 0, 2],
    &[1, 2, 0],
    &[2, 0, 1],
    &[2, 1, 0],
];

/// How much a catalogue has at most.
struct Size {
    entries: usize,
    slots: usize,
    /// Tables to try.
    tables: u64,
}

/// Small enough that trying all tables stays quick.
const SMALL: Size = Size {
    entries: 7,
    slots: 8,
    tables: 10_000,
};

/// Small enough to go through a great many.
const TINY: Size = Size {
    entries: 5,
    slots: 5,
    tables: 100,
};

/// A small sane catalogue with any settings, holding a plan of its listing if there is one.
pub fn sane(random: &mut Random) -> Lent {
    drawn(random, &SMALL, any_settings)
}

/// A tiny one.
pub fn tiny(random: &mut Random) -> Lent {
    drawn(random, &TINY, any_settings)
}

/// Any root, mode, cycles and objectives.
pub fn any_settings(random: &mut Random, lent: &mut Lent) {
    lent.root = random.below(lent.entry_count()) as u16;
    lent.mode = random.below(3) as u8;
    lent.cycles = random.below(2) as u8;
    lent.objectives = random.pick(&OBJECTIVES).to_vec();
}

/// How many modes, cycles and objectives there are together.
pub const SETTINGS: usize = 3 * 2 * OBJECTIVES.len();

/// The mode, cycles and objectives of the number; every [`SETTINGS`] numbers they come again.
pub fn numbered_settings(lent: &mut Lent, number: usize) {
    lent.mode = (number % 3) as u8;
    lent.cycles = (number / 3 % 2) as u8;
    lent.objectives = OBJECTIVES[number / 6 % OBJECTIVES.len()].to_vec();
}

/// A small sane catalogue with the settings of `boxplan`.
pub fn sane_for_boxplan(random: &mut Random) -> Lent {
    drawn(random, &SMALL, |_, lent| {
        (lent.root, lent.mode, lent.cycles) = (0, 1, 0);
        lent.objectives = vec![0, 1, 2];
    })
}

/// A sane catalogue that every fault can be made in: two entries and two slots at least, and a
/// sound plan in the buffer, in the set and in a running record.
pub fn rich(random: &mut Random) -> Lent {
    loop {
        let mut lent = sane(random);
        if lent.entry_count() >= 2 && lent.slot_count() >= 2 && hold_listed(random, &mut lent) > 0 {
            lent.record.stage = 1;
            return lent;
        }
    }
}

/// Draws until the catalogue has as many plans as were asked for, mostly two or more.
fn drawn(random: &mut Random, size: &Size, settings: fn(&mut Random, &mut Lent)) -> Lent {
    let least = random.pick(&[0, 1, 2, 2]);
    loop {
        let mut lent = Lent::default();
        push_entries(random, &mut lent, size.entries);
        settings(random, &mut lent);
        push_slots(random, &mut lent, size.slots);
        while combinations(&lent.catalogue()) > size.tables {
            let slot = random.below(lent.slot_count());
            lent.slots.drain(4 * slot..4 * slot + 4);
        }
        if hold_listed(random, &mut lent) >= least {
            return lent;
        }
    }
}

/// Puts a plan of the listing into the buffer, the set and a record of any stage: the first, the
/// last or any other. Without any, they hold bytes that are no plan. Gives the number of plans.
fn hold_listed(random: &mut Random, lent: &mut Lent) -> usize {
    let plans = listing(&lent.catalogue(), &lent.settings()).unwrap_or_default();
    if let Some(last) = plans.len().checked_sub(1) {
        let any = random.below(plans.len());
        lent.hold(&plans[random.pick(&[0, last, any, any])]);
    } else {
        lent.buffer = vec![255; lent.slot_count()];
        lent.set = 1 << lent.root;
        lent.record.set = lent.set;
    }
    lent.record.stage = random.pick(&[0, 1, 1, 1, 2]);
    plans.len()
}

/// Some entries of a few packages, no two equal.
fn push_entries(random: &mut Random, lent: &mut Lent, most: usize) {
    let entries = 1 + random.below(most);
    let numbers: [u16; 4] = random.pick(&[[0, 1, 2, 3], [65535, 0, 64, 300], [5, 4, 3, 2]]);
    let packages = &numbers[..1 + random.below(4)];
    let versions = random.below(3);
    let weights = random.below(4);
    let equal_weight = random.number_16();
    while lent.entry_count() < entries {
        let package = random.pick(packages);
        let version = version(random, versions);
        let weight = match weights {
            0 => 0,
            1 => equal_weight,
            2 => random.below(4) as u16,
            _ => random.number_16(),
        };
        let known = |entry| lent.package(entry) == package && lent.version(entry) == version;
        if !(0..lent.entry_count()).any(known) {
            lent.push_entry(package, version, weight);
        }
    }
}

/// A version of one of three shapes: small numbers, leading 0s as `^` tells them apart, or the
/// ends of the range.
fn version(random: &mut Random, shape: usize) -> Version {
    match shape {
        0 => [(); 3].map(|()| random.below(3) as u16),
        1 => [0, random.below(3) as u16, random.below(4) as u16],
        _ => [(); 3].map(|()| random.pick(&[0, 1, 65534, 65535])),
    }
}

/// Some slots; the root owns about half of them.
fn push_slots(random: &mut Random, lent: &mut Lent, most: usize) {
    let slots = random.below(most + 1);
    let mut owner = || {
        let any = random.below(lent.entry_count());
        random.pick(&[usize::from(lent.root), any])
    };
    let mut owners: Vec<usize> = (0..slots).map(|_| owner()).collect();
    owners.sort();
    for owner in owners {
        let wanted = wanted(random, lent, owner);
        let about = version_of(random, lent, wanted);
        let constraint = constraints::about(random, about);
        lent.push_slot(owner as u16, wanted, &constraint);
        share_text(random, lent);
    }
}

/// A package for a slot of the owner: any entry's, the same as the slot before, the owner's own,
/// the root's, or one without entries.
fn wanted(random: &mut Random, lent: &Lent, owner: usize) -> u16 {
    match random.below(20) {
        0 => lent.absent_package(),
        1 => lent.package(owner),
        2 => lent.package(lent.root.into()),
        3..7 if lent.slot_count() > 0 => lent.wanted(lent.slot_count() - 1),
        _ => lent.package(random.below(lent.entry_count())),
    }
}

/// The version of an entry of the package, or of any entry if there is none.
fn version_of(random: &mut Random, lent: &Lent, package: u16) -> Version {
    let of_package = |entry: &usize| lent.package(*entry) == package;
    let mut entries: Vec<usize> = (0..lent.entry_count()).filter(of_package).collect();
    if entries.is_empty() {
        entries = (0..lent.entry_count()).collect();
    }
    lent.version(random.pick(&entries))
}

/// Half the time, lets the slot last added use an equal part that already stands in the text, so
/// that parts overlap; now and then adds bytes that no part holds.
fn share_text(random: &mut Random, lent: &mut Lent) {
    let last = 4 * (lent.slot_count() - 1);
    let [start, end] = [2, 3].map(|place| usize::from(lent.slots[last + place]));
    let (before, part) = lent.text[..end].split_at(start);
    let found = before.windows(part.len()).position(|bytes| bytes == part);
    if let Some(found) = found.filter(|_| random.one_in(2)) {
        lent.slots[last + 2] = found as u16;
        lent.slots[last + 3] = (found + part.len()) as u16;
        lent.text.truncate(start);
    }
    if random.one_in(8) {
        lent.text.push(random.byte());
    }
}
