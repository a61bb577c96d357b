//! What a plan is (01, "What a plan is"): the six conditions, the cost and the order.

use std::collections::BTreeSet;

use crate::tables::{Cycles, Entry, Mode, Model, Objective, Slot};

/// "A cost is three 32-bit numbers, in the order of the objectives, 0 where there is none."
pub type Cost = [u32; 3];

/// The byte of a slot that names no entry: "255 for none".
pub(crate) const NONE: u8 = 255;

/// A sound plan with its cost. Its derived order is 01's: "The lower cost first; at equal cost,
/// tables compared byte by byte from slot 0"; the set never decides, as the table fixes it.
#[derive(Clone, Debug, PartialEq, Eq, PartialOrd, Ord)]
pub struct Plan {
    /// The cost by the objectives.
    pub cost: Cost,
    /// "one byte per slot: the chosen entry, or 255 for none"
    pub table: Vec<u8>,
    /// "a set of entries (64-bit, bit e for entry e)"
    pub set: u64,
}

type Condition = fn(&Model, u64, &[u8]) -> bool;

/// The six conditions, in their order.
const CONDITIONS: [Condition; 6] = [
    names_entries_and_root,
    every_member_reached,
    slots_name_members,
    slots_fit,
    members_consistent,
    no_cycle,
];

/// Which conditions hold, each judged on its own.
pub(crate) fn judge(model: &Model, set: u64, table: &[u8]) -> [bool; 6] {
    CONDITIONS.map(|holds| holds(model, set, table))
}

/// "a check names the first that fails"
pub(crate) fn first_failing(model: &Model, set: u64, table: &[u8]) -> Option<u8> {
    (1..)
        .zip(CONDITIONS)
        .find(|(_, holds)| !holds(model, set, table))
        .map(|(number, _)| number)
}

/// Condition 1: "The set names only existing entries and holds the root."
fn names_entries_and_root(model: &Model, set: u64, _: &[u8]) -> bool {
    set & !every_entry(model) == 0 && holds(set, model.root)
}

/// Condition 2: "Every member is reached from the root."
fn every_member_reached(model: &Model, set: u64, table: &[u8]) -> bool {
    set & !grown(model, set, table, 1 << model.root) == 0
}

/// Condition 3: "Each slot of a member names a member; each other slot holds 255."
fn slots_name_members(model: &Model, set: u64, table: &[u8]) -> bool {
    chosen(model, table).all(|(slot, named)| {
        if holds(set, slot.owner) {
            holds(set, named.into())
        } else {
            named == NONE
        }
    })
}

/// Condition 4: "Each slot of a member names an entry of the wanted package whose version fits
/// the constraint."
fn slots_fit(model: &Model, set: u64, table: &[u8]) -> bool {
    chosen(model, table)
        .filter(|(slot, _)| holds(set, slot.owner))
        .all(|(slot, named)| model.tables.slot_accepts(slot, named))
}

/// Condition 5: "Two different members of one package are consistent."
fn members_consistent(model: &Model, set: u64, _: &[u8]) -> bool {
    let members: Vec<&Entry> = entries_in(model, set).collect();
    members.iter().enumerate().all(|(place, one)| {
        let mut others = members[place + 1..].iter();
        others.all(|other| one.package != other.package || consistent(&model.mode, one, other))
    })
}

/// "npm: always. cargo: their majors differ. pip: never."
fn consistent(mode: &Mode, one: &Entry, other: &Entry) -> bool {
    match mode {
        Mode::Npm => true,
        Mode::Cargo => one.version[0] != other.version[0],
        Mode::Pip => false,
    }
}

/// Condition 6: "Cycles forbidden: no walk of one chosen slot or more returns to where it began."
/// A walk is tried from every member, until it comes to nothing new.
fn no_cycle(model: &Model, set: u64, table: &[u8]) -> bool {
    match model.cycles {
        Cycles::Allowed => true,
        Cycles::Forbidden => (0..64).filter(|&start| holds(set, start)).all(|start| {
            let one_slot = steps(model, set, table, 1 << start);
            !holds(grown(model, set, table, one_slot), start)
        }),
    }
}

/// The set that a table fixes: all that is reached from the root, through any entries.
pub(crate) fn fixed_set(model: &Model, table: &[u8]) -> u64 {
    grown(model, every_entry(model), table, 1 << model.root)
}

/// All places where a walk from one of `places` ends, the places themselves included.
fn grown(model: &Model, set: u64, table: &[u8], places: u64) -> u64 {
    let larger = places | steps(model, set, table, places);
    if larger == places {
        places
    } else {
        grown(model, set, table, larger)
    }
}

/// All places one step from one of `places`. "A step goes from a member to a member named in one
/// of its slots, never backwards."
fn steps(model: &Model, set: u64, table: &[u8], places: u64) -> u64 {
    chosen(model, table)
        .filter(|(slot, _)| holds(set & places, slot.owner))
        .filter(|(_, named)| holds(set, (*named).into()))
        .fold(0, |ends, (_, named)| ends | 1 << named)
}

/// Every slot with its byte of the table.
fn chosen<'a>(model: &'a Model, table: &'a [u8]) -> impl Iterator<Item = (&'a Slot, u8)> {
    model.tables.slots.iter().zip(table.iter().copied())
}

/// Whether the set holds the number.
fn holds(set: u64, number: usize) -> bool {
    number < 64 && set >> number & 1 == 1
}

/// The set of all existing entries.
fn every_entry(model: &Model) -> u64 {
    (0..model.tables.entries.len()).fold(0, |set, entry| set | 1 << entry)
}

/// The existing entries that the set names.
fn entries_in(model: &Model, set: u64) -> impl Iterator<Item = &Entry> {
    let numbered = model.tables.entries.iter().enumerate();
    numbered
        .filter(move |(number, _)| holds(set, *number))
        .map(|(_, entry)| entry)
}

/// The cost of a sound plan's set.
pub(crate) fn cost(model: &Model, set: u64) -> Cost {
    let mut cost = [0; 3];
    for (place, objective) in cost.iter_mut().zip(&model.objectives) {
        *place = count(model, *objective, set);
    }
    cost
}

/// One number of the cost.
fn count(model: &Model, objective: Objective, set: u64) -> u32 {
    match objective {
        // "the sum of the members' weights, root included"
        Objective::Weight => entries_in(model, set)
            .map(|entry| u32::from(entry.weight))
            .sum(),
        // "the members counted as the ones in the set, less the root"
        Objective::Dependencies => set.count_ones() - 1,
        // "for each package with members, their number less one, summed"
        Objective::Duplicates => {
            let packages: BTreeSet<u16> = entries_in(model, set).map(|e| e.package).collect();
            let members = |package| entries_in(model, set).filter(move |e| e.package == package);
            packages
                .into_iter()
                .map(|package| members(package).count() as u32 - 1)
                .sum()
        }
    }
}
