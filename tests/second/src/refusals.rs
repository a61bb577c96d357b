//! The table of refusals, 1 to 8 (01, "Calls and what they give back"). Each test stands behind
//! the lower ones, since "Outside read the lowest number that applies is given".

use crate::constraint::Constraint;
use crate::tables::{Catalogue, Cycles, Entry, Mode, Model, Objective, Settings, Slot, Tables};

/// "1 to 64 entries"
pub(crate) const ENTRIES: usize = 64;
/// "0 to 256 slots"
pub(crate) const SLOTS: usize = 256;

/// Tests 1 to 8 for a plan buffer of `bytes` bytes.
pub(crate) fn model(catalogue: &Catalogue, settings: &Settings, bytes: usize) -> Result<Model, u8> {
    let tables = tables(catalogue)?;
    let root = usize::from(settings.root);
    // "root not an entry"
    if root >= tables.entries.len() {
        return Err(5);
    }
    // "mode, cycles or objectives outside the above"
    let mode = mode(settings.mode).ok_or(6)?;
    let cycles = cycles(settings.cycles).ok_or(6)?;
    let objectives = objectives(settings.objectives).ok_or(6)?;
    // "plan buffer not one byte per slot"
    if bytes != tables.slots.len() {
        return Err(7);
    }
    if weight_sum(&tables.entries) > u64::from(u32::MAX) {
        return Err(8);
    }
    Ok(Model {
        tables,
        root,
        mode,
        cycles,
        objectives,
    })
}

/// Tests 1 to 4.
pub(crate) fn tables(catalogue: &Catalogue) -> Result<Tables, u8> {
    let entries = entries(catalogue.entries).ok_or(1)?;
    if two_equal(&entries) {
        return Err(2);
    }
    if !slots_sane(catalogue, entries.len()) {
        return Err(3);
    }
    let slots = slots(catalogue).ok_or(4)?;
    Ok(Tables { entries, slots })
}

/// Refusal 1: "entry numbers not a multiple of five, none, or over 64 entries"
fn entries(numbers: &[u16]) -> Option<Vec<Entry>> {
    if !numbers.len().is_multiple_of(5) || numbers.is_empty() || numbers.len() / 5 > ENTRIES {
        return None;
    }
    let entry = |five: &[u16]| Entry {
        package: five[0],
        version: [five[1], five[2], five[3]],
        weight: five[4],
    };
    Some(numbers.chunks_exact(5).map(entry).collect())
}

/// Refusal 2: "two entries of equal package and version"
fn two_equal(entries: &[Entry]) -> bool {
    entries.iter().enumerate().any(|(place, one)| {
        let equal = |other: &Entry| other.package == one.package && other.version == one.version;
        entries[place + 1..].iter().any(equal)
    })
}

/// Refusal 3: "slot numbers not a multiple of four, over 256 slots, owner not an entry or below
/// the one before, start after end, end past the text"
fn slots_sane(catalogue: &Catalogue, entries: usize) -> bool {
    let numbers = catalogue.slots;
    if !numbers.len().is_multiple_of(4) || numbers.len() / 4 > SLOTS {
        return false;
    }
    let mut before = 0;
    numbers.chunks_exact(4).all(|four| {
        let [owner, start, end] = [four[0], four[2], four[3]];
        let owner_sane = usize::from(owner) < entries && owner >= before;
        before = owner;
        owner_sane && start <= end && usize::from(end) <= catalogue.text.len()
    })
}

/// Refusal 4: "a constraint outside the rules above". Every slot's constraint is read, whoever
/// owns it.
fn slots(catalogue: &Catalogue) -> Option<Vec<Slot>> {
    let slot = |four: &[u16]| {
        // "the part of the lent text between its two marks (end not included)"
        let part = &catalogue.text[usize::from(four[2])..usize::from(four[3])];
        let constraint = Constraint::read(part)?;
        Some(Slot {
            owner: four[0].into(),
            wanted: four[1],
            constraint,
        })
    };
    catalogue.slots.chunks_exact(4).map(slot).collect()
}

/// Refusal 6, first part: "mode 0 npm, 1 cargo, 2 pip"
fn mode(number: u8) -> Option<Mode> {
    match number {
        0 => Some(Mode::Npm),
        1 => Some(Mode::Cargo),
        2 => Some(Mode::Pip),
        _ => None,
    }
}

/// Refusal 6, second part: "cycles 0 forbidden, 1 allowed"
fn cycles(number: u8) -> Option<Cycles> {
    match number {
        0 => Some(Cycles::Forbidden),
        1 => Some(Cycles::Allowed),
        _ => None,
    }
}

/// Refusal 6, third part: "objectives, one to three different codes in order of importance"
fn objectives(codes: &[u8]) -> Option<Vec<Objective>> {
    let different = (1..codes.len()).all(|place| !codes[..place].contains(&codes[place]));
    if !(1..=3).contains(&codes.len()) || !different {
        return None;
    }
    codes.iter().map(|code| objective(*code)).collect()
}

/// "Code 0, weight", "Code 1, dependencies", "Code 2, duplicates"
fn objective(code: u8) -> Option<Objective> {
    match code {
        0 => Some(Objective::Weight),
        1 => Some(Objective::Dependencies),
        2 => Some(Objective::Duplicates),
        _ => None,
    }
}

/// Refusal 8: "a weight sum past 32 bits". All entries are summed; 64 of them reach 4,194,240 at
/// most, so this number is never given.
fn weight_sum(entries: &[Entry]) -> u64 {
    entries.iter().map(|entry| u64::from(entry.weight)).sum()
}
