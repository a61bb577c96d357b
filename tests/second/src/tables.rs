//! The lent tables (01, "The lent tables"): as they are lent, and as they stand once accepted.

use crate::constraint::{Constraint, Version};

/// The catalogue as it is lent. Any numbers and bytes may stand in it.
#[derive(Clone, Copy, Debug)]
pub struct Catalogue<'a> {
    /// "five per entry: package, major, minor, patch, weight"
    pub entries: &'a [u16],
    /// "four per slot: owner entry, wanted package, start and end of its constraint in the text"
    pub slots: &'a [u16],
    /// The bytes that the slots' marks point into.
    pub text: &'a [u8],
}

/// The settings as they are given. Any numbers may stand in them.
#[derive(Clone, Copy, Debug)]
pub struct Settings<'a> {
    /// "root entry"
    pub root: u16,
    /// "mode 0 npm, 1 cargo, 2 pip"
    pub mode: u8,
    /// "cycles 0 forbidden, 1 allowed"
    pub cycles: u8,
    /// "objectives, one to three different codes in order of importance"
    pub objectives: &'a [u8],
}

/// An entry of an accepted catalogue.
pub(crate) struct Entry {
    pub package: u16,
    pub version: Version,
    pub weight: u16,
}

/// A slot of an accepted catalogue, its constraint read.
pub(crate) struct Slot {
    pub owner: usize,
    pub wanted: u16,
    pub constraint: Constraint,
}

/// The tables of an accepted catalogue.
pub(crate) struct Tables {
    pub entries: Vec<Entry>,
    pub slots: Vec<Slot>,
}

/// Which members of one package are consistent (condition 5).
pub(crate) enum Mode {
    Npm,
    Cargo,
    Pip,
}

/// Whether condition 6 asks anything.
pub(crate) enum Cycles {
    Forbidden,
    Allowed,
}

/// What one number of a cost counts.
#[derive(Clone, Copy)]
pub(crate) enum Objective {
    Weight,
    Dependencies,
    Duplicates,
}

/// A catalogue and settings that refusals 1 to 8 let pass.
pub(crate) struct Model {
    pub tables: Tables,
    pub root: usize,
    pub mode: Mode,
    pub cycles: Cycles,
    pub objectives: Vec<Objective>,
}

impl Tables {
    /// Whether `named` is "an entry of the wanted package whose version fits the constraint".
    pub fn slot_accepts(&self, slot: &Slot, named: u8) -> bool {
        self.entries.get(usize::from(named)).is_some_and(|entry| {
            entry.package == slot.wanted && slot.constraint.fits(entry.version)
        })
    }
}
