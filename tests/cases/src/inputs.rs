//! What a case hands to the calls: owned tables, settings, plan and record.

use second::{Catalogue, Plan, Record, Settings, Version};

/// What one case hands over, by the calls it is for.
#[derive(Clone, Debug, PartialEq, Eq)]
pub enum Inputs {
    /// One constraint against one version.
    Fits {
        /// The constraint.
        constraint: Vec<u8>,
        /// The version.
        version: Version,
    },
    /// For check, first, next and turn.
    Plans(Lent),
    /// For read, and its text for `boxplan`.
    Read(LentText),
}

/// Catalogue, settings, plan and record.
#[derive(Clone, Debug, Default, PartialEq, Eq)]
pub struct Lent {
    /// Five numbers per entry.
    pub entries: Vec<u16>,
    /// Four numbers per slot.
    pub slots: Vec<u16>,
    /// The text that the slots' marks point into.
    pub text: Vec<u8>,
    /// The root entry.
    pub root: u16,
    /// The mode.
    pub mode: u8,
    /// The cycles.
    pub cycles: u8,
    /// The objectives.
    pub objectives: Vec<u8>,
    /// The set given to check and next.
    pub set: u64,
    /// The plan buffer.
    pub buffer: Vec<u8>,
    /// The record given to turn.
    pub record: Record,
}

/// A text and the two tables to fill, with what they held before.
#[derive(Clone, Debug, PartialEq, Eq)]
pub struct LentText {
    /// The text.
    pub text: Vec<u8>,
    /// The table for the entries.
    pub entries: Vec<u16>,
    /// The table for the slots.
    pub slots: Vec<u16>,
}

impl Lent {
    /// The catalogue, as the second program takes it.
    pub fn catalogue(&self) -> Catalogue<'_> {
        Catalogue {
            entries: &self.entries,
            slots: &self.slots,
            text: &self.text,
        }
    }

    /// The settings, as the second program takes them.
    pub fn settings(&self) -> Settings<'_> {
        Settings {
            root: self.root,
            mode: self.mode,
            cycles: self.cycles,
            objectives: &self.objectives,
        }
    }

    /// How many whole entries there are.
    pub fn entry_count(&self) -> usize {
        self.entries.len() / 5
    }

    /// How many whole slots there are.
    pub fn slot_count(&self) -> usize {
        self.slots.len() / 4
    }

    /// The package of an entry.
    pub fn package(&self, entry: usize) -> u16 {
        self.entries[5 * entry]
    }

    /// The version of an entry.
    pub fn version(&self, entry: usize) -> Version {
        [1, 2, 3].map(|place| self.entries[5 * entry + place])
    }

    /// The owner of a slot.
    pub fn owner(&self, slot: usize) -> u16 {
        self.slots[4 * slot]
    }

    /// The package that a slot wants.
    pub fn wanted(&self, slot: usize) -> u16 {
        self.slots[4 * slot + 1]
    }

    /// A slot's constraint; none if its marks are outside the text.
    pub fn constraint(&self, slot: usize) -> Option<&[u8]> {
        let [start, end] = [2, 3].map(|place| usize::from(self.slots[4 * slot + place]));
        self.text.get(start..end)
    }

    /// Adds an entry.
    pub fn push_entry(&mut self, package: u16, version: Version, weight: u16) {
        let [major, minor, patch] = version;
        self.entries.extend([package, major, minor, patch, weight]);
    }

    /// Adds a slot whose constraint is put at the end of the text.
    pub fn push_slot(&mut self, owner: u16, wanted: u16, constraint: &[u8]) {
        self.slots.extend([owner, wanted, 0, 0]);
        self.set_constraint(self.slot_count() - 1, constraint);
    }

    /// Gives a slot another constraint, put at the end of the text.
    pub fn set_constraint(&mut self, slot: usize, constraint: &[u8]) {
        let start = self.text.len();
        self.text.extend(constraint);
        self.slots[4 * slot + 2] = start as u16;
        self.slots[4 * slot + 3] = self.text.len() as u16;
    }

    /// A package number that no entry has.
    pub fn absent_package(&self) -> u16 {
        let has = |package| (0..self.entry_count()).any(|entry| self.package(entry) == package);
        (0..=u16::MAX).find(|package| !has(*package)).unwrap_or(0)
    }

    /// Puts a plan into the buffer, the set and the record.
    pub fn hold(&mut self, plan: &Plan) {
        self.buffer = plan.table.clone();
        self.set = plan.set;
        self.record = Record {
            stage: 1,
            set: plan.set,
        };
    }
}
