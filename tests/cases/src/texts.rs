//! Texts inside the layout, written out from sane catalogues.

use second::{ENTRY_NUMBERS, SLOT_NUMBERS};

use crate::catalogues::sane_for_boxplan;
use crate::constraints::{WAYS, damaged};
use crate::inputs::{Lent, LentText};
use crate::random::Random;

/// The header of every text.
pub const HEADER: &[u8] = b"package,version,weight,needs,constraint";

/// A text as its records, with the sizes of the tables lent for it.
#[derive(Clone, Debug)]
pub struct Draft {
    /// The records without their line ends, the header first.
    pub records: Vec<Vec<u8>>,
    /// What ends each record but the last.
    pub line_end: &'static [u8],
    /// What ends the last record.
    pub last_end: &'static [u8],
    /// The size of the table for the entries.
    pub entry_numbers: usize,
    /// The size of the table for the slots.
    pub slot_numbers: usize,
}

impl Draft {
    /// The header alone, with tables of the right size.
    fn header_alone() -> Draft {
        Draft {
            records: vec![HEADER.to_vec()],
            line_end: b"\r\n",
            last_end: b"\r\n",
            entry_numbers: ENTRY_NUMBERS,
            slot_numbers: SLOT_NUMBERS,
        }
    }

    /// The text.
    pub fn text(&self) -> Vec<u8> {
        [&self.records.join(self.line_end), self.last_end].concat()
    }

    /// The text and tables that hold any numbers.
    pub fn lent(&self, random: &mut Random) -> LentText {
        LentText {
            text: self.text(),
            entries: (0..self.entry_numbers)
                .map(|_| random.number_16())
                .collect(),
            slots: (0..self.slot_numbers).map(|_| random.number_16()).collect(),
        }
    }
}

/// A text inside the layout. Now and then its last line end is missing, two of its entries are
/// equal, or a constraint is outside the rules, all of which read lets pass.
pub fn sane_draft(random: &mut Random) -> Draft {
    let lent = sane_for_boxplan(random);
    let mut draft = written(&lent, &names(random, &lent));
    if random.one_in(3) {
        draft.last_end = b"";
    }
    if random.one_in(10) {
        draft.records.push(draft.records[1].clone());
    }
    if random.one_in(10) {
        draft
            .records
            .push([b",,,other,", &damaged_field(random)[..]].concat());
    }
    draft
}

/// A catalogue written out as a text, a package's name at its place in the list.
pub fn written(lent: &Lent, names: &[(u16, Vec<u8>)]) -> Draft {
    let name = |package| {
        let known = names.iter().find(|(number, _)| *number == package);
        known.map_or(&b"unnamed"[..], |(_, name)| name)
    };
    let mut draft = Draft::header_alone();
    for entry in 0..lent.entry_count() {
        let [x, y, z] = lent.version(entry);
        let rest = format!(",{x}.{y}.{z},{},,", lent.entries[5 * entry + 4]);
        draft
            .records
            .push([name(lent.package(entry)), rest.as_bytes()].concat());
        for slot in 0..lent.slot_count() {
            if usize::from(lent.owner(slot)) == entry {
                let constraint = lent.constraint(slot).unwrap_or(b"*");
                let wanted = name(lent.wanted(slot));
                draft
                    .records
                    .push([b",,,", wanted, b",", constraint].concat());
            }
        }
    }
    draft
}

/// A different name for every package that the catalogue has or wants.
pub fn names(random: &mut Random, lent: &Lent) -> Vec<(u16, Vec<u8>)> {
    let entries = (0..lent.entry_count()).map(|entry| lent.package(entry));
    let slots = (0..lent.slot_count()).map(|slot| lent.wanted(slot));
    let mut packages: Vec<u16> = entries.chain(slots).collect();
    packages.sort();
    packages.dedup();
    let mut names: Vec<(u16, Vec<u8>)> = Vec::new();
    while let Some(package) = packages.get(names.len()) {
        let new = name(random);
        if !names.iter().any(|(_, known)| *known == new) {
            names.push((*package, new));
        }
    }
    names
}

/// A name of 1 to 32 letters.
fn name(random: &mut Random) -> Vec<u8> {
    let any = 1 + random.below(32);
    let length = random.pick(&[1, 2, 32, any]);
    let letters = b"abcdefghijklmnopqrstuvwxyz0123456789-";
    (0..length).map(|_| random.pick(letters)).collect()
}

/// A constraint outside the rules that may still stand in a field.
fn damaged_field(random: &mut Random) -> Vec<u8> {
    loop {
        let field = damaged(random.below(WAYS));
        if !field.is_empty() && !field.iter().any(|byte| b",\"\r\n".contains(byte)) {
            return field;
        }
    }
}
