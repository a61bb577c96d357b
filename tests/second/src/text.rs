//! The text (01, "The text and the program"): the layout, and read.

use crate::constraint::{Version, number};
use crate::refusals::{ENTRIES, SLOTS};

/// "fills lent tables of exactly 320 and 1024 numbers from text"
pub const ENTRY_NUMBERS: usize = 320;
/// The other of the two sizes.
pub const SLOT_NUMBERS: usize = 1024;

/// "at most 65,535 bytes"
const BYTES: usize = 65_535;
/// "The first record must equal the fixed header [...] byte for byte."
const HEADER: &[u8] = b"package,version,weight,needs,constraint";

/// What comes back from [`read`].
#[derive(Clone, Copy, Debug, Default, PartialEq, Eq)]
pub struct ReadAnswer {
    /// 0, or the refusal's number.
    pub refusal: u8,
    /// The number of entries.
    pub entries: usize,
    /// The number of slots.
    pub slots: usize,
}

/// An entry as a record of the text declares it.
pub(crate) struct Declared<'a> {
    pub package: &'a [u8],
    /// The version as it is written.
    pub version: &'a [u8],
    numbers: Version,
    weight: u16,
}

/// A slot as a record of the text states it.
struct Needed<'a> {
    package: &'a [u8],
    start: usize,
    end: usize,
}

/// A record of the text after the header.
enum Line<'a> {
    Entry(Declared<'a>),
    Slot(Needed<'a>),
}

/// Read: "fills lent tables of exactly 320 and 1024 numbers from text; gives the numbers of
/// entries and slots."
pub fn read(text: &[u8], entries: &mut [u16], slots: &mut [u16]) -> ReadAnswer {
    match read_tables(text, entries.len(), slots.len()) {
        Err(refusal) => ReadAnswer {
            refusal,
            ..ReadAnswer::default()
        },
        Ok((new_entries, new_slots)) => {
            // "writes only the first five numbers per entry and four per slot"
            entries[..new_entries.len()].copy_from_slice(&new_entries);
            slots[..new_slots.len()].copy_from_slice(&new_slots);
            ReadAnswer {
                refusal: 0,
                entries: new_entries.len() / 5,
                slots: new_slots.len() / 4,
            }
        }
    }
}

/// The entries that a text inside the layout declares, in their order; none outside it.
pub(crate) fn declared(text: &[u8]) -> Option<Vec<Declared<'_>>> {
    let entry = |line| match line {
        Line::Entry(entry) => Some(entry),
        Line::Slot(_) => None,
    };
    Some(layout(text)?.into_iter().filter_map(entry).collect())
}

/// "Read tests 7, then 12, then 1 (no entry, or over 64), then 3 (over 256 slots), and gives the
/// first that applies."
fn read_tables(
    text: &[u8],
    entry_numbers: usize,
    slot_numbers: usize,
) -> Result<(Vec<u16>, Vec<u16>), u8> {
    if (entry_numbers, slot_numbers) != (ENTRY_NUMBERS, SLOT_NUMBERS) {
        return Err(7);
    }
    let lines = layout(text).ok_or(12)?;
    let entries = lines
        .iter()
        .filter(|line| matches!(line, Line::Entry(_)))
        .count();
    if entries == 0 || entries > ENTRIES {
        return Err(1);
    }
    if lines.len() - entries > SLOTS {
        return Err(3);
    }
    Ok(tables(&lines))
}

/// The numbers of both tables. "Packages are numbered by first appearance in either column."
fn tables(lines: &[Line]) -> (Vec<u16>, Vec<u16>) {
    let mut entries = Vec::new();
    let mut slots = Vec::new();
    let mut names = Vec::new();
    for line in lines {
        match line {
            Line::Entry(entry) => {
                let [major, minor, patch] = entry.numbers;
                let package = package_number(&mut names, entry.package);
                entries.extend([package, major, minor, patch, entry.weight]);
            }
            Line::Slot(slot) => {
                // "a slot of the entry last declared"
                let owner = entries.len() / 5 - 1;
                let package = package_number(&mut names, slot.package);
                // All four are within the 65,535 bytes of the text.
                slots.extend([owner as u16, package, slot.start as u16, slot.end as u16]);
            }
        }
    }
    (entries, slots)
}

/// The number of a package, from 0; a new name gets the number after the last.
fn package_number<'a>(names: &mut Vec<&'a [u8]>, name: &'a [u8]) -> u16 {
    let number = names
        .iter()
        .position(|known| *known == name)
        .unwrap_or_else(|| {
            names.push(name);
            names.len() - 1
        });
    number as u16
}

/// The records after the header; none if the text is outside the layout.
fn layout(text: &[u8]) -> Option<Vec<Line<'_>>> {
    if text.len() > BYTES {
        return None;
    }
    let mut records = records(text).into_iter();
    let (_, header) = records.next()?;
    let lines: Vec<Line> = records.map(line).collect::<Option<_>>()?;
    // "before any entry it is 12"
    let slot_first = matches!(lines.first(), Some(Line::Slot(_)));
    (header == HEADER && !slot_first).then_some(lines)
}

/// Every record with its place in the text. "CR LF ends a record, the last may lack it."
fn records(text: &[u8]) -> Vec<(usize, &[u8])> {
    let mut records = Vec::new();
    let mut start = 0;
    while start < text.len() {
        let rest = &text[start..];
        let length = rest
            .windows(2)
            .position(|two| two == b"\r\n")
            .unwrap_or(rest.len());
        records.push((start, &rest[..length]));
        start += length + 2;
    }
    records
}

/// A record after the header, read.
fn line((start, record): (usize, &[u8])) -> Option<Line<'_>> {
    // "no field holds a comma, quote, CR or LF"
    if record.iter().any(|byte| b"\"\r\n".contains(byte)) {
        return None;
    }
    let fields: Vec<&[u8]> = record.split(|byte| *byte == b',').collect();
    let [package, version, weight, needs, constraint] = fields[..] else {
        return None;
    };
    let filled = [package, version, weight, needs, constraint].map(|field| !field.is_empty());
    match filled {
        // "A record with the first three fields filled and two empty declares an entry."
        [true, true, true, false, false] => Some(Line::Entry(Declared {
            package: name(package)?,
            version,
            numbers: dotted(version)?,
            weight: number(weight)?,
        })),
        // "One with three empty and the last two filled is a slot". The constraint "is only
        // checked for being non-empty"; it is the end of the record.
        [false, false, false, true, true] => Some(Line::Slot(Needed {
            package: name(needs)?,
            start: start + record.len() - constraint.len(),
            end: start + record.len(),
        })),
        _ => None,
    }
}

/// "Names: 1 to 32 of a to z, 0 to 9 and `-`."
fn name(field: &[u8]) -> Option<&[u8]> {
    let letters = field
        .iter()
        .all(|byte| matches!(byte, b'a'..=b'z' | b'0'..=b'9' | b'-'));
    (letters && (1..=32).contains(&field.len())).then_some(field)
}

/// "Version `x.y.z`"
fn dotted(field: &[u8]) -> Option<Version> {
    let parts: Vec<&[u8]> = field.split(|byte| *byte == b'.').collect();
    let [major, minor, patch] = parts[..] else {
        return None;
    };
    Some([number(major)?, number(minor)?, number(patch)?])
}
