//! Texts outside the layout, each clause of it broken once, and texts at the edges of the limits.

use crate::bad_records::{BAD_HEADERS, BAD_RECORDS};
use crate::constraints::of_length;
use crate::random::Random;
use crate::texts::{Draft, HEADER, sane_draft};

/// A text with a change in it.
pub struct ChangedText {
    /// The number that read gives for it, or 0 if it still passes.
    pub number: u8,
    /// What is changed.
    pub clause: &'static str,
    /// The text.
    pub draft: Draft,
}

/// A change to a sane text, and the number that read then gives.
struct TextFault {
    number: u8,
    clause: &'static str,
    make: fn(&mut Random, &mut Draft),
}

const fn fault(number: u8, clause: &'static str, make: fn(&mut Random, &mut Draft)) -> TextFault {
    TextFault {
        number,
        clause,
        make,
    }
}

/// How many changes there are in [`TEXT_FAULTS`].
const CHANGES: usize = 34;

/// Every change but those of [`BAD_HEADERS`] and [`BAD_RECORDS`].
static TEXT_FAULTS: [TextFault; CHANGES] = [
    fault(
        7,
        "a table of another size for the entries",
        |random, draft| {
            draft.entry_numbers = random.pick(&[0, 5, 319, 321, 1024]);
        },
    ),
    fault(
        7,
        "a table of another size for the slots",
        |random, draft| {
            draft.slot_numbers = random.pick(&[0, 4, 320, 1023, 1025]);
        },
    ),
    fault(12, "no text", |_, draft| replace_text(draft, b"", b"")),
    fault(12, "a line end alone", |_, draft| {
        replace_text(draft, b"", b"\r\n")
    }),
    fault(12, "no header", |_, draft| drop(draft.records.remove(0))),
    fault(12, "half a header", |random, draft| {
        let length = random.below(HEADER.len());
        replace_text(draft, &HEADER[..length], b"");
    }),
    fault(12, "a second line end after the last record", |_, draft| {
        draft.last_end = b"\r\n\r\n"
    }),
    fault(12, "CR after the last record", |_, draft| {
        draft.last_end = b"\r"
    }),
    fault(12, "LF after the last record", |_, draft| {
        draft.last_end = b"\n"
    }),
    fault(12, "LF CR after the last record", |_, draft| {
        draft.last_end = b"\n\r"
    }),
    fault(12, "LF between records", |_, draft| draft.line_end = b"\n"),
    fault(12, "CR between records", |_, draft| draft.line_end = b"\r"),
    fault(12, "CR CR LF between records", |_, draft| {
        draft.line_end = b"\r\r\n"
    }),
    fault(12, "a slot before any entry", |_, draft| {
        draft.records.insert(1, b",,,a,*".to_vec())
    }),
    fault(12, "slots alone", |_, draft| {
        draft.records.truncate(1);
        draft.records.push(b",,,a,*".to_vec());
    }),
    fault(12, "65,536 bytes", |_, draft| lengthen(draft, 65_536)),
    fault(12, "over 65,536 bytes", |random, draft| {
        lengthen(draft, 65_537 + random.below(9000))
    }),
    fault(1, "the header alone", |_, draft| draft.records.truncate(1)),
    fault(1, "the header alone without CR LF", |_, draft| {
        replace_text(draft, HEADER, b"")
    }),
    fault(1, "65 entries", |_, draft| fill(draft, Filler::Entries, 65)),
    fault(1, "over 65 entries", |random, draft| {
        fill(draft, Filler::Entries, 66 + random.below(500));
    }),
    fault(3, "257 slots", |_, draft| fill(draft, Filler::Slots, 257)),
    fault(3, "over 257 slots", |random, draft| {
        fill(draft, Filler::Slots, 258 + random.below(500))
    }),
    fault(0, "64 entries", |_, draft| fill(draft, Filler::Entries, 64)),
    fault(0, "256 slots", |_, draft| fill(draft, Filler::Slots, 256)),
    fault(0, "64 entries and 256 slots", |_, draft| {
        fill(draft, Filler::Slots, 256);
        fill(draft, Filler::Entries, 64);
    }),
    fault(0, "65,535 bytes", |_, draft| lengthen(draft, 65_535)),
    fault(0, "65,534 bytes", |_, draft| lengthen(draft, 65_534)),
    fault(0, "65,535 bytes with one long constraint", |_, draft| {
        draft.records.push(b",,,a,".to_vec());
        let missing = 65_535 - draft.text().len();
        let last = draft.records.len() - 1;
        draft.records[last].resize(5 + missing, b'*');
    }),
    fault(0, "32 letters", |_, draft| {
        let name = b"abcdefghijklmnopqrstuvwxyz-12345";
        draft.records.push([&name[..], b",1.0.0,0,,"].concat());
        draft.records.push([b",,,", &name[..], b",*"].concat());
    }),
    fault(0, "the greatest numbers", |_, draft| {
        draft
            .records
            .push(b"greatest,65535.65535.65535,65535,,".to_vec());
    }),
    fault(0, "any bytes in a constraint", |random, draft| {
        let mut constraint: Vec<u8> = (0..random.below(20)).map(|_| random.byte()).collect();
        constraint.retain(|byte| !b",\"\r\n".contains(byte));
        draft.records.push([b",,,a, ", &constraint[..]].concat());
    }),
    fault(0, "the last record without CR LF", |_, draft| {
        draft.last_end = b""
    }),
    fault(0, "equal entries", |_, draft| {
        draft.records.push(draft.records[1].clone())
    }),
];

/// How many changes [`one_fault`] goes through.
pub const CLAUSES: usize = BAD_HEADERS.len() + BAD_RECORDS.len() + CHANGES;

/// A text with one change; seeds that follow each other go through all changes.
pub fn one_fault(random: &mut Random, seed: u64) -> ChangedText {
    let mut draft = sane_draft(random);
    let mut place = (seed % CLAUSES as u64) as usize;
    if let Some(header) = BAD_HEADERS.get(place) {
        draft.records[0] = header.to_vec();
        return ChangedText {
            number: 12,
            clause: "another header",
            draft,
        };
    }
    place -= BAD_HEADERS.len();
    if let Some(record) = BAD_RECORDS.get(place) {
        insert_record(random, &mut draft, record);
        return ChangedText {
            number: 12,
            clause: "a record of another form",
            draft,
        };
    }
    let TextFault {
        number,
        clause,
        make,
    } = TEXT_FAULTS[place - BAD_RECORDS.len()];
    make(random, &mut draft);
    ChangedText {
        number,
        clause,
        draft,
    }
}

/// A text with two faults that are neighbours in the order of read's tests (7, 12, 1, 3).
pub fn two_faults(random: &mut Random, seed: u64) -> ChangedText {
    let mut draft = sane_draft(random);
    let bad = random.pick(&BAD_RECORDS);
    let (number, clause) = match seed % 4 {
        0 => {
            insert_record(random, &mut draft, bad);
            draft.entry_numbers = 321;
            (7, "a table of another size, and a record of another form")
        }
        1 => {
            fill(&mut draft, Filler::Entries, 65 + random.below(9));
            push_record(&mut draft, bad);
            (12, "a record of another form after over 64 entries")
        }
        2 => {
            draft.records.truncate(1);
            push_record(&mut draft, bad);
            (12, "a record of another form and no entry")
        }
        _ => {
            fill(&mut draft, Filler::Slots, 257);
            fill(&mut draft, Filler::Entries, 65);
            (1, "over 64 entries and over 256 slots")
        }
    };
    ChangedText {
        number,
        clause,
        draft,
    }
}

/// Puts a record anywhere after the first entry, a line end after it, which a blank one needs.
fn insert_record(random: &mut Random, draft: &mut Draft, record: &[u8]) {
    let place = 2 + random.below(draft.records.len() - 1);
    draft.records.insert(place, record.to_vec());
    draft.last_end = b"\r\n";
}

/// Puts a record and a line end at the end.
fn push_record(draft: &mut Draft, record: &[u8]) {
    draft.records.push(record.to_vec());
    draft.last_end = b"\r\n";
}

/// Makes one record, ended as given, the whole text.
fn replace_text(draft: &mut Draft, record: &[u8], last_end: &'static [u8]) {
    draft.records = vec![record.to_vec()];
    draft.last_end = last_end;
}

/// What a text is filled with.
#[derive(Clone, Copy, PartialEq, Eq)]
enum Filler {
    Entries,
    Slots,
}

/// Adds different entries that nothing wants, or slots of one of them that nothing fits, up to
/// the number.
fn fill(draft: &mut Draft, filler: Filler, number: usize) {
    let slots = draft
        .records
        .iter()
        .filter(|record| record.starts_with(b","))
        .count();
    match filler {
        Filler::Entries => {
            for count in draft.records.len() - 1 - slots..number {
                draft
                    .records
                    .push(format!("filler,1.2.{count},4,,").into_bytes());
            }
        }
        Filler::Slots => {
            draft.records.push(b"owner,9.9.9,9,,".to_vec());
            for _ in slots..number {
                draft.records.push(b",,,nothing,*".to_vec());
            }
        }
    }
}

/// Adds an entry that nothing wants with as many slots as give the text its length; no constraint
/// is past 255 bytes, and a slot adds 13 to its constraint.
fn lengthen(draft: &mut Draft, length: usize) {
    draft.records.push(b"owner,9.9.9,9,,".to_vec());
    loop {
        let missing = length - draft.text().len();
        let constraint = match missing {
            0 => return,
            1..=268 => missing - 13,
            269..300 => 100,
            _ => 255,
        };
        draft
            .records
            .push([b",,,nothing,", &of_length(constraint)[..]].concat());
    }
}
