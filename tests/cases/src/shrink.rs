//! The shrinker: makes a failing case smaller as long as it still fails.

use std::ops::Range;

use second::Record;

use crate::inputs::{Inputs, Lent, LentText};

/// The smallest inputs found that still fail: no single slot, entry, objective, record of the
/// text or part of a constraint can be left out of them any more.
///
/// `fails` must hold for the inputs given. It is asked again and again, and ends because every
/// step leaves out something or turns something into 0.
pub fn shrink(inputs: &Inputs, mut fails: impl FnMut(&Inputs) -> bool) -> Inputs {
    let mut smallest = inputs.clone();
    loop {
        let smaller = simpler(&smallest).find(&mut fails);
        match smaller {
            Some(smaller) => smallest = smaller,
            None => return smallest,
        }
    }
}

/// The inputs that are simpler by one step, large steps first.
fn simpler(inputs: &Inputs) -> Box<dyn Iterator<Item = Inputs> + '_> {
    match inputs {
        Inputs::Fits {
            constraint,
            version,
        } => {
            let shorter = shorter_constraints(constraint);
            let constraints = shorter.map(|constraint| Inputs::Fits {
                constraint,
                version: *version,
            });
            let versions = (0..3).filter(|place| version[*place] > 0).map(|place| {
                let mut version = *version;
                version[place] = 0;
                Inputs::Fits {
                    constraint: constraint.clone(),
                    version,
                }
            });
            Box::new(constraints.chain(versions))
        }
        Inputs::Plans(lent) => Box::new(simpler_lent(lent).map(Inputs::Plans)),
        Inputs::Read(text) => Box::new(simpler_texts(text).map(Inputs::Read)),
    }
}

/// Runs of places to leave out of so many: halves, quarters and so on down to single ones.
fn runs(length: usize) -> impl Iterator<Item = Range<usize>> {
    let sizes = std::iter::successors(Some(length.div_ceil(2)), |size| {
        (*size > 1).then_some(size.div_ceil(2))
    });
    sizes.flat_map(move |size| {
        let starts = (0..length).step_by(size.max(1));
        starts.map(move |start| start..(start + size).min(length))
    })
}

/// The values without those in the run.
fn without<T: Clone>(values: &[T], run: Range<usize>) -> Vec<T> {
    [&values[..run.start], &values[run.end..]].concat()
}

/// The constraint with a part in brackets replaced by `*`, such a part alone, and the bytes with a
/// run left out.
fn shorter_constraints(constraint: &[u8]) -> impl Iterator<Item = Vec<u8>> {
    let places = 0..constraint.len();
    let parts = places.filter_map(|start| Some((start, bracketed(&constraint[start..])?)));
    let stars = parts.clone().map(|(start, part)| {
        let rest = &constraint[start + part.len()..];
        [&constraint[..start], b"*", rest].concat()
    });
    let inner = parts
        .filter(|(start, _)| *start > 0)
        .map(|(_, part)| part.to_vec());
    let cut = runs(constraint.len()).map(|run| without(constraint, run));
    stars.chain(inner).chain(cut)
}

/// The part from the bracket at the front to the one that closes it.
fn bracketed(bytes: &[u8]) -> Option<&[u8]> {
    let mut open = 0;
    for (place, byte) in bytes.iter().enumerate() {
        match byte {
            b'(' => open += 1,
            b')' if open > 0 => open -= 1,
            _ => {}
        }
        if open == 0 {
            return (place > 0).then(|| &bytes[..=place]);
        }
    }
    None
}

/// Catalogues, settings, plans and records that are simpler by one step.
fn simpler_lent(lent: &Lent) -> impl Iterator<Item = Lent> {
    let slots = runs(lent.slot_count()).map(|run| without_slots(lent, run));
    let entries = (0..lent.entry_count()).map(|entry| without_entry(lent, entry));
    let objectives = (0..lent.objectives.len()).map(|place| {
        let objectives = without(&lent.objectives, place..place + 1);
        Lent {
            objectives,
            ..lent.clone()
        }
    });
    let odd_ends = odd_ends(lent).into_iter();
    let constraints = (0..lent.slot_count()).flat_map(move |slot| {
        let constraint = lent.constraint(slot).unwrap_or_default();
        shorter_constraints(constraint).filter_map(move |new| rewritten(lent, Some((slot, new))))
    });
    let text = rewritten(lent, None).filter(|new| new.text.len() < lent.text.len());
    let zeros = zeros(lent).into_iter().filter(move |new| new != lent);
    slots
        .chain(entries)
        .chain(objectives)
        .chain(odd_ends)
        .chain(constraints)
        .chain(text)
        .chain(zeros)
}

/// Leaves out slots, with their bytes of a buffer that has one for each.
fn without_slots(lent: &Lent, run: Range<usize>) -> Lent {
    let mut new = lent.clone();
    if lent.buffer.len() == lent.slot_count() {
        new.buffer = without(&lent.buffer, run.clone());
    }
    new.slots = without(&lent.slots, 4 * run.start..4 * run.end);
    new
}

/// Leaves out an entry with its slots; what names a later entry is moved, and without its root
/// the catalogue gets the first entry for one.
fn without_entry(lent: &Lent, entry: usize) -> Lent {
    let owned = |slot: &usize| usize::from(lent.owner(*slot)) == entry;
    let slots = (0..lent.slot_count()).filter(owned).rev();
    let mut new = slots.fold(lent.clone(), |new, slot| {
        without_slots(&new, slot..slot + 1)
    });
    new.entries = without(&lent.entries, 5 * entry..5 * entry + 5);
    for slot in new.slots.chunks_exact_mut(4) {
        slot[0] -= u16::from(usize::from(slot[0]) > entry);
    }
    for byte in &mut new.buffer {
        match usize::from(*byte) {
            named if named == entry => *byte = 255,
            named if named > entry && named < lent.entry_count() => *byte -= 1,
            _ => {}
        }
    }
    new.root = match usize::from(lent.root) {
        root if root == entry => 0,
        root => lent.root - u16::from(root > entry),
    };
    new.set = without_bit(lent.set, entry);
    new.record.set = without_bit(lent.record.set, entry);
    new
}

/// The set without a bit, the bits above it moved down.
fn without_bit(set: u64, bit: usize) -> u64 {
    if bit >= 64 {
        return set;
    }
    let below = (1 << bit) - 1;
    set & below | set >> 1 & !below
}

/// The last number of each table left out, and the last byte of the buffer.
fn odd_ends(lent: &Lent) -> Vec<Lent> {
    let mut ends = vec![lent.clone(), lent.clone(), lent.clone()];
    ends[0].entries.pop();
    ends[1].slots.pop();
    ends[2].buffer.pop();
    ends.retain(|new| new != lent);
    ends
}

/// The text written anew from the slots' parts alone, one of them replaced; none if a part is
/// outside the text or past the marks' reach.
fn rewritten(lent: &Lent, replaced: Option<(usize, Vec<u8>)>) -> Option<Lent> {
    let mut new = lent.clone();
    new.text.clear();
    for slot in 0..lent.slot_count() {
        let part = match &replaced {
            Some((place, part)) if *place == slot => part,
            _ => lent.constraint(slot)?,
        };
        new.set_constraint(slot, part);
    }
    (new.text.len() <= 65_535).then_some(new)
}

/// One value made 0, or the buffer's bytes 255.
fn zeros(lent: &Lent) -> Vec<Lent> {
    let change = |make: &dyn Fn(&mut Lent)| {
        let mut new = lent.clone();
        make(&mut new);
        new
    };
    let mut zeros = vec![
        change(&|new| new.mode = 0),
        change(&|new| new.cycles = 0),
        change(&|new| new.set = 0),
        change(&|new| new.record = Record::default()),
        change(&|new| new.buffer.fill(255)),
    ];
    for weight in (4..lent.entries.len()).step_by(5) {
        zeros.push(change(&|new| new.entries[weight] = 0));
    }
    zeros
}

/// Texts that are simpler by one step: records left out, a field halved wherever it stands, bytes
/// left out (a long text has too many to try them one by one), and tables that held 0.
fn simpler_texts(text: &LentText) -> impl Iterator<Item = LentText> {
    let with = |new: Vec<u8>| LentText {
        text: new,
        ..text.clone()
    };
    let records = records(&text.text);
    let few_records = runs(records.len()).map(move |run| with(without(&records, run).concat()));
    let short_fields = halved_fields(&text.text).into_iter().map(with);
    let least = text.text.len() / 1000;
    let few_bytes = runs(text.text.len())
        .filter(move |run| run.len() > least)
        .map(move |run| with(without(&text.text, run)));
    let zeros = LentText {
        entries: vec![0; text.entries.len()],
        slots: vec![0; text.slots.len()],
        ..text.clone()
    };
    let zeros = Some(zeros).filter(|new| new != text);
    few_records
        .chain(short_fields)
        .chain(few_bytes)
        .chain(zeros)
}

/// The records of a text, each with its line end.
fn records(text: &[u8]) -> Vec<Vec<u8>> {
    text.split_inclusive(|byte| *byte == b'\n')
        .map(<[u8]>::to_vec)
        .collect()
}

/// For each field of the text, up to 100, the text with that field halved wherever it stands.
fn halved_fields(text: &[u8]) -> Vec<Vec<u8>> {
    let pieces: Vec<&[u8]> = text
        .split_inclusive(|byte| b",\r\n".contains(byte))
        .collect();
    let mut different = pieces.clone();
    different.sort();
    different.dedup();
    different.retain(|piece| piece.len() > 2);
    different.truncate(100);
    let halved = |field: &[u8]| {
        let half = &field[(field.len() - 1) / 2..];
        let piece = |piece: &&[u8]| {
            if *piece == field {
                half.to_vec()
            } else {
                piece.to_vec()
            }
        };
        pieces.iter().flat_map(piece).collect()
    };
    different.into_iter().map(halved).collect()
}
