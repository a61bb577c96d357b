//! Tables, settings, plans and texts of any numbers and bytes.

use second::Record;

use crate::catalogues::sane;
use crate::inputs::{Lent, LentText};
use crate::random::Random;
use crate::texts::{HEADER, sane_draft};

/// The bytes that constraints and texts are made of, so that some parts look right.
const ALPHABET: &[u8] = b"*()(=<>^ andor0123456789,.-\"\r\nbox\0\xff";

/// Anything: half the time a sane catalogue with a few numbers changed, else no tables at all.
pub fn lent(random: &mut Random) -> Lent {
    if random.one_in(2) {
        changed(random)
    } else {
        any(random)
    }
}

/// A text of any bytes: a sane one with a few bytes changed, or bytes after a header.
pub fn text(random: &mut Random) -> LentText {
    let mut draft = sane_draft(random);
    if random.one_in(2) {
        draft.records = vec![HEADER.to_vec(), bytes(random)];
    }
    let mut lent = draft.lent(random);
    for _ in 0..random.below(4) {
        let byte = random.pick(ALPHABET);
        change_one(random, &mut lent.text, byte);
    }
    lent
}

/// Up to 200 bytes that constraints and texts are made of.
fn bytes(random: &mut Random) -> Vec<u8> {
    let length = random.below(200);
    (0..length).map(|_| random.pick(ALPHABET)).collect()
}

/// A sane catalogue with up to four numbers changed.
fn changed(random: &mut Random) -> Lent {
    let mut lent = sane(random);
    for _ in 0..1 + random.below(4) {
        let number = small_or_any(random);
        match random.below(10) {
            0..3 => change_one(random, &mut lent.entries, number),
            3..6 => change_one(random, &mut lent.slots, number),
            6 => change_one(random, &mut lent.buffer, number as u8),
            7 => {
                let byte = random.pick(ALPHABET);
                change_one(random, &mut lent.text, byte);
            }
            8 => lent.root = number,
            _ => lent.objectives.push(number as u8),
        }
    }
    lent
}

/// Tables of any lengths with small numbers, mostly refused at once.
fn any(random: &mut Random) -> Lent {
    let entries = any_length(random, 5);
    let slots = any_length(random, 4);
    let buffer = any_length(random, 1);
    Lent {
        entries: (0..entries).map(|_| small_or_any(random)).collect(),
        slots: (0..slots).map(|_| small_or_any(random)).collect(),
        text: bytes(random),
        root: small_or_any(random),
        mode: random.below(4) as u8,
        cycles: random.below(3) as u8,
        objectives: (0..random.below(5))
            .map(|_| random.below(4) as u8)
            .collect(),
        set: random.number(),
        buffer: (0..buffer).map(|_| random.byte()).collect(),
        record: Record {
            stage: random.below(4) as u8,
            set: random.number(),
        },
    }
}

/// A length that is mostly a multiple.
fn any_length(random: &mut Random, multiple: usize) -> usize {
    let length = multiple * random.below(8);
    if random.one_in(4) {
        length + random.below(multiple)
    } else {
        length
    }
}

/// A number that is mostly small.
fn small_or_any(random: &mut Random) -> u16 {
    if random.one_in(6) {
        random.number_16()
    } else {
        random.below(8) as u16
    }
}

/// Changes one value, if there is any.
fn change_one<T>(random: &mut Random, values: &mut [T], value: T) {
    if !values.is_empty() {
        values[random.below(values.len())] = value;
    }
}
