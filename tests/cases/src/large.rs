//! Sane catalogues at the limits: 64 entries, 256 slots, and marks at the end of their range.

use std::ops::Range;

use crate::catalogues::sane;
use crate::constraints;
use crate::inputs::Lent;
use crate::random::Random;

/// A sane catalogue of 64 entries and 256 slots with constraints at their limits: a small one,
/// among entries that nothing wants and slots that nothing fits.
pub fn large(random: &mut Random) -> Lent {
    let core = sane(random);
    let fillers = 64 - core.entry_count();
    let any_place = random.below(fillers + 1);
    let before = random.pick(&[0, fillers, any_place]);
    let mut lent = Lent {
        entries: Vec::new(),
        slots: Vec::new(),
        buffer: Vec::new(),
        root: core.root + before as u16,
        set: core.set << before,
        ..core.clone()
    };
    lent.record.set = lent.set;
    push_all_entries(random, &mut lent, &core, before);
    push_all_slots(random, &mut lent, &core, before);
    move_text(random, &mut lent);
    lent
}

/// The small catalogue's entries, so many others before them, and others after them.
fn push_all_entries(random: &mut Random, lent: &mut Lent, core: &Lent, before: usize) {
    let [package, _] = unused_packages(core);
    push_fillers(random, lent, package, before);
    lent.entries.extend(&core.entries);
    push_fillers(random, lent, package, 64 - lent.entry_count());
}

/// The small catalogue's slots, and slots of the entries before and after it.
fn push_all_slots(random: &mut Random, lent: &mut Lent, core: &Lent, before: usize) {
    let [_, package] = unused_packages(core);
    let after = before + core.entry_count()..64;
    let others = 256 - core.slot_count();
    let slots_before = match (before, after.len()) {
        (0, _) => 0,
        (_, 0) => others,
        _ => random.below(others + 1),
    };
    push_filler_slots(random, lent, package, 0..before, slots_before);
    for (slot, byte) in core.slots.chunks_exact(4).zip(&core.buffer) {
        let owner = slot[0] + before as u16;
        lent.slots.extend([owner, slot[1], slot[2], slot[3]]);
        lent.buffer.push(byte.saturating_add(before as u8));
    }
    let slots_after = others - slots_before;
    push_filler_slots(random, lent, package, after, slots_after);
}

/// Two packages that the catalogue neither has nor wants.
fn unused_packages(lent: &Lent) -> [u16; 2] {
    let used = |package| {
        (0..lent.entry_count()).any(|entry| lent.package(entry) == package)
            || (0..lent.slot_count()).any(|slot| lent.wanted(slot) == package)
    };
    let mut unused = (1000..u16::MAX).filter(|package| !used(*package));
    [unused.next(), unused.next()].map(|package| package.unwrap_or(0))
}

/// Entries of one package, their majors counted on from the last.
fn push_fillers(random: &mut Random, lent: &mut Lent, package: u16, number: usize) {
    for _ in 0..number {
        let major = lent.entry_count() as u16;
        lent.push_entry(package, [major, 0, 0], random.number_16());
    }
}

/// Slots of the owners for a package without entries.
fn push_filler_slots(
    random: &mut Random,
    lent: &mut Lent,
    package: u16,
    owners: Range<usize>,
    number: usize,
) {
    let mut owner = || owners.start + random.below(owners.len());
    let mut owners: Vec<usize> = (0..number).map(|_| owner()).collect();
    owners.sort();
    for owner in owners {
        // Most share a constraint with the slot before, to keep the text within the marks' reach.
        let shared = lent
            .slot_count()
            .checked_sub(1)
            .filter(|_| !random.one_in(8));
        let marks = shared.map(|slot| [lent.slots[4 * slot + 2], lent.slots[4 * slot + 3]]);
        lent.push_slot(owner as u16, package, b"");
        let last = lent.slot_count() - 1;
        match marks {
            Some(marks) => lent.slots[4 * last + 2..].copy_from_slice(&marks),
            None => lent.set_constraint(last, &constraints::at_a_limit(random)),
        }
        lent.buffer.push(255);
    }
}

/// Now and then moves the parts so that the last ends at byte 65,535, or makes the text longer
/// than any mark can reach.
fn move_text(random: &mut Random, lent: &mut Lent) {
    if random.one_in(2) {
        let front = 65_535 - lent.text.len();
        lent.text.splice(..0, std::iter::repeat_n(b'(', front));
        for slot in lent.slots.chunks_exact_mut(4) {
            slot[2] += front as u16;
            slot[3] += front as u16;
        }
    }
    if random.one_in(3) {
        lent.text.resize(70_000, b'*');
    }
}
