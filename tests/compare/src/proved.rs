//! The C functions as a program with the calls of the second one: the same names, arguments and
//! answers. What comes back crosses in slices that hold other numbers before.
//!
//! Each slice that a function may write stands between margins, and a call that wrote past its
//! slice is a panic.

use second::{
    Catalogue, CheckAnswer, FitsAnswer, PlanAnswer, ReadAnswer, Record, Settings, Version,
};

use crate::ffi::{self, Written};

/// How many numbers stand before and behind a slice.
const MARGIN: usize = 8;

/// A copy of a slice between margins.
struct Guarded<T> {
    held: Vec<T>,
    margin: T,
}

impl<T: Copy + PartialEq> Guarded<T> {
    fn new(slice: &[T], margin: T) -> Guarded<T> {
        let edge = [margin; MARGIN];
        Guarded {
            held: [&edge, slice, &edge].concat(),
            margin,
        }
    }

    /// The copy of the slice.
    fn slice(&mut self) -> &mut [T] {
        let end = self.held.len() - MARGIN;
        &mut self.held[MARGIN..end]
    }

    /// What the slice now holds, once the margins are seen to hold what they held.
    fn inside(self) -> Vec<T> {
        let (before, rest) = self.held.split_at(MARGIN);
        let (inside, behind) = rest.split_at(rest.len() - MARGIN);
        let untouched = before
            .iter()
            .chain(behind)
            .all(|number| *number == self.margin);
        assert!(untouched, "a call wrote past a slice");
        inside.to_vec()
    }
}

/// One constraint against one version.
pub fn fits(constraint: &[u8], version: Version) -> FitsAnswer {
    let mut fit = Guarded::new(&[9], 99);
    let refusal = ffi::fits(constraint, version, fit.slice());
    let fit = fit.inside()[0];
    assert!(fit <= 1, "a fit of {fit}");
    FitsAnswer {
        refusal,
        fits: fit == 1,
    }
}

/// Check.
pub fn check(catalogue: &Catalogue, settings: &Settings, set: u64, table: &[u8]) -> CheckAnswer {
    let mut condition = Guarded::new(&[9], 99);
    let mut cost = Guarded::new(&[9; 3], 99);
    let refusal = ffi::check(
        catalogue,
        settings,
        set,
        table,
        condition.slice(),
        cost.slice(),
    );
    CheckAnswer {
        refusal,
        condition: condition.inside()[0],
        cost: three(&cost.inside()),
    }
}

/// First.
pub fn first(catalogue: &Catalogue, settings: &Settings, buffer: &mut [u8]) -> PlanAnswer {
    listed(buffer, |written| ffi::first(catalogue, settings, written))
}

/// Next.
pub fn next(catalogue: &Catalogue, settings: &Settings, set: u64, buffer: &mut [u8]) -> PlanAnswer {
    listed(buffer, |written| {
        ffi::next(catalogue, settings, set, written)
    })
}

/// Turn.
pub fn turn(
    catalogue: &Catalogue,
    settings: &Settings,
    record: &mut Record,
    buffer: &mut [u8],
) -> PlanAnswer {
    let mut stage = Guarded::new(&[record.stage], 99);
    let mut last = Guarded::new(&[record.set], 99);
    let answer = listed(buffer, |written| {
        ffi::turn(catalogue, settings, stage.slice(), last.slice(), written)
    });
    *record = Record {
        stage: stage.inside()[0],
        set: last.inside()[0],
    };
    answer
}

/// Read.
pub fn read(text: &[u8], entries: &mut [u16], slots: &mut [u16]) -> ReadAnswer {
    let mut new_entries = Guarded::new(entries, 99);
    let mut new_slots = Guarded::new(slots, 99);
    let mut counts = Guarded::new(&[9; 2], 99);
    let refusal = ffi::read(text, new_entries.slice(), new_slots.slice(), counts.slice());
    entries.copy_from_slice(&new_entries.inside());
    slots.copy_from_slice(&new_slots.inside());
    let counts = counts.inside();
    ReadAnswer {
        refusal,
        entries: counts[0].into(),
        slots: counts[1].into(),
    }
}

/// A listing call's answer.
fn listed(buffer: &mut [u8], call: impl FnOnce(Written) -> u8) -> PlanAnswer {
    let mut plan = Guarded::new(buffer, 99);
    let mut set = Guarded::new(&[9], 99);
    let mut cost = Guarded::new(&[9; 3], 99);
    let refusal = call(Written {
        plan: plan.slice(),
        set: set.slice(),
        cost: cost.slice(),
    });
    buffer.copy_from_slice(&plan.inside());
    PlanAnswer {
        refusal,
        set: set.inside()[0],
        cost: three(&cost.inside()),
    }
}

/// The three numbers of a cost.
fn three(cost: &[u32]) -> [u32; 3] {
    [cost[0], cost[1], cost[2]]
}
