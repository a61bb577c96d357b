//! The C functions as `include/boxplan.h` declares them, behind safe functions on slices.
//!
//! Nothing is tested or filled in here: slices of any length cross, and an empty one crosses as a
//! null pointer, which the header allows.
#![allow(unsafe_code)]

use std::ptr::{null, null_mut};

use second::{Catalogue, Settings, Version};

#[rustfmt::skip]
unsafe extern "C" {
    fn boxplan_fits(part: *const u8, part_len: usize, major: u16, minor: u16, patch: u16, fit: *mut u8, fit_len: usize) -> u8;
    fn boxplan_check(
        entries: *const u16, entries_len: usize, slots: *const u16, slots_len: usize, text: *const u8, text_len: usize,
        root: u16, mode: u8, cycles: u8, objectives: *const u8, objectives_len: usize,
        set: u64, table: *const u8, table_len: usize, condition: *mut u8, condition_len: usize, cost: *mut u32, cost_len: usize,
    ) -> u8;
    fn boxplan_first(
        entries: *const u16, entries_len: usize, slots: *const u16, slots_len: usize, text: *const u8, text_len: usize,
        root: u16, mode: u8, cycles: u8, objectives: *const u8, objectives_len: usize,
        plan: *mut u8, plan_len: usize, set: *mut u64, set_len: usize, cost: *mut u32, cost_len: usize,
    ) -> u8;
    fn boxplan_next(
        entries: *const u16, entries_len: usize, slots: *const u16, slots_len: usize, text: *const u8, text_len: usize,
        root: u16, mode: u8, cycles: u8, objectives: *const u8, objectives_len: usize,
        given: u64, plan: *mut u8, plan_len: usize, set: *mut u64, set_len: usize, cost: *mut u32, cost_len: usize,
    ) -> u8;
    fn boxplan_turn(
        entries: *const u16, entries_len: usize, slots: *const u16, slots_len: usize, text: *const u8, text_len: usize,
        root: u16, mode: u8, cycles: u8, objectives: *const u8, objectives_len: usize,
        stage: *mut u8, stage_len: usize, last: *mut u64, last_len: usize,
        plan: *mut u8, plan_len: usize, set: *mut u64, set_len: usize, cost: *mut u32, cost_len: usize,
    ) -> u8;
    fn boxplan_read(
        text: *const u8, text_len: usize, entries: *mut u16, entries_len: usize, slots: *mut u16, slots_len: usize,
        counts: *mut u16, counts_len: usize,
    ) -> u8;
}

/// What a listing call is lent to write to.
pub struct Written<'a> {
    /// The plan buffer.
    pub plan: &'a mut [u8],
    /// Room for the set.
    pub set: &'a mut [u64],
    /// Room for the cost.
    pub cost: &'a mut [u32],
}

/// A lent slice's pointer, null for an empty one.
fn lent<T>(slice: &[T]) -> *const T {
    if slice.is_empty() {
        null()
    } else {
        slice.as_ptr()
    }
}

/// The pointer of a slice to write to, null for an empty one.
fn room<T>(slice: &mut [T]) -> *mut T {
    if slice.is_empty() {
        null_mut()
    } else {
        slice.as_mut_ptr()
    }
}

/// `boxplan_fits`.
#[rustfmt::skip]
pub fn fits(part: &[u8], [major, minor, patch]: Version, fit: &mut [u8]) -> u8 {
    // SAFETY: each pointer is that of a live slice and is followed by its length, or is null with
    // length 0; the slice written is borrowed mutably, so it overlaps no other. So it is below.
    unsafe { boxplan_fits(lent(part), part.len(), major, minor, patch, room(fit), fit.len()) }
}

/// `boxplan_check`.
#[rustfmt::skip]
pub fn check(catalogue: &Catalogue, settings: &Settings, set: u64, table: &[u8], condition: &mut [u8], cost: &mut [u32]) -> u8 {
    let Catalogue { entries, slots, text } = *catalogue;
    let Settings { root, mode, cycles, objectives } = *settings;
    // SAFETY: as of `fits`.
    unsafe {
        boxplan_check(
            lent(entries), entries.len(), lent(slots), slots.len(), lent(text), text.len(),
            root, mode, cycles, lent(objectives), objectives.len(),
            set, lent(table), table.len(), room(condition), condition.len(), room(cost), cost.len(),
        )
    }
}

/// `boxplan_first`.
#[rustfmt::skip]
pub fn first(catalogue: &Catalogue, settings: &Settings, written: Written) -> u8 {
    let Catalogue { entries, slots, text } = *catalogue;
    let Settings { root, mode, cycles, objectives } = *settings;
    let Written { plan, set, cost } = written;
    // SAFETY: as of `fits`.
    unsafe {
        boxplan_first(
            lent(entries), entries.len(), lent(slots), slots.len(), lent(text), text.len(),
            root, mode, cycles, lent(objectives), objectives.len(),
            room(plan), plan.len(), room(set), set.len(), room(cost), cost.len(),
        )
    }
}

/// `boxplan_next`.
#[rustfmt::skip]
pub fn next(catalogue: &Catalogue, settings: &Settings, given: u64, written: Written) -> u8 {
    let Catalogue { entries, slots, text } = *catalogue;
    let Settings { root, mode, cycles, objectives } = *settings;
    let Written { plan, set, cost } = written;
    // SAFETY: as of `fits`.
    unsafe {
        boxplan_next(
            lent(entries), entries.len(), lent(slots), slots.len(), lent(text), text.len(),
            root, mode, cycles, lent(objectives), objectives.len(),
            given, room(plan), plan.len(), room(set), set.len(), room(cost), cost.len(),
        )
    }
}

/// `boxplan_turn`.
#[rustfmt::skip]
pub fn turn(catalogue: &Catalogue, settings: &Settings, stage: &mut [u8], last: &mut [u64], written: Written) -> u8 {
    let Catalogue { entries, slots, text } = *catalogue;
    let Settings { root, mode, cycles, objectives } = *settings;
    let Written { plan, set, cost } = written;
    // SAFETY: as of `fits`.
    unsafe {
        boxplan_turn(
            lent(entries), entries.len(), lent(slots), slots.len(), lent(text), text.len(),
            root, mode, cycles, lent(objectives), objectives.len(),
            room(stage), stage.len(), room(last), last.len(),
            room(plan), plan.len(), room(set), set.len(), room(cost), cost.len(),
        )
    }
}

/// `boxplan_read`.
#[rustfmt::skip]
pub fn read(text: &[u8], entries: &mut [u16], slots: &mut [u16], counts: &mut [u16]) -> u8 {
    // SAFETY: as of `fits`.
    unsafe {
        boxplan_read(
            lent(text), text.len(), room(entries), entries.len(), room(slots), slots.len(),
            room(counts), counts.len(),
        )
    }
}
