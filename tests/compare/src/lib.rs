//! The C functions compared with the second program on any inputs, call by call.
//!
//! `ffi` has the C functions on slices, `proved` the same as a program with the second one's
//! calls; [`compare`] runs both programs.

pub mod ffi;
pub mod proved;
mod tally;

use std::fmt::Debug;
use std::panic::resume_unwind;
use std::thread;

use cases::{Inputs, Lent, LentText};
use second::{LIMIT, Plan, PlanAnswer, Record, Version, combinations};

pub use tally::Tally;

/// How many plans a listing may have to be gone through whole. Of a longer one so many are, and
/// then what follows a plan in the middle and the last two.
const CAP: usize = 64;

/// Runs both programs on the inputs and counts what was compared. An error says what differs.
pub fn compare(inputs: &Inputs, tally: &mut Tally) -> Result<(), String> {
    match inputs {
        Inputs::Fits {
            constraint,
            version,
        } => fits(constraint, *version, tally),
        Inputs::Plans(lent) => plans(lent, tally),
        Inputs::Read(lent) => read(lent, tally),
    }
}

/// What `run` gives on each of so many threads, which run at once. A panic of one is handed on.
pub fn on_threads<T: Send>(threads: u64, run: impl Fn(u64) -> T + Sync) -> Vec<T> {
    let run = &run;
    thread::scope(|scope| {
        let started: Vec<_> = (0..threads)
            .map(|number| scope.spawn(move || run(number)))
            .collect();
        let joined = started.into_iter().map(|thread| thread.join());
        joined
            .map(|result| result.unwrap_or_else(|panic| resume_unwind(panic)))
            .collect()
    })
}

/// For each slot the entries that fit it, as the second program reads its constraint.
///
/// # Panics
/// If a slot has no constraint in the text.
pub fn fitting(lent: &Lent) -> Vec<Vec<u8>> {
    let fits = |slot, entry| {
        let constraint = lent.constraint(slot).unwrap();
        lent.package(entry) == lent.wanted(slot)
            && second::fits(constraint, lent.version(entry)).fits
    };
    (0..lent.slot_count())
        .map(|slot| {
            let entries = (0..lent.entry_count()).filter(|entry| fits(slot, *entry));
            entries.map(|entry| entry as u8).collect()
        })
        .collect()
}

/// An error unless the two are the same.
fn same<T: Debug + PartialEq>(what: &str, proved: T, second: T) -> Result<(), String> {
    if proved == second {
        return Ok(());
    }
    Err(format!(
        "{what}: the C functions {proved:?}, the second program {second:?}"
    ))
}

/// One constraint against one version.
fn fits(constraint: &[u8], version: Version, tally: &mut Tally) -> Result<(), String> {
    let answer = second::fits(constraint, version);
    tally.constraints += 1;
    tally.count("fits", answer.refusal);
    same("fits", proved::fits(constraint, version), answer)
}

/// Read, and all of both tables after it.
fn read(lent: &LentText, tally: &mut Tally) -> Result<(), String> {
    let mut after = [lent.clone(), lent.clone()];
    let [by_proved, by_second] = &mut after;
    let answer = second::read(&lent.text, &mut by_second.entries, &mut by_second.slots);
    let other = proved::read(&lent.text, &mut by_proved.entries, &mut by_proved.slots);
    tally.texts += 1;
    tally.count("read", answer.refusal);
    same("read", other, answer)?;
    let [by_proved, by_second] = after;
    same("the text after read", &lent.text, &by_second.text)?;
    same("the tables after read", by_proved, by_second)
}

/// Check, first, next, turn and the whole listing; what was lent stays as it was.
fn plans(lent: &Lent, tally: &mut Tally) -> Result<(), String> {
    let before = lent.clone();
    check(lent, tally)?;
    if combinations(&lent.catalogue()) > LIMIT {
        tally.too_large += 1;
    } else {
        tally.catalogues += 1;
        first(lent, tally)?;
        next(lent, tally)?;
        turn(lent, tally)?;
        listing(lent, tally)?;
    }
    same("what was lent", lent, &before)
}

fn check(lent: &Lent, tally: &mut Tally) -> Result<(), String> {
    let (catalogue, settings) = (lent.catalogue(), lent.settings());
    let answer = second::check(&catalogue, &settings, lent.set, &lent.buffer);
    tally.count("check", answer.refusal);
    if answer.refusal == 0 {
        *tally.conditions.entry(answer.condition).or_default() += 1;
    }
    let other = proved::check(&catalogue, &settings, lent.set, &lent.buffer);
    same("check", other, answer)
}

fn first(lent: &Lent, tally: &mut Tally) -> Result<(), String> {
    let (catalogue, settings) = (lent.catalogue(), lent.settings());
    let mut buffers = [lent.buffer.clone(), lent.buffer.clone()];
    let answer = second::first(&catalogue, &settings, &mut buffers[1]);
    tally.count("first", answer.refusal);
    let other = proved::first(&catalogue, &settings, &mut buffers[0]);
    same("first", (other, &buffers[0]), (answer, &buffers[1]))
}

fn next(lent: &Lent, tally: &mut Tally) -> Result<(), String> {
    let (catalogue, settings) = (lent.catalogue(), lent.settings());
    let mut buffers = [lent.buffer.clone(), lent.buffer.clone()];
    let answer = second::next(&catalogue, &settings, lent.set, &mut buffers[1]);
    tally.count("next", answer.refusal);
    let other = proved::next(&catalogue, &settings, lent.set, &mut buffers[0]);
    same("next", (other, &buffers[0]), (answer, &buffers[1]))
}

fn turn(lent: &Lent, tally: &mut Tally) -> Result<(), String> {
    let (catalogue, settings) = (lent.catalogue(), lent.settings());
    let mut buffers = [lent.buffer.clone(), lent.buffer.clone()];
    let mut records = [lent.record, lent.record];
    let answer = second::turn(&catalogue, &settings, &mut records[1], &mut buffers[1]);
    tally.count("turn", answer.refusal);
    let other = proved::turn(&catalogue, &settings, &mut records[0], &mut buffers[0]);
    same(
        "turn",
        (other, records[0], &buffers[0]),
        (answer, records[1], &buffers[1]),
    )
}

/// The listing of a catalogue that is not refused, by first and next and by turn.
fn listing(lent: &Lent, tally: &mut Tally) -> Result<(), String> {
    let Ok(plans) = second::listing(&lent.catalogue(), &lent.settings()) else {
        return Ok(());
    };
    let setting = (lent.mode, lent.cycles, lent.objectives.clone());
    *tally.settings.entry(setting).or_default() += 1;
    tally.plans += plans.len().min(CAP) as u64;
    tally.capped += u64::from(plans.len() > CAP);
    by_first_and_next(lent, &plans)?;
    by_turn(lent, &plans)?;
    if plans.len() > CAP {
        for place in [plans.len() / 2, plans.len() - 2, plans.len() - 1] {
            after(lent, &plans, place)?;
        }
    }
    Ok(())
}

/// The answer that hands out the plan of the listing at the place, or that there is none.
fn answer_at(plans: &[Plan], place: usize) -> PlanAnswer {
    let refused = PlanAnswer {
        refusal: 11,
        ..PlanAnswer::default()
    };
    plans.get(place).map_or(refused, |plan| PlanAnswer {
        refusal: 0,
        set: plan.set,
        cost: plan.cost,
    })
}

/// What the buffer holds once the plan at the place was asked for, and 7s were in it at first.
fn table_at(plans: &[Plan], place: usize, slots: usize) -> Vec<u8> {
    let last = plans.get(place).or(plans.last());
    last.map_or(vec![7; slots], |plan| plan.table.clone())
}

/// First and then next, to the listing's 11.
fn by_first_and_next(lent: &Lent, plans: &[Plan]) -> Result<(), String> {
    let (catalogue, settings) = (lent.catalogue(), lent.settings());
    let mut buffer = vec![7; lent.slot_count()];
    let mut answer = proved::first(&catalogue, &settings, &mut buffer);
    for place in 0..=plans.len().min(CAP) {
        let expected = (
            answer_at(plans, place),
            table_at(plans, place, buffer.len()),
        );
        same("the listing", (answer, buffer.clone()), expected)?;
        if answer.refusal == 0 {
            answer = proved::next(&catalogue, &settings, answer.set, &mut buffer);
        }
    }
    Ok(())
}

/// A fresh record turned over and over, to the listing's 11 and twice past it.
fn by_turn(lent: &Lent, plans: &[Plan]) -> Result<(), String> {
    let (catalogue, settings) = (lent.catalogue(), lent.settings());
    let mut buffer = vec![7; lent.slot_count()];
    let mut record = Record { stage: 0, set: 5 };
    let mut last = record.set;
    for place in 0..=plans.len().min(CAP) + 2 {
        let answer = proved::turn(&catalogue, &settings, &mut record, &mut buffer);
        let expected = answer_at(plans, place);
        let (stage, set) = match expected.refusal {
            0 => (1, expected.set),
            _ => (2, last),
        };
        last = set;
        let expected = (
            expected,
            Record { stage, set },
            table_at(plans, place, buffer.len()),
        );
        let given = (answer, record, buffer.clone());
        same("the listing by turn", given, expected)?;
    }
    Ok(())
}

/// What follows the plan at the place, by next and by a running record.
fn after(lent: &Lent, plans: &[Plan], place: usize) -> Result<(), String> {
    let (catalogue, settings) = (lent.catalogue(), lent.settings());
    let given = &plans[place];
    let expected = (
        answer_at(plans, place + 1),
        table_at(plans, place + 1, given.table.len()),
    );
    let mut buffer = given.table.clone();
    let answer = proved::next(&catalogue, &settings, given.set, &mut buffer);
    same("after a plan", &(answer, buffer), &expected)?;
    let mut buffer = given.table.clone();
    let mut record = Record {
        stage: 1,
        set: given.set,
    };
    let answer = proved::turn(&catalogue, &settings, &mut record, &mut buffer);
    same("after a plan by turn", &(answer, buffer), &expected)
}
