//! The calls and what they give back (01, "Calls and what they give back"). Read stands in `text`.

use crate::constraint::{Constraint, Version};
use crate::enumeration::sound_plans;
use crate::plan::{Cost, Plan, cost, first_failing, judge};
use crate::refusals;
use crate::tables::{Catalogue, Settings};

/// What comes back from [`fits`].
#[derive(Clone, Copy, Debug, Default, PartialEq, Eq)]
pub struct FitsAnswer {
    /// 0, or 4 for a constraint outside the rules.
    pub refusal: u8,
    /// Whether the version fits.
    pub fits: bool,
}

/// What comes back from [`check`]. Sound is refusal 0 with condition 0.
#[derive(Clone, Copy, Debug, Default, PartialEq, Eq)]
pub struct CheckAnswer {
    /// 0, or the refusal's number.
    pub refusal: u8,
    /// 0, or the number of the first failing condition.
    pub condition: u8,
    /// The cost of a sound plan; else 0 0 0.
    pub cost: Cost,
}

/// What comes back from [`first`], [`next`] and [`turn`]; the table stands in the plan buffer.
#[derive(Clone, Copy, Debug, Default, PartialEq, Eq)]
pub struct PlanAnswer {
    /// 0, or the refusal's number.
    pub refusal: u8,
    /// The plan's set.
    pub set: u64,
    /// The plan's cost.
    pub cost: Cost,
}

/// A listing record: "It holds a stage (0 fresh, 1 running, 2 ended) and the last set."
#[derive(Clone, Copy, Debug, Default, PartialEq, Eq)]
pub struct Record {
    /// The stage; any number may stand here.
    pub stage: u8,
    /// The last set; any bits may stand here.
    pub set: u64,
}

/// One constraint against one version.
pub fn fits(constraint: &[u8], version: Version) -> FitsAnswer {
    match Constraint::read(constraint) {
        None => FitsAnswer {
            refusal: 4,
            fits: false,
        },
        Some(constraint) => FitsAnswer {
            refusal: 0,
            fits: constraint.fits(version),
        },
    }
}

/// Check: "a refusal, or the first failing condition with cost 0 0 0, or sound with the cost."
pub fn check(catalogue: &Catalogue, settings: &Settings, set: u64, table: &[u8]) -> CheckAnswer {
    let model = match refusals::model(catalogue, settings, table.len()) {
        Err(refusal) => {
            return CheckAnswer {
                refusal,
                ..CheckAnswer::default()
            };
        }
        Ok(model) => model,
    };
    match first_failing(&model, set, table) {
        Some(condition) => CheckAnswer {
            condition,
            ..CheckAnswer::default()
        },
        None => CheckAnswer {
            cost: cost(&model, set),
            ..CheckAnswer::default()
        },
    }
}

/// First: "the least sound plan."
pub fn first(catalogue: &Catalogue, settings: &Settings, buffer: &mut [u8]) -> PlanAnswer {
    hand_out(find_first(catalogue, settings, buffer), buffer)
}

/// Next: "the buffer and a given set hold a plan; gives the least sound plan after it."
pub fn next(catalogue: &Catalogue, settings: &Settings, set: u64, buffer: &mut [u8]) -> PlanAnswer {
    hand_out(find_next(catalogue, settings, set, buffer), buffer)
}

/// Turn: "as first and next, with a listing record that each turn moves forward."
pub fn turn(
    catalogue: &Catalogue,
    settings: &Settings,
    record: &mut Record,
    buffer: &mut [u8],
) -> PlanAnswer {
    let found = find_turn(catalogue, settings, record, buffer);
    match &found {
        // "A plan makes the stage 1 and stores its set."
        Ok(plan) => {
            *record = Record {
                stage: 1,
                set: plan.set,
            }
        }
        // "The record also, except that 11 makes its stage 2 and keeps its set."
        Err(11) => record.stage = 2,
        Err(_) => {}
    }
    hand_out(found, buffer)
}

/// Which conditions hold for a plan, each judged on its own; an error is the refusal's number.
pub fn conditions(
    catalogue: &Catalogue,
    settings: &Settings,
    set: u64,
    table: &[u8],
) -> Result<[bool; 6], u8> {
    let model = refusals::model(catalogue, settings, table.len())?;
    Ok(judge(&model, set, table))
}

/// The whole listing at once: every sound plan, in order; an error is the refusal's number.
pub fn listing(catalogue: &Catalogue, settings: &Settings) -> Result<Vec<Plan>, u8> {
    let model = refusals::model(catalogue, settings, catalogue.slots.len() / 4)?;
    Ok(sound_plans(&model))
}

/// "A refusal returns 0 for every set, cost, count and change; lent tables and every buffer hold
/// what they held." and "A plan given overwrites the whole plan buffer."
fn hand_out(found: Result<Plan, u8>, buffer: &mut [u8]) -> PlanAnswer {
    match found {
        Err(refusal) => PlanAnswer {
            refusal,
            ..PlanAnswer::default()
        },
        Ok(plan) => {
            buffer.copy_from_slice(&plan.table);
            PlanAnswer {
                refusal: 0,
                set: plan.set,
                cost: plan.cost,
            }
        }
    }
}

/// The plan for first, or its refusal. 11: "no sound plan".
fn find_first(catalogue: &Catalogue, settings: &Settings, buffer: &[u8]) -> Result<Plan, u8> {
    let model = refusals::model(catalogue, settings, buffer.len())?;
    sound_plans(&model).into_iter().next().ok_or(11)
}

/// The plan for next, or its refusal. 10: "the given plan isn't sound". 11: "none after it".
fn find_next(
    catalogue: &Catalogue,
    settings: &Settings,
    set: u64,
    buffer: &[u8],
) -> Result<Plan, u8> {
    let model = refusals::model(catalogue, settings, buffer.len())?;
    if first_failing(&model, set, buffer).is_some() {
        return Err(10);
    }
    let given = Plan {
        cost: cost(&model, set),
        table: buffer.to_vec(),
        set,
    };
    sound_plans(&model)
        .into_iter()
        .find(|plan| *plan > given)
        .ok_or(11)
}

/// The plan for a turn, or its refusal. "Fresh asks for the first, running for the next after the
/// buffer and the record's set." 9: "stage above 2". "Ended gives 11 after 1 to 9 are tested; 10
/// isn't tested then."
fn find_turn(
    catalogue: &Catalogue,
    settings: &Settings,
    record: &Record,
    buffer: &[u8],
) -> Result<Plan, u8> {
    refusals::model(catalogue, settings, buffer.len())?;
    match record.stage {
        0 => find_first(catalogue, settings, buffer),
        1 => find_next(catalogue, settings, record.set, buffer),
        2 => Err(11),
        _ => Err(9),
    }
}
