//! Every table there is to try, and those that make a sound plan, in 01's order.

use crate::plan::{NONE, Plan, cost, first_failing, fixed_set};
use crate::refusals;
use crate::tables::{Catalogue, Model, Tables};

/// The number of tables above which a caller had better skip a catalogue.
pub const LIMIT: u64 = 200_000;

/// How many tables would be tried for this catalogue; the greatest number there is if that is
/// past 64 bits, and 0 for a catalogue that refusals 1 to 4 stop.
pub fn combinations(catalogue: &Catalogue) -> u64 {
    let Ok(tables) = refusals::tables(catalogue) else {
        return 0;
    };
    choices(&tables).iter().fold(1, |product, choices| {
        product.saturating_mul(choices.len() as u64)
    })
}

/// All sound plans, sorted.
pub(crate) fn sound_plans(model: &Model) -> Vec<Plan> {
    let mut plans = Vec::new();
    try_tables(&choices(&model.tables), &mut Vec::new(), &mut |table| {
        let set = fixed_set(model, table);
        if first_failing(model, set, table).is_none() {
            plans.push(Plan {
                cost: cost(model, set),
                table: table.to_vec(),
                set,
            });
        }
    });
    plans.sort();
    plans
}

/// For every slot the bytes to try: each entry of the wanted package that fits, or none.
fn choices(tables: &Tables) -> Vec<Vec<u8>> {
    tables
        .slots
        .iter()
        .map(|slot| {
            (0..tables.entries.len() as u8)
                .filter(|entry| tables.slot_accepts(slot, *entry))
                .chain([NONE])
                .collect()
        })
        .collect()
}

/// Hands every table that begins with `table` to `visit`.
fn try_tables(choices: &[Vec<u8>], table: &mut Vec<u8>, visit: &mut impl FnMut(&[u8])) {
    let Some(bytes) = choices.get(table.len()) else {
        return visit(table);
    };
    for &byte in bytes {
        table.push(byte);
        try_tables(choices, table, visit);
        table.pop();
    }
}
