//! The listing of catalogues with too many tables for the second program to try: the first plans
//! rise, so they are distinct, each is sound, and turn gives the same. The second program still
//! checks each of them. Where few slots leave a choice, the plans are also found by deciding one
//! slot after the other.

use cases::{Lent, Random, SETTINGS, WEAVES, Width, numbered_settings, wide, woven};
use compare::{fitting, proved};
use second::{LIMIT, Plan, PlanAnswer, Record, combinations};

/// How many catalogues of each width are gone through.
const CATALOGUES: u64 = 12;
/// How many plans are asked for; every catalogue that is wide has as many.
const PLANS: usize = 8;
/// Free slots, which the time that a search takes grows with. Raise it as the search gets faster.
const FREE: usize = 6;

/// Free slots where the plans are found by deciding them: there are three choices for each.
const DECIDED: usize = 5;

/// Entries and slots from moderate to the limits.
const WIDTHS: [(usize, usize); 5] = [(24, 60), (40, 100), (64, 64), (64, 150), (64, 256)];

/// The first plans by first and next; fewer only where the listing ends with 11.
fn by_first_and_next(lent: &Lent) -> Vec<Plan> {
    let (catalogue, settings) = (lent.catalogue(), lent.settings());
    let mut buffer = lent.buffer.clone();
    let mut last = None;
    listed(|| {
        let answer = match last {
            None => proved::first(&catalogue, &settings, &mut buffer),
            Some(set) => proved::next(&catalogue, &settings, set, &mut buffer),
        };
        last = Some(answer.set);
        (answer, buffer.clone())
    })
}

/// The first plans by turn.
fn by_turn(lent: &Lent) -> Vec<Plan> {
    let (catalogue, settings) = (lent.catalogue(), lent.settings());
    let mut buffer = lent.buffer.clone();
    let mut record = Record::default();
    listed(|| {
        let answer = proved::turn(&catalogue, &settings, &mut record, &mut buffer);
        (answer, buffer.clone())
    })
}

/// Asks for plans until there are enough or 11 comes. What is asked answers with a table.
fn listed(mut ask: impl FnMut() -> (PlanAnswer, Vec<u8>)) -> Vec<Plan> {
    let mut plans = Vec::new();
    while plans.len() < PLANS {
        let (answer, table) = ask();
        if answer.refusal == 11 {
            break;
        }
        assert_eq!(answer.refusal, 0);
        plans.push(Plan {
            cost: answer.cost,
            table,
            set: answer.set,
        });
    }
    plans
}

/// Calls `visit` for the catalogues of every width, with so many free slots.
fn for_each_wide(free: usize, visit: impl Fn(&Lent, &str)) {
    for (entries, slots) in WIDTHS {
        let width = Width {
            entries,
            slots,
            free,
        };
        for seed in 0..CATALOGUES {
            let lent = wide(&mut Random::new(seed), width);
            assert!(combinations(&lent.catalogue()) > LIMIT);
            visit(&lent, &format!("{width:?}, seed {seed}"));
        }
    }
}

/// Asserts that the first plans rise and are sound, and that turn gives the same. Gives them.
fn rising_and_sound(lent: &Lent, about: &str) -> Vec<Plan> {
    let (catalogue, settings) = (lent.catalogue(), lent.settings());
    let plans = by_first_and_next(lent);
    assert_eq!(by_turn(lent), plans, "{about}");
    for plan in &plans {
        let checked = second::check(&catalogue, &settings, plan.set, &plan.table);
        assert_eq!((checked.refusal, checked.condition), (0, 0), "{about}");
        assert_eq!(checked.cost, plan.cost, "{about}");
        let other = proved::check(&catalogue, &settings, plan.set, &plan.table);
        assert_eq!(other, checked, "{about}");
    }
    for two in plans.windows(2) {
        let [one, other] = [&two[0], &two[1]].map(|plan| (plan.cost, &plan.table));
        assert!(one < other, "{about}");
    }
    plans
}

#[test]
fn the_first_plans_rise_and_are_sound() {
    for_each_wide(FREE, |lent, about| {
        assert_eq!(rising_and_sound(lent, about).len(), PLANS, "{about}");
    });
}

#[test]
fn with_choices_everywhere_they_do_in_every_setting() {
    let mut listed = 0;
    for weave in WEAVES {
        for number in 0..SETTINGS {
            let mut lent = woven(&mut Random::new(number as u64), weave);
            numbered_settings(&mut lent, number);
            assert!(combinations(&lent.catalogue()) > LIMIT);
            listed += rising_and_sound(&lent, &format!("{weave:?}, seed {number}")).len();
        }
    }
    assert!(listed > SETTINGS * PLANS, "{listed} plans");
}

/// Every set and table that follows by deciding the lowest slot of a member that holds none yet.
fn decide(
    lent: &Lent,
    fitting: &[Vec<u8>],
    set: u64,
    table: &mut [u8],
    visit: &mut impl FnMut(u64, &[u8]),
) {
    let open = |slot: &usize| table[*slot] == 255 && set >> lent.owner(*slot) & 1 == 1;
    let Some(slot) = (0..table.len()).find(open) else {
        return visit(set, table);
    };
    for entry in &fitting[slot] {
        table[slot] = *entry;
        decide(lent, fitting, set | 1 << entry, table, visit);
        table[slot] = 255;
    }
}

/// All sound plans in order, found so.
fn by_deciding(lent: &Lent) -> Vec<Plan> {
    let (catalogue, settings) = (lent.catalogue(), lent.settings());
    let mut plans = Vec::new();
    let mut table = vec![255; lent.slot_count()];
    decide(
        lent,
        &fitting(lent),
        1 << lent.root,
        &mut table,
        &mut |set, table| {
            let checked = second::check(&catalogue, &settings, set, table);
            if checked.condition == 0 {
                plans.push(Plan {
                    cost: checked.cost,
                    table: table.to_vec(),
                    set,
                });
            }
        },
    );
    plans.sort_by(|one, other| (one.cost, &one.table).cmp(&(other.cost, &other.table)));
    plans
}

#[test]
fn the_first_plans_are_those_found_by_deciding_slots() {
    for_each_wide(DECIDED, |lent, about| {
        assert_eq!(
            by_first_and_next(lent),
            by_deciding(lent)[..PLANS],
            "{about}"
        );
    });
}
