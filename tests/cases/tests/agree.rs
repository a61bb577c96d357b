//! Two ways to one answer, over many cases: the second program against itself, and against rules
//! written down in yet another way.

use cases::{Case, Inputs, Kind, Lent, Random, case, cases, names, written};
use second::{
    ENTRY_NUMBERS, LIMIT, Plan, Record, SLOT_NUMBERS, boxplan, check, combinations, conditions,
    first, fits, listing, next, read, turn,
};

/// How many seeds each test goes through.
const SEEDS: u64 = 2_000;
/// How many tables a catalogue may have where every turn tries them all.
const FEW: u64 = 500;

/// The inputs of a kind that is for check, first, next and turn.
fn lent(kind: Kind, seed: u64) -> Lent {
    let Inputs::Plans(lent) = case(kind, seed).inputs else {
        panic!("{kind:?} is for other calls");
    };
    lent
}

/// The listing at once.
fn listed(lent: &Lent) -> Vec<Plan> {
    listing(&lent.catalogue(), &lent.settings()).unwrap()
}

/// The listing by first and next.
fn by_first_and_next(lent: &Lent) -> Vec<Plan> {
    let (catalogue, settings) = (lent.catalogue(), lent.settings());
    let mut buffer = vec![7; lent.slot_count()];
    let mut plans = Vec::new();
    let mut answer = first(&catalogue, &settings, &mut buffer);
    while answer.refusal == 0 {
        plans.push(Plan {
            cost: answer.cost,
            table: buffer.clone(),
            set: answer.set,
        });
        answer = next(&catalogue, &settings, answer.set, &mut buffer);
    }
    assert_eq!(answer.refusal, 11);
    plans
}

/// The listing by turn.
fn by_turn(lent: &Lent) -> Vec<Plan> {
    let (catalogue, settings) = (lent.catalogue(), lent.settings());
    let mut buffer = vec![7; lent.slot_count()];
    let mut record = Record::default();
    let mut plans = Vec::new();
    loop {
        let answer = turn(&catalogue, &settings, &mut record, &mut buffer);
        if answer.refusal != 0 {
            assert_eq!((answer.refusal, record.stage), (11, 2));
            return plans;
        }
        plans.push(Plan {
            cost: answer.cost,
            table: buffer.clone(),
            set: answer.set,
        });
        assert_eq!(
            record,
            Record {
                stage: 1,
                set: answer.set
            }
        );
    }
}

/// Every set with every table of any entries or 255 that check calls sound, sorted by hand.
fn by_check(lent: &Lent) -> Vec<Plan> {
    let bytes: Vec<u8> = (0..lent.entry_count() as u8).chain([255]).collect();
    let mut tables = vec![Vec::new()];
    for _ in 0..lent.slot_count() {
        let longer = |table: Vec<u8>| {
            bytes
                .iter()
                .map(move |byte| [&table[..], &[*byte]].concat())
        };
        tables = tables.into_iter().flat_map(longer).collect();
    }
    let mut plans = Vec::new();
    for table in tables {
        for set in 0..1 << lent.entry_count() {
            let answer = check(&lent.catalogue(), &lent.settings(), set, &table);
            assert_eq!(answer.refusal, 0);
            if answer.condition == 0 {
                plans.push(Plan {
                    cost: answer.cost,
                    table: table.clone(),
                    set,
                });
            }
        }
    }
    plans.sort_by(|one, other| one.cost.cmp(&other.cost).then(one.table.cmp(&other.table)));
    plans
}

#[test]
fn first_and_next_and_turn_give_the_listing() {
    for seed in 0..SEEDS {
        let lent = lent(Kind::Sane, seed);
        if combinations(&lent.catalogue()) <= FEW {
            let listed = listed(&lent);
            assert_eq!(by_first_and_next(&lent), listed, "seed {seed}");
            assert_eq!(by_turn(&lent), listed, "seed {seed}");
        }
    }
}

#[test]
fn every_set_and_every_table_give_the_listing() {
    let mut tried = 0;
    for seed in 0..SEEDS {
        let lent = lent(Kind::Sane, seed);
        if lent.entry_count() <= 5 && lent.slot_count() <= 4 {
            assert_eq!(by_check(&lent), listed(&lent), "seed {seed}");
            tried += 1;
        }
    }
    assert!(tried > 300, "{tried}");
}

#[test]
fn what_is_listed_is_sound_and_rises_and_comes_once() {
    for seed in 0..SEEDS {
        let lent = lent(Kind::Sane, seed);
        let plans = listed(&lent);
        for plan in &plans {
            let answer = check(&lent.catalogue(), &lent.settings(), plan.set, &plan.table);
            assert_eq!((answer.refusal, answer.condition), (0, 0), "seed {seed}");
            assert_eq!(answer.cost, plan.cost, "seed {seed}");
        }
        for two in plans.windows(2) {
            let [one, other] = [&two[0], &two[1]].map(|plan| (plan.cost, &plan.table));
            assert!(one < other, "seed {seed}");
        }
    }
}

#[test]
fn a_large_catalogue_lists_as_the_small_one_in_it() {
    for seed in 0..200 {
        let [small, large] = [Kind::Sane, Kind::Large].map(|kind| lent(kind, seed));
        let costs = |lent: &Lent| listed(lent).into_iter().map(|plan| plan.cost);
        assert!(costs(&small).eq(costs(&large)), "seed {seed}");
    }
}

#[test]
fn cycles_by_taking_away_what_leads_nowhere() {
    for seed in 0..SEEDS {
        let mut lent = lent(Kind::Sane, seed);
        lent.cycles = 1;
        let plans = listed(&lent);
        lent.cycles = 0;
        for plan in plans {
            let judged =
                conditions(&lent.catalogue(), &lent.settings(), plan.set, &plan.table).unwrap();
            assert_eq!(judged[5], all_taken_away(&lent, &plan), "seed {seed}");
        }
    }
}

/// Takes away members with no chosen slot to one that is left, as long as there are any. All go
/// exactly if there is no cycle.
fn all_taken_away(lent: &Lent, plan: &Plan) -> bool {
    let mut left = plan.set;
    loop {
        let leads_on = |member: &usize| {
            (0..lent.slot_count()).any(|slot| {
                usize::from(lent.owner(slot)) == *member && left >> plan.table[slot] & 1 == 1
            })
        };
        let members = (0..64).filter(|member| left >> member & 1 == 1);
        let kept = members
            .filter(leads_on)
            .fold(0, |set, member| set | 1 << member);
        if kept == left {
            return left == 0;
        }
        left = kept;
    }
}

#[test]
fn a_caret_is_a_range() {
    let numbers = [0, 1, 2, 65535];
    let versions: Vec<[u16; 3]> = numbers
        .iter()
        .flat_map(|x| numbers.iter().map(move |y| (x, y)))
        .flat_map(|(x, y)| numbers.iter().map(move |z| [*x, *y, *z]))
        .collect();
    for [x, y, z] in versions.iter().copied() {
        let (top_minor, top_patch) = match (x, y) {
            (0, 0) => (0, z),
            (0, y) => (y, 65535),
            _ => (65535, 65535),
        };
        let caret = format!("(^ {x} {y} {z})");
        let range = format!("(and (>= {x} {y} {z}) (<= {x} {top_minor} {top_patch}))");
        for version in versions.iter().copied() {
            let [one, other] = [&caret, &range].map(|text| fits(text.as_bytes(), version));
            assert_eq!(one, other, "{caret} against {version:?}");
        }
    }
}

#[test]
fn pairs_turned_round_and_bounds_taken_apart() {
    for seed in 0..SEEDS {
        let Inputs::Fits {
            constraint,
            version,
        } = case(Kind::Constraint, seed).inputs
        else {
            panic!("not a constraint");
        };
        let text = String::from_utf8(constraint).unwrap();
        let other = "(or (= 1 2 3) (<= 0 9 9))";
        let [alone, beside] = [text.as_str(), other].map(|text| fits(text.as_bytes(), version));
        for (pair, expected) in [
            (format!("(and {text} {other})"), alone.fits && beside.fits),
            (format!("(and {other} {text})"), alone.fits && beside.fits),
            (format!("(or {text} {other})"), alone.fits || beside.fits),
            (format!("(or {other} {text})"), alone.fits || beside.fits),
        ] {
            let answer = fits(pair.as_bytes(), version);
            assert_eq!(
                (answer.refusal, answer.fits),
                (0, expected),
                "{pair} {version:?}"
            );
        }
    }
}

#[test]
fn a_written_catalogue_reads_back_and_lists_the_same() {
    for seed in 0..SEEDS {
        let lent = lent(Kind::Sane, seed);
        let names = names(&mut Random::new(seed), &lent);
        let text = written(&lent, &names).text();
        let mut entries = [7; ENTRY_NUMBERS];
        let mut slots = [7; SLOT_NUMBERS];
        let answer = read(&text, &mut entries, &mut slots);
        assert_eq!(answer.refusal, 0);
        assert_eq!(
            (answer.entries, answer.slots),
            (lent.entry_count(), lent.slot_count())
        );
        let mut again = lent.clone();
        again.entries = entries[..5 * answer.entries].to_vec();
        again.slots = slots[..4 * answer.slots].to_vec();
        again.text = text;
        for slot in 0..lent.slot_count() {
            assert_eq!(again.owner(slot), lent.owner(slot));
            assert_eq!(again.constraint(slot), lent.constraint(slot));
        }
        for entry in 0..lent.entry_count() {
            assert_eq!(again.version(entry), lent.version(entry));
        }
        assert_eq!(listed(&again), listed(&lent), "seed {seed}");
    }
}

#[test]
fn boxplan_prints_the_front_of_the_listing() {
    for seed in 0..SEEDS {
        let mut lent = lent(Kind::Sane, seed);
        (lent.root, lent.mode, lent.cycles, lent.objectives) = (0, 1, 0, vec![0, 1, 2]);
        let names = names(&mut Random::new(seed), &lent);
        let draft = written(&lent, &names);
        let declared = draft.records[1..]
            .iter()
            .filter(|record| !record.starts_with(b","));
        let declared: Vec<String> = declared
            .map(|record| String::from_utf8(record.clone()).unwrap())
            .map(|record| record.split(',').take(2).collect::<Vec<_>>().join(","))
            .collect();
        let mut output = String::from("plan,package,version\r\n");
        let plans = listed(&lent);
        for (number, plan) in (1..=8).zip(&plans) {
            for (entry, declared) in declared.iter().enumerate() {
                if plan.set >> entry & 1 == 1 {
                    output += &format!("{number},{declared}\r\n");
                }
            }
        }
        if plans.is_empty() {
            output = String::from("refusal\r\n11\r\n");
        }
        assert_eq!(boxplan(&draft.text()), output.into_bytes(), "seed {seed}");
    }
}

#[test]
fn a_refusal_leaves_everything_as_it_was() {
    for Case { kind, seed, inputs } in cases(1).take(5_000) {
        match inputs {
            Inputs::Plans(lent) if combinations(&lent.catalogue()) <= LIMIT => {
                refused_calls_write_nothing(kind, seed, &lent);
            }
            Inputs::Read(lent) => {
                let mut after = lent.clone();
                let answer = read(&lent.text, &mut after.entries, &mut after.slots);
                if answer.refusal != 0 {
                    assert_eq!((answer.entries, answer.slots), (0, 0), "{kind:?} {seed}");
                    assert_eq!(after, lent, "{kind:?} {seed}");
                }
            }
            _ => {}
        }
    }
}

fn refused_calls_write_nothing(kind: Kind, seed: u64, lent: &Lent) {
    let (catalogue, settings) = (lent.catalogue(), lent.settings());
    let mut buffers = [(); 3].map(|()| lent.buffer.clone());
    let mut record = lent.record;
    let answers = [
        first(&catalogue, &settings, &mut buffers[0]),
        next(&catalogue, &settings, lent.set, &mut buffers[1]),
        turn(&catalogue, &settings, &mut record, &mut buffers[2]),
    ];
    for (answer, buffer) in answers.iter().zip(&buffers) {
        if answer.refusal != 0 {
            assert_eq!((answer.set, answer.cost), (0, [0; 3]), "{kind:?} {seed}");
            assert_eq!(*buffer, lent.buffer, "{kind:?} {seed}");
        }
    }
    let expected = match answers[2].refusal {
        0 => Record {
            stage: 1,
            set: answers[2].set,
        },
        11 => Record {
            stage: 2,
            ..lent.record
        },
        _ => lent.record,
    };
    assert_eq!(record, expected, "{kind:?} {seed}");
}
