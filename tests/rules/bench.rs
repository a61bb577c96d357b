//! A catalogue with settings, put together by hand for a test.

use crate::program::{check, first, next, turn};
use second::{Catalogue, CheckAnswer, Cost, PlanAnswer, Record, Settings};

/// What a test hands to the calls.
#[derive(Clone)]
pub struct Bench {
    pub entries: Vec<u16>,
    pub slots: Vec<u16>,
    pub text: Vec<u8>,
    pub root: u16,
    pub mode: u8,
    pub cycles: u8,
    pub objectives: Vec<u8>,
}

pub const NPM: u8 = 0;
pub const CARGO: u8 = 1;
pub const PIP: u8 = 2;
pub const FORBIDDEN: u8 = 0;
pub const ALLOWED: u8 = 1;

impl Bench {
    /// No entries yet; root 0, npm, cycles forbidden, objective 0.
    pub fn new() -> Bench {
        Bench {
            entries: Vec::new(),
            slots: Vec::new(),
            text: Vec::new(),
            root: 0,
            mode: NPM,
            cycles: FORBIDDEN,
            objectives: vec![0],
        }
    }

    /// The catalogue of the input in "The text and the program", with the program's settings.
    pub fn input() -> Bench {
        Bench::new()
            .entry(0, [1, 0, 0], 0)
            .needs(1, "*")
            .needs(2, "(^ 1 0 0)")
            .entry(1, [2, 0, 0], 0)
            .needs(3, "(>= 2 0 0)")
            .entry(1, [1, 4, 0], 5)
            .needs(3, "(^ 1 0 0)")
            .entry(2, [1, 1, 0], 0)
            .needs(3, "(<= 1 9 9)")
            .entry(3, [2, 0, 0], 0)
            .entry(3, [1, 3, 0], 3)
            .settings_of(CARGO, FORBIDDEN, &[0, 1, 2])
    }

    /// The root needs A, of which there are 1.0.0 and 2.0.0: tables 1 and 2.
    pub fn two_plans() -> Bench {
        Bench::new()
            .entry(0, [1, 0, 0], 0)
            .needs(1, "*")
            .entry(1, [1, 0, 0], 4)
            .entry(1, [2, 0, 0], 7)
    }

    /// Adds an entry.
    pub fn entry(mut self, package: u16, version: [u16; 3], weight: u16) -> Bench {
        let [major, minor, patch] = version;
        self.entries.extend([package, major, minor, patch, weight]);
        self
    }

    /// Adds a slot of the entry last added.
    pub fn needs(mut self, package: u16, constraint: &str) -> Bench {
        let owner = self.entries.len() as u16 / 5 - 1;
        let start = self.text.len() as u16;
        self.text.extend(constraint.bytes());
        self.slots
            .extend([owner, package, start, self.text.len() as u16]);
        self
    }

    /// Sets mode, cycles and objectives.
    pub fn settings_of(mut self, mode: u8, cycles: u8, objectives: &[u8]) -> Bench {
        self.mode = mode;
        self.cycles = cycles;
        self.objectives = objectives.to_vec();
        self
    }

    /// Makes one change by hand.
    pub fn with(mut self, change: impl FnOnce(&mut Bench)) -> Bench {
        change(&mut self);
        self
    }

    pub fn catalogue(&self) -> Catalogue<'_> {
        Catalogue {
            entries: &self.entries,
            slots: &self.slots,
            text: &self.text,
        }
    }

    pub fn settings(&self) -> Settings<'_> {
        Settings {
            root: self.root,
            mode: self.mode,
            cycles: self.cycles,
            objectives: &self.objectives,
        }
    }

    pub fn check(&self, set: u64, table: &[u8]) -> CheckAnswer {
        check(&self.catalogue(), &self.settings(), set, table)
    }

    pub fn first(&self, buffer: &mut [u8]) -> PlanAnswer {
        first(&self.catalogue(), &self.settings(), buffer)
    }

    pub fn next(&self, set: u64, buffer: &mut [u8]) -> PlanAnswer {
        next(&self.catalogue(), &self.settings(), set, buffer)
    }

    pub fn turn(&self, record: &mut Record, buffer: &mut [u8]) -> PlanAnswer {
        turn(&self.catalogue(), &self.settings(), record, buffer)
    }

    /// The listing by first and next up to its 11: set, table and cost of each plan.
    pub fn listing(&self) -> Vec<(u64, Vec<u8>, Cost)> {
        let mut plans = Vec::new();
        let mut buffer = vec![0; self.slots.len() / 4];
        let mut answer = self.first(&mut buffer);
        while answer.refusal == 0 {
            plans.push((answer.set, buffer.clone(), answer.cost));
            answer = self.next(answer.set, &mut buffer);
        }
        assert_eq!(answer.refusal, 11);
        plans
    }

    /// The tables of the listing alone.
    pub fn listed_tables(&self) -> Vec<Vec<u8>> {
        self.listing()
            .into_iter()
            .map(|(_, table, _)| table)
            .collect()
    }
}

/// The answer of a refused listing call.
pub fn refused(refusal: u8) -> PlanAnswer {
    PlanAnswer {
        refusal,
        set: 0,
        cost: [0, 0, 0],
    }
}

/// The answer of a listing call that hands out a plan.
pub fn given(set: u64, cost: Cost) -> PlanAnswer {
    PlanAnswer {
        refusal: 0,
        set,
        cost,
    }
}
