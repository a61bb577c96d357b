//! What was compared, and how many.

use std::collections::BTreeMap;
use std::fmt::{Display, Formatter, Result};

/// Mode, cycles and objectives.
pub type Setting = (u8, u8, Vec<u8>);

/// Counts of what two programs were compared on.
#[derive(Debug, Default)]
pub struct Tally {
    /// For each call and each number that it gave, how often.
    pub given: BTreeMap<(&'static str, u8), u64>,
    /// For each condition that a check named, how often; 0 is sound.
    pub conditions: BTreeMap<u8, u64>,
    /// For each setting, how many listings were compared in it.
    pub settings: BTreeMap<Setting, u64>,
    /// Constraints compared.
    pub constraints: u64,
    /// Catalogues compared by all calls.
    pub catalogues: u64,
    /// Catalogues that have too many tables to try, compared by check alone.
    pub too_large: u64,
    /// Texts compared.
    pub texts: u64,
    /// Plans of listings, each compared by first or next and by turn.
    pub plans: u64,
    /// Listings that were too long to be gone through whole.
    pub capped: u64,
}

impl Tally {
    /// The numbers that the call gave, rising.
    pub fn numbers(&self, call: &str) -> Vec<u8> {
        let of_call = self.given.keys().filter(|(given_by, _)| *given_by == call);
        of_call.map(|(_, number)| *number).collect()
    }

    /// Counts a call and the number that it gave.
    pub(crate) fn count(&mut self, call: &'static str, number: u8) {
        *self.given.entry((call, number)).or_default() += 1;
    }

    /// Adds the counts of another tally.
    pub fn add(&mut self, other: Tally) {
        for (key, count) in other.given {
            *self.given.entry(key).or_default() += count;
        }
        for (key, count) in other.conditions {
            *self.conditions.entry(key).or_default() += count;
        }
        for (key, count) in other.settings {
            *self.settings.entry(key).or_default() += count;
        }
        self.constraints += other.constraints;
        self.catalogues += other.catalogues;
        self.too_large += other.too_large;
        self.texts += other.texts;
        self.plans += other.plans;
        self.capped += other.capped;
    }
}

impl Display for Tally {
    fn fmt(&self, f: &mut Formatter) -> Result {
        let Tally {
            constraints,
            catalogues,
            too_large,
            texts,
            plans,
            capped,
            ..
        } = self;
        let listings: u64 = self.settings.values().sum();
        writeln!(f, "compared: {constraints} constraints, {texts} texts,")?;
        writeln!(
            f,
            "  {catalogues} catalogues, {too_large} more by check alone,"
        )?;
        writeln!(
            f,
            "  {listings} listings of {plans} plans, {capped} of them capped"
        )?;
        for call in ["fits", "check", "first", "next", "turn", "read"] {
            let of_call = self.given.iter().filter(|((by, _), _)| *by == call);
            let counts: Vec<String> = of_call
                .map(|((_, number), count)| format!("{number}: {count}"))
                .collect();
            writeln!(f, "{call} gave {}", counts.join(", "))?;
        }
        let conditions: Vec<String> = self
            .conditions
            .iter()
            .map(|(condition, count)| format!("{condition}: {count}"))
            .collect();
        write!(f, "conditions named by check {}", conditions.join(", "))
    }
}
