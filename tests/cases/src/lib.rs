//! The cases: seeded inputs for the calls of document 01, sane and damaged, and a shrinker.
//!
//! [`cases`] goes through all kinds for ever; [`case`](fn@case) makes one of them again. A case is
//! its kind, its seed and its inputs, so two programs are compared like this:
//!
//! ```
//! for cases::Case { kind, seed, inputs } in cases::cases(1).take(100) {
//!     match inputs {
//!         cases::Inputs::Fits { constraint, version } => {
//!             let answer = second::fits(&constraint, version);
//!             assert!(answer.refusal == 0 || answer.refusal == 4, "{kind:?} {seed}");
//!         }
//!         cases::Inputs::Plans(lent) => {
//!             if second::combinations(&lent.catalogue()) > second::LIMIT {
//!                 continue;
//!             }
//!             let mut buffer = lent.buffer.clone();
//!             second::first(&lent.catalogue(), &lent.settings(), &mut buffer);
//!         }
//!         cases::Inputs::Read(mut lent) => {
//!             second::read(&lent.text, &mut lent.entries, &mut lent.slots);
//!         }
//!     }
//! }
//! ```
//!
//! All numbers of settings, stages and roots stay within 16 bits, and all but the root within 8.

mod bad_records;
mod catalogues;
mod constraints;
mod faults;
mod garbage;
mod inputs;
mod large;
mod plans;
mod random;
mod shrink;
mod text_faults;
mod texts;
mod wide;
mod woven;

pub use catalogues::{OBJECTIVES, SETTINGS, numbered_settings, sane};
pub use faults::{FAULTS, Fault, NUMBERS, with_faults};
pub use inputs::{Inputs, Lent, LentText};
pub use plans::breaking;
pub use random::Random;
pub use shrink::shrink;
pub use text_faults::{
    CLAUSES as TEXT_CLAUSES, ChangedText, one_fault as one_text_fault,
    two_faults as two_text_faults,
};
pub use texts::{Draft, names, written};
pub use wide::{Width, wide};
pub use woven::{WEAVES, Weave, woven};

/// What a case is about.
#[derive(Clone, Copy, Debug, PartialEq, Eq)]
pub enum Kind {
    /// A constraint within the rules, and a version near its bounds.
    Constraint,
    /// A constraint outside the rules, in each way in turn, or at a limit.
    BadConstraint,
    /// A small sane catalogue and settings, with a plan of its listing if it has one.
    Sane,
    /// A tiny one, to go through a great many.
    Tiny,
    /// A sane catalogue at the limits.
    Large,
    /// One clause of the table of refusals, each in turn.
    Fault,
    /// Two faults of neighbouring numbers.
    TwoFaults,
    /// A damaged plan: each condition broken alone in turn, or other damage.
    Plan,
    /// A damaged record.
    Record,
    /// Any numbers and bytes for everything.
    Garbage,
    /// A text inside the layout.
    Text,
    /// Each clause of the layout broken in turn, and the edges of all limits.
    TextFault,
    /// Two faults that are neighbours in the order of read's tests.
    TwoTextFaults,
    /// A text of any bytes.
    TextGarbage,
}

impl Kind {
    /// Every kind.
    pub const ALL: [Kind; 14] = [
        Kind::Constraint,
        Kind::BadConstraint,
        Kind::Sane,
        Kind::Tiny,
        Kind::Large,
        Kind::Fault,
        Kind::TwoFaults,
        Kind::Plan,
        Kind::Record,
        Kind::Garbage,
        Kind::Text,
        Kind::TextFault,
        Kind::TwoTextFaults,
        Kind::TextGarbage,
    ];
}

/// One case.
#[derive(Clone, Debug)]
pub struct Case {
    /// What it is about.
    pub kind: Kind,
    /// The seed that makes it again, with the kind.
    pub seed: u64,
    /// What is handed over.
    pub inputs: Inputs,
}

/// All kinds with the first seed, then all with the next, without end.
pub fn cases(first_seed: u64) -> impl Iterator<Item = Case> {
    (first_seed..).flat_map(|seed| Kind::ALL.map(|kind| case(kind, seed)))
}

/// The case of the kind and the seed.
pub fn case(kind: Kind, seed: u64) -> Case {
    let random = &mut Random::new(seed);
    let inputs = match kind {
        Kind::Constraint => constraint(random),
        Kind::BadConstraint => bad_constraint(random, seed),
        Kind::Sane => Inputs::Plans(sane(random)),
        Kind::Tiny => Inputs::Plans(catalogues::tiny(random)),
        Kind::Large => Inputs::Plans(large::large(random)),
        Kind::Fault => Inputs::Plans(faults::one_fault(random, seed)),
        Kind::TwoFaults => Inputs::Plans(faults::two_faults(random, seed)),
        Kind::Plan => Inputs::Plans(plans::damaged(random, seed)),
        Kind::Record => Inputs::Plans(plans::damaged_record(random, seed)),
        Kind::Garbage => Inputs::Plans(garbage::lent(random)),
        Kind::Text => Inputs::Read(texts::sane_draft(random).lent(random)),
        Kind::TextFault => Inputs::Read(text_faults::one_fault(random, seed).draft.lent(random)),
        Kind::TwoTextFaults => {
            Inputs::Read(text_faults::two_faults(random, seed).draft.lent(random))
        }
        Kind::TextGarbage => Inputs::Read(garbage::text(random)),
    };
    Case { kind, seed, inputs }
}

/// A constraint within the rules, against a version near its bounds.
fn constraint(random: &mut Random) -> Inputs {
    let about = [(); 3].map(|()| random.pick(&[0, 0, 1, 2, 9, 65534, 65535]));
    let version = if random.one_in(3) {
        about
    } else {
        constraints::near(random, about)
    };
    Inputs::Fits {
        constraint: constraints::about(random, about),
        version,
    }
}

/// A constraint outside the rules, or one at a limit that still passes.
fn bad_constraint(random: &mut Random, seed: u64) -> Inputs {
    let ways = constraints::WAYS as u64 + 4;
    let constraint = match (seed % ways) as usize {
        way if way < constraints::WAYS => constraints::damaged(way),
        _ => constraints::at_a_limit(random),
    };
    Inputs::Fits {
        constraint,
        version: [1, 2, 3],
    }
}
