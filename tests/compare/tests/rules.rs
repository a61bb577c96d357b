//! The rules of 01, and refusals over all clauses, asserted of the C functions.

use compare::proved as program;

#[path = "../../rules/precedence.rs"]
mod precedence;
#[path = "../../rules/mod.rs"]
mod rules;
