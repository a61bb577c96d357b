//! Refusals over all clauses, asserted of the second program.

use second as program;

#[path = "../../rules/precedence.rs"]
mod precedence;
